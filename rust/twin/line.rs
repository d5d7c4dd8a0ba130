//! A line that hands in scraps (request 5 of document 02): a holding buffer is lent, finished units go through the feed, and
//! the rest waits at the buffer's front. Which bytes of the buffer are written besides is not in the documents: there the twin
//! goes by docs/DECISIONS.md, "Every byte of the buffer".

use crate::unit::{self, u16_at, Unit, HEADER};
use crate::{Answer, Feed, Given, Tables};

/// Bytes of a header with the MsgSize behind it.
pub const SIZED: usize = HEADER + 2;

/// A feed, how many bytes wait at the front of the holding buffer, and whether what comes is dropped.
#[derive(Clone, Copy, PartialEq, Eq, Debug)]
pub struct Line {
    /// The feed.
    pub feed: Feed,
    /// How many bytes wait.
    pub held: u64,
    /// Whether a unit was refused and no connect has been accepted since.
    pub dropping: bool,
}

/// What a connect of a line hands back.
#[derive(Clone, Copy, PartialEq, Eq, Debug)]
pub struct Linked {
    /// The answer.
    pub answer: Answer,
    /// The line after it.
    pub line: Line,
}

/// What a scrap hands back.
#[derive(Clone, Copy, PartialEq, Eq, Debug)]
pub struct Heard {
    /// The last unit's answer where it was refused or the last that was allowed; none where the rest waits or is dropped.
    pub said: Option<Answer>,
    /// Units accepted.
    pub accepted: u64,
    /// Bytes of the scrap used: by units, by waiting, or dropped.
    pub used: u64,
    /// The line after it.
    pub line: Line,
    /// Rows that the units accepted pushed out.
    pub dropped: u64,
}

/// A connect with the holding buffer that scraps will wait in: 10, 20, then 22 where a header and MsgSize have no room.
pub fn connect(line: Line, hold: &[u8], resuming: bool, time: u64) -> Linked {
    let given = crate::connect(line.feed, resuming, time);
    match given.answer {
        Answer::Taken if hold.len() < SIZED => Linked { answer: Answer::TooLong, line },
        Answer::Taken => Linked { answer: Answer::Taken, line: Line { feed: given.feed, held: 0, dropping: false } },
        refused => Linked { answer: refused, line },
    }
}

/// A scrap comes in; at most so many units go through the feed.
pub fn scrap(line: Line, mut tables: Tables<'_>, hold: &mut [u8], scrap: &[u8], allowed: u64, time: u64) -> Heard {
    let mut heard = Heard { said: None, accepted: 0, used: 0, line, dropped: 0 };
    if allowed == 0 {
        return heard;
    }
    let all = scrap.len() as u64;
    if line.dropping {
        return Heard { used: all, ..heard };
    }
    while heard.accepted < allowed {
        let rest = &scrap[heard.used as usize..];
        let step = heard.line.step(tables.again(), hold, rest, time);
        heard.line = step.line;
        heard.said = step.said;
        match step.said {
            Some(answer) if answer.is_accepted() => heard.used += step.used,
            _ => return Heard { used: all, ..heard },
        }
        heard.accepted += 1;
        heard.dropped += step.dropped;
    }
    heard
}

/// What stands at the front of the bytes that wait with a scrap's behind them.
enum Front {
    /// Part of a unit, or nothing.
    Torn,
    /// More than the holding buffer has room for.
    TooLong,
    /// A unit of so many bytes; with MsgSize 0 or 1 the 22 that tell it, by our decision and not by the documents.
    Finished(usize),
}

impl Front {
    fn of(bytes: &[u8], room: usize) -> Front {
        let heartbeat = bytes.len() >= HEADER && usize::from(u16_at(bytes, 0)) == HEADER;
        if !heartbeat && bytes.len() >= SIZED && HEADER + usize::from(u16_at(bytes, HEADER)) > room {
            return Front::TooLong;
        }
        match unit::cut(bytes) {
            Unit::More => Front::Torn,
            Unit::Heartbeat => Front::Finished(HEADER),
            Unit::Message { message, .. } => Front::Finished((HEADER + message.len()).max(SIZED)),
        }
    }
}

/// What one unit, or the rest, came to; the bytes used are the scrap's.
struct Step {
    said: Option<Answer>,
    used: u64,
    line: Line,
    dropped: u64,
}

impl Line {
    /// One unit, or all that is left where none is finished.
    fn step(self, tables: Tables<'_>, hold: &mut [u8], rest: &[u8], time: u64) -> Step {
        if hold.len() < SIZED || self.held > hold.len() as u64 {
            return self.refused(self.feed.too_long(time));
        }
        let held = self.held as usize;
        let joined: Vec<u8>;
        let bytes = if held == 0 {
            rest
        } else {
            joined = [&hold[..held], rest].concat();
            &joined
        };
        let length = match Front::of(bytes, hold.len()) {
            Front::Torn => {
                hold[held..bytes.len()].copy_from_slice(rest);
                let line = Line { held: bytes.len() as u64, dropping: false, ..self };
                return Step { said: None, used: rest.len() as u64, line, dropped: 0 };
            }
            Front::TooLong => return self.refused(self.feed.too_long(time)),
            Front::Finished(length) => length,
        };
        let given = crate::arrive(self.feed, tables, bytes, time);
        if (1..length).contains(&held) {
            hold[held..length].copy_from_slice(&rest[..length - held]);
        }
        if !given.answer.is_accepted() {
            return self.refused(given);
        }
        hold.copy_within(length.min(held)..held, 0);
        let line = Line { feed: given.feed, held: held.saturating_sub(length) as u64, dropping: false };
        let used = length.saturating_sub(held) as u64;
        Step { said: Some(given.answer), used, line, dropped: given.dropped }
    }

    /// Nothing waits any more, and what follows is dropped.
    fn refused(self, given: Given) -> Step {
        let line = Line { feed: given.feed, held: 0, dropping: true };
        Step { said: Some(given.answer), used: 0, line, dropped: 0 }
    }
}

impl Feed {
    /// 22, or 10 or 11 before it.
    fn too_long(self, time: u64) -> Given {
        match self.shut(time) {
            Some(answer) => self.unchanged(answer),
            None => self.lost(Answer::TooLong),
        }
    }
}
