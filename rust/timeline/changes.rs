//! Follows a capture and notes every change of the badge, with what caused it.

use crate::recording::{Event, What};
use mmdh::{Answer, Badge, Connect, Dropping, Line, Loss, Refused, Unit};

/// The unit that changed the badge.
#[derive(Clone, Copy, PartialEq, Eq, Debug)]
pub struct Cause {
    /// Counted from 1 since the connect.
    pub unit: u64,
    /// None where it was refused with 10 or 11: only its number is kept.
    pub seq: Option<u64>,
    /// MsgType; none of a heartbeat.
    pub kind: Option<u16>,
}

/// What was noted, and why.
#[derive(Clone, PartialEq, Eq, Debug)]
pub struct Change {
    pub time: u64,
    /// `connect fresh`, `unit`, `silence` ..
    pub event: &'static str,
    pub cause: Option<Cause>,
    pub answer: Option<Answer>,
    pub before: Badge,
    pub after: Badge,
    pub reason: String,
}

/// A line being followed.
pub struct Follower {
    line: Line,
    badge: Badge,
    time: u64,
    changes: Vec<Change>,
}

/// All that is to be noted in a capture.
pub fn changes(events: &[Event], bytes: &[u8], limit: u64) -> Result<Vec<Change>, Refused> {
    let line = Line::new(limit, 4_096)?;
    let time = events.first().map_or(0, |event| event.time);
    let mut follower = Follower { badge: line.badge(time), line, time, changes: Vec::new() };
    let mut rest = bytes;
    for event in events {
        follower.wait(event.time);
        match event.what {
            What::Connect(kind) => follower.connect(kind),
            What::HungUp => follower.hung_up(),
            What::End => {}
            What::Bytes(length) => {
                let (piece, after) = rest.split_at(length.min(rest.len()));
                follower.hear(piece);
                rest = after;
            }
        }
    }
    Ok(follower.changes)
}

impl Follower {
    fn note(&mut self, event: &'static str, cause: Option<Cause>, answer: Option<Answer>) {
        let (before, after) = (self.badge, self.line.badge(self.time));
        let reason = self.line.reason(self.time).to_string();
        self.changes.push(Change { time: self.time, event, cause, answer, before, after, reason });
        self.badge = after;
    }

    /// The time goes on to the next event: a badge that was not stale may go so on the way.
    fn wait(&mut self, time: u64) {
        let ends = self.line.feed().heard().saturating_add(self.line.feed().limit());
        if self.badge != Badge::Stale && time > ends {
            self.time = ends + 1;
            self.note("silence", None, None);
        }
        self.time = time;
        if self.line.badge(time) != self.badge {
            self.note("clock", None, None);
        }
    }

    fn connect(&mut self, kind: Connect) {
        let answer = self.line.connect(kind, self.time).map_or_else(|refused| refused.answer(), |()| Answer::Taken);
        let event = if kind == Connect::Fresh { "connect fresh" } else { "connect resuming" };
        self.note(event, None, Some(answer));
    }

    fn hung_up(&mut self) {
        self.line.hung_up(self.time);
        self.note("hung up", None, None);
    }

    /// Unit after unit; the badge and its reason are those right behind the unit.
    fn hear(&mut self, bytes: &[u8]) {
        let (time, mut badge, mut seen) = (self.time, self.badge, Vec::new());
        let each = |unit: &Unit<'_>| {
            let (before, after) = (badge, unit.feed.badge(time));
            badge = after;
            if before != after {
                let (cause, answer) = (Some(cause(unit)), Some(unit.answer));
                let reason = unit.feed.why(time).to_string();
                seen.push(Change { time, event: "unit", cause, answer, before, after, reason });
            }
        };
        let ended = self.line.hear_each(bytes, time, each);
        self.changes.append(&mut seen);
        self.badge = badge;
        self.tell_closing();
        if let Err(refused) = ended {
            self.refused(refused);
        }
    }

    /// The unit that was refused; what comes behind it is dropped and gets no answer.
    fn refused(&mut self, refused: Refused) {
        let reason = self.line.reason(self.time);
        let lost = |loss: Loss| Cause { unit: loss.unit, seq: Some(loss.met), kind: loss.kind };
        let dropped = |dropping: Dropping| Cause { unit: dropping.unit, seq: None, kind: None };
        let cause = reason.loss.map(lost).or_else(|| reason.dropping.map(dropped));
        self.note("refused unit", cause, Some(refused.answer()));
    }

    /// A unit that closed the line is told with its status; what was refused behind it comes after it.
    fn tell_closing(&mut self) {
        let mut reason = self.line.reason(self.time);
        reason.dropping = None;
        let closed_by = reason.closing.map(|closing| closing.unit);
        if let Some(change) = self.changes.last_mut() {
            if closed_by.is_some() && change.cause.map(|cause| cause.unit) == closed_by && change.event == "unit" {
                change.reason = reason.to_string();
            }
        }
    }
}

fn cause(unit: &Unit<'_>) -> Cause {
    let number = |at: usize| unit.bytes.get(at..at + 4).and_then(|bytes| bytes.try_into().ok()).map(u32::from_le_bytes);
    let seq = number(4).map(u64::from);
    Cause { unit: unit.number, seq, kind: number(20).map(|sizes| (sizes >> 16) as u16) }
}
