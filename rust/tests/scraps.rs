//! Scraps (request 5 of document 02): the library against the twin, over every word of both tables and every byte of the holding
//! buffer. What must come of them is said here too, for streams made by hand.

use crate::frames::{self, bid, joined, HEARTBEAT};
use crate::pair::{by_calls, Pair};
use crate::scene::SLOT;
use crate::tables::Tables;
use crate::told::{LIVE, TIME};
use exchange::{imbalance, message, nominal, refresh_complete, session, unit};
use mmdh::raw::{self, MmdhFeed, MmdhHeard, MmdhLine, MmdhLinked};

/// What a holding buffer is filled with, where nothing has been written.
const CLEAN: u8 = 0xEE;

const PHASES: [u64; 10] = [0, 1, 2, 3, 4, 5, 6, 7, 9, u64::MAX];

/// Bytes of a header with MsgSize.
pub const SIZED: usize = 22;

/// Where a line stands: its numbers, the words of its tables and the bytes of its holding buffer.
#[derive(Clone, PartialEq, Eq, Debug)]
pub struct Stand {
    pub line: MmdhLine,
    pub tables: Tables,
    pub hold: Vec<u8>,
}

impl Stand {
    /// A line with so much room, in which nothing waits.
    pub fn new(feed: MmdhFeed, tables: Tables, room: usize) -> Stand {
        Stand { line: MmdhLine { feed, held: 0, dropping: 0 }, tables, hold: vec![CLEAN; room] }
    }

    /// A connect, compared with the twin's; the line goes on with what the library hands back.
    pub fn connect(&mut self, pair: &mut Pair, resuming: u64, time: u64) -> u64 {
        let linked = pair.line_connect(self.line, &self.hold, resuming, time);
        self.line = linked.line;
        linked.answer
    }

    /// One scrap, compared with the twin's; the line goes on with what the library hands back.
    pub fn scrap(&mut self, pair: &mut Pair, scrap: &[u8], allowed: u64, time: u64) -> MmdhHeard {
        let heard = pair.scrap(self.line, (&self.tables, &self.hold), scrap, allowed, time);
        self.line = heard.line;
        self.tables.copy(pair.after());
        self.hold.copy_from_slice(pair.hold_after());
        heard
    }

    /// A scrap in calls with so many units allowed, until nothing more is said or one is refused: the last answer of each call,
    /// how many units were accepted, and how many rows were dropped.
    pub fn hear(&mut self, pair: &mut Pair, scrap: &[u8], allowed: u64, time: u64) -> (Vec<u64>, u64, u64) {
        let (mut answers, mut accepted, mut dropped, mut rest) = (Vec::new(), 0, 0, scrap);
        loop {
            let heard = self.scrap(pair, rest, allowed, time);
            accepted += heard.accepted;
            dropped += heard.dropped;
            if heard.said == 1 {
                answers.push(heard.answer);
            }
            if heard.said != 1 || heard.answer > 2 {
                return (answers, accepted, dropped);
            }
            rest = &rest[heard.used as usize..];
        }
    }
}

/// The first bytes of a buffer, and nothing written behind them.
fn clean_behind(front: &[u8], room: usize) -> Vec<u8> {
    let mut hold = front.to_vec();
    hold.resize(room, CLEAN);
    hold
}

/// Streams by hand, cut everywhere.
pub fn check(pair: &mut Pair) {
    pair.tally.part("scraps by hand: every cut, length of the buffer, phase and refusal, and every byte of the buffer");
    cuts(pair);
    byte_by_byte(pair);
    lengths(pair);
    buffers(pair);
    too_long_in_time(pair);
    overfull(pair);
    phases(pair);
    refusals(pair);
    wait_whole(pair);
    tiny(pair);
    heartbeats(pair);
    closed(pair);
    connects(pair);
    resumed(pair);
    early(pair);
}

/// A morning from the key to the market, each unit with its answer, and the line that it comes to.
fn morning() -> (Vec<(u64, Vec<u8>)>, Stand) {
    let units = vec![
        (0, unit(1, 0, &message(1105, 40))),
        (0, unit(2, 0, &session(1102, 101))),
        (0, unit(3, 0, &bid(700, 1, 9_730))),
        (0, unit(4, 0, &refresh_complete(40))),
        (0, HEARTBEAT.to_vec()),
        (0, unit(5, 41, &nominal(700, 9_740))),
        (2, unit(6, 42, &message(60, 12))),
        (1, unit(7, 42, &bid(700, 2, 9_720))),
        (0, unit(8, 43, &imbalance(5, b'B', 400))),
    ];
    let feed = MmdhFeed { phase: 1, next: 1, internal: 0, heard: 5_000, limit: 1_000, whole: 0, fresh: 1 };
    (units, Stand::new(feed, frames::tables(), 60))
}

/// Every cut of a morning, with nothing between: as single calls end, and in the buffer what waited.
fn cuts(pair: &mut Pair) {
    let (units, start) = morning();
    let (bytes, ends) = joined(&units);
    let answers: Vec<u64> = units.iter().map(|unit| unit.0).collect();
    let mut tables = start.tables.clone();
    let (singles, calls) = by_calls(start.line.feed, &mut tables, &bytes, u64::MAX, TIME);
    pair.tally.same(&calls.iter().map(|given| given.answer).collect(), &[&answers[..], &[3]].concat(), || {
        "the morning by single calls".to_string()
    });
    let line = MmdhLine { feed: singles.feed, held: 0, dropping: 0 };
    for at in 0..=bytes.len() {
        let whole = ends[1..].iter().filter(|&&end| end <= at as u64).count();
        let torn = &bytes[ends[whole] as usize..at];
        let unit = if torn.is_empty() { &[][..] } else { &units[whole].1 };
        for allowed in [1, 2, u64::MAX] {
            let mut stand = start.clone();
            let (mut all, mut accepted, first) = stand.hear(pair, &bytes[..at], allowed, TIME);
            let waiting = (stand.line.held, stand.hold.clone());
            let wanted = (torn.len() as u64, clean_behind(torn, 60));
            pair.tally.same(&waiting, &wanted, || format!("what waits behind {} bytes", at));
            let nothing = stand.hear(pair, &[], allowed, TIME);
            pair.tally.same(&nothing, &(vec![], 0, 0), || format!("nothing behind {} bytes", at));
            let rest = stand.hear(pair, &bytes[at..], allowed, TIME);
            all.extend(rest.0);
            accepted += rest.1;
            let got = (accepted, first + rest.2, if allowed == 1 { &all } else { &answers });
            pair.tally.same(&got, &(answers.len() as u64, 0, &answers), || format!("cut at {}", at));
            let wanted = Stand { line, tables: tables.clone(), hold: clean_behind(unit, 60) };
            pair.tally.same(&stand, &wanted, || format!("where it ends, cut at {}", at));
        }
    }
}

/// One byte at a time, and nothing between them: each answer comes with the last byte of its unit.
fn byte_by_byte(pair: &mut Pair) {
    let (units, mut stand) = morning();
    for (answer, unit) in &units {
        for at in 0..unit.len() {
            let (said, ..) = stand.hear(pair, &unit[at..=at], 1, TIME);
            let wanted = if at + 1 == unit.len() { vec![*answer] } else { vec![] };
            pair.tally.same(&said, &wanted, || format!("byte {} of {:02x?}", at, unit));
            let nothing = stand.scrap(pair, &[], u64::MAX, TIME);
            let wanted = MmdhHeard { line: stand.line, ..MmdhHeard::default() };
            pair.tally.same(&nothing, &wanted, || format!("nothing behind byte {}", at));
        }
        pair.tally.same(&&stand.hold[..unit.len()], &&unit[..], || "the unit lies in front".to_string());
    }
}

/// Every length of a morning with every allowed number: as many units as are whole and allowed; the rest waits, or is left where
/// the number was reached.
fn lengths(pair: &mut Pair) {
    let (units, start) = morning();
    let (bytes, ends) = joined(&units);
    for len in 0..=bytes.len() {
        let whole = ends[1..].iter().filter(|&&end| end <= len as u64).count() as u64;
        for allowed in [0, 1, 2, 3, 8, 9, 10, 1 << 32, u64::MAX] {
            let mut stand = start.clone();
            let heard = stand.scrap(pair, &bytes[..len], allowed, TIME);
            let accepted = whole.min(allowed);
            let end = ends[accepted as usize];
            let (said, answer, used, held) = match accepted {
                _ if accepted < allowed => (0, 0, len as u64, len as u64 - end),
                0 => (0, 0, 0, 0),
                _ => (1, units[accepted as usize - 1].0, end, 0),
            };
            let wanted = (said, answer, accepted, used, held, 0);
            let (line, torn) = (stand.line, &bytes[len - held as usize..len]);
            let got = (heard.said, heard.answer, heard.accepted, heard.used, line.held, line.dropping);
            pair.tally.same(&got, &wanted, || format!("{} bytes, {} allowed", len, allowed));
            pair.tally.same(&stand.hold, &clean_behind(torn, 60), || format!("the buffer, {} bytes", len));
            let next = accepted + 1 - u64::from(accepted > 4);
            pair.tally.same(&line.feed.next, &next, || format!("next after {} units", accepted));
        }
    }
}

/// What a unit that is passed over, or is too short for a type, is answered; from how many bytes on it is finished.
fn sized(size: usize) -> (Vec<u8>, u64, usize) {
    let mut unit = unit(7, 41, &message(60, size.max(4)));
    unit[20..22].copy_from_slice(&(size as u16).to_le_bytes());
    unit.truncate((20 + size).max(SIZED));
    (unit, if size < 4 { 12 } else { 2 }, (20 + size).max(SIZED))
}

/// The line after a refusal, from a feed in Live.
fn after_refusal(answer: u64) -> MmdhLine {
    let feed = match answer {
        10 | 11 => LIVE,
        12..=14 | 22 => MmdhFeed { phase: 5, ..LIVE },
        _ => MmdhFeed { phase: 5, whole: 0, ..LIVE },
    };
    MmdhLine { feed, held: 0, dropping: 1 }
}

/// Every short buffer, and some that are longer, with units that are shorter, as long and longer, in two scraps.
fn buffers(pair: &mut Pair) {
    for room in (0..=60).chain([61, 63, 64, 65, 79, 80, 81, 100, 600]) {
        for size in [2, 3, 4, 5, 8, 12, 20, 36, 40, 41, 60] {
            let length = sized(size).0.len();
            for at in (0..=length).filter(|&at| at < 3 || (19..25).contains(&at) || at + 2 > length) {
                in_two(pair, room, size, at);
            }
        }
    }
}

/// A unit in two scraps: 22 as soon as it is known, and nothing written then.
fn in_two(pair: &mut Pair, room: usize, size: usize, at: usize) {
    let (unit, answer, finished) = sized(size);
    let mut stand = Stand::new(LIVE, frames::tables(), room);
    let mut known = 0;
    let input = || format!("buffer of {}, size {}, cut at {}", room, size, at);
    for piece in [&unit[..at], &unit[at..]] {
        let before = stand.hold.clone();
        let heard = stand.scrap(pair, piece, 1, TIME);
        known += piece.len();
        let too_long = room < SIZED || (known >= SIZED && 20 + size > room);
        let said = if too_long { Some(22) } else { Some(answer).filter(|_| known >= finished) };
        let got = (heard.said, heard.answer, heard.used);
        let wanted = (u64::from(said.is_some()), said.unwrap_or(0), piece.len() as u64);
        pair.tally.same(&got, &wanted, input);
        if too_long {
            pair.tally.same(&stand.hold, &before, input);
        }
        if wanted.1 > 2 {
            pair.tally.same(&stand.line, &after_refusal(wanted.1), input);
        }
        if said.is_some() {
            return;
        }
    }
}

/// The last byte of MsgSize tells that a unit has no room, wherever it comes: in one scrap, torn, behind other units, and with all
/// of it there.
fn too_long_in_time(pair: &mut Pair) {
    for room in [40, 255, 256, 300, 65_554, 65_555] {
        for size in [room - 20, room - 19].into_iter().filter(|&size| size <= 65_535) {
            let length = 52 + size;
            for at in [0, 20, 32, 33, 51, 52, 53, 54, 60, length - 1, length] {
                behind_another(pair, room, size, at.min(length));
            }
        }
    }
}

/// A unit that is taken, and one behind it that may have no room, in two scraps.
fn behind_another(pair: &mut Pair, room: usize, size: usize, at: usize) {
    let stream = [unit(7, 41, &nominal(700, 9_740)), unit(8, 42, &message(60, size))].concat();
    let mut stand = Stand::new(LIVE, frames::tables(), room);
    let (mut said, ..) = stand.hear(pair, &stream[..at], 1, TIME);
    let last = if 20 + size > room { 22 } else { 2 };
    let known = if last == 22 { 32 + SIZED } else { stream.len() };
    let wanted = match at {
        _ if at >= known => vec![0, last],
        _ => vec![0; usize::from(at >= 32)],
    };
    let input = || format!("{} bytes of room, size {}, cut at {}", room, size, at);
    pair.tally.same(&said, &wanted, input);
    said.extend(stand.hear(pair, &stream[at..], 1, TIME).0);
    pair.tally.same(&said, &vec![0, last], input);
}

/// Phases and times, and what is answered there where 22 is due: 10 and 11 come before it.
const DUE: [(u64, u64, u64); 10] = [
    (1, TIME, 22),
    (2, LIVE.heard, 22),
    (3, u64::MAX, 22),
    (4, TIME, 22),
    (4, LIVE.heard - 1, 10),
    (1, 0, 10),
    (6, LIVE.heard - 1, 10),
    (0, TIME, 11),
    (5, LIVE.heard, 11),
    (6, u64::MAX, 11),
];

/// More waits than there is room for, and a buffer too short for a header: 22 is due, whatever comes.
fn overfull(pair: &mut Pair) {
    let unit = unit(7, 41, &nominal(700, 9_740));
    for room in [0u64, 1, 20, 21, 22, 23, 64] {
        for held in [0, 1, room, room + 1, room + 2, 1 << 32, u64::MAX] {
            if held <= room && room >= 22 {
                continue;
            }
            for (dropping, allowed) in [(0, 0), (0, 1), (0, u64::MAX), (9, 1), (9, 0)] {
                for (phase, time, answer) in DUE {
                    let line = MmdhLine { feed: MmdhFeed { phase, ..LIVE }, held, dropping };
                    for scrap in [&[][..], &[20], &HEARTBEAT, &unit] {
                        too_much(pair, line, room, (scrap, time, answer), allowed);
                    }
                }
            }
        }
    }
}

/// One scrap of a line in which 22 is due before anything has come, and its answer.
fn too_much(pair: &mut Pair, line: MmdhLine, room: u64, (scrap, time, answer): (&[u8], u64, u64), allowed: u64) {
    let mut stand = Stand::new(LIVE, frames::tables(), room as usize);
    stand.line = line;
    // with as many as there is room for, units that would be accepted
    stand.hold.iter_mut().zip(HEARTBEAT.iter().cycle()).for_each(|(byte, of)| *byte = *of);
    let before = stand.clone();
    let heard = stand.scrap(pair, scrap, allowed, time);
    let used = scrap.len() as u64;
    let phase = if answer == 22 { 5 } else { line.feed.phase };
    let refused = MmdhLine { feed: MmdhFeed { phase, ..line.feed }, held: 0, dropping: 1 };
    let wanted = match (line.dropping, allowed) {
        (_, 0) => MmdhHeard { line, ..MmdhHeard::default() },
        (0, _) => MmdhHeard { said: 1, answer, accepted: 0, used, line: refused, dropped: 0 },
        _ => MmdhHeard { used, line, ..MmdhHeard::default() },
    };
    let input = || format!("{:?} at {}, buffer of {}, {} allowed", line, time, room, allowed);
    pair.tally.same(&heard, &wanted, input);
    let same = (&stand.tables, &stand.hold) == (&before.tables, &before.hold);
    pair.tally.holds(same, || format!("{}: something was written", input()));
}

/// A feed as it comes back from a call that does something.
pub fn plainly(feed: MmdhFeed) -> MmdhFeed {
    let phase = if feed.phase > 6 { 5 } else { feed.phase };
    MmdhFeed { phase, whole: feed.whole.min(1), fresh: feed.fresh.min(1), ..feed }
}

/// Every phase with odd numbers, before the last heard time and after it.
fn phases(pair: &mut Pair) {
    let unit = unit(7, 41, &nominal(700, 9_740));
    let long = frames::units()[5].1.clone();
    // bytes, and what is due of them in Live: 0 of a unit that is finished, 22 of one that has no room in 40 bytes
    let scraps =
        [(&[][..], None), (&unit[..31], None), (&unit, Some(0)), (&HEARTBEAT, Some(0)), (&long[..22], Some(22))];
    for phase in PHASES {
        for (whole, fresh, dropping) in [(0, 0, 0), (1, 1, 0), (2, u64::MAX, 0), (7, 256, 1), (0, 2, u64::MAX)] {
            let line = MmdhLine { feed: MmdhFeed { phase, whole, fresh, ..LIVE }, held: 0, dropping };
            for time in [0, LIVE.heard - 1, LIVE.heard, TIME, u64::MAX] {
                for (scrap, due) in scraps {
                    [0, 1, 2, u64::MAX].iter().for_each(|&allowed| in_phase(pair, line, (scrap, due), allowed, time));
                }
            }
        }
    }
}

/// 10 and 11 only where a unit is finished or 22 is due, and nothing at all where none is allowed or all is dropped. 22 changes the
/// phase alone; a heartbeat is taken in every open phase, a message only in Live.
fn in_phase(pair: &mut Pair, handed: MmdhLine, (scrap, due): (&[u8], Option<u64>), allowed: u64, time: u64) {
    let mut stand = Stand::new(LIVE, frames::tables(), 40);
    stand.line = handed;
    let heard = stand.scrap(pair, scrap, allowed, time);
    let (feed, used) = (plainly(handed.feed), scrap.len() as u64);
    let quiet = MmdhHeard { line: handed, ..MmdhHeard::default() };
    let refused = |answer, phase| {
        let line = MmdhLine { feed: MmdhFeed { phase, ..feed }, held: 0, dropping: 1 };
        MmdhHeard { said: 1, answer, accepted: 0, used, line, dropped: 0 }
    };
    let taken = |next, internal| {
        let line = MmdhLine { feed: MmdhFeed { next, internal, heard: time, ..feed }, held: 0, dropping: 0 };
        MmdhHeard { said: u64::from(allowed == 1), answer: 0, accepted: 1, used, line, dropped: 0 }
    };
    let wanted = match due {
        _ if allowed == 0 => quiet,
        _ if handed.dropping != 0 => MmdhHeard { used, ..quiet },
        None => MmdhHeard { used, line: MmdhLine { feed, held: used, dropping: 0 }, ..quiet },
        _ if time < feed.heard => refused(10, feed.phase),
        _ if !(1..=4).contains(&feed.phase) => refused(11, feed.phase),
        Some(22) => refused(22, 5),
        _ if scrap == HEARTBEAT => taken(feed.next, feed.internal),
        _ if feed.phase < 4 => refused(14, 5),
        _ => taken(8, 41),
    };
    let input = || format!("{:?} at {}, {} allowed, {:02x?}", handed, time, allowed, scrap);
    pair.tally.same(&heard, &wanted, input);
}

/// Every refusal at every place, torn at every byte: what stands before it stays, the refused unit lies at the buffer's front where
/// some of it waited, nothing waits, and what follows is dropped, unit for unit as good as it is.
fn refusals(pair: &mut Pair) {
    let mut before = frames::tables();
    // one free slot goes to 2 and the other to 700, so that 1 finds none
    before.books[2 * SLOT] = 2;
    for at in 0..=frames::units().len() {
        let (seq, internal) = (7 + at as u32 - u32::from(at > 3), 50);
        for (answer, bad) in frames::refused(seq, internal) {
            // before the first unit a slot is free
            if at == 0 && answer == 17 {
                continue;
            }
            let mut units = frames::units();
            units.insert(at, (answer, bad.clone()));
            let (bytes, ends) = joined(&units);
            let (from, answers) = (ends[at] as usize, units[..=at].iter().map(|unit| unit.0).collect::<Vec<u64>>());
            for torn in (0..bad.len()).step_by(if at < 2 { 1 } else { 7 }) {
                let mut stand = Stand::new(LIVE, before.clone(), 64);
                let (mut said, ..) = stand.hear(pair, &bytes[..from + torn], 1, TIME);
                let kept = stand.tables.clone();
                let feed = MmdhFeed { phase: 5, whole: u64::from(answer < 15), ..stand.line.feed };
                said.extend(stand.hear(pair, &bytes[from + torn..], 1, TIME).0);
                let input = || format!("{} at {}, torn at {}", answer, at, torn);
                pair.tally.same(&said, &answers, input);
                let front = if torn == 0 { &[][..] } else { &bad };
                let line = MmdhLine { feed, held: 0, dropping: 1 };
                let wanted = Stand { line, tables: kept, hold: clean_behind(front, 64) };
                pair.tally.same(&stand, &wanted, input);
                let heard = stand.scrap(pair, &bytes, 1, TIME);
                let dropped = MmdhHeard { used: bytes.len() as u64, line, ..MmdhHeard::default() };
                pair.tally.same(&(heard, stand), &(dropped, wanted), input);
            }
        }
    }
}

/// Whole units that wait already, as in a line made by hand: each that is accepted makes the bytes behind it move to the front.
fn wait_whole(pair: &mut Pair) {
    let units = frames::units();
    let (bytes, ends) = joined(&units);
    let mut by_singles = frames::tables();
    let (singles, _) = by_calls(LIVE, &mut by_singles, &bytes, u64::MAX, TIME);
    for held in 0..=bytes.len() {
        let mut start = Stand::new(LIVE, frames::tables(), bytes.len() + 9);
        start.hold[..held].copy_from_slice(&bytes[..held]);
        start.line.held = held as u64;
        let mut stand = start.clone();
        let first = stand.scrap(pair, &bytes[held..], 1, TIME);
        let length = ends[1] as usize;
        let mut hold = start.hold.clone();
        if held >= length {
            hold.copy_within(length..held, 0);
        } else if held > 0 {
            hold[held..length].copy_from_slice(&bytes[held..length]);
        }
        let got = (first.answer, first.used, stand.line.held, stand.hold);
        let wanted = (0, length.saturating_sub(held) as u64, held.saturating_sub(length) as u64, hold);
        pair.tally.same(&got, &wanted, || format!("the first of the units, {} wait", held));
        for allowed in [1, 3, u64::MAX] {
            let mut stand = start.clone();
            let (_, accepted, _) = stand.hear(pair, &bytes[held..], allowed, TIME);
            let got = (accepted, stand.line, &stand.tables);
            let line = MmdhLine { feed: singles.feed, held: 0, dropping: 0 };
            pair.tally.same(&got, &(units.len() as u64, line, &by_singles), || format!("{} wait", held));
        }
        // refused while it waits whole: nothing is written
        let mut stand = start.clone();
        stand.line.feed.next = 99;
        stand.hear(pair, &bytes[held..], 1, TIME);
        if held == 0 || held >= length {
            pair.tally.same(&stand.hold, &start.hold, || format!("refused, {} wait", held));
        }
    }
}

/// MsgSize from 0 to 3, torn at every byte: finished at 22 bytes or at its end, and 12; it lies in front where some of it waited.
fn tiny(pair: &mut Pair) {
    for size in 0..=3 {
        let (unit, answer, finished) = sized(size);
        let stream = [&unit[..], &HEARTBEAT].concat();
        for at in 0..=finished {
            for room in [22, 23, 24, 60] {
                let mut stand = Stand::new(LIVE, frames::tables(), room);
                let (said, ..) = stand.hear(pair, &stream[..at], 1, TIME);
                let too_long = 20 + size > room;
                let due = at >= if too_long { SIZED } else { finished };
                let answer = if too_long { 22 } else { answer };
                let wanted = if due { vec![answer] } else { vec![] };
                pair.tally.same(&said, &wanted, || format!("size {}, {} bytes in {}", size, at, room));
                let said = [said, stand.hear(pair, &stream[at..], 1, TIME).0].concat();
                pair.tally.same(&said, &vec![answer], || format!("size {}, cut at {} in {}", size, at, room));
                let front = match at {
                    _ if due => &[][..],
                    0 => &[],
                    _ if too_long => &unit[..at],
                    _ => &unit,
                };
                pair.tally.same(&stand.hold, &clean_behind(front, room), || format!("size {}, cut at {}", size, at));
            }
        }
    }
}

/// A heartbeat is finished at 20 bytes, whatever comes behind it and in a buffer of 22 too; torn at every byte.
fn heartbeats(pair: &mut Pair) {
    for behind in [&[][..], &[255], &[255, 255], &[255; 12], &HEARTBEAT] {
        let stream = [&HEARTBEAT[..], behind].concat();
        for at in 0..=stream.len() {
            let mut stand = Stand::new(LIVE, frames::tables(), 22);
            let (said, ..) = stand.hear(pair, &stream[..at], 1, TIME);
            let wanted = vec![0; at / 20];
            pair.tally.same(&said, &wanted, || format!("{} bytes and {:?}", at, behind));
            let said = [said, stand.hear(pair, &stream[at..], 1, TIME).0].concat();
            pair.tally.same(&said, &vec![0; stream.len() / 20], || format!("cut at {}, then {:?}", at, behind));
            let heard = MmdhFeed { heard: TIME, ..LIVE };
            let held = (stream.len() % 20) as u64;
            let line = MmdhLine { feed: heard, held, dropping: 0 };
            pair.tally.same(&stand.line, &line, || format!("cut at {}, then {:?}", at, behind));
        }
    }
}

/// Behind a logout half a unit only waits; a finished one is 11, where 22 is due it is 11 too, and then what follows is dropped.
fn closed(pair: &mut Pair) {
    let logout = unit(7, 0, &session(1103, 6));
    for (behind, finished) in [(&HEARTBEAT[..], 20), (&frames::units()[0].1, 56), (&[255; 30], 22)] {
        for at in 0..=behind.len() {
            let mut stand = Stand::new(LIVE, frames::tables(), 60);
            let (said, ..) = stand.hear(pair, &[&logout[..], &behind[..at]].concat(), 1, TIME);
            let due = at >= finished;
            pair.tally.same(&said, &[0, 11][..1 + usize::from(due)].to_vec(), || format!("{} bytes behind", at));
            let held = if due { 0 } else { at as u64 };
            let feed = MmdhFeed { phase: 6, next: 8, heard: TIME, ..LIVE };
            let line = MmdhLine { feed, held, dropping: u64::from(due) };
            pair.tally.same(&stand.line, &line, || format!("{} bytes behind a logout", at));
            let rest = stand.hear(pair, &behind[at..], 1, TIME).0;
            pair.tally.same(&rest, &vec![11; usize::from(!due)], || format!("the rest of {} bytes", at));
        }
    }
}

/// Fresh and resuming ones, at a time before the last heard one, at it and after it.
const CONNECTS: [(u64, u64); 6] = [(0, 4_999), (0, 5_000), (0, u64::MAX), (1, 4_999), (1, 5_000), (u64::MAX, u64::MAX)];

/// Connects in every phase, with odd numbers and with buffers of all lengths.
fn connects(pair: &mut Pair) {
    for phase in PHASES {
        for (whole, internal, fresh) in [(0, 0, 0), (1, 0, 1), (1, 40, 7), (0, 40, 1), (9, 1, 2)] {
            for (held, dropping) in [(0, 0), (5, 0), (0, 1), (u64::MAX, u64::MAX)] {
                let feed = MmdhFeed { phase, whole, internal, fresh, ..LIVE };
                let line = MmdhLine { feed, held, dropping };
                for (resuming, time) in CONNECTS {
                    [0, 1, 20, 21, 22, 23, 600].iter().for_each(|&room| connect(pair, line, room, resuming, time));
                }
            }
        }
    }
}

/// 10, then 20, then 22, and then all as it was handed in; or nothing waits and nothing is dropped.
fn connect(pair: &mut Pair, line: MmdhLine, room: usize, resuming: u64, time: u64) {
    let feed = line.feed;
    let answer = match room {
        _ if time < feed.heard => 10,
        _ if resuming != 0 && (feed.whole == 0 || feed.internal == 0) => 20,
        0..=21 => 22,
        _ => 0,
    };
    let fresh = u64::from(resuming == 0);
    let feed = MmdhFeed { phase: 1, next: 1, heard: time, fresh, ..plainly(feed) };
    let connected = MmdhLine { feed, held: 0, dropping: 0 };
    let wanted = MmdhLinked { answer, line: if answer == 0 { connected } else { line } };
    let linked = pair.line_connect(line, &vec![CLEAN; room], resuming, time);
    pair.tally.same(&linked, &wanted, || format!("{:?}, buffer of {}", line, room));
}

/// After 22 all that has come is whole: the line resumes and takes what it missed. A refused connect leaves it dropping.
fn resumed(pair: &mut Pair) {
    let mut stand = Stand::new(LIVE, frames::tables(), 56);
    let long = unit(8, 42, &message(60, 37));
    let (said, ..) = stand.hear(pair, &[&frames::units()[0].1[..], &long].concat(), 1, TIME);
    pair.tally.same(&said, &vec![0, 22], || "a unit that has no room".to_string());
    let lost = stand.clone();
    for (resuming, time, room, answer) in [(1, TIME - 1, 56, 10), (1, TIME, 21, 22), (0, TIME, 0, 22)] {
        let linked = pair.line_connect(stand.line, &vec![CLEAN; room], resuming, time);
        pair.tally.same(&linked, &MmdhLinked { answer, line: lost.line }, || format!("refused with {}", answer));
        let heard = stand.scrap(pair, &HEARTBEAT, 1, TIME);
        let wanted = MmdhHeard { used: 20, line: lost.line, ..MmdhHeard::default() };
        pair.tally.same(&(heard, &stand), &(wanted, &lost), || "and still dropping".to_string());
    }
    let answer = stand.connect(pair, 1, TIME);
    pair.tally.same(&answer, &0, || "resuming after 22".to_string());
    let again = [
        unit(1, 0, &message(1105, 4)),
        unit(2, 0, &session(1102, 0)),
        unit(3, 41, &bid(700, 1, 9)),
        unit(4, 42, &nominal(700, 9)),
    ];
    let (said, ..) = stand.hear(pair, &again.concat(), 1, TIME);
    pair.tally.same(&said, &vec![0, 0, 1, 0], || "what it missed".to_string());
    let (feed, book) = (stand.line.feed, stand.tables.books[SLOT]);
    pair.tally.same(&(feed.phase, feed.internal, feed.whole, book), &(4, 42, 1, 700), || "live again".to_string());
}

/// 10 in Live: the feed is as it was, so the badge is green to the limit, over bytes that are dropped.
fn early(pair: &mut Pair) {
    for due in [&HEARTBEAT[..], &frames::units()[0].1, &frames::refused(7, 41)[0].1, &[255; 22]] {
        let mut stand = Stand::new(LIVE, frames::tables(), 64);
        let torn = stand.scrap(pair, &due[..9], 1, LIVE.heard - 1);
        pair.tally.same(&(torn.said, stand.line.held), &(0, 9), || "half a unit waits".to_string());
        let heard = stand.scrap(pair, &due[9..], 1, LIVE.heard - 1);
        let line = after_refusal(10);
        let wanted = MmdhHeard { said: 1, answer: 10, accepted: 0, used: due.len() as u64 - 9, line, dropped: 0 };
        pair.tally.same(&heard, &wanted, || "10 when it is finished or 22 is due".to_string());
        for time in [LIVE.heard, LIVE.heard + LIVE.limit] {
            let dropped = stand.scrap(pair, &HEARTBEAT, 1, time);
            let wanted = MmdhHeard { used: 20, line, ..MmdhHeard::default() };
            pair.tally.same(&dropped, &wanted, || "and then all is dropped".to_string());
            let feed = dropped.line.feed;
            pair.tally.same(&raw::badge(feed.phase, feed.heard, feed.limit, time), &1, || "under green".to_string());
        }
        let badge = raw::badge(line.feed.phase, line.feed.heard, line.feed.limit, LIVE.heard + LIVE.limit + 1);
        pair.tally.same(&badge, &0, || "to the limit".to_string());
        let answer = stand.connect(pair, 1, TIME);
        pair.tally.same(&answer, &0, || "until a connect".to_string());
    }
}
