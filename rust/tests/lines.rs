//! Scraps at random (request 5 of document 02): single ones on odd lines, any cutting against one piece and against single calls,
//! and whole runs of a line.

use crate::falls;
use crate::frames;
use crate::history::{History, LIMIT};
use crate::pair::{by_calls, Pair};
use crate::runs::{self, Sender};
use crate::scene;
use crate::scraps::{plainly, Stand, SIZED};
use crate::tables::Tables;
use crate::tally::{Call, Hearing, Lay, Tally};
use exchange::dice::Dice;
use exchange::HEADER;
use mmdh::raw::{self, MmdhFeed, MmdhHeard, MmdhLine};

/// Calls on one table before it is made anew.
const CALLS: u64 = 10;

const LENGTHS: [usize; 6] = [0, 64, 65, 128, 192, 193];

/// Scraps on odd lines, streams cut in every way, and runs of so many events.
pub fn check(pair: &mut Pair, dice: &mut Dice, rounds: u64, events: u64) {
    pair.tally.part("single scraps and connects of odd lines, library against twin");
    for _ in 0..rounds / CALLS {
        let words = dice.of(&LENGTHS);
        let tables = scene::tables(dice, words);
        for _ in 0..CALLS {
            single(pair, dice, &tables);
        }
    }
    pair.tally.part("streams in any scraps, the library against itself: in one piece, and by single calls");
    for _ in 0..rounds / 8 {
        let words = dice.of(&LENGTHS);
        let tables = scene::tables(dice, words);
        cutting(pair, dice, &tables);
    }
    pair.tally.part("events of whole runs in scraps, library against twin");
    for number in 0..rounds / 1_000 {
        let mut run = Run::new(dice, if number % 8 == 0 { u64::MAX - 3_000 } else { 0 });
        for _ in 0..events {
            run.event(pair, dice);
        }
        runs::replay(pair, &run.history, &run.stand.tables);
    }
}

/// What stands at the front of some bytes, for a buffer with so much room.
#[derive(Clone, Copy, PartialEq, Eq, Debug)]
enum Front {
    Torn,
    Finished(usize),
    TooLong,
}

fn front(bytes: &[u8], room: usize) -> Front {
    let number = |at: usize| usize::from(u16::from_le_bytes([bytes[at], bytes[at + 1]]));
    match bytes.len() {
        0..=19 => Front::Torn,
        _ if number(0) == HEADER => Front::Finished(HEADER),
        20 | 21 => Front::Torn,
        _ if HEADER + number(HEADER) > room => Front::TooLong,
        len if len < HEADER + number(HEADER) => Front::Torn,
        _ => Front::Finished(SIZED.max(HEADER + number(HEADER))),
    }
}

/// The length of a holding buffer for these bytes: mostly with room for each unit.
fn room(dice: &mut Dice, bytes: &[u8]) -> usize {
    let first = match front(bytes, usize::MAX) {
        Front::Finished(length) => length,
        _ => SIZED,
    };
    match dice.below(24) {
        0 => dice.of(&[0, 1, 20, 21]),
        1 => dice.of(&[22, 23, 24, 28, 32]),
        2..=5 => first,
        6 => first - 1,
        7..=9 => dice.of(&[40, 56, 80, 104, 128]),
        _ => 1_100,
    }
}

/// One scrap of an odd line, and a connect of it.
fn single(pair: &mut Pair, dice: &mut Dice, tables: &Tables) {
    let (feed, mut bytes, allowed, time) = frames::any(dice, tables);
    if dice.once_in(12) {
        small(dice, &mut bytes);
    }
    let room = room(dice, &bytes);
    let waiting = match dice.below(16) {
        0..=5 => 0,
        6..=13 => dice.place(bytes.len().min(90) + 1),
        _ => dice.place(bytes.len() + 1),
    }
    .min(room);
    let mut hold: Vec<u8> = (0..room).map(|at| at as u8 ^ 0x5A).collect();
    hold[..waiting].copy_from_slice(&bytes[..waiting]);
    let held = match dice.below(40) {
        0 => room as u64 + 1 + dice.below(3),
        1 => dice.of(&[1 << 32, u64::MAX]),
        _ => waiting as u64,
    };
    let dropping = if dice.once_in(12) { dice.of(&[1, 2, u64::MAX]) } else { 0 };
    let line = MmdhLine { feed, held, dropping };
    let end = match dice.below(6) {
        0 => waiting,
        1 => bytes.len().min(waiting + dice.place(40)),
        _ => bytes.len(),
    };
    let heard = pair.scrap(line, (tables, &hold), &bytes[waiting..end], allowed, time);
    let met = Met { line, room, bytes: &bytes[..end], allowed, time };
    met.note(&mut pair.tally, &heard);
    met.falls(&mut pair.tally, tables, &heard);
    if dice.once_in(3) {
        pair.line_connect(line, &hold, dice.of(&[0, 0, 1, 1, 2, u64::MAX]), time);
    }
}

/// Makes the first message too small for a type.
fn small(dice: &mut Dice, bytes: &mut [u8]) {
    if front(bytes, usize::MAX) != Front::Finished(HEADER) && bytes.len() >= SIZED {
        bytes[20..22].copy_from_slice(&[dice.below(4) as u8, 0]);
    }
}

/// What a scrap was handed: the bytes are those that wait with the scrap's behind them.
struct Met<'a> {
    line: MmdhLine,
    room: usize,
    bytes: &'a [u8],
    allowed: u64,
    time: u64,
}

impl Met<'_> {
    fn note(&self, tally: &mut Tally, heard: &MmdhHeard) {
        let phase = self.line.feed.phase.min(7);
        let early = self.time < self.line.feed.heard;
        let dropping = self.line.dropping != 0;
        if self.allowed == 0 {
            let others = [(early, Hearing::NoneAllowedEarly), (dropping, Hearing::NoneAllowedDropping)];
            tally.scrap(Hearing::NoneAllowed(phase));
            return others.into_iter().filter(|(met, _)| *met).for_each(|(_, hearing)| tally.scrap(hearing));
        }
        if dropping {
            let nothing = heard.used == 0;
            return tally.scrap(if nothing { Hearing::DroppedNothing } else { Hearing::Dropped });
        }
        if self.room < SIZED || self.line.held > self.room as u64 {
            return tally.scrap(match heard.answer {
                22 if self.room < SIZED => Hearing::ShortBuffer,
                22 => Hearing::Overfull,
                answer => Hearing::DueBut(answer),
            });
        }
        let rest = self.accepted(tally, heard);
        if heard.accepted == self.allowed {
            tally.scrap(Hearing::Reached(heard.answer));
            if heard.used + self.line.held == self.bytes.len() as u64 {
                tally.scrap(Hearing::ReachedAtTheEnd);
            }
        } else if heard.said == 0 {
            tally.scrap(match (heard.accepted, heard.used) {
                (0, 0) if rest == 0 => Hearing::Nothing,
                (0, 0) => Hearing::NothingBehind,
                (0, _) if early => Hearing::WaitsEarly,
                (0, _) => Hearing::Waits(phase),
                _ if heard.line.held > 0 => Hearing::WaitsBehind,
                _ => Hearing::UsedUp,
            });
        } else {
            let answer = heard.answer;
            tally.scrap(if heard.accepted == 0 { Hearing::AtOnce(answer) } else { Hearing::Behind(answer) });
            self.refused(tally, answer, self.bytes.len() - rest);
        }
    }

    /// Notes what was pushed out of these tables, which must be what the rule has.
    fn falls(&self, tally: &mut Tally, tables: &Tables, heard: &MmdhHeard) {
        let came = falls::Came { answer: heard.answer, accepted: heard.accepted, dropped: heard.dropped };
        falls::note_units(tally, Call::LineScrap, (self.line.feed, tables), (self.bytes, self.time), came);
    }

    /// Notes the units that were accepted; how many bytes there are behind them.
    fn accepted(&self, tally: &mut Tally, heard: &MmdhHeard) -> usize {
        let mut at = 0;
        for _ in 0..heard.accepted {
            if let Front::Finished(length) = front(&self.bytes[at..], self.room) {
                let lay = self.lay(at, length);
                tally.scrap(Hearing::Accepted(lay));
                if lay == Lay::Torn && length == self.room {
                    tally.scrap(Hearing::Exact);
                }
                if lay == Lay::Torn && length == HEADER {
                    tally.scrap(Hearing::TornHeartbeat);
                }
                at += length;
            }
        }
        if self.allowed == u64::MAX && heard.accepted > 0 {
            tally.scrap(Hearing::Unlimited);
        }
        if self.line.feed.phase == 1 && matches!(heard.line.feed.phase, 3 | 4) {
            tally.scrap(Hearing::Through(heard.line.feed.phase));
        }
        self.bytes.len() - at
    }

    /// Notes the unit at a place that was refused.
    fn refused(&self, tally: &mut Tally, answer: u64, at: usize) {
        let bytes = &self.bytes[at..];
        match front(bytes, self.room) {
            Front::TooLong if answer != 22 => tally.scrap(Hearing::DueBut(answer)),
            Front::TooLong => {
                let torn = front(bytes, usize::MAX) == Front::Torn || self.lay(at, bytes.len()) != Lay::InScrap;
                tally.scrap(if torn { Hearing::LongTorn } else { Hearing::LongWhole });
            }
            Front::Finished(length) => {
                tally.scrap(Hearing::Refused(self.lay(at, length)));
                if length != HEADER && bytes[20] < 4 && bytes[21] == 0 {
                    tally.scrap(Hearing::Tiny(usize::from(bytes[20])));
                }
            }
            Front::Torn => {}
        }
    }

    /// Where a unit lay.
    fn lay(&self, at: usize, length: usize) -> Lay {
        match (self.line.held as usize).saturating_sub(at) {
            0 => Lay::InScrap,
            waiting if waiting < length => Lay::Torn,
            _ => Lay::Waited,
        }
    }
}

/// One call of the library alone.
fn call(stand: &mut Stand, scrap: &[u8], allowed: u64, time: u64) -> MmdhHeard {
    let heard = raw::line_scrap(stand.line, stand.tables.lend(), &mut stand.hold, scrap, allowed, time);
    stand.line = heard.line;
    heard
}

/// What became of a unit.
struct Unit {
    answer: u64,
    dropped: u64,
    /// Its bytes where it was accepted.
    bytes: Vec<u8>,
}

/// A scrap unit by unit, at most so many.
fn by_units(stand: &mut Stand, scrap: &[u8], allowed: u64, time: u64) -> Vec<Unit> {
    let (mut units, mut rest): (Vec<Unit>, &[u8]) = (Vec::new(), scrap);
    while (units.len() as u64) < allowed {
        let held = stand.line.held as usize;
        let heard = call(stand, rest, 1, time);
        let (used, answer, dropped) = (heard.used as usize, heard.answer, heard.dropped);
        let bytes = match (heard.said, answer) {
            (0, _) => break,
            (_, 0..=2) if held > 0 => stand.hold[..held + used].to_vec(),
            (_, 0..=2) => rest[..used].to_vec(),
            _ => Vec::new(),
        };
        units.push(Unit { answer, dropped, bytes });
        if answer > 2 {
            break;
        }
        rest = &rest[used..];
    }
    units
}

/// The answers alone.
fn answers(units: &[Unit]) -> Vec<u64> {
    units.iter().map(|unit| unit.answer).collect()
}

/// The rows dropped by all of them.
fn dropped(units: &[Unit]) -> u64 {
    units.iter().map(|unit| unit.dropped).sum()
}

/// A stream in random scraps, some of them empty, unit by unit or all at once: answers, rows dropped and end as in one piece, and
/// as single calls have it.
fn cutting(pair: &mut Pair, dice: &mut Dice, tables: &Tables) {
    let (feed, bytes, _, time) = frames::any(dice, tables);
    let start = Stand::new(feed, tables.clone(), room(dice, &bytes));
    let mut whole = start.clone();
    let units = by_units(&mut whole, &bytes, u64::MAX, time);
    let (in_one, fell) = (answers(&units), dropped(&units));
    let held = whole.line.held as usize;
    let mut cut = start.clone();
    let (mut in_scraps, mut accepted, mut fallen, mut rest) = (Vec::new(), 0, 0, &bytes[..]);
    let one_by_one = dice.once_in(2);
    let largest = dice.of(&[1, 7, 30, 200]);
    loop {
        let (scrap, after) = rest.split_at(dice.place(largest + 1).min(rest.len()));
        if one_by_one {
            let units = by_units(&mut cut, scrap, u64::MAX, time);
            in_scraps.extend(answers(&units));
            fallen += dropped(&units);
        } else {
            let heard = call(&mut cut, scrap, u64::MAX, time);
            accepted += heard.accepted;
            fallen += heard.dropped;
            in_scraps.extend(Some(heard.answer).filter(|_| heard.said == 1));
        }
        rest = after;
        if rest.is_empty() && !dice.once_in(4) {
            break;
        }
    }
    let input = || format!("{:?} at {} with room for {}: {:02x?}", feed, time, start.hold.len(), bytes);
    let refused = in_one.last().copied().filter(|&answer| answer > 2);
    let wanted = if one_by_one { in_one.clone() } else { refused.into_iter().collect() };
    pair.tally.same(&(in_scraps, fallen), &(wanted, fell), input);
    let count = in_one.len() as u64 - refused.iter().count() as u64;
    pair.tally.holds(one_by_one || accepted == count, || format!("{} accepted: {}", accepted, input()));
    let same = cut.line == whole.line && cut.tables == whole.tables && cut.hold.get(..held) == whole.hold.get(..held);
    pair.tally.holds(same, || format!("{}\n  {:?} in scraps\n  {:?} in one", input(), cut.line, whole.line));
    if start.hold.len() >= SIZED {
        let (said, dropped, end) = as_singles(&start, &bytes, time);
        let same = (&in_one, fell) == (&said, dropped) && whole.line == end.line && whole.tables == end.tables;
        let ends = || {
            let (one, singles) = ((&in_one, fell, whole.line), (&said, dropped, end.line));
            format!("{:?}\n  {:?} by single calls", one, singles)
        };
        pair.tally.holds(same, || format!("{}\n  {}", input(), ends()));
    }
}

/// Where a stream in one piece must end by single calls: but for 3, for 10 and 11 before a unit is finished, and for 22.
fn as_singles(start: &Stand, bytes: &[u8], time: u64) -> (Vec<u64>, u64, Stand) {
    let mut end = start.clone();
    end.line.feed = plainly(end.line.feed);
    let (room, mut said, mut dropped, mut at) = (start.hold.len(), Vec::new(), 0, 0);
    loop {
        let rest = &bytes[at..];
        let due = front(rest, room);
        if due == Front::Torn {
            end.line.held = rest.len() as u64;
            return (said, dropped, end);
        }
        let before = end.clone();
        let (given, _) = by_calls(end.line.feed, &mut end.tables, rest, 1, time);
        let refused = match given.answer {
            10 | 11 => Some(given.answer),
            _ if due == Front::TooLong => Some(22),
            answer => Some(answer).filter(|&answer| answer > 2),
        };
        said.push(refused.unwrap_or(given.answer));
        end.line.feed = given.feed;
        if let Some(answer) = refused {
            if answer == 22 {
                end = before;
                end.line.feed.phase = 5;
            }
            end.line.dropping = 1;
            return (said, dropped, end);
        }
        at += given.used as usize;
        dropped += given.dropped;
    }
}

/// One line, what comes to it, the clock, and what has happened so far.
struct Run {
    stand: Stand,
    coming: Vec<u8>,
    time: u64,
    history: History,
}

/// Lengths of holding buffers that lines are connected with, and others that are lent in their place for a while.
const ROOMS: [usize; 6] = [552, 600, 600, 2_000, 2_000, 21];
const OTHERS: [usize; 5] = [0, 21, 30, 600, 2_000];

impl Run {
    fn new(dice: &mut Dice, time: u64) -> Run {
        let tables = Tables::zeros(dice.of(&[192, 320, 333]), dice.of(&[60, 60, 65, 47]));
        let stand = Stand::new(raw::new(LIMIT).feed, tables, 600);
        Run { stand, coming: Vec::new(), time, history: History::default() }
    }

    fn event(&mut self, pair: &mut Pair, dice: &mut Dice) {
        let heard = self.stand.line.feed.heard;
        let pause = if dice.once_in(100) { dice.below(2_000) } else { dice.below(4) };
        self.time = self.time.max(heard).saturating_add(pause);
        let time = if dice.once_in(90) { heard.saturating_sub(1) } else { self.time };
        let shut = self.stand.line.dropping != 0 || !(1..=4).contains(&self.stand.line.feed.phase);
        if dice.once_in(if shut { 2 } else { 200 }) {
            return self.connect(pair, dice, time);
        }
        if dice.once_in(300) {
            self.stand.hold.resize(dice.of(&OTHERS), 0x33);
        }
        if self.coming.is_empty() {
            let sent = dice.of(&[0, 1, 2, 4, 8]);
            self.coming = frames::stream(
                dice,
                self.stand.line.feed,
                &self.stand.tables,
                (sent, time),
                |dice, feed: &MmdhFeed, tables| Sender { feed, tables }.unit(dice),
            );
        }
        self.scrap(pair, dice, time);
    }

    fn connect(&mut self, pair: &mut Pair, dice: &mut Dice, time: u64) {
        let room = dice.of(&ROOMS);
        self.stand.hold.resize(room, 0x33);
        let resuming = dice.below(2);
        let answer = self.stand.connect(pair, resuming, time);
        self.history.connect(resuming != 0, answer, time);
        if answer == 0 {
            self.coming.clear();
        }
        runs::badges(pair, &self.stand.line.feed, &self.history, time);
    }

    /// The next bytes, cut anywhere; unit by unit they must end in the same, and say what became of each.
    fn scrap(&mut self, pair: &mut Pair, dice: &mut Dice, time: u64) {
        let length = match dice.below(8) {
            0 => 0,
            1 => 1,
            2..=4 => dice.place(40),
            5 => dice.place(self.coming.len() + 1),
            _ => self.coming.len(),
        };
        let scrap = self.coming[..length.min(self.coming.len())].to_vec();
        let allowed = dice.of(&[0, 1, 1, 2, 3, u64::MAX, u64::MAX, u64::MAX]);
        let (mut by_one, before) = (self.stand.clone(), self.stand.clone());
        let units = by_units(&mut by_one, &scrap, allowed, time);
        let heard = self.stand.scrap(pair, &scrap, allowed, time);
        let input = || format!("run: {:?} at {}, {} allowed\n  {:02x?}", before.line, time, allowed, scrap);
        let (got, wanted) = ((self.stand.line, heard.dropped), (by_one.line, dropped(&units)));
        let same = self.stand == by_one && got == wanted;
        pair.tally.holds(same, || format!("{}\n  {:?}\n  {:?}", input(), got, wanted));
        let waiting = before.hold.get(..before.line.held as usize).unwrap_or(&[]);
        let bytes = [waiting, &scrap].concat();
        let met = Met { line: before.line, room: before.hold.len(), bytes: &bytes, allowed, time };
        met.note(&mut pair.tally, &heard);
        met.falls(&mut pair.tally, &before.tables, &heard);
        for unit in &units {
            let message = unit.bytes.get(HEADER..).unwrap_or(&[]);
            self.history.arrive(Call::LineScrap, unit.answer, unit.bytes.len() as u64, message, time);
        }
        self.coming.drain(..heard.used as usize);
        runs::badges(pair, &self.stand.line.feed, &self.history, time);
    }
}
