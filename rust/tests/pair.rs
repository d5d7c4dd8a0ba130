//! One call made twice: through the C calls and to the twin, then compared in answer, feed, bytes used, rows dropped and every
//! word. A frame is made a third time, by single C calls. Of a scrap every byte of the holding buffer is compared too.

use crate::tables::{words, Tables};
use crate::tally::{Call, Tally};
use mmdh::raw::{self, MmdhFeed, MmdhFrame, MmdhGiven, MmdhHeard, MmdhLevel, MmdhLine, MmdhLinked};
use mmdh::raw::{MmdhRow, MmdhSide, MmdhStrip, ROWS};
use std::fmt::Debug;
use twin::line::{Heard, Line, Linked};
use twin::{Answer, Feed, Frame, Given, Phase, Read, ReadSide, ReadStrip};

/// The twin's feed of plain numbers.
pub fn twin_feed(plain: MmdhFeed) -> Feed {
    Feed {
        phase: Phase::of(plain.phase),
        next: plain.next,
        internal: plain.internal,
        heard: plain.heard,
        limit: plain.limit,
        whole: plain.whole != 0,
        fresh: plain.fresh != 0,
    }
}

/// The plain numbers of the twin's feed.
pub fn plain_feed(feed: Feed) -> MmdhFeed {
    MmdhFeed {
        phase: feed.phase as u64,
        next: feed.next,
        internal: feed.internal,
        heard: feed.heard,
        limit: feed.limit,
        whole: u64::from(feed.whole),
        fresh: u64::from(feed.fresh),
    }
}

/// The plain numbers of what the twin hands back.
pub fn plain_given(given: Given) -> MmdhGiven {
    let feed = plain_feed(given.feed);
    MmdhGiven { answer: given.answer as u64, used: given.used, feed, dropped: given.dropped }
}

/// The plain numbers of a frame; where no unit was allowed, the feed is the one handed in, its odd numbers too.
pub fn plain_frame(frame: Frame, allowed: u64, handed: MmdhFeed) -> MmdhFrame {
    let feed = if allowed == 0 { handed } else { plain_feed(frame.feed) };
    let (answer, accepted) = (frame.answer as u64, frame.accepted);
    MmdhFrame { answer, accepted, used: frame.used, feed, dropped: frame.dropped }
}

/// The twin's line of plain numbers.
pub fn twin_line(plain: MmdhLine) -> Line {
    Line { feed: twin_feed(plain.feed), held: plain.held, dropping: plain.dropping != 0 }
}

/// The plain numbers of the twin's line.
pub fn plain_line(line: Line) -> MmdhLine {
    MmdhLine { feed: plain_feed(line.feed), held: line.held, dropping: u64::from(line.dropping) }
}

/// The plain numbers of a connect of a line; where it is refused, the line is the one handed in, its odd numbers too.
pub fn plain_linked(linked: Linked, handed: MmdhLine) -> MmdhLinked {
    let line = if linked.answer == Answer::Taken { plain_line(linked.line) } else { handed };
    MmdhLinked { answer: linked.answer as u64, line }
}

/// The plain numbers of a scrap; where no unit was allowed, and where the line drops, it is the one handed in, its odd numbers
/// too.
pub fn plain_heard(heard: Heard, allowed: u64, handed: MmdhLine) -> MmdhHeard {
    let untouched = allowed == 0 || handed.dropping != 0;
    MmdhHeard {
        said: u64::from(heard.said.is_some()),
        answer: heard.said.map_or(0, |answer| answer as u64),
        accepted: heard.accepted,
        used: heard.used,
        line: if untouched { handed } else { plain_line(heard.line) },
        dropped: heard.dropped,
    }
}

/// A frame by single C calls at the same time, and what each of them handed back.
pub fn by_calls(
    feed: MmdhFeed,
    tables: &mut Tables,
    bytes: &[u8],
    allowed: u64,
    time: u64,
) -> (MmdhFrame, Vec<MmdhGiven>) {
    let mut calls: Vec<MmdhGiven> = Vec::new();
    let (mut after, mut used) = (feed, 0);
    while (calls.len() as u64) < allowed && calls.last().map_or(true, |last| last.answer <= 2) {
        let given = raw::arrive(after, tables.lend(), &bytes[used..], time);
        after = given.feed;
        used += given.used as usize;
        calls.push(given);
    }
    let answer = calls.last().map_or(0, |last| last.answer);
    let accepted = calls.iter().filter(|given| given.answer <= 2).count() as u64;
    let dropped = calls.iter().map(|given| given.dropped).sum();
    (MmdhFrame { answer, accepted, used: used as u64, feed: after, dropped }, calls)
}

fn plain_row(read: Read) -> MmdhRow {
    MmdhRow { answer: read.answer as u64, price: read.price, quantity: read.quantity, orders: read.orders }
}

fn plain_strip(read: ReadStrip) -> MmdhStrip {
    MmdhStrip {
        answer: read.answer as u64,
        flags: read.flags,
        nominal: read.nominal,
        iep: read.iep,
        iev: read.iev,
        reference: read.reference,
        lower: read.lower,
        upper: read.upper,
        direction: read.direction,
        imbalance: read.imbalance,
        closing: read.closing,
    }
}

fn plain_side(read: ReadSide) -> MmdhSide {
    let mut side = MmdhSide { answer: read.answer as u64, count: read.rows.len() as u64, ..MmdhSide::default() };
    for (level, (price, quantity, orders)) in side.row.iter_mut().zip(read.rows) {
        *level = MmdhLevel { price, quantity, orders };
    }
    side
}

/// The side that single reads make, rank by rank, beside the answer that it has.
fn by_singles(answer: u64, singles: &[MmdhRow; ROWS]) -> MmdhSide {
    let count = singles.iter().filter(|row| row.answer == 0).count() as u64;
    let row = singles.map(|row| MmdhLevel { price: row.price, quantity: row.quantity, orders: row.orders });
    MmdhSide { answer, count, row }
}

/// Both sides' copies of the tables and of the holding buffer, kept for use again.
#[derive(Default)]
pub struct Pair {
    pub tally: Tally,
    ours: Tables,
    twins: Tables,
    our_hold: Vec<u8>,
    twin_hold: Vec<u8>,
}

impl Pair {
    pub fn new_feed(&mut self, limit: u64) -> MmdhGiven {
        let ours = raw::new(limit);
        self.tally.met(Call::New, ours.answer);
        self.tally.same(&ours, &plain_given(twin::new(limit)), || format!("new {}", limit));
        ours
    }

    pub fn connect(&mut self, feed: MmdhFeed, resuming: u64, time: u64) -> MmdhGiven {
        let ours = raw::connect(feed, resuming, time);
        let twins = twin::connect(twin_feed(feed), resuming != 0, time);
        self.tally.met(Call::Connect, ours.answer);
        self.tally
            .same(&ours, &plain_given(twins), || format!("connect {:?} resuming {} time {}", feed, resuming, time));
        ours
    }

    /// An arrival on a copy of the tables; the library's words after it are in `after`.
    pub fn arrive(&mut self, feed: MmdhFeed, tables: &Tables, bytes: &[u8], time: u64) -> MmdhGiven {
        self.copy(tables);
        let ours = raw::arrive(feed, self.ours.lend(), bytes, time);
        let twins = twin::arrive(twin_feed(feed), self.twins.lend_twin(), bytes, time);
        self.tally.met(Call::Arrive, ours.answer);
        self.compare(
            &ours,
            &plain_given(twins),
            || format!("arrive {:?} time {}\n  bytes {:02x?}", feed, time, bytes),
            tables,
        );
        ours
    }

    /// A frame on a copy of the tables, the library against the twin and against its own single calls; what these handed
    /// back is given beside it.
    pub fn frame(
        &mut self,
        feed: MmdhFeed,
        tables: &Tables,
        bytes: &[u8],
        allowed: u64,
        time: u64,
    ) -> (MmdhFrame, Vec<MmdhGiven>) {
        self.copy(tables);
        let ours = raw::arrive_frame(feed, self.ours.lend(), bytes, allowed, time);
        let twins = twin::arrive_frame(twin_feed(feed), self.twins.lend_twin(), bytes, allowed, time);
        let input =
            |by: &str| format!("frame and {}: {:?} allowed {} time {}\n  {:02x?}", by, feed, allowed, time, bytes);
        self.tally.met(Call::ArriveFrame, ours.answer);
        self.compare(&ours, &plain_frame(twins, allowed, feed), || input("the twin's"), tables);
        self.twins.copy(tables);
        let (singles, calls) = by_calls(feed, &mut self.twins, bytes, allowed, time);
        self.compare(&ours, &singles, || input("single calls"), tables);
        (ours, calls)
    }

    /// A connect of a line with a holding buffer, which is not written.
    pub fn line_connect(&mut self, line: MmdhLine, hold: &[u8], resuming: u64, time: u64) -> MmdhLinked {
        self.our_hold.clear();
        self.our_hold.extend_from_slice(hold);
        let ours = raw::line_connect(line, &self.our_hold, resuming, time);
        let twins = plain_linked(twin::line::connect(twin_line(line), hold, resuming != 0, time), line);
        self.tally.met(Call::LineConnect, ours.answer);
        let input = || format!("connect {:?}, buffer of {}, resuming {} time {}", line, hold.len(), resuming, time);
        let good = ours == twins && self.our_hold == hold;
        self.tally.holds(good, || format!("{}\n  library {:?}\n  twin    {:?}", input(), ours, twins));
        ours
    }

    /// A scrap on copies of the tables and of the holding buffer; the library's are in `after` and `hold_after`.
    pub fn scrap(
        &mut self,
        line: MmdhLine,
        (tables, hold): (&Tables, &[u8]),
        scrap: &[u8],
        allowed: u64,
        time: u64,
    ) -> MmdhHeard {
        self.copy(tables);
        for copy in [&mut self.our_hold, &mut self.twin_hold] {
            copy.clear();
            copy.extend_from_slice(hold);
        }
        let ours = raw::line_scrap(line, self.ours.lend(), &mut self.our_hold, scrap, allowed, time);
        let (twins, twin_hold) = (self.twins.lend_twin(), &mut self.twin_hold);
        let twins = twin::line::scrap(twin_line(line), twins, twin_hold, scrap, allowed, time);
        if ours.said != 0 {
            self.tally.met(Call::LineScrap, ours.answer);
        }
        let byte = self.our_hold.iter().zip(&self.twin_hold).position(|(ours, twins)| ours != twins);
        let input = || {
            format!(
                "scrap {:?} allowed {} time {}\n  buffer {:02x?}\n  scrap {:02x?}\n  first byte that differs: {:?}",
                line, allowed, time, hold, scrap, byte
            )
        };
        let twins = plain_heard(twins, allowed, line);
        self.compare(&(ours, byte), &(twins, None), input, tables);
        ours
    }

    /// The library's holding buffer after the last scrap.
    pub fn hold_after(&self) -> &[u8] {
        &self.our_hold
    }

    /// The tuned twin's frame against the plain one's.
    pub fn tuned_frame(&mut self, feed: MmdhFeed, tables: &Tables, bytes: &[u8], allowed: u64, time: u64) {
        self.copy(tables);
        let tuned = twin::tuned::arrive_frame(twin_feed(feed), self.ours.lend_twin(), bytes, allowed, time);
        let twins = twin::arrive_frame(twin_feed(feed), self.twins.lend_twin(), bytes, allowed, time);
        let input = || format!("tuned frame {:?} allowed {} time {}\n  {:02x?}", feed, allowed, time, bytes);
        self.compare(&tuned, &twins, input, tables);
    }

    /// A message already cut, on a copy of the tables.
    pub fn arrive_cut(
        &mut self,
        feed: MmdhFeed,
        tables: &Tables,
        seq: u32,
        internal: u32,
        message: &[u8],
        time: u64,
    ) -> MmdhGiven {
        self.copy(tables);
        let ours = raw::arrive_cut(feed, self.ours.lend(), seq, internal, message, time);
        let twins = twin::arrive_cut(twin_feed(feed), self.twins.lend_twin(), seq, internal, message, time);
        let input = || {
            format!("arrive_cut {:?} seq {} internal {} time {}\n  message {:02x?}", feed, seq, internal, time, message)
        };
        self.tally.met(Call::ArriveCut, ours.answer);
        self.compare(&ours, &plain_given(twins), input, tables);
        ours
    }

    /// The tuned twin against the plain one.
    pub fn tuned(&mut self, feed: MmdhFeed, tables: &Tables, bytes: &[u8], time: u64) {
        self.copy(tables);
        let mut after = twin_feed(feed);
        let came = twin::tuned::arrive(&mut after, self.ours.lend_twin(), bytes, time);
        let twins = twin::arrive(twin_feed(feed), self.twins.lend_twin(), bytes, time);
        let tuned = Given { answer: came.answer, used: came.used, feed: after, dropped: came.dropped };
        let good = tuned == twins && self.ours == self.twins;
        self.tally
            .holds(good, || format!("tuned {:?} time {}\n  bytes {:02x?}\n  {}", feed, time, bytes, both(tables)));
    }

    pub fn read_row(&mut self, table: &[u64], code: u64, side: u64, rank: u64) -> MmdhRow {
        let ours = raw::read_row(table, code, side, rank);
        self.tally.met(Call::ReadRow, ours.answer);
        let twins = plain_row(twin::read_row(table, code, side, rank));
        self.tally.same(&ours, &twins, || format!("read_row {} {} {}\n  {}", code, side, rank, words(table)));
        ours
    }

    /// A side at once against the twin's, and against single reads of the library and of the twin.
    pub fn read_side(&mut self, table: &[u64], code: u64, side: u64) {
        let ours = raw::read_side(table, code, side);
        let input = || format!("read_side {} {}\n  {}", code, side, words(table));
        self.tally.met(Call::ReadSide, ours.answer);
        self.tally.same(&ours, &plain_side(twin::read_side(table, code, side)), input);
        let ranks: [u64; ROWS] = std::array::from_fn(|at| at as u64 + 1);
        let singles = ranks.map(|rank| raw::read_row(table, code, side, rank));
        self.tally.same(&ours, &by_singles(ours.answer, &singles), input);
        let twins = ranks.map(|rank| plain_row(twin::read_row(table, code, side, rank)));
        self.tally.same(&ours, &by_singles(ours.answer, &twins), input);
        let wanted = ranks.map(|rank| match ours.answer {
            0 if rank > ours.count => 4,
            answer => answer,
        });
        self.tally.same(&singles.map(|row| row.answer), &wanted, input);
    }

    pub fn read_strip(&mut self, strips: &[u64], code: u64) -> MmdhStrip {
        let ours = raw::read_strip(strips, code);
        self.tally.met(Call::ReadStrip, ours.answer);
        let twins = plain_strip(twin::read_strip(strips, code));
        self.tally.same(&ours, &twins, || format!("read_strip {}\n  {}", code, words(strips)));
        ours
    }

    pub fn badge(&mut self, phase: u64, heard: u64, limit: u64, time: u64) -> u64 {
        let ours = raw::badge(phase, heard, limit, time);
        let input = || format!("badge phase {} heard {} limit {} time {}", phase, heard, limit, time);
        self.tally.same(&ours, &twin::badge(phase, heard, limit, time), input);
        ours
    }

    /// The badge with its reason, both against the twin's, and the one against the other: green exactly if the reason is
    /// 0, filling exactly if it is 2, 3 or 4.
    pub fn badge_and_why(&mut self, phase: u64, heard: u64, limit: u64, time: u64) {
        let badge = self.badge(phase, heard, limit, time);
        let why = raw::why(phase, heard, limit, time);
        let input = || format!("why phase {} heard {} limit {} time {}", phase, heard, limit, time);
        self.tally.met(Call::Why, why);
        self.tally.same(&why, &twin::why(phase, heard, limit, time), input);
        let (green, filling) = (why == 0, (2..=4).contains(&why));
        self.tally.same(&(badge == 1, badge == 2), &(green, filling), || format!("badge {} and {}", badge, input()));
    }

    /// The library's tables after the last arrival.
    pub fn after(&self) -> &Tables {
        &self.ours
    }

    fn copy(&mut self, tables: &Tables) {
        self.ours.copy(tables);
        self.twins.copy(tables);
    }

    fn compare<T: PartialEq + Debug>(&mut self, ours: &T, twins: &T, input: impl FnOnce() -> String, tables: &Tables) {
        let good = ours == twins && self.ours == self.twins;
        let (after, wanted) = (&self.ours, &self.twins);
        self.tally.holds(good, || {
            format!(
                "{}\n  {}\n  library {:?}\n  twin    {:?}\n  first word that differs: {:?}",
                input(),
                both(tables),
                ours,
                twins,
                after.differs(wanted)
            )
        });
    }
}

fn both(tables: &Tables) -> String {
    format!("books: {}\n  strips: {}", words(&tables.books), words(&tables.strips))
}
