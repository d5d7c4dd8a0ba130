//! Whole runs: many events on one feed and its tables, library and twin each going on with its own.

use crate::emptied::meets;
use crate::falls;
use crate::frames::{self, HEARTBEAT};
use crate::history::{History, LIMIT};
use crate::pair::{by_calls, plain_feed, plain_frame, plain_given, Pair};
use crate::scene::{self, STRIP, STRIPS};
use crate::strips;
use crate::tables::Tables;
use crate::tally::{Call, Meets, StripMeets};
use exchange::dice::Dice;
use exchange::market::Market;
use exchange::{message, refresh_complete, session};
use mmdh::raw::{self, MmdhFeed, MmdhFrame, MmdhGiven, MmdhLine};
use std::fmt::Debug;
use twin::Given;

/// Both sides of a run, the clock, and what has happened so far.
struct Run {
    feed: MmdhFeed,
    tables: Tables,
    twin_feed: twin::Feed,
    twin_tables: Tables,
    time: u64,
    history: History,
}

/// Runs of many events from a new feed and zeroed tables.
pub fn check(pair: &mut Pair, dice: &mut Dice, runs: u64, events: u64) {
    pair.tally.part("events of whole runs, library against twin");
    for number in 0..runs {
        // now and then fewer strips than codes come
        let tables = Tables::zeros(dice.of(&[192, 320, 333, 640, 1_000]), dice.of(&[60, 60, 60, 65, 47]));
        let mut run = Run {
            feed: raw::new(LIMIT).feed,
            tables: tables.clone(),
            twin_feed: twin::new(LIMIT).feed,
            twin_tables: tables,
            time: if number % 8 == 0 { u64::MAX - 3_000 } else { 0 },
            history: History::default(),
        };
        for _ in 0..events {
            run.event(pair, dice);
        }
        replay(pair, &run.history, &run.tables);
    }
}

impl Run {
    fn event(&mut self, pair: &mut Pair, dice: &mut Dice) {
        let pause = if dice.once_in(100) { dice.below(2_000) } else { dice.below(4) };
        self.time = self.time.max(self.feed.heard).saturating_add(pause);
        let time = if dice.once_in(60) { self.feed.heard.saturating_sub(1) } else { self.time };
        let open = (1..=4).contains(&self.feed.phase);
        if dice.once_in(if open { 150 } else { 2 }) {
            return self.connect(pair, dice.below(2), time);
        }
        if dice.once_in(5) {
            return self.frame(pair, dice, time);
        }
        let sender = Sender { feed: &self.feed, tables: &self.tables };
        let message = sender.message(dice);
        let (seq, internal) = sender.numbers(dice);
        let bytes = if dice.once_in(12) { HEARTBEAT.to_vec() } else { unit(dice, seq, internal, &message) };
        if dice.once_in(10) {
            let met = self.met(&message);
            let ours = raw::arrive_cut(self.feed, self.tables.lend(), seq, internal, &message, time);
            falls::note(&mut pair.tally, Call::ArriveCut, &self.twin_tables.books, &message, &ours);
            let twins = twin::arrive_cut(self.twin_feed, self.twin_tables.lend_twin(), seq, internal, &message, time);
            self.note(pair, met, &ours);
            return self.arrived(pair, Call::ArriveCut, ours, twins, &message, time);
        }
        let message = bytes.get(20..).unwrap_or(&[]);
        let met = self.met(message);
        let ours = raw::arrive(self.feed, self.tables.lend(), &bytes, time);
        falls::note(&mut pair.tally, Call::Arrive, &self.twin_tables.books, message, &ours);
        let twins = twin::arrive(self.twin_feed, self.twin_tables.lend_twin(), &bytes, time);
        self.note(pair, met, &ours);
        self.arrived(pair, Call::Arrive, ours, twins, message, time);
    }

    /// Several units at once; single calls say what became of each.
    fn frame(&mut self, pair: &mut Pair, dice: &mut Dice, time: u64) {
        let sent = dice.of(&[0, 1, 2, 3, 4, 6, 12]);
        let allowed = frames::allowed(dice, sent);
        let bytes = frames::stream(dice, self.feed, &self.tables, (sent, time), |dice, feed, tables| {
            Sender { feed, tables }.unit(dice)
        });
        let mut by_singles = self.tables.clone();
        let (singles, calls) = by_calls(self.feed, &mut by_singles, &bytes, allowed, time);
        let ours = raw::arrive_frame(self.feed, self.tables.lend(), &bytes, allowed, time);
        frames::falls(&mut pair.tally, (self.feed, &self.twin_tables), (&bytes, time), &ours);
        let twins = twin::arrive_frame(self.twin_feed, self.twin_tables.lend_twin(), &bytes, allowed, time);
        let input = || format!("run: frame of {} allowed at {}\n  {:02x?}", allowed, time, bytes);
        pair.tally.same(&(ours, &self.tables), &(singles, &by_singles), input);
        frames::note(&mut pair.tally, (self.feed, allowed, time), &bytes, &ours, &calls);
        let mut at = 0;
        for given in calls {
            let end = at + given.used as usize;
            let message = bytes.get(at + 20..end).unwrap_or(&[]);
            self.history.arrive(Call::Arrive, given.answer, given.used, message, time);
            at = end;
        }
        pair.tally.met(Call::ArriveFrame, ours.answer);
        let wanted = plain_frame(twins, allowed, self.feed);
        self.compare(pair, (&ours, ours.feed), (&wanted, twins.feed), &bytes, time);
    }

    /// What a message without entries meets in the books, and one for a strip in the strips.
    fn met(&self, message: &[u8]) -> (Option<Meets>, Option<StripMeets>) {
        (meets(&self.tables.books, message), strips::meets(&self.tables.strips, message))
    }

    fn note(&self, pair: &mut Pair, met: (Option<Meets>, Option<StripMeets>), given: &MmdhGiven) {
        pair.tally.emptying(self.feed.phase, met.0, given);
        pair.tally.strip(self.feed.phase, met.1, given);
    }

    fn connect(&mut self, pair: &mut Pair, resuming: u64, time: u64) {
        let ours = raw::connect(self.feed, resuming, time);
        let twins = twin::connect(self.twin_feed, resuming != 0, time);
        self.history.connect(resuming != 0, ours.answer, time);
        pair.tally.met(Call::Connect, ours.answer);
        self.compare(pair, (&ours, ours.feed), (&plain_given(twins), twins.feed), &[], time);
    }

    fn arrived(&mut self, pair: &mut Pair, call: Call, ours: MmdhGiven, twins: Given, message: &[u8], time: u64) {
        self.history.arrive(call, ours.answer, ours.used, message, time);
        pair.tally.met(call, ours.answer);
        self.compare(pair, (&ours, ours.feed), (&plain_given(twins), twins.feed), message, time);
    }

    /// Compares what both sides handed back, each with its feed, and goes on with these.
    fn compare<T: PartialEq + Debug>(
        &mut self,
        pair: &mut Pair,
        (ours, feed): (&T, MmdhFeed),
        (twins, twin_feed): (&T, twin::Feed),
        bytes: &[u8],
        time: u64,
    ) {
        let before = std::mem::replace(&mut self.feed, feed);
        self.twin_feed = twin_feed;
        let good = ours == twins && self.tables == self.twin_tables;
        pair.tally
            .holds(good, || format!("run: {:?} time {}\n  {:02x?}\n  {:?}\n  {:?}", before, time, bytes, ours, twins));
        badges(pair, &self.feed, &self.history, time);
    }
}

/// The badge of a feed is green exactly when the history says so.
pub fn badges(pair: &mut Pair, feed: &MmdhFeed, history: &History, time: u64) {
    for asked in [time, time.saturating_add(time % 1_003), feed.heard.saturating_add(LIMIT + time % 2)] {
        let green = pair.badge(feed.phase, feed.heard, feed.limit, asked) == 1;
        pair.tally.same(&green, &history.green(asked), || format!("green of {:?} at {}", feed, asked));
    }
}

/// The tables are what the messages taken since the last clearing make of empty ones.
pub fn replay(pair: &mut Pair, history: &History, tables: &Tables) {
    let mut replayed = Tables::zeros(tables.books.len(), tables.strips.len());
    for message in &history.taken {
        let size = usize::from(u16::from_le_bytes([message[0], message[1]]));
        let fitted = match message[2] {
            53 => twin::book::take(&mut replayed.books, &message[..size]).map(|_| ()),
            _ => twin::strip::take(&mut replayed.strips, &message[..size]),
        };
        pair.tally.holds(fitted.is_ok(), || format!("a replayed message does not fit: {:02x?}", message));
    }
    pair.tally.holds(replayed == *tables, || "the tables are not what replay gives".to_string());
}

/// What the exchange sends next to a feed and its tables.
pub struct Sender<'a> {
    pub feed: &'a MmdhFeed,
    pub tables: &'a Tables,
}

impl Sender<'_> {
    /// A unit, mostly as the phase and the numbers want it.
    pub fn unit(&self, dice: &mut Dice) -> Vec<u8> {
        let message = self.message(dice);
        let (seq, internal) = self.numbers(dice);
        unit(dice, seq, internal, &message)
    }

    /// Mostly what the phase wants.
    fn message(&self, dice: &mut Dice) -> Vec<u8> {
        match (self.feed.phase, dice.below(30)) {
            (_, 0) if dice.once_in(6) => scene::message(dice, self.feed.phase, &self.tables.books),
            (1, _) => message(1105, 532),
            (2, _) => session(1102, dice.of(&[0, 0, 2, 101, 101, 1, 3, 8])),
            (3, 1) => refresh_complete(dice.of(&[1, 30, 500])),
            (3, 2) => session(1202, 0),
            (_, 3) => message(dice.of(&[10, 11, 20, 52, 60]), 12),
            (_, 4..=12) => self.strip_message(dice),
            _ => self.book_message(dice),
        }
    }

    /// Of a code that has room, and of the right size, mostly.
    fn strip_message(&self, dice: &mut Dice) -> Vec<u8> {
        let (kind, size) = dice.of(&STRIPS);
        loop {
            let message = scene::strip_message(dice, kind);
            let taken = || twin::strip::take(&mut self.tables.strips.clone(), &message).is_ok();
            if dice.once_in(12) || (message.len() == size && taken()) {
                return message;
            }
        }
    }

    fn book_message(&self, dice: &mut Dice) -> Vec<u8> {
        let code = dice.of(&scene::CODES[..(self.tables.books.len() / 64).min(5)]);
        let mut entries = scene::entries(dice, &self.tables.books, code);
        if !dice.once_in(12) {
            // judged on the twin first, so that most messages of a run fit
            for _ in 0..20 {
                let message = exchange::book_message(code as u32, &entries);
                if twin::book::take(&mut self.tables.books.clone(), &message).is_ok() {
                    return message;
                }
                entries = scene::entries(dice, &self.tables.books, code);
            }
        }
        exchange::book_message(code as u32, &entries)
    }

    fn numbers(&self, dice: &mut Dice) -> (u32, u32) {
        let seq = if dice.once_in(200) { self.feed.next + 1 } else { self.feed.next };
        let internal =
            if self.feed.phase == 3 { 0 } else { self.feed.internal.wrapping_add(dice.of(&[1, 1, 1, 1, 5, 0])) };
        (seq as u32, internal as u32)
    }
}

/// A unit of the message, damaged now and then.
fn unit(dice: &mut Dice, seq: u32, internal: u32, message: &[u8]) -> Vec<u8> {
    if dice.once_in(60) {
        scene::unit(dice, seq, internal, message)
    } else {
        exchange::unit(seq, internal, message)
    }
}

/// A long valid run: every unit taken, by frames, by single calls and in scraps in turn, and no difference at the end.
pub fn check_market(pair: &mut Pair, units: u32) {
    pair.tally.part("frames, units by single calls and in scraps, of one long valid run over 128 books and strips");
    let listed: Vec<(u32, i32)> = (0..128).map(|k| (1 + 700 * k, 200 + 1_111 * k as i32)).collect();
    let mut market = Market::new(99, &listed);
    let mut feed = MmdhFeed { phase: 4, next: 1, internal: 0, heard: 0, limit: 1_000, whole: 1, fresh: 1 };
    let mut tables = Tables::zeros(64 * 128, STRIP * 128);
    let (mut twins, mut twin_tables) = (crate::pair::twin_feed(feed), tables.clone());
    let mut number = 0;
    while number < units {
        let count = 1 + market.dice().below(40);
        let mut bytes = Vec::new();
        for _ in 0..count {
            number += 1;
            bytes.extend(exchange::unit(number, number, &sent(&mut market)));
        }
        let time = u64::from(number);
        let given = match market.dice().below(3) {
            0 => raw::arrive_frame(feed, tables.lend(), &bytes, count, time),
            1 => by_calls(feed, &mut tables, &bytes, count, time).0,
            _ => in_scraps(feed, &mut tables, &bytes, time, market.dice()),
        };
        let by_twin = twin::arrive_frame(twins, twin_tables.lend_twin(), &bytes, count, time);
        twins = by_twin.feed;
        let (used, dropped) = (bytes.len() as u64, by_twin.dropped);
        let wanted = MmdhFrame { answer: 0, accepted: count, used, feed: plain_feed(twins), dropped };
        pair.tally.same(&given, &wanted, || format!("{} units to unit {}", count, number));
        feed = given.feed;
    }
    pair.tally.same(&tables, &twin_tables, || "the tables after the long run".to_string());
}

/// All units in scraps of any length, told as a frame; its answer is how many bytes wait and whether any are dropped.
fn in_scraps(feed: MmdhFeed, tables: &mut Tables, bytes: &[u8], time: u64, dice: &mut Dice) -> MmdhFrame {
    let (mut line, mut hold) = (MmdhLine { feed, held: 0, dropping: 0 }, [0; 600]);
    let (mut accepted, mut used, mut dropped, mut at) = (0, 0, 0, 0);
    while at < bytes.len() {
        let end = bytes.len().min(at + dice.place(200));
        let heard = raw::line_scrap(line, tables.lend(), &mut hold, &bytes[at..end], u64::MAX, time);
        line = heard.line;
        accepted += heard.accepted;
        used += heard.used;
        dropped += heard.dropped;
        at = end;
    }
    MmdhFrame { answer: line.held + line.dropping, accepted, used, feed: line.feed, dropped }
}

/// A message to some book or strip.
fn sent(market: &mut Market) -> Vec<u8> {
    let book = market.dice().place(128);
    let entries = 2 + market.dice().place(3);
    match market.dice().below(500) {
        0 => market.clear(book),
        1..=4 => market.emptied(book),
        5..=104 => strip(market, book),
        _ => market.update(book, entries),
    }
}

/// A message that brings values to a strip, of any type.
fn strip(market: &mut Market, k: usize) -> Vec<u8> {
    match market.dice().below(7) {
        0 => market.closing(k),
        1 => market.no_equilibrium(k),
        2 => market.no_imbalance(k),
        3 => market.reference(k),
        4 => market.equilibrium(k),
        5 => market.imbalance(k),
        _ => market.nominal(k),
    }
}
