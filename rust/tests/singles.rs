//! Single calls and single frames on random feeds, tables, bytes and times.

use crate::emptied::meets;
use crate::falls;
use crate::frames;
use crate::pair::Pair;
use crate::scene::{self, SLOT, STRIP, STRIPS};
use crate::strips;
use crate::tables::Tables;
use crate::tally::Call;
use exchange::dice::Dice;
use exchange::{Entry, CLEAR};
use mmdh::raw::{MmdhFeed, MmdhGiven};

const LENGTHS: [usize; 14] = [0, 63, 64, 64, 64, 65, 127, 128, 128, 128, 129, 192, 192, 193];

const LIVE: MmdhFeed = MmdhFeed { phase: 4, next: 1, internal: 0, heard: 0, limit: 1_000, whole: 1, fresh: 1 };

/// Calls on one table before it is made anew, and frames among them.
const CALLS: u64 = 10;
const FRAMES: u64 = 1;

/// Small tables, many calls.
pub fn check(pair: &mut Pair, dice: &mut Dice, rounds: u64) {
    pair.tally.part("single arrivals and frames, rows, sides and strips read, library against twin");
    for _ in 0..rounds / CALLS {
        let words = dice.of(&LENGTHS);
        let tables = scene::tables(dice, words);
        for _ in FRAMES..CALLS {
            arrival(pair, dice, &tables);
        }
        for _ in 0..FRAMES {
            frames::single(pair, dice, &tables);
        }
    }
    pair.tally.part("single connects and new feeds, library against twin");
    for _ in 0..rounds / 4 {
        let feed = scene::feed(dice);
        let time = scene::time(dice, feed.heard);
        pair.connect(feed, dice.of(&[0, 0, 1, 1, 2, u64::MAX]), time);
        pair.new_feed(dice.of(&[0, 1, 2, 1_000, 599_999, 600_000, 600_001, u64::MAX]));
        pair.new_feed(scene::edge(dice));
    }
}

/// The tuned twin, on tables of the same kinds.
pub fn check_tuned(pair: &mut Pair, dice: &mut Dice, rounds: u64) {
    pair.tally.part("tuned twin against plain twin, arrivals and frames");
    for _ in 0..rounds / CALLS {
        let words = dice.of(&LENGTHS);
        let tables = scene::tables(dice, words);
        for _ in FRAMES..CALLS {
            let (feed, bytes, time) = stream(dice, &tables);
            pair.tuned(feed, &tables, &bytes, time);
        }
        for _ in 0..FRAMES {
            frames::tuned(pair, dice, &tables);
        }
    }
}

/// Tables of 128 slots, and around the most slots a table has.
pub fn check_large(pair: &mut Pair, dice: &mut Dice, rounds: u64) {
    pair.tally.part("single arrivals, rows, sides and strips read on tables of 128 slots");
    for _ in 0..rounds {
        let tables = Tables { books: scene::table(dice, 128 * SLOT), strips: scene::strips(dice, 128 * STRIP) };
        for _ in 0..CALLS {
            arrival(pair, dice, &tables);
        }
    }
    pair.tally.part("single arrivals, rows, sides and strips read on tables of 4,095 to 4,097 slots");
    for slots in 4_095..=4_097 {
        full(pair, dice, slots);
        full_strips(pair, dice, slots);
    }
}

/// The same for strips; clearing stops at the 4,096th slot.
fn full_strips(pair: &mut Pair, dice: &mut Dice, slots: usize) {
    let mut tables = Tables::zeros(SLOT, 0);
    for k in 0..slots {
        tables.strips.extend_from_slice(&scene::strip(dice, 1_000 + k as u64));
    }
    tables.strips.extend_from_slice(&[7; 5]);
    let last = (slots - 1) * STRIP;
    for in_last in [0, 700, 999 + slots as u64] {
        tables.strips[last] = in_last;
        for code in [700, 999 + slots as u64, 1_000] {
            for (kind, _) in STRIPS {
                let mut message = scene::strip_message(dice, kind);
                message[4..8].copy_from_slice(&(code as u32).to_le_bytes());
                whole_table(pair, &tables, &message);
            }
            pair.read_strip(&tables.strips, code);
        }
    }
    logons(pair, &tables);
}

/// Both logons that clear.
fn logons(pair: &mut Pair, tables: &Tables) {
    for status in [0, 101] {
        let feed = MmdhFeed { phase: 2, ..LIVE };
        pair.arrive(feed, tables, &exchange::unit(1, 0, &exchange::session(1102, status)), 1);
    }
}

/// The last slot alone is free, or alone has the code, or is one slot too far.
fn full(pair: &mut Pair, dice: &mut Dice, slots: usize) {
    let mut tables = Tables { books: Vec::with_capacity(slots * SLOT + 5), strips: scene::strips(dice, 40) };
    for k in 0..slots {
        tables.books.extend_from_slice(&scene::book(dice, 1_000 + k as u64));
    }
    tables.books.extend_from_slice(&[7; 5]);
    let last = (slots - 1) * SLOT;
    for in_last in [0, 700, 999 + slots as u64] {
        tables.books[last] = in_last;
        for code in [700, 999 + slots as u64, 1_000] {
            let entries = scene::entries(dice, &tables.books, code);
            for entries in [&entries[..], &[Entry { action: CLEAR, ..Entry::default() }], &[]] {
                whole_table(pair, &tables, &exchange::book_message(code as u32, entries));
            }
            pair.read_row(&tables.books, code, dice.below(2), 1);
            pair.read_side(&tables.books, code, dice.below(2));
        }
    }
    logons(pair, &tables);
}

/// A message in Live and the same in Refreshing.
fn whole_table(pair: &mut Pair, tables: &Tables, message: &[u8]) {
    pair.arrive(LIVE, tables, &exchange::unit(1, 1, message), 1);
    pair.arrive_cut(MmdhFeed { phase: 3, whole: 0, ..LIVE }, tables, 1, 0, message, 1);
}

/// One arrival as a stream, then maybe the same message already cut, a row read, a side read, a strip read.
fn arrival(pair: &mut Pair, dice: &mut Dice, tables: &Tables) {
    let (feed, bytes, time) = stream(dice, tables);
    let given = pair.arrive(feed, tables, &bytes, time);
    note(pair, (Call::Arrive, &feed), tables, bytes.get(20..).unwrap_or(&[]), &given);
    if dice.once_in(2) {
        let from = if dice.once_in(10) { dice.place(bytes.len() + 1) } else { 20.min(bytes.len()) };
        let (seq, internal) = scene::numbers(dice, &feed);
        let given = pair.arrive_cut(feed, tables, seq, internal, &bytes[from..], time);
        note(pair, (Call::ArriveCut, &feed), tables, &bytes[from..], &given);
    }
    if dice.once_in(4) {
        pair.read_row(&tables.books, dice.of(&scene::CODES), dice.below(2), 1 + dice.below(10));
        pair.read_strip(&tables.strips, dice.of(&scene::CODES));
    }
    if dice.once_in(16) {
        pair.read_side(&tables.books, dice.of(&scene::CODES), dice.below(2));
    }
}

/// Notes what a message met.
fn note(pair: &mut Pair, (call, feed): (Call, &MmdhFeed), tables: &Tables, message: &[u8], given: &MmdhGiven) {
    falls::note(&mut pair.tally, call, &tables.books, message, given);
    pair.tally.emptying(feed.phase, meets(&tables.books, message), given);
    pair.tally.strip(feed.phase, strips::meets(&tables.strips, message), given);
}

fn stream(dice: &mut Dice, tables: &Tables) -> (MmdhFeed, Vec<u8>, u64) {
    let feed = scene::feed(dice);
    let message = scene::message(dice, feed.phase, &tables.books);
    let (seq, internal) = scene::numbers(dice, &feed);
    let bytes = scene::unit(dice, seq, internal, &message);
    let time = scene::time(dice, feed.heard);
    (feed, bytes, time)
}
