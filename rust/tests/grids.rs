//! Every status, size, phase, truncation and rank, one after the other.

use crate::pair::Pair;
use crate::scene::{self, SESSION, STRIPS};
use crate::tables::Tables;
use exchange::dice::Dice;
use exchange::{book_message, message, session, unit, Entry};
use mmdh::raw::MmdhFeed;

const PHASES: [u64; 10] = [0, 1, 2, 3, 4, 5, 6, 7, 8, u64::MAX];

fn feed(phase: u64, whole: u64, fresh: u64) -> MmdhFeed {
    MmdhFeed { phase, next: 7, internal: 40, heard: 5_000, limit: 1_000, whole, fresh }
}

/// All grids.
pub fn check(pair: &mut Pair, dice: &mut Dice) {
    pair.tally.part("every status of 1102, 1103 and 1202 in every phase");
    statuses(pair, dice);
    pair.tally.part("every type of the session, and sizes from 0, in every phase");
    sizes(pair, dice);
    pair.tally.part("truncations, trailing bytes and heartbeats in every phase");
    lengths(pair, dice);
    pair.tally.part("fields of an entry: every side, level and action");
    fields(pair, dice);
    pair.tally.part("rows read over every code, side and rank");
    rows(pair, dice);
    pair.tally.part("sides read over every code, side and way of being unsound");
    sides(pair, dice);
    pair.tally.part("strips read over every code and way of being unsound");
    strips(pair, dice);
}

fn statuses(pair: &mut Pair, dice: &mut Dice) {
    let tables = scene::tables(dice, 130);
    for phase in PHASES {
        for status in 0..=255 {
            for flags in 0..4 {
                let feed = feed(phase, flags & 1, flags >> 1);
                for kind in [1102, 1103, 1202] {
                    pair.arrive(feed, &tables, &unit(7, 41, &session(kind, status)), 5_000);
                }
            }
        }
    }
}

fn sizes(pair: &mut Pair, dice: &mut Dice) {
    let tables = scene::tables(dice, 128);
    let kinds: Vec<u16> = SESSION.into_iter().chain([53, 60]).chain(STRIPS.map(|(kind, _)| kind)).collect();
    for phase in PHASES {
        for &kind in &kinds {
            for size in 0..110 {
                let mut sent = message(kind, size);
                if size > 11 {
                    sent[4..8].copy_from_slice(&700u32.to_le_bytes());
                    sent[8] = b'B';
                    sent[11] = (size / 24) as u8;
                }
                sent.resize(size.max(4) + 4, 0);
                let internal = if phase == 3 { 0 } else { 41 };
                pair.arrive(feed(phase, 1, 1), &tables, &unit(7, internal, &sent), 5_001);
                pair.arrive_cut(feed(phase, 1, 0), &tables, 7, internal, &sent[..size], 5_001);
                pair.arrive_cut(feed(phase, 1, 0), &tables, 7, internal, &sent[..size + 1], 5_001);
            }
        }
    }
    for size in [65_515, 65_516, 65_517, 65_535, 65_536, 65_548, 70_000] {
        for kind in [60, 40] {
            let sent = message(kind, size);
            pair.arrive(feed(4, 1, 1), &tables, &unit(7, 41, &sent), 5_001);
            pair.arrive_cut(feed(4, 1, 1), &tables, 7, 41, &sent, 5_001);
        }
    }
}

fn lengths(pair: &mut Pair, dice: &mut Dice) {
    let tables = scene::tables(dice, 192);
    let bid = Entry { quantity: 4_000, price: 9_730, orders: 2, level: 1, ..Entry::default() };
    let strip = exchange::imbalance(700, b'S', 4_000);
    let session = [message(1105, 12), session(1102, 0), session(1103, 6)];
    let sent = [&session[..], &[book_message(700, &[bid]), strip, message(60, 52)]].concat();
    for phase in PHASES {
        for message in &sent {
            let mut whole = unit(7, if phase == 3 { 0 } else { 41 }, message);
            whole.extend_from_slice(&[28, 0, 0, 0, 8, 0, 0, 0]);
            for len in 0..=whole.len() {
                pair.arrive(feed(phase, 1, 1), &tables, &whole[..len], 5_000);
                pair.arrive(feed(phase, 1, 1), &tables, &whole[..len], 4_999);
            }
            whole[0] = 20;
            whole[1] = 0;
            for len in 18..=24 {
                pair.arrive(feed(phase, 1, 1), &tables, &whole[..len], u64::MAX);
            }
        }
        for size in 0..=6 {
            let unit = unit(7, 41, &message(1105, size));
            for len in 18..=unit.len() {
                pair.arrive(feed(phase, 1, 1), &tables, &unit[..len], 5_000);
                pair.arrive_cut(feed(phase, 1, 1), &tables, 7, 41, &unit[20.min(len)..len], 5_000);
            }
        }
    }
}

fn fields(pair: &mut Pair, dice: &mut Dice) {
    let books = [scene::book(dice, 700), [0; 64]].concat();
    let tables = Tables { books, strips: scene::strips(dice, 36) };
    for action in 0..=255 {
        for level in 0..=255 {
            let entry = Entry { quantity: 1, price: 9_705, orders: 1, side: u16::from(level) & 1, level, action };
            pair.arrive_cut(feed(4, 1, 1), &tables, 7, 41, &book_message(700, &[entry]), 5_000);
        }
        for side in [0, 1, 2, 255, 256, 257, 65_535] {
            let entry = Entry { side, level: 1, action, ..Entry::default() };
            pair.arrive_cut(feed(3, 0, 1), &tables, 7, 0, &book_message(700, &[entry]), 5_000);
        }
    }
    for code in [0, 1, 700, 99_999, 100_000, 1 << 17, u32::MAX] {
        for entries in [&[][..], &[Entry { level: 1, ..Entry::default() }]] {
            let message = book_message(code, entries);
            pair.arrive_cut(feed(4, 1, 1), &tables, 7, 41, &message, 5_000);
            pair.arrive_cut(feed(3, 0, 1), &tables, 7, 0, &message, 5_000);
        }
    }
}

fn rows(pair: &mut Pair, dice: &mut Dice) {
    for words in [0, 63, 64, 65, 127, 128, 192, 192, 192, 320, 8_192] {
        for _ in 0..40 {
            let table = scene::table(dice, words);
            for code in scene::CODES.into_iter().chain([0, 6, 100_000, (1 << 32) + 700, u64::MAX]) {
                for side in [0, 1, 2, u64::MAX] {
                    for rank in [0, 1, 2, 3, 5, 8, 9, 10, 11, (1 << 32) + 1, u64::MAX] {
                        pair.read_row(&table, code, side, rank);
                    }
                }
            }
        }
    }
}

fn sides(pair: &mut Pair, dice: &mut Dice) {
    for words in [0, 63, 64, 65, 127, 128, 192, 192, 192, 320, 8_192] {
        for _ in 0..40 {
            let table = scene::table(dice, words);
            for code in scene::CODES.into_iter().chain([0, 6, 100_000, (1 << 32) + 700, u64::MAX]) {
                for side in [0, 1, 2, u64::MAX] {
                    pair.read_side(&table, code, side);
                }
            }
        }
    }
    for _ in 0..2_000 {
        let mut book = scene::book(dice, 700);
        scene::spoil(dice, &mut book);
        pair.read_side(&book, 700, dice.below(2));
    }
}

fn strips(pair: &mut Pair, dice: &mut Dice) {
    for words in [0, 11, 12, 13, 23, 24, 36, 36, 60, 71, 1_536] {
        for _ in 0..100 {
            let table = scene::strips(dice, words);
            for code in scene::CODES.into_iter().chain([0, 6, 100_000, (1 << 32) + 700, u64::MAX]) {
                pair.read_strip(&table, code);
            }
        }
    }
    for _ in 0..4_000 {
        let mut strip = scene::strip(dice, 700);
        pair.read_strip(&strip, 700);
        scene::spoil_strip(dice, &mut strip);
        pair.read_strip(&strip, 700);
    }
}
