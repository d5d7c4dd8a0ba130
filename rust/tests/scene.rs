//! Random feeds, tables, messages and times, with their edges often.

use crate::tables::Tables;
use exchange::dice::Dice;
use exchange::{Entry, CHANGE, CLEAR, DELETE, NEW};
use mmdh::raw::MmdhFeed;

pub const SLOT: usize = 64;
/// Words of a strip.
pub const STRIP: usize = 12;
const TOP32: u64 = u32::MAX as u64;

/// Codes that messages and tables share.
pub const CODES: [u64; 5] = [1, 5, 700, 2_800, 99_999];
const CODES_OUT: [u64; 6] = [0, 100_000, 100_001, 65_536 + 100_000, TOP32, (1 << 24) + 700];
/// Types with a meaning to the feed.
pub const SESSION: [u16; 7] = [203, 1101, 1102, 1103, 1105, 1201, 1202];
/// Types that bring values to a strip, and their sizes.
pub const STRIPS: [(u16, usize); 5] = [(40, 12), (41, 20), (43, 20), (56, 20), (62, 16)];
/// Types that are passed over, those beside the types of strips among them.
pub const MARKET: [u16; 20] =
    [0, 10, 11, 20, 39, 42, 44, 52, 54, 55, 57, 60, 61, 63, 296, 309, 1100, 1203, 13_568, 65_535];

/// The characters of an imbalance's direction.
const DIRECTIONS: [u8; 4] = [b'N', b'B', b'S', b' '];
/// Others, which are not listed.
const DIRECTIONS_OUT: [u8; 12] = [0, 31, 33, b'A', b'C', b'M', b'O', b'R', b'T', b'n', b'b', 255];

/// A code for a book message, mostly a listed one.
pub fn code(dice: &mut Dice) -> u64 {
    if dice.once_in(30) {
        dice.of(&CODES_OUT)
    } else {
        dice.of(&CODES)
    }
}

/// A feed in any state, likely ones more often.
pub fn feed(dice: &mut Dice) -> MmdhFeed {
    let yes = |dice: &mut Dice| dice.of(&[0, 0, 0, 0, 1, 1, 1, 1, 2, 256, u64::MAX]);
    MmdhFeed {
        phase: if dice.once_in(10) {
            dice.of(&[0, 5, 6, 7, 8, 255, (1 << 32) + 4, u64::MAX])
        } else {
            dice.of(&[1, 2, 2, 3, 3, 4, 4, 4, 4])
        },
        next: if dice.once_in(20) {
            dice.of(&[0, TOP32 + 1, u64::MAX])
        } else {
            dice.of(&[1, 2, 3, 77, 65_536, TOP32 - 1, TOP32])
        },
        internal: if dice.once_in(12) {
            dice.of(&[TOP32, TOP32 + 1, u64::MAX])
        } else {
            dice.of(&[0, 0, 1, 2, 7, 65_535, TOP32 - 1])
        },
        heard: edge(dice),
        limit: dice.of(&[0, 1, 1_000, 5_000, 600_000, 600_001, u64::MAX]),
        whole: yes(dice),
        fresh: yes(dice),
    }
}

/// A 64-bit number, often at an edge.
pub fn edge(dice: &mut Dice) -> u64 {
    match dice.below(4) {
        0 => dice.of(&[0, 1, 1_000, TOP32, TOP32 + 1, 1 << 63, u64::MAX - 1, u64::MAX]),
        1 => dice.any(),
        _ => dice.below(100_000),
    }
}

/// A time for a feed last heard then: mostly not before it.
pub fn time(dice: &mut Dice, heard: u64) -> u64 {
    match dice.below(12) {
        0 => heard.wrapping_sub(1),
        1 => edge(dice),
        2 => u64::MAX,
        _ => heard.saturating_add(dice.below(3)),
    }
}

/// Lengths of strip tables in random calls.
const STRIP_LENGTHS: [usize; 12] = [0, 11, 12, 12, 13, 23, 24, 24, 36, 37, 60, 71];

/// Books in this many words, strips in some, with all kinds of slots.
pub fn tables(dice: &mut Dice, words: usize) -> Tables {
    let books = table(dice, words);
    let words = dice.of(&STRIP_LENGTHS);
    Tables { books, strips: strips(dice, words) }
}

/// A table of strips of this many words with all kinds of slots.
pub fn strips(dice: &mut Dice, words: usize) -> Vec<u64> {
    let mut table = Vec::with_capacity(words + STRIP);
    while table.len() < words {
        table.extend_from_slice(&strip_slot(dice));
    }
    table.truncate(words);
    table
}

fn strip_slot(dice: &mut Dice) -> [u64; STRIP] {
    let code = dice.of(&CODES);
    match dice.below(24) {
        0..=3 => [0; STRIP],
        4 | 5 => {
            let mut slot = strip(dice, 0);
            spoil_strip(dice, &mut slot);
            slot
        }
        6..=10 => {
            let mut slot = strip(dice, code);
            spoil_strip(dice, &mut slot);
            slot
        }
        11 => {
            let code = dice.of(&[100_000, 1 << 40, (1 << 32) + 700, u64::MAX]);
            strip(dice, code)
        }
        12 => {
            let mut slot = [0; STRIP];
            slot.iter_mut().for_each(|word| *word = dice.any() >> dice.below(64));
            slot[0] = dice.of(&[0, code]);
            slot
        }
        _ => strip(dice, code),
    }
}

/// A sound strip.
pub fn strip(dice: &mut Dice, code: u64) -> [u64; STRIP] {
    let flags = (dice.any() & dice.of(&[0, 511, 511, 511])) | dice.of(&[0, 0, 0, 511]);
    let mut slot = [0; STRIP];
    slot[..2].copy_from_slice(&[code, flags]);
    for value in (0..9).filter(|value| (flags >> value) & 1 == 1) {
        slot[2 + value] = match value {
            6 => u64::from(dice.of(&DIRECTIONS)),
            2 | 7 => quantity(dice),
            _ => dice.of(&[0, 1, (1 << 31) - 1, 1 << 31, (1 << 31) + 9_730, TOP32]),
        };
    }
    slot
}

/// Makes a strip unsound, in one of every way.
pub fn spoil_strip(dice: &mut Dice, slot: &mut [u64; STRIP]) {
    let value = dice.place(9);
    match dice.below(6) {
        0 => slot[1] |= dice.of(&[512, 1_024, 1 << 32, 1 << 63]),
        1 => {
            let value = dice.of(&[0, 1, 3, 4, 5, 8]);
            slot[1] |= 1 << value;
            slot[2 + value] = dice.of(&[1 << 32, (1 << 32) + 9_730, 1 << 63, u64::MAX]);
        }
        2 => {
            slot[1] |= 1 << 6;
            slot[8] = dice.of(&[0, 31, 65, 79, 115, 256 + 78, (1 << 32) + 66, u64::MAX]);
        }
        3 => {
            slot[1] &= !(1 << value);
            slot[2 + value] = dice.of(&[1, 32, 78, 1 << 31, u64::MAX]);
        }
        4 => slot[11] = dice.of(&[1, 1 << 63, u64::MAX]),
        _ => {
            slot[1] &= !(1 << 6);
            slot[8] = u64::from(dice.of(&DIRECTIONS));
        }
    }
}

fn quantity(dice: &mut Dice) -> u64 {
    match dice.below(6) {
        0 => dice.any(),
        _ => dice.of(&[0, 1, 4_000, TOP32, TOP32 + 1, u64::MAX]),
    }
}

fn price(dice: &mut Dice) -> i32 {
    match dice.below(6) {
        0 => dice.any() as i32,
        _ => dice.of(&[0, 1, -1, 9_730, i32::MIN, i32::MAX]),
    }
}

fn direction(dice: &mut Dice) -> u8 {
    match dice.below(16) {
        0 => dice.any() as u8,
        1 => dice.of(&DIRECTIONS_OUT),
        _ => dice.of(&DIRECTIONS),
    }
}

/// A message of one of the five types, with any filler; now and then it is a byte too short or too long.
pub fn strip_message(dice: &mut Dice, kind: u16) -> Vec<u8> {
    let code = code(dice) as u32;
    let mut message = match kind {
        40 => exchange::nominal(code, price(dice)),
        41 => exchange::equilibrium(code, price(dice), quantity(dice)),
        43 => exchange::reference(code, [price(dice), price(dice), price(dice)]),
        56 => exchange::imbalance(code, direction(dice), quantity(dice)),
        _ => exchange::closing(code, price(dice)),
    };
    let filler: &[usize] = match kind {
        56 => &[9, 18, 19],
        62 => &[12, 13, 14, 15],
        _ => &[],
    };
    filler.iter().for_each(|&at| message[at] = dice.of(&[0, 32, 255]));
    if dice.once_in(16) {
        let size = message.len() - 1 + 2 * dice.place(2);
        message.resize(size, 0);
        message[0] = size as u8;
    }
    message
}

/// A table of this many words with all kinds of slots.
pub fn table(dice: &mut Dice, words: usize) -> Vec<u64> {
    let mut table = Vec::with_capacity(words + SLOT);
    while table.len() < words {
        table.extend_from_slice(&slot(dice));
    }
    table.truncate(words);
    table
}

fn slot(dice: &mut Dice) -> [u64; SLOT] {
    let code = dice.of(&CODES);
    match dice.below(24) {
        0..=4 => [0; SLOT],
        5 => {
            let mut slot = book(dice, 0);
            spoil(dice, &mut slot);
            slot[0] = 0;
            slot
        }
        6 | 7 => {
            let mut slot = book(dice, code);
            spoil(dice, &mut slot);
            slot
        }
        8 => {
            let code = dice.of(&[100_000, 1 << 40, (1 << 32) + 700, u64::MAX]);
            book(dice, code)
        }
        9 => {
            let mut slot = [0; SLOT];
            slot.iter_mut().for_each(|word| *word = dice.any() >> dice.below(64));
            slot[0] = dice.of(&[0, code]);
            slot
        }
        _ => book(dice, code),
    }
}

/// A sound book.
pub fn book(dice: &mut Dice, code: u64) -> [u64; SLOT] {
    let mut slot = [0; SLOT];
    slot[0] = code;
    for side in 0..2 {
        let count = dice.of(&[0, 0, 1, 2, 3, 4, 5, 6, 7, 8, 9, 9, 10, 10, 10, 10]);
        slot[1 + side] = count as u64;
        let mut prices = rising_prices(dice, count);
        if side == 0 {
            prices.reverse();
        }
        for (at, price) in prices.into_iter().enumerate() {
            let row = 4 + 30 * side + 3 * at;
            slot[row] = price;
            slot[row + 1] = dice.of(&[0, 1, 400, 4_000, u64::MAX]);
            slot[row + 2] = dice.of(&[0, 1, 2, 40, TOP32]);
        }
    }
    slot
}

fn rising_prices(dice: &mut Dice, count: usize) -> Vec<u64> {
    let mut price = dice.of(&[0, 1, (1 << 31) - 20, (1 << 31) + 9_700, (1 << 31) + 9_700, (1 << 32) - 41]);
    let mut prices = Vec::with_capacity(count);
    for _ in 0..count {
        prices.push(price);
        price += 1 + dice.below(4);
    }
    prices
}

/// Makes a book unsound, in one of every way; now and then the words stay sound all the same.
pub fn spoil(dice: &mut Dice, slot: &mut [u64; SLOT]) {
    let side = dice.place(2);
    let first = 4 + 30 * side;
    let count = slot[1 + side] as usize;
    let used = first + 3 * dice.place(count.max(1));
    let unused = first + 3 * (count + dice.place((10 - count).max(1))).min(9);
    match dice.below(14) {
        0 => slot[1 + side] = dice.of(&[11, 12, 255, 1 << 32, (1 << 32) + 1, u64::MAX]),
        1 => slot[1 + side] = count as u64 + 1,
        2 => slot[1 + side] = (count as u64).saturating_sub(1),
        3 => slot[3] = dice.of(&[1, 1 << 63, u64::MAX]),
        4 => slot[unused] = dice.of(&[1, 1 << 31, u64::MAX]),
        5 => slot[unused + 1] = dice.of(&[1, u64::MAX]),
        6 => slot[unused + 2] = dice.of(&[1, u64::MAX]),
        7 => slot[used] = dice.of(&[1 << 32, u64::MAX]),
        8 => slot[used + 2] = dice.of(&[1 << 32, u64::MAX]),
        9 if count >= 2 => slot[first + 3] = slot[first],
        10 if count >= 2 => slot.swap(first, first + 3),
        11 if count >= 2 => slot.swap(first + 3 * count - 3, first + 3 * count - 6),
        12 if count == 10 => slot[first + 27] = slot[first + 24],
        _ => slot[used] += 1,
    }
}

/// The price words of a code's two sides, as far as they can be read.
fn sides(table: &[u64], code: u64) -> [Vec<u32>; 2] {
    let mut sides = [Vec::new(), Vec::new()];
    if let Some(slot) = table.chunks_exact(SLOT).take(4_096).find(|slot| slot[0] == code) {
        for (side, prices) in sides.iter_mut().enumerate() {
            let count = slot[1 + side].min(10) as usize;
            prices.extend((0..count).map(|at| slot[4 + 30 * side + 3 * at] as u32));
        }
    }
    sides
}

/// Entries for a code, most of which fit; the sides move along with them. One list in twenty is empty.
pub fn entries(dice: &mut Dice, table: &[u64], code: u64) -> Vec<Entry> {
    let mut sides = sides(table, code);
    let count = match dice.below(40) {
        0 | 1 => 0,
        2 => dice.place(40),
        _ => 1 + dice.place(4),
    };
    (0..count).map(|_| entry(dice, &mut sides)).collect()
}

fn entry(dice: &mut Dice, sides: &mut [Vec<u32>; 2]) -> Entry {
    let side = dice.place(2);
    let rows = &mut sides[side];
    let n = rows.len();
    let row = if n == 0 { 0 } else { dice.place(n) };
    let at_row = rows.get(row).copied().unwrap_or(1 << 31);
    let (action, at, price) = match dice.below(44) {
        0 => (CLEAR, 0, 0),
        1 => (NEW, n + 1, at_row),
        2 => (NEW, row, at_row),
        3 => (NEW, (row + 1).min(n), at_row),
        4 => (NEW, row, dice.any() as u32),
        5 => (CHANGE, row, at_row ^ 1),
        6 => (CHANGE, n, at_row),
        7 => (DELETE, n, at_row),
        8..=21 => {
            let at = dice.place(n + 1).min(9);
            let price = between(dice, rows, side, at);
            (NEW, at, price)
        }
        22..=32 => (CHANGE, row, at_row),
        _ => (DELETE, row, dice.of(&[at_row, 0, u32::MAX])),
    };
    follow(sides, side, action, at, price);
    let mut entry = Entry {
        quantity: quantity(dice),
        price: (price ^ 0x8000_0000) as i32,
        orders: dice.of(&[0, 1, 2, u32::MAX]),
        side: side as u16,
        level: at as u8 + 1,
        action,
    };
    if action == CLEAR || dice.once_in(60) {
        damage(dice, &mut entry);
    }
    entry
}

/// A price word that fits between the rows at a place, where there is one.
fn between(dice: &mut Dice, rows: &[u32], side: usize, at: usize) -> u32 {
    let above = if at == 0 { None } else { rows.get(at - 1).copied() };
    let below = rows.get(at).copied();
    let (low, high) = if side == 0 { (below, above) } else { (above, below) };
    let step = 1 + dice.below(3) as u32;
    match (low, high) {
        (None, None) => dice.of(&[0, u32::MAX, (1 << 31) + 9_730]),
        (Some(low), None) => low.saturating_add(step),
        (None, Some(high)) => high.saturating_sub(step),
        (Some(low), Some(high)) => low.saturating_add(1).min(high),
    }
}

/// Moves the sides along with an entry that may fit.
fn follow(sides: &mut [Vec<u32>; 2], side: usize, action: u8, at: usize, price: u32) {
    match action {
        CLEAR => sides.iter_mut().for_each(Vec::clear),
        NEW if at <= sides[side].len() => {
            sides[side].insert(at, price);
            sides[side].truncate(10);
        }
        DELETE if at < sides[side].len() => {
            sides[side].remove(at);
        }
        _ => {}
    }
}

/// Side, level or action that are not listed, or any at all in a clear.
fn damage(dice: &mut Dice, entry: &mut Entry) {
    match dice.below(3) {
        0 => entry.side = dice.of(&[2, 9, 256, 257, u16::MAX]),
        1 => entry.level = dice.of(&[0, 11, 128, 255]),
        _ if entry.action != CLEAR => entry.action = dice.of(&[3, 73, 75, 255]),
        _ => entry.level = dice.any() as u8,
    }
}

/// A message that the phase may well allow, over these books.
pub fn message(dice: &mut Dice, phase: u64, table: &[u64]) -> Vec<u8> {
    let kind = match (phase, dice.below(12)) {
        (_, 0) => dice.of(&SESSION),
        (_, 1) => dice.of(&MARKET),
        (_, 2) => dice.of(&STRIPS).0,
        (1, _) => 1105,
        (2, _) => 1102,
        (3, 3) => 203,
        (3, 4) => 1202,
        (_, 5) => 1103,
        (_, 6 | 7) => dice.of(&STRIPS).0,
        _ => 53,
    };
    match kind {
        53 => {
            let code = code(dice);
            let entries = entries(dice, table, code);
            exchange::book_message(code as u32, &entries)
        }
        203 => exchange::refresh_complete(dice.of(&[0, 1, 7, u32::MAX])),
        1102 | 1103 | 1202 => exchange::session(kind, status(dice, kind)),
        40 | 41 | 43 | 56 | 62 => strip_message(dice, kind),
        _ => exchange::message(kind, dice.of(&[4, 5, 8, 12, 30])),
    }
}

fn status(dice: &mut Dice, kind: u16) -> u8 {
    if dice.once_in(6) {
        return dice.any() as u8;
    }
    match kind {
        1102 => dice.of(&[0, 0, 0, 2, 101, 101, 1, 3, 8, 5, 6, 100, 104, 105]),
        1103 => dice.of(&[6, 102, 103]),
        _ => 0,
    }
}

/// The header's two numbers as a feed would have them, mostly.
pub fn numbers(dice: &mut Dice, feed: &MmdhFeed) -> (u32, u32) {
    let seq = if dice.once_in(16) { feed.next.wrapping_add(dice.of(&[1, 2, u64::MAX])) } else { feed.next };
    let internal = match (feed.phase, dice.below(16)) {
        (_, 0) => dice.any() as u32,
        (_, 1) => feed.internal as u32,
        (_, 2) => 0,
        (3, _) => 0,
        _ => feed.internal.wrapping_add(1) as u32,
    };
    (seq as u32, internal)
}

/// A unit of the message, damaged now and then.
pub fn unit(dice: &mut Dice, seq: u32, internal: u32, message: &[u8]) -> Vec<u8> {
    let mut unit = exchange::unit(seq, internal, message);
    unit[12..20].copy_from_slice(&dice.any().to_le_bytes());
    match dice.below(40) {
        0 => unit[0..2].copy_from_slice(&20u16.to_le_bytes()),
        1 => unit[0..2].copy_from_slice(&dice.of(&[0u16, 19, 21, 276, u16::MAX]).to_le_bytes()),
        2 => unit.truncate(dice.place(unit.len() + 1)),
        3 => {
            let at = dice.place(unit.len());
            unit[at] = dice.any() as u8;
        }
        4 => {
            let size = (message.len() as u64).wrapping_add(dice.of(&[1, 2, 24, u64::MAX, u64::MAX - 3])) as u16;
            unit[20..22].copy_from_slice(&size.to_le_bytes());
            unit.extend_from_slice(&[0; 24]);
        }
        5 => unit[20..22].copy_from_slice(&(dice.below(5) as u16).to_le_bytes()),
        6 if unit.len() > 31 => unit[31] = dice.any() as u8 & 7,
        7..=14 => unit.extend_from_slice(&[20, 0, 7, 255]),
        _ => {}
    }
    unit
}
