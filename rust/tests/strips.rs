//! Price strips (request 2 of document 02): types 40, 41, 43, 56 and 62. What must come of them is said here, in answers,
//! feeds and words, and not left to the twin.

use crate::pair::Pair;
use crate::scene::{self, SLOT, STRIP, STRIPS};
use crate::tables::Tables;
use crate::tally::{Finds, StripMeets};
use crate::told::{self, LIVE, OPEN, REFRESHING, TAIL, TIME};
use exchange::dice::Dice;
use exchange::{about, book_message, closing, equilibrium, imbalance, nominal, reference, session, unit, Entry};
use mmdh::raw::{MmdhFeed, MmdhStrip};

/// What a field is.
#[derive(Clone, Copy)]
enum Field {
    Price,
    Quantity,
    Direction,
}

use Field::{Direction, Price, Quantity};

/// The fields of a type: where each begins, what it is, and which value it brings.
type Fields = &'static [(usize, Field, usize)];

const FIELDS: [(u16, Fields); 5] = [
    (40, &[(8, Price, 0)]),
    (41, &[(8, Price, 1), (12, Quantity, 2)]),
    (43, &[(8, Price, 3), (12, Price, 4), (16, Price, 5)]),
    (56, &[(8, Direction, 6), (10, Quantity, 7)]),
    (62, &[(8, Price, 8)]),
];

/// Lengths of tables in random runs, and messages of a run.
const LENGTHS: [usize; 8] = [0, 11, 12, 24, 36, 41, 60, 120];
const MESSAGES: u64 = 12;

/// Cases by hand, then runs over tables of all kinds.
pub fn check(pair: &mut Pair, dice: &mut Dice, runs: u64) {
    pair.tally.part("strip messages by hand: the answer, the feed and every word of both tables");
    by_bytes(pair);
    latest_wins(pair);
    edges(pair);
    codes_and_directions(pair);
    sizes(pair);
    slots(pair);
    unsound(pair);
    not_reached(pair);
    no_room(pair);
    cleared(pair, dice);
    read(pair);
    pair.tally.part("runs with strip messages over tables of all kinds, library and tuned twin against twin and rule");
    for _ in 0..runs {
        run(pair, dice);
    }
}

fn fields(kind: u16) -> Option<Fields> {
    FIELDS.iter().find(|(of, _)| *of == kind).map(|(_, fields)| *fields)
}

/// Values by their numbers, each as the word that is kept of it.
type Values<'a> = &'a [(usize, u64)];

fn number(bytes: &[u8]) -> u64 {
    bytes.iter().rev().fold(0, |number, &byte| 256 * number + u64::from(byte))
}

/// The word that a field brings; the quantity beside a space is another matter.
fn word(message: &[u8], at: usize, field: Field) -> u64 {
    match field {
        Price => (number(&message[at..at + 4]) + (1 << 31)) % (1 << 32),
        Quantity => number(&message[at..at + 8]),
        Direction => number(&message[at..=at]),
    }
}

fn is_space(message: &[u8]) -> bool {
    message[2] == 56 && message[8] == b' '
}

/// What a message of a strip's type meets in a table of strips; nothing of any other message.
pub fn meets(strips: &[u64], message: &[u8]) -> Option<StripMeets> {
    let kind = number(message.get(2..4)?) as u16;
    let size = STRIPS.iter().find(|(of, _)| *of == kind)?.1;
    if number(&message[..2]) != size as u64 {
        return Some(StripMeets { kind, finds: Finds::WrongSize });
    }
    let message = message.get(..size)?;
    let code = number(&message[4..8]);
    let slots = || strips.chunks_exact(STRIP).take(4_096);
    let mut with_code = slots().filter(|slot| slot[0] == code);
    let finds = match with_code.next() {
        _ if !(1..=99_999).contains(&code) => Finds::BadCode,
        _ if kind == 56 && !b"NBS ".contains(&message[8]) => Finds::BadDirection,
        None => match slots().find(|slot| slot[0] == 0) {
            None => Finds::FullTable,
            Some(free) if free.iter().all(|&word| word == 0) => Finds::NoStrip,
            Some(_) => Finds::Litter,
        },
        Some(strip) => match fault(strip) {
            Some(fault) => fault,
            None if with_code.next().is_some() => Finds::TwoSlots,
            None if is_space(message) && strip[9] != 0 => Finds::Space,
            None if fields(kind)?.iter().any(|(_, _, value)| (strip[1] >> value) & 1 == 1) => Finds::OldValue,
            None => Finds::NewValue,
        },
    };
    Some(StripMeets { kind, finds })
}

/// The clause by which a strip is not sound.
fn fault(strip: &[u64]) -> Option<Finds> {
    let come = |value: usize| (strip[1] >> value) & 1 == 1;
    let prices = [0, 1, 3, 4, 5, 8];
    if strip[1] >= 512 {
        Some(Finds::Flags)
    } else if strip[11] != 0 {
        Some(Finds::Spare)
    } else if (0..9).any(|value| !come(value) && strip[2 + value] != 0) {
        Some(Finds::NotCome)
    } else if prices.iter().any(|value| strip[2 + value] >= 1 << 32) {
        Some(Finds::LargePrice)
    } else if come(6) && ![32, 66, 78, 83].contains(&strip[8]) {
        Some(Finds::BadLetter)
    } else {
        None
    }
}

/// The rule: the answer to a message of a strip's type that is not seen, and the table after it.
fn ruled(met: StripMeets, strips: &[u64], message: &[u8]) -> (u64, Vec<u64>) {
    let answer = met.finds.answer();
    let mut after = strips.to_vec();
    if answer == 0 {
        let code = number(&message[4..8]);
        let at = |code: u64| strips.chunks_exact(STRIP).take(4_096).position(|slot| slot[0] == code);
        let k = at(code).or_else(|| at(0)).expect("a slot");
        let slot = &mut after[STRIP * k..STRIP * (k + 1)];
        if slot[0] == 0 {
            slot.fill(0);
            slot[0] = code;
        }
        for &(at, field, value) in fields(met.kind).expect("a strip's type") {
            slot[1] |= 1 << value;
            slot[2 + value] = word(message, at, field);
        }
        if is_space(message) {
            slot[9] = 0;
        }
    }
    (answer, after)
}

/// A strip of values by their numbers.
fn strip(code: u64, values: Values<'_>) -> Vec<u64> {
    let mut slot = vec![0; STRIP];
    slot[0] = code;
    for &(value, word) in values {
        slot[1] |= 1 << value;
        slot[2 + value] = word;
    }
    slot
}

/// A strip in which every value has come.
fn whole(code: u64) -> Vec<u64> {
    let price = |value: usize| (value, (1 << 31) + 9_000 + value as u64);
    strip(
        code,
        &[price(0), price(1), (2, 4_000), price(3), price(4), price(5), (6, u64::from(b'S')), (7, 800), price(8)],
    )
}

fn changed(mut strip: Vec<u64>, at: usize, word: u64) -> Vec<u64> {
    strip[at] = word;
    strip
}

/// Slots beside each other, and words behind the last.
fn table(slots: &[Vec<u64>]) -> Vec<u64> {
    [slots.concat(), TAIL.to_vec()].concat()
}

/// Strips, and beside them books that no strip message looks at: of 700 an unsound one, of 5 a sound one, a free slot that
/// is not zero; or none at all.
fn beside(strips: &[u64], room: bool) -> Tables {
    let mut books = vec![0; 3 * SLOT];
    books[..4].copy_from_slice(&[700, 11, 0, 1]);
    books[SLOT] = 5;
    books[2 * SLOT + 9] = 9;
    books.extend(TAIL);
    Tables { books: if room { books } else { Vec::new() }, strips: strips.to_vec() }
}

/// A message to one feed, with and without books beside the strips: the answer, the feed and every word of the strips.
fn sent(pair: &mut Pair, feed: MmdhFeed, internal: u32, message: &[u8], before: &[u64], answer: u64, after: &[u64]) {
    for room in [true, false] {
        told::sent(pair, feed, internal, message, &beside(before, room), answer, &beside(after, room));
    }
}

/// A message in Live and in Refreshing.
fn taken(pair: &mut Pair, message: &[u8], before: &[u64], answer: u64, after: &[u64]) {
    for (feed, internal) in OPEN {
        sent(pair, feed, internal, message, before, answer, after);
    }
}

/// Each type by its bytes, filler not zero, on a table whose lowest free slot is not zero; and the words it leaves.
fn by_bytes(pair: &mut Pair) {
    const NOMINAL: [u8; 12] = [12, 0, 40, 0, 0xBC, 2, 0, 0, 2, 0x26, 0, 0];
    const IEP: [u8; 20] = [20, 0, 41, 0, 0xBC, 2, 0, 0, 0xFE, 0xD9, 0xFF, 0xFF, 1, 2, 3, 4, 5, 6, 7, 8];
    const BAND: [u8; 20] = [20, 0, 43, 0, 0xBC, 2, 0, 0, 0x28, 0x23, 0, 0, 0xA4, 0x1F, 0, 0, 0xAC, 0x26, 0, 0x80];
    const SURPLUS: [u8; 20] = [20, 0, 56, 0, 0xBC, 2, 0, 0, b'B', 255, 0xA0, 15, 0, 0, 0, 0, 0, 0x80, 32, 255];
    const NONE: [u8; 20] = [20, 0, 56, 0, 0xBC, 2, 0, 0, b' ', 32, 0xA0, 15, 0, 0, 0, 0, 0, 0x80, 32, 255];
    const CLOSING: [u8; 16] = [16, 0, 62, 0, 0xBC, 2, 0, 0, 0xFF, 0xFF, 0xFF, 0x7F, 1, 2, 3, 255];
    let cases: [(&[u8], Values<'_>); 6] = [
        (&NOMINAL, &[(0, 2_147_493_378)]),
        (&IEP, &[(1, 2_147_473_918), (2, 0x0807_0605_0403_0201)]),
        (&BAND, &[(3, 2_147_492_648), (4, 2_147_491_748), (5, 9_900)]),
        (&SURPLUS, &[(6, 66), (7, 0x8000_0000_0000_0FA0)]),
        (&NONE, &[(6, 32), (7, 0)]),
        (&CLOSING, &[(8, 4_294_967_295)]),
    ];
    let litter = changed(changed(strip(0, &[(0, 9)]), 11, 9), 5, 3);
    for (message, values) in cases {
        let slots = |strip: Vec<u64>| table(&[whole(5), strip, vec![0; STRIP], litter.clone()]);
        taken(pair, message, &slots(litter.clone()), 0, &slots(strip(700, values)));
        taken(pair, message, &slots(vec![0; STRIP]), 0, &slots(strip(700, values)));
        let mut over = whole(700);
        values.iter().for_each(|&(value, word)| over[2 + value] = word);
        taken(pair, message, &slots(whole(700)), 0, &slots(over));
    }
}

/// Message after message to one strip: each value is the one that came last.
fn latest_wins(pair: &mut Pair) {
    let price = |price: i64| (price + (1 << 31)) as u64;
    let steps: [(Vec<u8>, Values<'_>); 8] = [
        (nominal(700, -5), &[(0, price(-5))]),
        (imbalance(700, b'S', 400), &[(6, 83), (7, 400)]),
        (equilibrium(700, 9_730, 4_000), &[(1, price(9_730)), (2, 4_000)]),
        (imbalance(700, b'N', 0), &[(6, 78), (7, 0)]),
        (reference(700, [3, 2, 4]), &[(3, price(3)), (4, price(2)), (5, price(4))]),
        (imbalance(700, b' ', u64::MAX), &[(6, 32), (7, 0)]),
        (equilibrium(700, 0, 0), &[(1, price(0)), (2, 0)]),
        (closing(700, 9_700), &[(8, price(9_700))]),
    ];
    let mut slot = strip(700, &[]);
    for (message, values) in steps.iter().chain(&steps) {
        let before = table(&[strip(6, &[]), slot.clone()]);
        for &(value, word) in *values {
            slot[1] |= 1 << value;
            slot[2 + value] = word;
        }
        taken(pair, message, &before, 0, &table(&[strip(6, &[]), slot.clone()]));
    }
    pair.tally.same(&slot[1], &511, || "every value has come".to_string());
}

/// Prices and quantities at the edges of their widths.
fn edges(pair: &mut Pair) {
    let before = table(&[whole(700)]);
    for price in [i32::MIN, i32::MIN + 1, -1, 0, 1, i32::MAX] {
        let word = (i64::from(price) + (1 << 31)) as u64;
        let set = |values: &[usize]| {
            let strip = values.iter().fold(whole(700), |strip, value| changed(strip, 2 + value, word));
            table(&[strip])
        };
        taken(pair, &nominal(700, price), &before, 0, &set(&[0]));
        taken(pair, &equilibrium(700, price, 4_000), &before, 0, &set(&[1]));
        taken(pair, &reference(700, [price; 3]), &before, 0, &set(&[3, 4, 5]));
        taken(pair, &closing(700, price), &before, 0, &set(&[8]));
    }
    for quantity in [0, 1, u64::from(u32::MAX), 1 << 32, 1 << 63, u64::MAX] {
        let volume = table(&[changed(whole(700), 4, quantity)]);
        taken(pair, &equilibrium(700, 9_001, quantity), &before, 0, &volume);
        for direction in [b'N', b'B', b'S', b' '] {
            let strip = changed(whole(700), 8, u64::from(direction));
            let kept = if direction == b' ' { 0 } else { quantity };
            taken(pair, &imbalance(700, direction, quantity), &before, 0, &table(&[changed(strip, 9, kept)]));
        }
    }
}

/// Codes from 1 to 99,999, and of 256 directions four.
fn codes_and_directions(pair: &mut Pair) {
    let before = table(&[whole(700), vec![0; STRIP]]);
    for (kind, size) in STRIPS {
        for code in [0, 100_000, (1 << 24) + 700, u32::MAX] {
            let mut message = about(kind, size, code);
            message[8] = b'N';
            taken(pair, &message, &before, 15, &before);
        }
        for code in [1, 99_999] {
            let mut message = about(kind, size, code);
            message[8] = b'N';
            let met = meets(&before, &message).expect("a strip's type");
            let (answer, after) = ruled(met, &before, &message);
            pair.tally.same(&answer, &0, || format!("type {} for {}", kind, code));
            taken(pair, &message, &before, 0, &after);
        }
    }
    for direction in 0..=255 {
        let listed = [b'N', b'B', b'S', b' '].contains(&direction);
        let kept = if direction == b' ' { 0 } else { 55 };
        let strip = changed(changed(whole(700), 8, u64::from(direction)), 9, kept);
        let after = if listed { table(&[strip, vec![0; STRIP]]) } else { before.clone() };
        taken(pair, &imbalance(700, direction, 55), &before, if listed { 0 } else { 15 }, &after);
        // a bad code with it is the same answer
        taken(pair, &imbalance(0, direction, 55), &before, 15, &before);
    }
}

/// A size that is not the type's is 12 in every phase that is open, whatever its numbers.
fn sizes(pair: &mut Pair) {
    let before = table(&[whole(700), vec![0; STRIP]]);
    for (kind, right) in STRIPS {
        for size in (4..=right + 24).filter(|&size| size != right) {
            let mut message = about(kind, size.max(8), 700);
            message.truncate(size);
            message[0] = size as u8;
            for phase in 1..=4 {
                for (next, internal) in [(7, 0), (7, 41), (9, 0)] {
                    let feed = MmdhFeed { phase, next, ..LIVE };
                    sent(pair, feed, internal, &message, &before, 12, &before);
                }
            }
        }
        // of the right size it is only not allowed before Refreshing
        for phase in 1..=2 {
            let feed = MmdhFeed { phase, ..LIVE };
            sent(pair, feed, 0, &about(kind, right, 700), &before, 14, &before);
        }
    }
}

/// The lowest slot with the code; else the lowest free one.
fn slots(pair: &mut Pair) {
    let other = strip(700, &[(8, 5)]);
    let before = table(&[whole(5), other.clone(), vec![0; STRIP], whole(700), strip(0, &[(0, 1)])]);
    let after = changed(changed(before.clone(), STRIP + 1, 257), STRIP + 2, 1 << 31);
    taken(pair, &nominal(700, 0), &before, 0, &after);
    let after = changed(changed(before.clone(), 2, 1 << 31), 1, 511);
    taken(pair, &nominal(5, 0), &before, 0, &after);
    let slots = [whole(5), other, strip(42, &[(0, 1 << 31)]), whole(700), strip(0, &[(0, 1)])];
    taken(pair, &nominal(42, 0), &before, 0, &table(&slots));
}

/// Places and words that make a whole strip unsound: flags, prices, the direction, the spare word; and a value that has not
/// come.
const FAULTS: [(usize, u64); 17] = [
    (1, 512),
    (1, 1_023),
    (1, u64::MAX),
    (1, 510),
    (1, 255),
    (1, 511 - 64),
    (2, 1 << 32),
    (3, u64::MAX),
    (5, 1 << 32),
    (6, 1 << 63),
    (7, 1 << 32),
    (10, (1 << 32) + 9_000),
    (8, 0),
    (8, 65),
    (8, 256 + 78),
    (11, 1),
    (11, u64::MAX),
];

/// A strip that is not sound is 18 for every type and stays as it is; a later slot with its code does not matter.
fn unsound(pair: &mut Pair) {
    for (at, word) in FAULTS {
        let unsound = changed(whole(700), at, word);
        for (kind, size) in STRIPS {
            let mut message = about(kind, size, 700);
            message[8] = b'N';
            for other in [whole(6), whole(700)] {
                let before = table(&[whole(5), unsound.clone(), other]);
                taken(pair, &message, &before, 18, &before);
            }
            let before = table(&[strip(700, &[]), unsound.clone()]);
            let met = meets(&before, &message).expect("a strip's type");
            let (answer, after) = ruled(met, &before, &message);
            pair.tally.same(&answer, &0, || format!("type {} over {:?}", kind, met));
            taken(pair, &message, &before, 0, &after);
        }
    }
    // a quantity of any size is sound, and one beside a space too
    for sound in [changed(whole(700), 4, u64::MAX), changed(whole(700), 9, u64::MAX), changed(whole(700), 8, 32)] {
        let after = changed(sound.clone(), 10, 1 << 31);
        taken(pair, &closing(700, 0), &table(&[sound]), 0, &table(&[after]));
    }
}

/// What is judged before code and direction: SeqNum, internal number, and whether it was seen. Then nothing is written.
fn not_reached(pair: &mut Pair) {
    let before = table(&[whole(700), changed(whole(5), 11, 1)]);
    for (kind, size) in STRIPS {
        for code in [700, 5, 42, 0, 100_000] {
            let message = about(kind, size, code);
            for internal in [1, 39, 40] {
                sent(pair, LIVE, internal, &message, &before, 1, &before);
            }
            sent(pair, LIVE, 0, &message, &before, 14, &before);
            sent(pair, REFRESHING, 1, &message, &before, 14, &before);
            for (feed, internal) in OPEN {
                sent(pair, MmdhFeed { next: 8, ..feed }, internal, &message, &before, 13, &before);
            }
        }
    }
}

/// 17 by the strips where books are free, and by the books where strips are; a code that has a strip needs no other slot.
fn no_room(pair: &mut Pair) {
    let full = table(&[whole(5), whole(700), whole(100_000)]);
    for strips in [&full[..], &full[..STRIP - 1], &[]] {
        for (kind, size) in STRIPS {
            let mut message = about(kind, size, 42);
            message[8] = b'N';
            taken(pair, &message, strips, 17, strips);
        }
    }
    taken(pair, &closing(700, 9_008 - (1 << 30)), &full, 0, &changed(full.clone(), STRIP + 10, (1 << 30) + 9_008));
    let bid = Entry { quantity: 4_000, price: 9_730, orders: 2, level: 1, ..Entry::default() };
    let mut books_full = Tables { books: vec![0; 2 * SLOT - 1], strips: vec![0; 2 * STRIP] };
    books_full.books[0] = 5;
    let book = book_message(700, &[bid]);
    let given = pair.arrive(LIVE, &books_full, &unit(7, 41, &book), TIME);
    pair.tally.same(&given.answer, &17, || "a book message where the books are full".to_string());
    let given = pair.arrive(LIVE, &books_full, &unit(7, 41, &nominal(700, 0)), TIME);
    pair.tally.same(&given.answer, &0, || "a strip message where the books are full".to_string());
    let strips_full = Tables { books: vec![0; 2 * SLOT], strips: strip(5, &[]) };
    let given = pair.arrive(LIVE, &strips_full, &unit(7, 41, &book), TIME);
    pair.tally.same(&given.answer, &0, || "a book message where the strips are full".to_string());
    pair.tally.same(&pair.after().strips.clone(), &strips_full.strips, || "the strips beside it".to_string());
}

/// An accepted logon that clears zeroes the slots of both tables and nothing behind them; any other leaves both.
fn cleared(pair: &mut Pair, dice: &mut Dice) {
    for (books, strips) in [(0, 0), (63, 11), (64, 12), (200, 41), (333, 60)] {
        let before = Tables { books: scene::table(dice, books), strips: scene::strips(dice, strips) };
        let mut zeroed = before.clone();
        zeroed.books[..books / SLOT * SLOT].fill(0);
        zeroed.strips[..strips / STRIP * STRIP].fill(0);
        for fresh in [0, 1] {
            for status in 0..=255 {
                let feed = MmdhFeed { phase: 2, fresh, ..LIVE };
                let given = pair.arrive_cut(feed, &before, 7, 0, &session(1102, status), TIME);
                let clears = status == 101 || (fresh == 1 && (status == 0 || status == 2));
                let after = pair.after().clone();
                let wanted = if clears { &zeroed } else { &before };
                let input = || format!("status {} fresh {} answer {}", status, fresh, given.answer);
                pair.tally.same(&after, wanted, input);
            }
        }
    }
}

/// What is read of a strip by hand: prices as sent, and 0 for what has not come and with every refusal.
fn read(pair: &mut Pair) {
    let sparse = strip(42, &[(0, 0), (6, 32), (7, 0)]);
    let strips = table(&[whole(700), sparse, changed(whole(5), 11, 1), strip(5, &[]), strip(6, &[]), vec![0; STRIP]]);
    let nothing = MmdhStrip::default();
    let all = MmdhStrip {
        answer: 0,
        flags: 511,
        nominal: 9_000,
        iep: 9_001,
        iev: 4_000,
        reference: 9_003,
        lower: 9_004,
        upper: 9_005,
        direction: 83,
        imbalance: 800,
        closing: 9_008,
    };
    let cases = [
        (700, all),
        (42, MmdhStrip { flags: 193, nominal: -2_147_483_648, direction: 32, ..nothing }),
        (6, nothing),
        (5, MmdhStrip { answer: 18, ..nothing }),
        (43, MmdhStrip { answer: 4, ..nothing }),
        (0, MmdhStrip { answer: 15, ..nothing }),
        (100_000, MmdhStrip { answer: 15, ..nothing }),
        ((1 << 32) + 700, MmdhStrip { answer: 15, ..nothing }),
        (u64::MAX, MmdhStrip { answer: 15, ..nothing }),
    ];
    for (code, wanted) in cases {
        let given = pair.read_strip(&strips, code);
        pair.tally.same(&given, &wanted, || format!("the strip of {}", code));
    }
}

/// One run of strip messages, with book messages between, over a table of all kinds of slots, up to the first refusal: the
/// answer and the tables by the rule, the tuned twin beside it, and what was met is noted.
fn run(pair: &mut Pair, dice: &mut Dice) {
    let mut feed = dice.of(&OPEN).0;
    let words = dice.of(&LENGTHS);
    let mut tables = Tables { books: scene::table(dice, SLOT), strips: scene::strips(dice, words) };
    for _ in 0..MESSAGES {
        let message = if dice.once_in(8) {
            book_message(dice.of(&scene::CODES) as u32, &[])
        } else {
            let kind = dice.of(&STRIPS).0;
            scene::strip_message(dice, kind)
        };
        let seen = feed.phase == 4 && dice.once_in(12);
        let internal = if feed.phase == 4 { feed.internal as u32 + u32::from(!seen) } else { 0 };
        let bytes = unit(feed.next as u32, internal, &message);
        pair.tuned(feed, &tables, &bytes, TIME);
        let given = pair.arrive(feed, &tables, &bytes, TIME);
        let met = meets(&tables.strips, &message);
        pair.tally.strip(feed.phase, met, &given);
        let kept = pair.after().strips == tables.strips;
        match met {
            None => pair.tally.holds(kept, || format!("strips after a book message: {:02x?}", message)),
            Some(met) => {
                let judged = !seen || met.finds == Finds::WrongSize;
                let (answer, strips) =
                    if judged { ruled(met, &tables.strips, &message) } else { (1, tables.strips.clone()) };
                let wanted = (answer, Tables { books: tables.books.clone(), strips });
                let got = (given.answer, pair.after().clone());
                pair.tally.same(&got, &wanted, || format!("{:?}, seen {}: {:02x?}", met, seen, message))
            }
        };
        if given.answer > 2 {
            return;
        }
        feed = given.feed;
        tables.copy(pair.after());
    }
}
