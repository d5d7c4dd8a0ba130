//! NoEntries 0 (request 1 of document 02): the code's book is emptied. What must come of it is said here, in answers,
//! feeds and words, and not left to the twin.

use crate::pair::Pair;
use crate::scene::{self, SLOT, STRIP};
use crate::tables::Tables;
use crate::tally::Meets;
use crate::told::{self, LIVE, OPEN, REFRESHING, TAIL, TIME};
use exchange::dice::Dice;
use exchange::{book_message, message, session, unit, Entry, CHANGE, DELETE};
use mmdh::raw::{self, MmdhFeed, MmdhGiven};
use twin::book::Book;

/// Books, and beside them strips that no book message looks at: of 700 a sound one, of 5 an unsound one, a free slot that is
/// not zero.
fn beside(books: &[u64]) -> Tables {
    let mut strips = vec![0; 3 * STRIP];
    strips[..3].copy_from_slice(&[700, 1, (1 << 31) + 9_730]);
    strips[STRIP..STRIP + 2].copy_from_slice(&[5, 512]);
    strips[2 * STRIP + 1] = 9;
    strips.extend(TAIL);
    Tables { books: books.to_vec(), strips }
}

/// Lengths of tables in random runs, and messages of a run.
const LENGTHS: [usize; 8] = [0, 63, 64, 128, 192, 200, 320, 640];
const MESSAGES: u64 = 12;

/// Cases by hand, then runs over tables of all kinds.
pub fn check(pair: &mut Pair, dice: &mut Dice, runs: u64) {
    pair.tally.part("NoEntries 0 by hand: the answer, the feed and every word");
    sound_books(pair);
    no_book(pair);
    unsound_books(pair);
    not_reached(pair);
    filled_again(pair);
    resumed(pair);
    spoilt(pair);
    pair.tally.part("runs with NoEntries 0 over tables of all kinds, library and tuned twin against twin and rule");
    for _ in 0..runs {
        run(pair, dice);
    }
}

/// What a book message without entries meets in a table; nothing of any other message.
pub fn meets(table: &[u64], message: &[u8]) -> Option<Meets> {
    let head = message.get(..12).filter(|head| head[..4] == [12, 0, 53, 0] && head[11] == 0)?;
    let code = u64::from(u32::from_le_bytes([head[4], head[5], head[6], head[7]]));
    let slots = || table.chunks_exact(SLOT).take(4_096);
    let mut with_code = slots().filter(|slot| slot[0] == code);
    Some(match with_code.next() {
        _ if !(1..=99_999).contains(&code) => Meets::BadCode,
        None if slots().all(|slot| slot[0] != 0) => Meets::FullTable,
        None => Meets::NoBook,
        Some(book) if Book::read(book).is_none() => Meets::Unsound,
        Some(_) if with_code.next().is_some() => Meets::TwoSlots,
        Some(book) if book[1..3] == [0, 0] => Meets::NoRows,
        Some(_) => Meets::Rows,
    })
}

/// The rule: the answer to a message without entries that is not seen, and the table after it.
fn ruled(meets: Meets, table: &[u64], code: u64) -> (u64, Vec<u64>) {
    let lowest = table.chunks_exact(SLOT).position(|slot| slot[0] == code);
    match (meets, lowest) {
        (Meets::BadCode, _) => (15, table.to_vec()),
        (Meets::Unsound, _) => (18, table.to_vec()),
        (Meets::Rows | Meets::NoRows | Meets::TwoSlots, Some(k)) => (0, without(table, k)),
        _ => (0, table.to_vec()),
    }
}

/// The table with the book in one slot emptied: all of the slot but its code is zero.
fn without(table: &[u64], k: usize) -> Vec<u64> {
    let mut after = table.to_vec();
    after[SLOT * k + 1..SLOT * (k + 1)].fill(0);
    after
}

/// A book of so many bids and offers.
fn book(code: u64, bids: usize, offers: usize) -> Vec<u64> {
    let mut slot = vec![0; SLOT];
    slot[..3].copy_from_slice(&[code, bids as u64, offers as u64]);
    for at in 0..bids {
        slot[4 + 3 * at..7 + 3 * at].copy_from_slice(&[(1 << 31) + 9_730 - at as u64, 4_000 + at as u64, 2]);
    }
    for at in 0..offers {
        slot[34 + 3 * at..37 + 3 * at].copy_from_slice(&[(1 << 31) + 9_740 + at as u64, 400, 1 + at as u64]);
    }
    slot
}

/// A book with one word changed.
fn changed(mut book: Vec<u64>, at: usize, word: u64) -> Vec<u64> {
    book[at] = word;
    book
}

/// Slots beside each other, and words behind the last.
fn table(slots: &[Vec<u64>]) -> Vec<u64> {
    [slots.concat(), TAIL.to_vec()].concat()
}

/// A message to one feed: the answer, the feed and every word of the books.
fn sent(pair: &mut Pair, feed: MmdhFeed, internal: u32, message: &[u8], before: &[u64], answer: u64, after: &[u64]) {
    told::sent(pair, feed, internal, message, &beside(before), answer, &beside(after));
}

/// NoEntries 0 for a code, in Live and in Refreshing.
fn emptied(pair: &mut Pair, code: u32, before: &[u64], answer: u64, after: &[u64]) {
    for (feed, internal) in OPEN {
        sent(pair, feed, internal, &book_message(code, &[]), before, answer, after);
    }
}

/// The lowest slot with the code is emptied and stays; every other word is as it was.
fn sound_books(pair: &mut Pair) {
    let zero_row = changed(book(6, 2, 2), 1, 3);
    let slots = [book(5, 2, 1), book(700, 10, 10), vec![0; SLOT], book(700, 1, 3), book(99_999, 0, 4), book(1, 4, 0)];
    let before = table(&[&slots[..], &[zero_row]].concat());
    for (code, k) in [(5, 0), (700, 1), (99_999, 4), (1, 5), (6, 6)] {
        let after = without(&before, k);
        emptied(pair, code, &before, 0, &after);
        // once more: there is nothing left to empty
        emptied(pair, code, &after, 0, &after);
        for side in 0..2 {
            let read = raw::read_side(&after, u64::from(code), side);
            pair.tally.same(&(read.answer, read.count), &(0, 0), || format!("a side of the emptied book of {}", code));
        }
    }
}

/// A code without a book takes no slot, and is not refused where no slot is free.
fn no_book(pair: &mut Pair) {
    let littered = changed(book(0, 3, 3), 3, 9);
    let free = table(&[book(5, 2, 1), vec![0; SLOT], littered]);
    let full = table(&[book(5, 2, 1), book(700, 10, 10), book(100_000, 1, 1)]);
    for before in [&free[..], &full, &full[..SLOT - 1], &[]] {
        for code in [42, 99_999] {
            emptied(pair, code, before, 0, before);
        }
        for code in [0, 100_000, (1 << 24) + 700, u32::MAX] {
            emptied(pair, code, before, 15, before);
        }
    }
}

/// Places and words that make a book of two bids and two offers unsound: counts, the word that is zero, an unused row,
/// prices and orders too large, bids that do not fall, offers that do not rise.
const FAULTS: [(usize, u64); 12] = [
    (1, 11),
    (2, u64::MAX),
    (1, 1),
    (2, 3),
    (3, 1),
    (10, 1),
    (11, 1),
    (63, 1),
    (4, 1 << 32),
    (36, 1 << 32),
    (7, u32::MAX as u64),
    (37, 0),
];

/// A book that is not sound is 18 and stays as it is; a second slot with its code, sound or not, does not matter.
fn unsound_books(pair: &mut Pair) {
    let others = [book(6, 1, 1), book(700, 3, 3)];
    for (at, word) in FAULTS {
        let unsound = changed(book(700, 2, 2), at, word);
        for other in &others {
            let before = table(&[book(5, 1, 1), unsound.clone(), other.clone()]);
            emptied(pair, 700, &before, 18, &before);
        }
        let before = table(&[book(700, 3, 3), unsound]);
        emptied(pair, 700, &before, 0, &without(&before, 0));
    }
    // no rows, and not sound all the same
    let before = table(&[changed(book(700, 0, 0), 63, 1)]);
    emptied(pair, 700, &before, 18, &before);
}

/// What is judged before the code: size, SeqNum, internal number, and whether it was seen. Then nothing is emptied.
fn not_reached(pair: &mut Pair) {
    let before = table(&[book(700, 3, 3), changed(book(5, 1, 1), 3, 1)]);
    for code in [700, 5, 42, 0, 100_000] {
        let empty = book_message(code, &[]);
        for internal in [1, 39, 40] {
            sent(pair, LIVE, internal, &empty, &before, 1, &before);
        }
        sent(pair, LIVE, 0, &empty, &before, 14, &before);
        sent(pair, REFRESHING, 1, &empty, &before, 14, &before);
        // an entry that is not announced, and one that is announced and not there
        let longer = [&[36], &empty[1..], &[0; 24]].concat();
        let shorter = [&empty[..11], &[1]].concat();
        for (feed, internal) in OPEN {
            sent(pair, feed, internal, &longer, &before, 12, &before);
            sent(pair, feed, internal, &shorter, &before, 12, &before);
            sent(pair, MmdhFeed { next: 8, ..feed }, internal, &empty, &before, 13, &before);
        }
    }
}

/// An emptied book is like a new one: only a new level 1 fits it, on either side.
fn filled_again(pair: &mut Pair) {
    let bid = Entry { quantity: 4_000, price: 9_730, orders: 2, level: 1, ..Entry::default() };
    let offer = Entry { quantity: 400, price: 9_740, orders: 1, side: 1, ..bid };
    let empty = table(&[book(5, 2, 1), book(700, 0, 0), book(6, 1, 1)]);
    let with = |bids, offers| table(&[book(5, 2, 1), book(700, bids, offers), book(6, 1, 1)]);
    for (feed, internal) in OPEN {
        let mut follows = |entries: &[Entry], answer, after: &[u64]| {
            sent(pair, feed, internal, &book_message(700, entries), &empty, answer, after);
        };
        follows(&[bid], 0, &with(1, 0));
        follows(&[offer], 0, &with(0, 1));
        follows(&[bid, offer], 0, &with(1, 1));
        for entry in [Entry { level: 2, ..bid }, Entry { action: CHANGE, ..bid }, Entry { action: DELETE, ..offer }] {
            follows(&[entry], 16, &empty);
        }
    }
}

/// A feed and its tables, message after message.
struct Walk {
    feed: MmdhFeed,
    tables: Tables,
}

impl Walk {
    fn connect(&mut self, pair: &mut Pair, resuming: u64) -> u64 {
        let given = pair.connect(self.feed, resuming, TIME);
        self.feed = given.feed;
        given.answer
    }

    /// The next message; its answer.
    fn send(&mut self, pair: &mut Pair, internal: u32, message: &[u8]) -> u64 {
        self.arrive(pair, internal, message).answer
    }

    fn arrive(&mut self, pair: &mut Pair, internal: u32, message: &[u8]) -> MmdhGiven {
        let given = pair.arrive(self.feed, &self.tables, &unit(self.feed.next as u32, internal, message), TIME);
        self.feed = given.feed;
        self.tables.copy(pair.after());
        given
    }

    /// A connect, the key, a logon with status 0, and messages by their internal numbers; the answers.
    fn session(&mut self, pair: &mut Pair, resuming: u64, messages: &[(u32, Vec<u8>)]) -> Vec<u64> {
        let log_on = [(0, message(1105, 532)), (0, session(1102, 0))];
        let connected = self.connect(pair, resuming);
        let answers = log_on.iter().chain(messages).map(|(internal, message)| self.send(pair, *internal, message));
        std::iter::once(connected).chain(answers).collect()
    }
}

/// A new level 1 of bids for code 700.
fn first_bid() -> Vec<u8> {
    book_message(700, &[Entry { quantity: 4_000, price: 9_730, orders: 2, level: 1, ..Entry::default() }])
}

/// A book emptied twice stays so over a resuming connect; the message that emptied it is Seen when it comes again, and then
/// empties nothing.
fn resumed(pair: &mut Pair) {
    let empty = |code| book_message(code, &[]);
    let mut walk = Walk { feed: raw::new(1_000).feed, tables: Tables::zeros(2 * SLOT, 0) };
    let answers = walk.session(pair, 0, &[(1, empty(700)), (2, first_bid()), (3, empty(700)), (4, empty(700))]);
    pair.tally.same(&answers, &vec![0; 7], || "filled, and emptied twice".to_string());
    let kept = [book(700, 0, 0), vec![0; SLOT]].concat();
    pair.tally.same(&walk.tables.books, &kept, || "the slot stays its own, and no other is taken".to_string());
    let answers = walk.session(pair, 1, &[(3, empty(700)), (4, empty(700))]);
    pair.tally.same(&answers, &vec![0, 0, 0, 1, 1], || "a resuming connect".to_string());
    pair.tally.same(&walk.tables.books, &kept, || "still empty after a resuming connect".to_string());
    let answers = [walk.send(pair, 5, &first_bid()), walk.send(pair, 4, &empty(700))];
    let filled = [book(700, 1, 0), vec![0; SLOT]].concat();
    pair.tally.same(&(answers, &walk.tables.books), &([0, 1], &filled), || "filled again, and Seen".to_string());
}

/// After an 18 nothing whole is left to resume from; a fresh logon clears the table, and the message is then one for a code
/// without a book.
fn spoilt(pair: &mut Pair) {
    let unsound = changed(book(700, 1, 0), 3, 1);
    let mut walk = Walk { feed: LIVE, tables: Tables::of_books(&unsound) };
    let empty = book_message(700, &[]);
    let answers = [walk.send(pair, 41, &empty), walk.send(pair, 41, &empty), walk.connect(pair, 1)];
    pair.tally.same(&(answers, &walk.tables.books), &([18, 11, 20], &unsound), || "an unsound book".to_string());
    let answers = walk.session(pair, 0, &[(1, empty), (2, first_bid())]);
    pair.tally.same(&answers, &vec![0; 5], || "a fresh connect".to_string());
    pair.tally.same(&walk.tables.books, &book(700, 1, 0), || "the book after a fresh connect".to_string());
}

/// Book messages to a random table until one is refused, half of them without entries.
fn run(pair: &mut Pair, dice: &mut Dice) {
    let words = dice.of(&LENGTHS);
    let mut walk = Walk { feed: dice.of(&OPEN).0, tables: scene::tables(dice, words) };
    for _ in 0..MESSAGES {
        let code = scene::code(dice);
        let entries = if dice.once_in(2) { Vec::new() } else { scene::entries(dice, &walk.tables.books, code) };
        let message = book_message(code as u32, &entries);
        let seen = walk.feed.phase == 4 && dice.once_in(12);
        let internal = if walk.feed.phase == 4 { walk.feed.internal as u32 + u32::from(!seen) } else { 0 };
        let before = walk.tables.clone();
        pair.tuned(walk.feed, &before, &unit(walk.feed.next as u32, internal, &message), TIME);
        let (phase, met) = (walk.feed.phase, meets(&before.books, &message));
        let given = walk.arrive(pair, internal, &message);
        pair.tally.emptying(phase, met, &given);
        if let Some(meets) = met {
            let (answer, books) = if seen { (1, before.books) } else { ruled(meets, &before.books, code) };
            let wanted = (answer, &Tables { books, strips: before.strips });
            let good = (given.answer, &walk.tables) == wanted;
            pair.tally.holds(good, || format!("{:?}, seen {}: {} for {}", meets, seen, given.answer, answer));
        }
        if given.answer > 2 {
            return;
        }
    }
}
