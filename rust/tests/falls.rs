//! Rows that fell off, at random (request 6 of document 02): which row one entry pushes out, how many messages to full books do by
//! every call, and the rule by which they are counted, told once more.

use crate::fallen::{book, entry, full, new, prices, Sides, WIPE};
use crate::frames;
use crate::pair::{twin_feed, Pair};
use crate::scene::{self, SLOT, STRIP};
use crate::scraps::Stand;
use crate::tables::Tables;
use crate::tally::{Call, Falls, Tally};
use crate::told::{LIVE, OPEN, TAIL, TIME};
use exchange::dice::Dice;
use exchange::{book_message, unit, Entry, CHANGE, CLEAR, DELETE, NEW};
use mmdh::raw::{MmdhFeed, MmdhGiven, ROWS};
use mmdh::{Connect, Line};
use twin::book::{Book, Dropped};

/// Single entries, then streams to full books by every call.
pub fn check(pair: &mut Pair, dice: &mut Dice, rounds: u64) {
    pair.tally.part("one entry to books of all kinds: the row that the twin tells, and the number of the library");
    for _ in 0..rounds {
        one_entry(pair, dice);
    }
    pair.tally.part("random messages to full books by every call, library and tuned twin against twin and rule");
    for _ in 0..rounds {
        crowded(pair, dice);
    }
}

/// One entry to a sound book: the row that the twin tells is the old tenth one exactly where a new level meets ten rows, else
/// zeros; the library counts it, and its words show it gone.
fn one_entry(pair: &mut Pair, dice: &mut Dice) {
    let words = scene::book(dice, 700);
    let entries = scene::entries(dice, &words, 700);
    let (entry, bytes) = match entries.first() {
        Some(entry) => (entry, entry.bytes()),
        None => return,
    };
    let read = twin::book::Entry::read(&bytes);
    let mut book = Book::read(&words).expect("a sound book");
    let told = read.and_then(|read| book.apply(read));
    let message = book_message(700, &[*entry]);
    let before = Tables::of_books(&words);
    let given = pair.arrive_cut(LIVE, &before, 7, 41, &message, TIME);
    let after = pair.after().books.clone();
    let input = || format!("{:?} to {:?}", entry, words);
    pair.tally.same(&(given.answer == 0), &told.is_some(), input);
    let side = usize::from(entry.side & 1);
    let tenth = 4 + 30 * side + 27..34 + 30 * side;
    let falls = given.answer == 0 && entry.action == NEW && words[1 + side] == 10;
    let row = &words[tenth];
    let wanted = match falls {
        true => Dropped {
            whether: true,
            price: (row[0] as i64 - (1 << 31)) as i32,
            quantity: row[1],
            orders: row[2] as u32,
        },
        false => Dropped::default(),
    };
    pair.tally.same(&told.unwrap_or_default(), &wanted, input);
    pair.tally.same(&given.dropped, &u64::from(falls), input);
    let prices = |words: &[u64]| (0..10).map(|at| words[4 + 30 * side + 3 * at]).collect::<Vec<u64>>();
    let gone = falls && !prices(&after).contains(&row[0]);
    pair.tally.same(&gone, &falls, input);
}

/// Random units to books with seven rows a side and more, by every call.
fn crowded(pair: &mut Pair, dice: &mut Dice) {
    let sides = |dice: &mut Dice| [0, 1].map(|side| spaced(side, 7 + dice.place(4)));
    let books = [5, 700].map(|code| book(code, &sides(dice))).concat();
    let tables = Tables { books: [books, vec![0; SLOT + 3]].concat(), strips: TAIL.to_vec() };
    let feed = dice.of(&OPEN).0;
    let sent = 1 + dice.below(5);
    let bytes = frames::stream(dice, feed, &tables, (sent, TIME), |dice, feed, tables| {
        let code = dice.of(&[5, 700, 700, 1]);
        let internal = if feed.phase == 3 { 0 } else { feed.internal + dice.of(&[1, 1, 1, 1, 1, 1, 1, 0]) };
        unit(feed.next as u32, internal as u32, &book_message(code, &crowd(dice, &tables.books, code)))
    });
    let given = pair.arrive(feed, &tables, &bytes, TIME);
    let message = bytes.get(20..).unwrap_or(&[]);
    note(&mut pair.tally, Call::Arrive, &tables.books, message, &given);
    pair.tuned(feed, &tables, &bytes, TIME);
    let size = message.get(..2).map_or(0, |size| usize::from(u16::from_le_bytes([size[0], size[1]])));
    let message = message.get(..size).unwrap_or(message);
    let internal = if feed.phase == 3 { 0 } else { 41 };
    let given = pair.arrive_cut(feed, &tables, 7, internal, message, TIME);
    note(&mut pair.tally, Call::ArriveCut, &tables.books, message, &given);
    let allowed = frames::allowed(dice, sent);
    let (given, _) = pair.frame(feed, &tables, &bytes, allowed, TIME);
    frames::falls(&mut pair.tally, (feed, &tables), (&bytes, TIME), &given);
    pair.tuned_frame(feed, &tables, &bytes, allowed, TIME);
    in_scraps(pair, dice, Stand::new(feed, tables, 1_100), &bytes);
}

/// The stream in two scraps, or three, with some units allowed.
fn in_scraps(pair: &mut Pair, dice: &mut Dice, mut stand: Stand, bytes: &[u8]) {
    let mut rest = bytes;
    for _ in 0..2 + dice.below(2) {
        let (before, allowed) = (stand.clone(), dice.of(&[1, 2, 3, u64::MAX, u64::MAX]));
        let scrap = &rest[..dice.place(rest.len() + 1).max(rest.len().min(60))];
        let heard = stand.scrap(pair, scrap, allowed, TIME);
        let stream = [&before.hold[..before.line.held as usize], scrap].concat();
        let came = Came { answer: heard.answer, accepted: heard.accepted, dropped: heard.dropped };
        let start = (before.line.feed, &before.tables);
        note_units(&mut pair.tally, Call::LineScrap, start, (&stream, TIME), came);
        rest = &rest[heard.used as usize..];
    }
}

/// Rows of a side with room between them.
fn spaced(side: usize, rows: usize) -> Vec<i32> {
    prices(side, rows).into_iter().map(|price| 100 * price).collect()
}

/// Entries for a code, most of them new levels that fit; each meets the sides as those before it left them.
fn crowd(dice: &mut Dice, books: &[u64], code: u32) -> Vec<Entry> {
    let mut sides = sides(books, u64::from(code)).map(|rows| rows.iter().map(|&row| row as i32).collect::<Vec<i32>>());
    let count = 1 + dice.place(6);
    (0..count).map(|_| crowding(dice, &mut sides)).collect()
}

fn crowding(dice: &mut Dice, sides: &mut Sides) -> Entry {
    let side = dice.place(2);
    let rows = &mut sides[side];
    let at = dice.place(rows.len() + 1).min(ROWS - 1);
    match (dice.below(24), rows.get(at).copied()) {
        (0, _) => {
            *sides = full(0);
            WIPE
        }
        (1..=3, Some(_)) => {
            rows.remove(at);
            entry(DELETE, side, at, 0)
        }
        (4 | 5, Some(price)) => entry(CHANGE, side, at, price),
        (6, Some(price)) => new(side, at, price),
        (_, row) => {
            let above = at.checked_sub(1).map(|at| rows[at]);
            let worse = if side == 0 { -500 } else { 500 };
            let price = match (above, row) {
                (Some(above), Some(row)) => above + (row - above) / 2,
                (Some(above), None) => above + worse,
                (None, Some(row)) => row - worse,
                (None, None) => worse,
            };
            rows.insert(at, price);
            rows.truncate(ROWS);
            new(side, at, price)
        }
    }
}

/// What the entries of a book message do to full sides, by the rule alone.
#[derive(Clone, Copy, PartialEq, Eq, Debug, Default)]
struct Fell {
    /// Rows pushed out of the bids and of the offers, as far as the entries fit.
    rows: [u64; 2],
    /// Whether a delete or a clear came behind one.
    kept: bool,
}

/// The rule, for a message of the right size whose fields are listed; nothing of any other.
fn rule(books: &[u64], message: &[u8]) -> Option<Fell> {
    let head = message.get(..12).filter(|head| head[2..4] == [53, 0])?;
    let size = usize::from(u16::from_le_bytes([head[0], head[1]]));
    let entries = message.get(12..size).filter(|entries| entries.len() == 24 * usize::from(head[11]))?;
    let code = u64::from(u32::from_le_bytes([head[4], head[5], head[6], head[7]]));
    let (mut sides, mut fell) = (sides(books, code), Fell::default());
    for entry in entries.chunks_exact(24) {
        if !walked(&mut sides, &mut fell, entry) {
            break;
        }
    }
    Some(fell)
}

/// The prices of a code's bids and offers, best first.
fn sides(books: &[u64], code: u64) -> [Vec<i64>; 2] {
    let slot = books.chunks_exact(SLOT).take(4_096).find(|slot| slot[0] == code).unwrap_or(&[0; SLOT]);
    let side = |side: usize| {
        let rows = slot[4 + 30 * side..].chunks(3).take(slot[1 + side].min(10) as usize);
        rows.map(|row| row[0] as i64 - (1 << 31)).collect()
    };
    [side(0), side(1)]
}

/// One entry, if it fits.
fn walked(sides: &mut [Vec<i64>; 2], fell: &mut Fell, entry: &[u8]) -> bool {
    let (side, at) = (usize::from(entry[16] & 1), usize::from(entry[18]).wrapping_sub(1));
    let price = i64::from(i32::from_le_bytes([entry[8], entry[9], entry[10], entry[11]]));
    let fallen = fell.rows != [0, 0];
    if entry[19] == CLEAR {
        fell.kept |= fallen;
        *sides = [vec![], vec![]];
        return true;
    }
    let rows = &mut sides[side];
    let sign = if side == 0 { -1 } else { 1 };
    let fits = match entry[19] {
        NEW => {
            let above = at == 0 || rows.get(at - 1).map_or(false, |row| sign * row < sign * price);
            above && rows.get(at).map_or(true, |row| sign * price < sign * row)
        }
        CHANGE => rows.get(at) == Some(&price),
        _ => at < rows.len(),
    };
    if fits && entry[19] == NEW {
        rows.insert(at, price);
        fell.rows[side] += u64::from(rows.len() > ROWS);
        rows.truncate(ROWS);
    } else if fits && entry[19] == DELETE {
        fell.kept |= fallen;
        rows.remove(at);
    }
    fits
}

/// Notes what one message pushed out, which was taken or did not fit.
fn note_message(tally: &mut Tally, call: Call, fell: Fell, taken: bool) {
    let [bids, offers] = fell.rows;
    let met = [
        (taken && bids == 1, Falls::OneBid),
        (taken && offers == 1, Falls::OneOffer),
        (taken && bids > 1, Falls::Bids),
        (taken && offers > 1, Falls::Offers),
        (taken && bids > 0 && offers > 0, Falls::Both),
        (taken && fell.kept, Falls::Kept),
        (!taken && bids + offers > 0, Falls::Misfit),
    ];
    met.into_iter().filter(|(met, _)| *met).for_each(|(_, falls)| tally.falls(call, falls));
}

/// Notes what a random book message pushed out of these books by a single call, which must count it as the rule does.
pub fn note(tally: &mut Tally, call: Call, books: &[u64], message: &[u8], given: &MmdhGiven) {
    // 20 bytes are a heartbeat's, whatever stands behind it
    let taken = given.answer == 0 && given.used != 20;
    if let Some(fell) = rule(books, message).filter(|_| taken || given.answer == 16) {
        let wanted = if taken { fell.rows[0] + fell.rows[1] } else { 0 };
        tally.same(&given.dropped, &wanted, || format!("rows dropped by {:02x?}", message));
        note_message(tally, call, fell, taken);
    }
}

/// What a call for several units came to.
#[derive(Clone, Copy)]
pub struct Came {
    pub answer: u64,
    pub accepted: u64,
    pub dropped: u64,
}

/// Notes what random units pushed out of these tables in one call, which must count it as the rule does. Looked at only where
/// rows were dropped or an entry did not fit: else the twin says that there were none.
pub fn note_units(
    tally: &mut Tally,
    call: Call,
    (feed, tables): (MmdhFeed, &Tables),
    (bytes, time): (&[u8], u64),
    came: Came,
) {
    if came.dropped == 0 && came.answer != 16 {
        return;
    }
    let (mut feed, mut tables, mut rest) = (twin_feed(feed), tables.clone(), bytes);
    let (mut sum, mut messages) = (0, 0);
    for _ in 0..came.accepted {
        let fell = rule(&tables.books, rest.get(20..).unwrap_or(&[])).unwrap_or_default();
        let given = twin::arrive(feed, tables.lend_twin(), rest, time);
        feed = given.feed;
        rest = &rest[given.used as usize..];
        let rows = fell.rows[0] + fell.rows[1];
        if (given.answer as u64, given.used != 20) == (0, true) && rows > 0 {
            note_message(tally, call, fell, true);
            sum += rows;
            messages += 1;
        }
    }
    tally.same(&came.dropped, &sum, || format!("rows dropped by {:?} of {:02x?}", call, bytes));
    if came.answer == 16 {
        let fell = rule(&tables.books, rest.get(20..).unwrap_or(&[])).unwrap_or_default();
        note_message(tally, call, fell, false);
    }
    let others = [(messages > 1, Falls::Messages), (sum > 0 && came.answer > 3, Falls::Refused)];
    others.into_iter().filter(|(met, _)| *met).for_each(|(_, falls)| tally.falls(call, falls));
}

/// The streams of the vectors by the cover's line, in pieces, against frames of the twin.
pub fn check_streams(tally: &mut Tally, inputs: &[Vec<u8>]) {
    tally.part("rows that fell off over whole streams, cover against twin");
    let mut all = 0;
    for input in inputs {
        let mut tables = Tables::zeros(128 * SLOT, 128 * STRIP);
        let feed = twin::connect(twin::new(1_000).feed, false, 0).feed;
        let frame = twin::arrive_frame(feed, tables.lend_twin(), input, u64::MAX, 0);
        for largest in [1, 97, usize::MAX] {
            let mut line = Line::new(1_000, 128).expect("a limit of 1,000 is listed");
            line.connect(Connect::Fresh, 0).expect("the first connect");
            let heard: u64 =
                input.chunks(largest).map(|piece| line.hear(piece, 0).map_or(0, |heard| heard.dropped)).sum();
            let got = (line.dropped(), line.units());
            tally.same(&got, &(frame.dropped, frame.accepted), || format!("{} bytes", input.len()));
            // what stands before a refusal in its piece is in the line's count alone
            tally.holds(heard <= line.dropped(), || format!("{} of {}", heard, line.dropped()));
        }
        all += frame.dropped;
    }
    tally.holds(all > 0, || "no stream pushes out a row".to_string());
}
