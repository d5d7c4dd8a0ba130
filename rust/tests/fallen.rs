//! Rows that fell off (request 6 of document 02): a new level that meets ten rows pushes out the tenth. How many one message
//! pushes out, and all of a frame or of scraps, is said here, and not left to the twin.

use crate::frames::HEARTBEAT;
use crate::pair::Pair;
use crate::scene::{SLOT, STRIPS};
use crate::scraps::Stand;
use crate::tables::Tables;
use crate::told::{self, LIVE, OPEN, TAIL, TIME};
use exchange::{about, book_message, message, refresh_complete, session, unit, Entry, CHANGE, CLEAR, DELETE, NEW};
use mmdh::raw::{MmdhFeed, ROWS};

/// The prices of the bids and of the offers, best first; the other numbers of a row go by its price.
pub type Sides = [Vec<i32>; 2];

/// Cases by hand.
pub fn check(pair: &mut Pair) {
    pair.tally.part("rows that fell off, by hand: how many of every call, and every word");
    ranks(pair);
    several(pair);
    misfits(pair);
    refusals(pair);
    none(pair);
    streams(pair);
    connects(pair);
}

/// The first rows of a side.
pub fn prices(side: usize, rows: usize) -> Vec<i32> {
    (0..rows as i32).map(|at| if side == 0 { 40 - 10 * at } else { 10 * at - 40 }).collect()
}

/// Both sides with so many rows.
pub fn full(rows: usize) -> Sides {
    [prices(0, rows), prices(1, rows)]
}

/// The price of a new level at a place of [`prices`], counted from 0: between the row there and the one before it.
fn between(side: usize, at: usize) -> i32 {
    let of = 40 - 10 * at as i32 + 5;
    if side == 0 {
        of
    } else {
        -of
    }
}

/// An entry for a place, counted from 0.
pub fn entry(action: u8, side: usize, at: usize, price: i32) -> Entry {
    let (quantity, orders) = ((4_000 + price) as u64, (200 + price) as u32);
    Entry { quantity, price, orders, side: side as u16, level: at as u8 + 1, action }
}

/// A new level at a place.
pub fn new(side: usize, at: usize, price: i32) -> Entry {
    entry(NEW, side, at, price)
}

/// A clear; nothing but its action is looked at.
pub const WIPE: Entry = Entry { quantity: 7, price: 7, orders: 7, side: 9, level: 0, action: CLEAR };

/// The words of a book.
pub fn book(code: u64, sides: &Sides) -> Vec<u64> {
    let mut words = vec![code, sides[0].len() as u64, sides[1].len() as u64, 0];
    for side in sides {
        for &price in side {
            let row = new(0, 0, price);
            words.extend([(1 << 31) + i64::from(price), row.quantity as i64, i64::from(row.orders)].map(|w| w as u64));
        }
        words.resize(words.len() + 3 * (ROWS - side.len()), 0);
    }
    words
}

/// The book of 700 between two others that are full, and words behind the slots.
fn table(sides: &Sides) -> Tables {
    let books = [book(5, &full(ROWS)), book(700, sides), book(6, &full(ROWS)), TAIL.to_vec()].concat();
    Tables { books, strips: TAIL.to_vec() }
}

/// A message for the book of 700 with these sides: its answer, how many rows it pushes out, and the sides after it; as a
/// stream, already cut, in a frame and in scraps, in Live and in Refreshing.
fn sent(pair: &mut Pair, before: &Sides, entries: &[Entry], (answer, dropped): (u64, u64), after: &Sides) {
    let (message, before, after) = (book_message(700, entries), table(before), table(after));
    for (feed, internal) in OPEN {
        told::dropping(pair, (feed, internal), &message, &before, (answer, dropped), &after);
        let bytes = unit(7, internal, &message);
        pair.tuned(feed, &before, &bytes, TIME);
        let stream = [&HEARTBEAT[..], &bytes, &HEARTBEAT].concat();
        let (frame, _) = pair.frame(feed, &before, &stream, u64::MAX, TIME);
        let input = || format!("{:?} to {:?}", entries, feed);
        let last = if answer == 0 { 3 } else { answer };
        pair.tally.same(&(frame.answer, frame.dropped), &(last, dropped), input);
        for at in [0, 1, 21, 60, stream.len() - 1].map(|at| at.min(stream.len())) {
            let mut stand = Stand::new(feed, before.clone(), 6_200);
            let fell = [&stream[..at], &[], &stream[at..]].map(|scrap| stand.hear(pair, scrap, u64::MAX, TIME).2);
            pair.tally.same(&(fell.iter().sum(), &stand.tables), &(dropped, &after), input);
        }
    }
}

/// A new level at every rank of sides of every length: the tenth row goes where there are ten, whatever the rank.
fn ranks(pair: &mut Pair) {
    for rows in 0..=ROWS {
        for side in 0..2 {
            for at in 0..=rows.min(ROWS - 1) {
                let before = full(rows);
                let mut after = before.clone();
                after[side].insert(at, between(side, at));
                after[side].truncate(ROWS);
                let dropped = u64::from(rows == ROWS);
                sent(pair, &before, &[new(side, at, between(side, at))], (0, dropped), &after);
            }
        }
    }
}

/// Several entries of one message, each meeting the book as those before it left it: what they push out, and the sides.
fn several(pair: &mut Pair) {
    let ten = full(ROWS);
    let [bids, offers] = &ten;
    let first = |more: &[i32], rows: &[i32]| [more, rows].concat()[..ROWS].to_vec();
    // three new levels: 3, on one side and over both
    for entries in [[new(0, 0, 45), new(0, 0, 46), new(0, 0, 47)], [new(0, 0, 47), new(0, 1, 46), new(0, 2, 45)]] {
        sent(pair, &ten, &entries, (0, 3), &[first(&[47, 46, 45], bids), offers.clone()]);
    }
    let entries = [new(1, 9, 45), new(0, 0, 45), new(1, 0, -45)];
    sent(pair, &ten, &entries, (0, 3), &[first(&[45], bids), first(&[-45], offers)]);
    // what was new goes as the old rows do
    let entries = [new(0, 9, -45), new(0, 9, -44), new(0, 9, -43)];
    sent(pair, &ten, &entries, (0, 3), &[[&bids[..9], &[-43]].concat(), offers.clone()]);
    // nine rows: the first finds room
    let entries = [new(0, 0, 45), new(0, 0, 46), new(1, 0, -45)];
    sent(pair, &full(9), &entries, (0, 1), &[first(&[46, 45], bids), first(&[-45], offers)]);
    // new, delete, new: the delete takes none back, and makes room
    for gone in [0, 4, 9] {
        let mut after = first(&[45], bids);
        after.remove(gone);
        let delete = entry(DELETE, 0, gone, 0);
        sent(pair, &ten, &[new(0, 0, 45), delete], (0, 1), &[after.clone(), offers.clone()]);
        after.insert(0, 47);
        sent(pair, &ten, &[new(0, 0, 45), delete, new(0, 0, 47)], (0, 1), &[after.clone(), offers.clone()]);
        after.insert(0, 48);
        after.truncate(ROWS);
        let entries = [new(0, 0, 45), delete, new(0, 0, 47), new(0, 0, 48)];
        sent(pair, &ten, &entries, (0, 2), &[after, offers.clone()]);
    }
    // the delete of the very row that was new, and one on the other side
    let delete = |side, at| entry(DELETE, side, at, 0);
    sent(pair, &ten, &[new(1, 0, -45), delete(1, 0)], (0, 1), &[bids.clone(), offers[..9].to_vec()]);
    let mut after = [first(&[45], bids), offers[1..].to_vec()];
    sent(pair, &ten, &[new(0, 0, 45), delete(1, 0)], (0, 1), &after);
    sent(pair, &ten, &[delete(1, 0), new(0, 0, 45)], (0, 1), &after);
    // a delete before the new level makes room for it
    after = [[&[45], &bids[1..]].concat(), offers.clone()];
    sent(pair, &ten, &[delete(0, 0), new(0, 0, 45)], (0, 0), &after);
    // a change between two
    let entries = [new(0, 0, 45), entry(CHANGE, 0, 1, 40), new(0, 0, 46)];
    sent(pair, &ten, &entries, (0, 2), &[first(&[46, 45], bids), offers.clone()]);
    // a clear takes none back either, wherever it stands
    let empty = full(0);
    sent(pair, &ten, &[new(0, 0, 45), WIPE], (0, 1), &empty);
    sent(pair, &ten, &[new(0, 0, 45), new(1, 0, -45), WIPE, new(1, 0, 3)], (0, 2), &[vec![], vec![3]]);
    sent(pair, &ten, &[WIPE, new(0, 0, 45)], (0, 0), &[vec![45], vec![]]);
    // eleven and more of one message, behind a clear or in an empty book
    let fill: Vec<Entry> = (0..13).map(|at| new(1, 0, -at)).collect();
    let after = [vec![], (3..13).rev().map(|at| -at).collect()];
    sent(pair, &empty, &fill, (0, 3), &after);
    sent(pair, &ten, &[&[new(0, 9, -45), WIPE], &fill[..]].concat(), (0, 4), &after);
    // as many as a message can have
    let most: Vec<Entry> = (0..255).map(|at| new(0, 0, 100 + at)).collect();
    sent(pair, &ten, &most, (0, 255), &[(345..355).rev().collect(), offers.clone()]);
}

/// Two that push out rows, then one that does not fit: 16, and none is counted, as nothing is applied.
fn misfits(pair: &mut Pair) {
    let ten = full(ROWS);
    let two = [new(0, 0, 45), new(1, 0, -45)];
    let better = |side: usize, price| [&[price], &ten[side][..9]].concat();
    sent(pair, &ten, &two, (0, 2), &[better(0, 45), better(1, -45)]);
    let bad = [
        new(0, 0, 45),
        new(0, 3, 99),
        new(1, 9, -99),
        entry(CHANGE, 0, 0, 40),
        entry(CHANGE, 1, 9, 50),
        new(0, 9, -50),
    ];
    for entry in bad {
        sent(pair, &ten, &[&two[..], &[entry]].concat(), (16, 0), &ten);
        // what would have pushed out more behind it is not looked at
        sent(pair, &ten, &[&two[..], &[entry, new(0, 0, 46)]].concat(), (16, 0), &ten);
    }
    let emptied = [&two[..], &[WIPE, entry(DELETE, 0, 0, 0)]].concat();
    sent(pair, &ten, &emptied, (16, 0), &ten);
    // a field that is not listed is judged before any book is looked at
    for bad in [Entry { level: 11, ..two[0] }, Entry { side: 2, ..two[0] }, Entry { action: 3, ..two[0] }] {
        sent(pair, &ten, &[&two[..], &[bad]].concat(), (15, 0), &ten);
    }
}

/// A message that would push out a row, and all that keeps it from being taken.
fn refusals(pair: &mut Pair) {
    let before = table(&full(ROWS));
    let pushes = [new(0, 0, 45), new(1, 0, -45)];
    let message = book_message(700, &pushes);
    let mut cases = vec![
        (LIVE, unit(7, 40, &message), 1),
        (LIVE, unit(7, 1, &message), 1),
        (LIVE, unit(8, 41, &message), 13),
        (LIVE, unit(7, 0, &message), 14),
        (LIVE, unit(7, 41, &book_message(0, &pushes)), 15),
        (LIVE, unit(7, 41, &[&[61], &message[1..], &[0]].concat()), 12),
        (MmdhFeed { heard: TIME + 1, ..LIVE }, unit(7, 41, &message), 10),
        (MmdhFeed { phase: 3, ..LIVE }, unit(7, 41, &message), 14),
    ];
    let shut = [0, 5, 6, 9].map(|phase| (MmdhFeed { phase, ..LIVE }, unit(7, 41, &message), 11));
    cases.extend(shut);
    let whole = unit(7, 41, &message);
    cases.extend((0..whole.len()).map(|length| (LIVE, whole[..length].to_vec(), 3)));
    for (feed, bytes, answer) in cases {
        nothing(pair, feed, &before, &bytes, answer);
    }
    // the code's book is not sound, or it has none and no slot is free
    let mut unsound = before.clone();
    unsound.books[SLOT + 3] = 1;
    nothing(pair, LIVE, &unsound, &whole, 18);
    let fill: Vec<Entry> = (0..12).map(|at| new(0, 0, at)).collect();
    nothing(pair, LIVE, &before, &unit(7, 41, &book_message(1, &fill)), 17);
    pair.tally.same(&pair.after().clone(), &before, || "nothing is written".to_string());
}

/// This answer by every call, and no row is counted.
fn nothing(pair: &mut Pair, feed: MmdhFeed, tables: &Tables, bytes: &[u8], answer: u64) {
    let input = || format!("{:02x?}", bytes);
    let given = pair.arrive(feed, tables, bytes, TIME);
    pair.tally.same(&(given.answer, given.dropped), &(answer, 0), input);
    if bytes.len() > 22 && answer != 3 {
        let number = |at: usize| u32::from_le_bytes([bytes[at], bytes[at + 1], bytes[at + 2], bytes[at + 3]]);
        let cut = pair.arrive_cut(feed, tables, number(4), number(8), &bytes[20..], TIME);
        pair.tally.same(&(cut.answer, cut.dropped), &(answer, 0), input);
    }
    let (frame, _) = pair.frame(feed, tables, bytes, 1, TIME);
    pair.tally.same(&(frame.answer, frame.dropped), &(answer, 0), input);
    for allowed in [0, 1, u64::MAX] {
        let mut stand = Stand::new(feed, tables.clone(), 1_100);
        let heard = stand.scrap(pair, bytes, allowed, TIME);
        pair.tally.same(&heard.dropped, &0, input);
    }
}

/// All that is accepted and pushes out nothing, over full books.
fn none(pair: &mut Pair) {
    let ten = full(ROWS);
    for side in 0..2 {
        for at in 0..ROWS {
            sent(pair, &ten, &[entry(CHANGE, side, at, ten[side][at])], (0, 0), &ten);
            let mut after = ten.clone();
            after[side].remove(at);
            sent(pair, &ten, &[entry(DELETE, side, at, 0)], (0, 0), &after);
        }
    }
    sent(pair, &ten, &[WIPE], (0, 0), &full(0));
    sent(pair, &ten, &[], (0, 0), &full(0));
    let before = table(&ten);
    nothing(pair, LIVE, &before, &unit(7, 41, &book_message(42, &[])), 0);
    nothing(pair, LIVE, &before, &HEARTBEAT, 0);
    nothing(pair, LIVE, &before, &unit(7, 41, &message(60, 12)), 2);
    let strips = Tables { strips: vec![0; 12], ..before.clone() };
    for (kind, size) in STRIPS {
        let mut message = about(kind, size, 700);
        message[8] = b'N';
        nothing(pair, LIVE, &strips, &unit(7, 41, &message), 0);
    }
    // a session's messages, also where they clear full books
    let logons = [0, 2, 101, 1, 3, 8, 5, 6, 100, 104, 105].map(|status| (2, session(1102, status)));
    let others = [(1, message(1105, 4)), (3, session(1202, 0)), (3, refresh_complete(9)), (4, session(1103, 6))];
    for (phase, message) in logons.into_iter().chain(others) {
        nothing(pair, MmdhFeed { phase, ..LIVE }, &before, &unit(7, 0, &message), 0);
    }
}

/// Units for a feed in Live over a full book of 700, each with its answer and the rows that it pushes out.
fn units() -> Vec<(u64, u64, Vec<u8>)> {
    let sent = |seq: u32, entries: &[Entry]| unit(seq, seq + 34, &book_message(700, entries));
    vec![
        (0, 1, sent(7, &[new(0, 0, 45)])),
        (0, 0, HEARTBEAT.to_vec()),
        (0, 3, sent(8, &[new(1, 0, -45), new(0, 0, 46), new(1, 1, -44), entry(DELETE, 1, 9, 0)])),
        (2, 0, unit(9, 43, &message(60, 12))),
        (1, 0, unit(10, 43, &book_message(700, &[new(0, 0, 47)]))),
        (0, 1, sent(11, &[new(0, 0, 47), new(1, 9, 99)])),
    ]
}

/// Units that are refused behind [`units`], the first though two of its entries push out rows.
fn bad() -> [(u64, Vec<u8>); 3] {
    let two = [new(0, 0, 48), new(0, 0, 49)];
    [
        (16, unit(12, 46, &book_message(700, &[&two[..], &[new(0, 0, 49)]].concat()))),
        (13, unit(13, 46, &book_message(700, &two))),
        (15, unit(12, 46, &book_message(100_000, &two))),
    ]
}

/// Frames and scraps sum what they accept, cut everywhere, also where they end in a refusal; what follows one is not counted.
fn streams(pair: &mut Pair) {
    let before = table(&full(ROWS));
    for (answer, refused) in bad() {
        let behind = unit(12, 46, &book_message(700, &[new(0, 0, 48)]));
        let units = [&units()[..], &[(answer, 0, refused)], &[(11, 0, behind)]].concat();
        let bytes: Vec<u8> = units.iter().flat_map(|unit| unit.2.clone()).collect();
        let sum = |accepted: usize| units[..accepted].iter().map(|unit| unit.1).sum::<u64>();
        for allowed in (0..=8).chain([u64::MAX]) {
            let (given, calls) = pair.frame(LIVE, &before, &bytes, allowed, TIME);
            let accepted = allowed.min(6) as usize;
            let last = if allowed > 6 { answer } else { units[..accepted].last().map_or(0, |unit| unit.0) };
            let wanted = (last, accepted as u64, sum(accepted));
            let got = (given.answer, given.accepted, given.dropped);
            pair.tally.same(&got, &wanted, || format!("a frame of {} that ends in {}", allowed, answer));
            let singles: Vec<u64> = calls.iter().map(|given| given.dropped).collect();
            let wanted: Vec<u64> = units[..calls.len()].iter().map(|unit| unit.1).collect();
            pair.tally.same(&singles, &wanted, || "each by a single call".to_string());
        }
        for at in 0..=bytes.len() {
            scraps(pair, &before, [&bytes[..at], &[], &bytes[at..]], answer);
        }
    }
}

/// [`units`] and one that is refused, in these scraps.
fn scraps(pair: &mut Pair, before: &Tables, scraps: [&[u8]; 3], answer: u64) {
    for allowed in [1, 2, u64::MAX] {
        let mut stand = Stand::new(LIVE, before.clone(), 200);
        let heard = scraps.map(|scrap| stand.hear(pair, scrap, allowed, TIME));
        let said = heard.iter().find_map(|heard| heard.0.last().filter(|&&answer| answer > 2)).copied();
        let (accepted, dropped) = heard.iter().fold((0, 0), |sum, heard| (sum.0 + heard.1, sum.1 + heard.2));
        let got = (said, accepted, dropped, heard[1].2);
        pair.tally.same(&got, &(Some(answer), 6, 5, 0), || format!("cut at {}, {} allowed", scraps[0].len(), allowed));
    }
}

/// New feeds and connects push out nothing, whatever their answer.
fn connects(pair: &mut Pair) {
    for limit in [0, 1, 1_000, 600_000, 600_001] {
        let given = pair.new_feed(limit);
        pair.tally.same(&given.dropped, &0, || format!("a new feed, limit {}", limit));
    }
    for phase in 0..=7 {
        for (resuming, time) in [(0, TIME), (1, TIME), (0, 0), (1, 0)] {
            let given = pair.connect(MmdhFeed { phase, ..LIVE }, resuming, time);
            pair.tally.same(&given.dropped, &0, || format!("a connect in phase {}", phase));
        }
    }
}
