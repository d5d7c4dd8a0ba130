//! Document 01's examples, of the library and of the twin alike.

use crate::pair::Pair;
use crate::tables::Tables;
use exchange::{book_message, message, session, unit, Entry, CLEAR};
use mmdh::raw::MmdhFeed;

/// Example 1's bytes, as document 01 prints them.
const FIRST: [u8; 36] = [
    0x24, 0x00, 0x35, 0x00, 0xBC, 0x02, 0x00, 0x00, 0x00, 0x00, 0x00, 0x01, 0xA0, 0x0F, 0x00, 0x00, 0x00, 0x00, 0x00,
    0x00, 0x02, 0x26, 0x00, 0x00, 0x02, 0x00, 0x00, 0x00, 0x00, 0x00, 0x01, 0x00, 0x00, 0x00, 0x00, 0x00,
];

const LIVE: MmdhFeed = MmdhFeed { phase: 4, next: 3, internal: 0, heard: 0, limit: 1_000, whole: 1, fresh: 1 };

fn bid(level: u8, price: i32) -> Entry {
    Entry { quantity: 4_000, price, orders: 2, level, ..Entry::default() }
}

/// All ten.
pub fn check(pair: &mut Pair) {
    pair.tally.part("document 01's examples");
    let after_first = first(pair);
    second(pair, &after_first);
    third(pair);
    fourth_and_fifth(pair, &after_first);
    sixth_to_eighth(pair, &after_first);
    ninth(pair);
    tenth(pair);
}

/// The answer to a book message in Live; the words after it are the pair's.
fn taken(pair: &mut Pair, table: &[u64], message: &[u8], wanted: u64) {
    let given = pair.arrive(LIVE, &Tables::of_books(table), &unit(3, 1, message), 0);
    pair.tally.same(&given.answer, &wanted, || format!("{:02x?}", message));
    let untouched = wanted == 0 || pair.after().books == table;
    pair.tally.holds(untouched, || "a refused arrival wrote to the table".to_string());
}

fn first(pair: &mut Pair) -> Vec<u64> {
    taken(pair, &[0; 128], &FIRST, 0);
    let after = pair.after().books.clone();
    pair.tally.same(&after[..7].to_vec(), &vec![700, 1, 0, 0, 2_147_493_378, 4_000, 2], || "example 1".to_string());
    pair.tally.holds(after[7..].iter().all(|&word| word == 0), || "example 1, the rest".to_string());
    after
}

fn second(pair: &mut Pair, table: &[u64]) {
    for (level, price, wanted) in [(3, 9_700, 16), (2, 9_740, 16), (2, 9_730, 16), (2, 9_720, 0)] {
        taken(pair, table, &book_message(700, &[bid(level, price)]), wanted);
    }
}

fn third(pair: &mut Pair) {
    let ten: Vec<Entry> = (0..10).map(|at| bid(at + 1, 9_730 - i32::from(at))).collect();
    taken(pair, &[0; 64], &book_message(700, &ten), 0);
    let table = pair.after().books.clone();
    taken(pair, &table, &book_message(700, &[bid(1, 9_740)]), 0);
    let after = pair.after().books.clone();
    pair.tally.same(&after[1], &10, || "example 3".to_string());
    pair.tally.same(&after[7..34].to_vec(), &table[4..31].to_vec(), || "example 3, the rows moved down".to_string());
}

fn fourth_and_fifth(pair: &mut Pair, table: &[u64]) {
    let one = bid(1, 9_740);
    for entry in [bid(0, 9_740), bid(11, 9_740), Entry { action: 3, ..one }, Entry { side: 2, ..one }] {
        taken(pair, table, &book_message(700, &[entry]), 15);
    }
    taken(pair, table, &book_message(700, &[Entry { action: CLEAR, side: 9, level: 0, ..one }]), 0);
    for (code, wanted) in [(99_999, 0), (0, 15), (100_000, 15)] {
        taken(pair, table, &book_message(code, &[one]), wanted);
    }
}

fn sixth_to_eighth(pair: &mut Pair, table: &[u64]) {
    taken(pair, table, &book_message(700, &[bid(1, 9_740), bid(1, 9_735)]), 16);
    for (time, wanted) in [(5_000, 1), (6_000, 1), (6_001, 0), (4_999, 0)] {
        let badge = pair.badge(4, 5_000, 1_000, time);
        pair.tally.same(&badge, &wanted, || format!("example 7 at {}", time));
    }
    taken(pair, &[0; 63], &FIRST, 17);
}

fn ninth(pair: &mut Pair) {
    let mut feed = pair.new_feed(1_000).feed;
    feed = pair.connect(feed, 0, 1).feed;
    for (seq, message) in [(1, message(1105, 4)), (2, session(1102, 101)), (3, session(1202, 0))] {
        feed = pair.arrive(feed, &Tables::zeros(64, 12), &unit(seq, 0, &message), 2).feed;
    }
    let badge = pair.badge(feed.phase, feed.heard, feed.limit, 2);
    pair.tally.same(&badge, &2, || "filling, not green, after status 101".to_string());
    let refused = pair.connect(feed, 1, 3);
    pair.tally.same(&(refused.answer, refused.feed), &(20, feed), || "example 9".to_string());
}

fn tenth(pair: &mut Pair) {
    let input = [unit(1, 0, &message(1105, 4)), unit(2, 0, &session(1102, 0)), unit(3, 1, &FIRST)].concat();
    let wanted = "code side rank price quantity orders\n700 B 1 9730 4000 2\nend 3 units 3\n".to_string();
    pair.tally.same(&twin::program(&input), &wanted, || "example 10".to_string());
    pair.tally.same(&crate::program::run(&input), &wanted, || "example 10, over the library".to_string());
}
