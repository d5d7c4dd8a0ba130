//! The 8 bytes of a quantity at the ends of what they hold (request 4 of document 02). Which number they are is said here,
//! byte by byte, and not left to the twin.

use crate::frames::HEARTBEAT;
use crate::pair::Pair;
use crate::scene::{SLOT, STRIP};
use crate::tables::Tables;
use crate::told::{self, LIVE, OPEN, TAIL, TIME};
use exchange::{book_message, equilibrium, imbalance, unit, Entry};
use mmdh::raw::ROWS;

/// The price of the first row, and of a strip.
const BEST: i32 = 0x1413_1211;

/// Beside the quantity that is looked at: those of the other entries, and filler.
const OTHER: u64 = 0x5B5B_5B5B_5B5B_5B5B;
const FILLER: u8 = 0x5A;

/// Each in every entry of a book message and in both messages of a strip that have one.
pub fn check(pair: &mut Pair) {
    pair.tally.part("quantities at the ends of their 8 bytes: every entry of a book message, types 41 and 56");
    for (bytes, number) in ends() {
        for place in 0..ROWS {
            in_book(pair, bytes, number, place);
        }
        in_strip(pair, bytes, number);
    }
}

/// Eight bytes and the number that they are: none set, all set, all different, and each of them 255 where the rest are 0.
fn ends() -> Vec<([u8; 8], u64)> {
    let whole = [([0; 8], 0), ([255; 8], u64::MAX), ([1, 2, 3, 4, 5, 6, 7, 8], 0x0807_0605_0403_0201)];
    let alone = (0..8).map(|at| {
        let mut bytes = [0; 8];
        bytes[at] = 255;
        (bytes, 255 * 256u64.pow(at as u32))
    });
    whole.into_iter().chain(alone).collect()
}

/// The quantity in one entry of ten new bids: the first entry's bytes begin the part that is judged, the others' lie behind.
fn in_book(pair: &mut Pair, bytes: [u8; 8], number: u64, place: usize) {
    let price = |at: usize| BEST - at as i32;
    let bid = |at| Entry { quantity: OTHER, price: price(at), orders: 2, level: at as u8 + 1, ..Entry::default() };
    let mut message = book_message(700, &(0..ROWS).map(bid).collect::<Vec<Entry>>());
    let mut book = vec![0; SLOT];
    book[..2].copy_from_slice(&[700, ROWS as u64]);
    for at in 0..ROWS {
        message[12 + 24 * at + 20..][..4].fill(FILLER);
        book[4 + 3 * at..][..3].copy_from_slice(&[(1 << 31) + price(at) as u64, OTHER, 2]);
    }
    message[12 + 24 * place..][..8].copy_from_slice(&bytes);
    book[5 + 3 * place] = number;
    taken(pair, &message, &Tables::zeros(SLOT, 0), &Tables::of_books(&book));
    let row = pair.read_row(&book, 700, 0, place as u64 + 1);
    pair.tally.same(&(row.answer, row.quantity), &(0, number), || format!("{:?} in row {}", bytes, place + 1));
}

/// The volume of type 41 and the quantity of type 56, in a new strip.
fn in_strip(pair: &mut Pair, bytes: [u8; 8], number: u64) {
    let mut volume = equilibrium(700, BEST, OTHER);
    volume[12..20].copy_from_slice(&bytes);
    let mut surplus = imbalance(700, b'S', OTHER);
    surplus[9] = FILLER;
    surplus[10..18].copy_from_slice(&bytes);
    surplus[18..20].fill(FILLER);
    // the flags that it sets, the word before its quantity's, and what that is
    let cases = [(volume, 0b110, 3, (1 << 31) + BEST as u64), (surplus, 0b1100_0000, 8, u64::from(b'S'))];
    for (message, flags, first, word) in cases {
        let mut strip = vec![0; STRIP];
        strip[..2].copy_from_slice(&[700, flags]);
        strip[first..first + 2].copy_from_slice(&[word, number]);
        let of_strips = |strips: Vec<u64>| Tables { strips: [strips, TAIL.to_vec()].concat(), ..Tables::default() };
        taken(pair, &message, &of_strips(vec![0; STRIP]), &of_strips(strip));
    }
}

/// The message is taken in Live and in Refreshing, by itself and behind a heartbeat with bytes behind it, and leaves these
/// words; the tuned twin agrees.
fn taken(pair: &mut Pair, message: &[u8], before: &Tables, after: &Tables) {
    for (feed, internal) in OPEN {
        told::sent(pair, feed, internal, message, before, 0, after);
    }
    let sent = unit(7, 41, message);
    pair.tuned(LIVE, before, &sent, TIME);
    let stream = [&HEARTBEAT[..], &sent, &[FILLER; 7]].concat();
    let (frame, _) = pair.frame(LIVE, before, &stream, 2, TIME);
    let (answers, words) = ((frame.answer, frame.accepted), pair.after().clone());
    pair.tally.same(&(answers, &words), &((0, 2), after), || format!("a frame of {:02x?}", stream));
}
