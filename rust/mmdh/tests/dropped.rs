//! Rows that fell off: new levels push the tenth row out of a full side, and every call hands up how many did.

use exchange::dice::Dice;
use exchange::{book_message, message, nominal, session, unit, Entry, CHANGE, CLEAR, DELETE};
use mmdh::raw::{self, Lent, MmdhFeed, MmdhFrame, MmdhGiven, MmdhHeard};
use mmdh::single::{Feed, LentLine};
use mmdh::{Answer, Connect, Heard, Line, Refused, Side, Tables};
use std::mem::size_of;

const LIVE: MmdhFeed = MmdhFeed { phase: 4, next: 3, internal: 0, heard: 5_000, limit: 1_000, whole: 1, fresh: 1 };
const HEARTBEAT: [u8; 20] = [20, 0, 0, 0, 2, 0, 0, 0, 0, 0, 0, 0, 0, 0, 0, 0, 0, 0, 0, 0];

/// The price of a rank, in steps of ten from the best.
fn price(side: u16, rank: u8) -> i32 {
    let worse = 10 * i32::from(rank);
    if side == 0 {
        1_000 - worse
    } else {
        2_000 + worse
    }
}

/// The first rows of a side.
fn filled(side: u16, rows: u8) -> Vec<Entry> {
    let row =
        |level| Entry { quantity: u64::from(level), price: price(side, level), orders: 1, side, level, action: 0 };
    (1..=rows).map(row).collect()
}

/// A new level before the row that stands at this rank, in [`filled`] sides.
fn new(side: u16, level: u8) -> Entry {
    let better = if side == 0 { 5 } else { -5 };
    Entry { quantity: 7, price: price(side, level) + better, orders: 7, side, level, action: 0 }
}

/// Key, logon, and a book of 700 with so many rows a side.
fn opening(rows: u8) -> Vec<Vec<u8>> {
    let book = book_message(700, &[filled(0, rows), filled(1, rows)].concat());
    vec![unit(1, 0, &message(1105, 4)), unit(2, 0, &session(1102, 0)), unit(3, 1, &book)]
}

fn line(rows: u8) -> Line {
    let mut line = Line::new(1_000, 4).expect("listed");
    line.connect(Connect::Fresh, 5_000).expect("accepted");
    assert_eq!(line.hear(&opening(rows).concat(), 5_000).map(|heard| (heard.units, heard.dropped)), Ok((3, 0)));
    line
}

/// Messages for a book of ten rows a side, each with the answer and the number that it must get.
fn messages() -> Vec<(u64, u64, Vec<u8>)> {
    let of = |entries: &[Entry]| book_message(700, entries);
    let bid = |level, price| Entry { quantity: 7, price, orders: 7, level, ..Entry::default() };
    let third = Entry { price: price(1, 3), side: 1, level: 3, ..Entry::default() };
    vec![
        (0, 1, of(&[bid(1, 995)])),
        (0, 0, nominal(700, 1_500)),
        (0, 0, of(&[Entry { action: CHANGE, ..third }, Entry { action: DELETE, ..third }])),
        (0, 2, of(&[bid(10, 915), third, bid(5, 965)])),
        (2, 0, message(60, 12)),
        (0, 1, of(&[new(1, 1), Entry { action: CLEAR, ..third }, Entry { level: 1, ..third }])),
        (0, 0, of(&[])),
    ]
}

/// Entries for an empty book: ten bids, two that push out rows, and one that does not fit.
fn misfit() -> Vec<Entry> {
    [&filled(0, 10)[..], &[new(0, 1), Entry { price: 999, ..new(0, 1) }, new(1, 9)]].concat()
}

/// Their units behind [`opening`]; the last is [`misfit`].
fn units() -> Vec<(u64, u64, Vec<u8>)> {
    let all = messages().into_iter().chain([(16, 0, book_message(700, &misfit()))]);
    all.zip(4..).map(|((answer, dropped, message), seq)| (answer, dropped, unit(seq, seq - 2, &message))).collect()
}

/// What all of them push out.
const ALL: u64 = 4;

#[test]
fn the_number_stands_at_the_end_of_the_structs() {
    assert_eq!([size_of::<MmdhGiven>(), size_of::<MmdhFrame>(), size_of::<MmdhHeard>()], [80, 88, 112]);
    assert_eq!(raw::VERSION, 6);
}

#[test]
fn a_new_level_pushes_out_the_tenth_row_at_any_rank_of_either_side() {
    for rows in [8, 9, 10] {
        for (way, side) in [(0, Side::Bid), (1, Side::Offer)] {
            for level in 1..=rows {
                let mut line = line(rows);
                let last = line.books().row(700, side, u64::from(rows)).expect("a row");
                let message = book_message(700, &[new(way, level)]);
                let heard = line.hear(&unit(4, 2, &message), 5_001).expect("accepted");
                assert_eq!(heard.dropped, u64::from(rows == 10), "{} rows, rank {}", rows, level);
                let kept = line.books().side(700, side).expect("a side").contains(&last);
                assert_eq!(kept, rows < 10, "the row itself, {} rows, rank {}", rows, level);
            }
        }
    }
}

#[test]
fn single_calls_and_a_frame_hand_it_up() {
    let bytes: Vec<u8> = opening(10).concat().into_iter().chain(units().into_iter().flat_map(|unit| unit.2)).collect();
    let start = || {
        let mut feed = Feed::new(1_000).expect("listed");
        assert!(feed.connect(Connect::Fresh, 5_000).is_accepted());
        (feed, Tables::with_slots(4))
    };
    let ((mut feed, mut tables), mut at) = (start(), 0);
    let singles: Vec<(u64, u64)> = std::iter::repeat_with(|| {
        let arrival = feed.arrive(&mut tables, &bytes[at..], 5_001);
        at += arrival.used;
        (arrival.answer.number(), arrival.dropped)
    })
    .take(11)
    .collect();
    let wanted: Vec<(u64, u64)> = units().iter().map(|unit| (unit.0, unit.1)).collect();
    assert_eq!(singles, [&[(0, 0); 3][..], &wanted].concat());
    let mut sum = 0;
    for (allowed, (answer, dropped)) in singles.into_iter().enumerate() {
        let (mut feed, mut tables) = start();
        let frame = feed.arrive_frame(&mut tables, &bytes, allowed as u64, 5_001);
        assert_eq!(frame.dropped, sum, "{} allowed", allowed);
        sum += dropped;
        let (mut feed, mut tables) = start();
        let frame = feed.arrive_frame(&mut tables, &bytes, allowed as u64 + 1, 5_001);
        assert_eq!((frame.answer.number(), frame.dropped), (answer, sum), "{} allowed", allowed + 1);
    }
    assert_eq!(sum, ALL);
}

#[test]
fn a_message_already_cut_hands_it_up() {
    let (mut tables, mut feed) = (Tables::with_slots(4), Feed::new(1_000).expect("listed"));
    assert!(feed.connect(Connect::Fresh, 5_000).is_accepted());
    let all = opening(10).into_iter().map(|unit| (0, 0, unit)).chain(units());
    for ((answer, dropped, unit), seq) in all.zip(1..) {
        let internal = u32::from_le_bytes([unit[8], unit[9], unit[10], unit[11]]);
        let arrival = feed.arrive_cut(&mut tables, seq, internal, &unit[20..], 5_001);
        assert_eq!((arrival.answer.number(), arrival.used, arrival.dropped), (answer, 0, dropped), "SeqNum {}", seq);
    }
}

#[test]
fn scraps_cut_anywhere_hand_up_the_same_sum() {
    let units: Vec<Vec<u8>> = opening(10).into_iter().chain(units().into_iter().map(|unit| unit.2)).collect();
    let bytes = units.concat();
    for at in 0..=bytes.len() {
        let mut line = LentLine::new(1_000).expect("listed");
        let (mut tables, mut hold) = (Tables::with_slots(4), vec![0; 600]);
        assert!(line.connect(&hold, Connect::Fresh, 5_000).is_accepted());
        let scraps = [&bytes[..at], &[], &bytes[at..]];
        let came = scraps.map(|scrap| line.scrap(&mut tables, &mut hold, scrap, u64::MAX, 5_001));
        let refused = came.iter().find_map(|scrap| scrap.said).map(Answer::number);
        assert_eq!((refused, came.iter().map(|scrap| scrap.dropped).sum()), (Some(16), ALL), "cut at {}", at);
        assert_eq!(came[1].dropped, 0);
        // what is dropped of the line pushes out nothing
        assert_eq!(line.scrap(&mut tables, &mut hold, &bytes, u64::MAX, 5_001).dropped, 0);
    }
}

#[test]
fn a_line_hands_it_up_and_counts_it_since_the_connect() {
    let bytes: Vec<u8> = units().into_iter().flat_map(|unit| unit.2).collect();
    let good = bytes.len() - units()[7].2.len();
    for largest in [1, 13, 60, 4_000] {
        let (mut line, mut sum, mut shown) = (line(10), 0, Vec::new());
        for piece in bytes[..good].chunks(largest) {
            let (before, first) = (line.dropped(), shown.len());
            let heard = line.hear_each(piece, 5_001, |unit| shown.push(unit.dropped)).expect("accepted");
            sum += heard.dropped;
            assert_eq!((line.dropped(), heard.dropped), (before + heard.dropped, shown[first..].iter().sum()));
        }
        assert_eq!((sum, line.dropped()), (ALL, ALL), "pieces of {}", largest);
        assert_eq!(shown, messages().iter().map(|message| message.1).collect::<Vec<u64>>());
        assert_eq!(line.hear(&bytes[good..], 5_001).unwrap_err().answer(), Answer::Misfit);
        assert_eq!(line.dropped(), ALL, "none of a message that is refused");
        assert_eq!(line.hear(&bytes, 5_001).map(|heard| (heard.dropping, heard.dropped)), Ok((true, 0)));
        assert_eq!(line.reconnect(5_002), Ok(Connect::Fresh));
        assert_eq!(line.dropped(), 0);
    }
}

/// A way to hand bytes to a line.
type Hears = fn(&mut Line, &[u8]) -> Result<Heard, Refused>;

#[test]
fn behind_a_refusal_a_line_still_tells_what_was_pushed_out_before_it() {
    let bytes: Vec<u8> = units().into_iter().flat_map(|unit| unit.2).collect();
    let ways: [Hears; 3] = [
        |line, bytes| line.hear(bytes, 5_001),
        |line, bytes| line.hear_each(bytes, 5_001, |_| {}),
        |line, bytes| line.hear_frame(bytes, u64::MAX, 5_001),
    ];
    for (hears, way) in ways.into_iter().zip(1..) {
        let mut line = line(10);
        let refused = hears(&mut line, &bytes).expect_err("the last unit does not fit");
        assert_eq!((refused.answer(), line.dropped()), (Answer::Misfit, ALL), "way {}", way);
    }
    // a frame that ends before the refusal hands up the same number as the line
    let mut line = line(10);
    let heard = line.hear_frame(&bytes, 4, 5_001).expect("the first four are accepted");
    assert_eq!((heard.dropped, line.dropped()), (3, 3));
}

/// A repaint takes what a frame left, and each hands up its own.
#[test]
fn frames_of_a_line_hand_up_their_own() {
    let bytes: Vec<u8> = units()[..7].iter().flat_map(|unit| unit.2.clone()).collect();
    let mut line = line(10);
    assert_eq!(line.hear_frame(&bytes, 0, 5_001).map(|heard| (heard.units, heard.dropped)), Ok((0, 0)));
    let frames: Vec<u64> =
        (0..5).map(|_| line.hear_frame(&[], 2, 5_001).map(|heard| heard.dropped).expect("accepted")).collect();
    assert_eq!(frames, [1, 2, 1, 0, 0]);
}

#[test]
fn a_line_counts_messages_that_another_box_cuts() {
    let mut line = line(10);
    for ((answer, _, unit), seq) in units().into_iter().zip(4..) {
        let heard = line.hear_cut(seq, seq - 2, &unit[20..], 5_001);
        assert_eq!(heard.unwrap_or_else(|refused| refused.answer()).number(), answer);
    }
    assert_eq!(line.dropped(), ALL);
}

#[test]
fn nothing_else_pushes_out_a_row() {
    let lend = || [vec![0; 64], vec![0; 12]];
    for limit in [0, 1_000] {
        assert_eq!(raw::new(limit).dropped, 0);
    }
    for (resuming, time) in [(0, 5_000), (1, 5_000), (0, 4_999)] {
        assert_eq!(raw::connect(LIVE, resuming, time).dropped, 0);
    }
    let seen = MmdhFeed { internal: 9, ..LIVE };
    let full = book_message(700, &misfit()[..12]);
    let cases = [
        (LIVE, unit(3, 1, &full), 0, 2),
        (LIVE, unit(3, 1, &book_message(700, &misfit())), 16, 0),
        (seen, unit(3, 1, &full), 1, 0),
        (LIVE, unit(3, 1, &full)[..70].to_vec(), 3, 0),
        (LIVE, unit(4, 1, &full), 13, 0),
        (LIVE, HEARTBEAT.to_vec(), 0, 0),
        (LIVE, unit(3, 1, &nominal(700, 5)), 0, 0),
        (LIVE, unit(3, 0, &session(1103, 6)), 0, 0),
        (MmdhFeed { phase: 2, ..LIVE }, unit(3, 0, &session(1102, 0)), 0, 0),
    ];
    for (feed, bytes, answer, dropped) in cases {
        let [mut books, mut strips] = lend();
        let given = raw::arrive(feed, Lent { books: &mut books, strips: &mut strips }, &bytes, 5_001);
        assert_eq!((given.answer, given.dropped), (answer, dropped), "{:02x?}", bytes);
    }
}

/// The morning pushes out rows, and as many in any pieces.
#[test]
fn the_morning_in_any_pieces() {
    let morning = std::fs::read("../../captures/morning.bin").expect("the capture");
    let (mut dice, mut sums) = (Dice::new(6), Vec::new());
    for largest in [1_000_000, 5_000, 300, 7] {
        let mut line = Line::new(1_000, 128).expect("listed");
        line.connect(Connect::Fresh, 7).expect("accepted");
        let (mut rest, mut sum) = (&morning[..], 0);
        while !rest.is_empty() || line.waiting() > 0 {
            let (piece, after) = rest.split_at(dice.place(largest + 1).min(rest.len()));
            sum += line.hear_frame(piece, 1 + dice.below(40), 7).expect("accepted").dropped;
            rest = after;
        }
        assert_eq!(sum, line.dropped());
        sums.push(sum);
    }
    assert!(sums[0] > 10 && sums.iter().all(|sum| *sum == sums[0]), "{:?}", sums);
}
