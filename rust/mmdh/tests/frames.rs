//! Whole frames: how many units are accepted, what they use, where they end, and that single calls at the same time end
//! there too.

use exchange::dice::Dice;
use exchange::{book_message, imbalance, message, nominal, session, unit, Entry};
use mmdh::raw::{self, Lent, MmdhFeed, MmdhFrame};
use mmdh::single::Feed;
use mmdh::{Answer, Badge, Connect, Line, Phase, Tables, Why};

const LIVE: MmdhFeed = MmdhFeed { phase: 4, next: 3, internal: 0, heard: 5_000, limit: 1_000, whole: 1, fresh: 1 };
const HEARTBEAT: [u8; 20] = [20, 0, 0, 0, 2, 0, 0, 0, 0, 0, 0, 0, 0, 0, 0, 0, 0, 0, 0, 0];

fn bid(code: u32, level: u8, price: i32) -> Vec<u8> {
    book_message(code, &[Entry { quantity: 400, price, orders: 1, level, ..Entry::default() }])
}

/// Book and strip messages, one that was there already, one that is passed over and a heartbeat, for [`LIVE`]; all are
/// accepted.
fn units() -> Vec<Vec<u8>> {
    vec![
        unit(3, 1, &bid(700, 1, 9_730)),
        unit(4, 2, &nominal(700, 9_740)),
        HEARTBEAT.to_vec(),
        unit(5, 3, &message(60, 52)),
        unit(6, 3, &bid(700, 2, 9_720)),
        unit(7, 4, &bid(700, 2, 9_720)),
        unit(8, 5, &imbalance(5, b'B', 400)),
    ]
}

/// The answers that they get.
const ANSWERS: [u64; 7] = [0, 0, 0, 2, 1, 0, 0];

/// Both tables, with words behind the slots.
#[derive(Clone, PartialEq, Eq, Debug)]
struct Words {
    books: Vec<u64>,
    strips: Vec<u64>,
}

impl Words {
    fn new() -> Words {
        Words { books: [vec![0; 128], vec![7; 3]].concat(), strips: [vec![0; 24], vec![7; 3]].concat() }
    }

    fn lend(&mut self) -> Lent<'_> {
        Lent { books: &mut self.books, strips: &mut self.strips }
    }
}

/// A frame of the C calls, and the words after it.
fn frame(feed: MmdhFeed, bytes: &[u8], allowed: u64, time: u64) -> (MmdhFrame, Words) {
    let mut words = Words::new();
    let frame = raw::arrive_frame(feed, words.lend(), bytes, allowed, time);
    (frame, words)
}

/// So many single C calls, all accepted, and the words after them.
fn singles(feed: MmdhFeed, bytes: &[u8], calls: usize, time: u64) -> (MmdhFeed, Words) {
    let (mut feed, mut words, mut at) = (feed, Words::new(), 0);
    for _ in 0..calls {
        let given = raw::arrive(feed, words.lend(), &bytes[at..], time);
        assert!(given.answer <= 2, "{:?}", given);
        feed = given.feed;
        at += given.used as usize;
    }
    (feed, words)
}

/// Where the first units end.
fn ends(units: &[Vec<u8>], count: usize) -> u64 {
    units[..count].iter().map(|unit| unit.len() as u64).sum()
}

#[test]
fn nothing_allowed_changes_nothing() {
    let bytes = units().concat();
    for phase in (0..=9).chain([u64::MAX]) {
        for (heard, time) in [(5_000, 5_000), (5_000, 4_999), (u64::MAX, 0), (0, u64::MAX)] {
            for (whole, fresh) in [(0, 0), (1, 1), (7, 256), (u64::MAX, 2)] {
                let feed = MmdhFeed { phase, heard, whole, fresh, limit: 0, ..LIVE };
                for bytes in [&bytes[..], &bytes[..30], &[]] {
                    let wanted = MmdhFrame { answer: 0, accepted: 0, used: 0, feed, dropped: 0 };
                    assert_eq!(frame(feed, bytes, 0, time), (wanted, Words::new()));
                }
            }
        }
    }
}

#[test]
fn odd_numbers_come_back_as_from_a_single_call() {
    for (phase, answer) in [(9, 11), (5, 11), (0, 11), (6, 11), (4, 0)] {
        let feed = MmdhFeed { phase, whole: 7, fresh: 9, ..LIVE };
        let (given, _) = frame(feed, &HEARTBEAT, 1, 5_000);
        let single = raw::arrive(feed, Words::new().lend(), &HEARTBEAT, 5_000);
        assert_eq!((given.answer, given.feed), (answer, single.feed));
        assert_eq!((given.feed.phase, given.feed.whole, given.feed.fresh), (phase.min(6) - phase / 9, 1, 1));
    }
}

#[test]
fn every_allowed_number_ends_where_single_calls_end() {
    let (units, bytes) = (units(), units().concat());
    for (allowed, last) in ANSWERS.into_iter().enumerate().map(|(at, answer)| (at + 1, answer)) {
        let (given, words) = frame(LIVE, &bytes, allowed as u64, 5_001);
        let (feed, by_singles) = singles(LIVE, &bytes, allowed, 5_001);
        let (accepted, used) = (allowed as u64, ends(&units, allowed));
        let wanted = MmdhFrame { answer: last, accepted, used, feed, dropped: 0 };
        assert_eq!((given, words), (wanted, by_singles), "{} allowed", allowed);
    }
}

#[test]
fn more_than_there_are_end_at_more() {
    let (units, bytes) = (units(), units().concat());
    let (feed, by_singles) = singles(LIVE, &bytes, 7, 5_001);
    for allowed in [8, 9, 1_000, 1 << 32, u64::MAX] {
        let wanted = MmdhFrame { answer: 3, accepted: 7, used: ends(&units, 7), feed, dropped: 0 };
        assert_eq!(frame(LIVE, &bytes, allowed, 5_001), (wanted, by_singles.clone()), "{} allowed", allowed);
    }
}

#[test]
fn a_torn_last_unit_is_more() {
    let (units, bytes) = (units(), units().concat());
    let (feed, by_singles) = singles(LIVE, &bytes, 6, 5_001);
    let whole = ends(&units, 6);
    for length in whole..bytes.len() as u64 {
        let torn = &bytes[..length as usize];
        let reached = MmdhFrame { answer: 0, accepted: 6, used: whole, feed, dropped: 0 };
        assert_eq!(frame(LIVE, torn, 6, 5_001), (reached, by_singles.clone()));
        for allowed in [7, u64::MAX] {
            let more = MmdhFrame { answer: 3, ..reached };
            assert_eq!(frame(LIVE, torn, allowed, 5_001), (more, by_singles.clone()), "{} bytes", length);
        }
    }
}

#[test]
fn a_refusal_in_the_middle_ends_it_and_leaves_what_stands_before() {
    let refused = [
        (12, unit(7, 4, &message(53, 40))),
        (13, unit(8, 4, &bid(5, 1, 9))),
        (14, unit(7, 0, &bid(5, 1, 9))),
        (15, unit(7, 4, &bid(0, 1, 9))),
        (16, unit(7, 4, &bid(700, 9, 9))),
    ];
    for (answer, unit) in refused {
        let mut units = units();
        units[5] = unit;
        let (before, by_singles) = singles(LIVE, &units.concat(), 5, 5_001);
        let feed = MmdhFeed { phase: 5, whole: u64::from(answer < 15), ..before };
        let wanted = MmdhFrame { answer, accepted: 5, used: ends(&units, 5), feed, dropped: 0 };
        for allowed in [6, 7, u64::MAX] {
            assert_eq!(frame(LIVE, &units.concat(), allowed, 5_001), (wanted, by_singles.clone()), "{}", answer);
        }
        let reached = MmdhFrame { answer: 1, feed: before, ..wanted };
        assert_eq!(frame(LIVE, &units.concat(), 5, 5_001), (reached, by_singles), "{} is not reached", answer);
    }
}

#[test]
fn heartbeats_count_and_are_heard() {
    let bytes = HEARTBEAT.repeat(3);
    for (allowed, answer, accepted) in [(1, 0, 1), (2, 0, 2), (3, 0, 3), (4, 3, 3), (u64::MAX, 3, 3)] {
        let feed = MmdhFeed { heard: 5_900, ..LIVE };
        let wanted = MmdhFrame { answer, accepted, used: 20 * accepted, feed, dropped: 0 };
        assert_eq!(frame(LIVE, &bytes, allowed, 5_900), (wanted, Words::new()));
    }
}

#[test]
fn no_bytes_are_more_or_not_open() {
    for (phase, answer) in [(1, 3), (2, 3), (3, 3), (4, 3), (0, 11), (5, 11), (6, 11)] {
        let feed = MmdhFeed { phase, ..LIVE };
        for allowed in [1, 2, u64::MAX] {
            let wanted = MmdhFrame { answer, accepted: 0, used: 0, feed, dropped: 0 };
            assert_eq!(frame(feed, &[], allowed, 5_000), (wanted, Words::new()));
            let early = MmdhFrame { answer: 10, ..wanted };
            assert_eq!(frame(feed, &units().concat(), allowed, 4_999), (early, Words::new()));
        }
    }
}

#[test]
fn behind_a_logout_it_is_not_open() {
    let bytes = [unit(3, 0, &session(1103, 6)), unit(4, 1, &bid(700, 1, 9_730))].concat();
    let closed = MmdhFeed { phase: 6, next: 4, heard: 5_001, ..LIVE };
    for (length, allowed, answer) in [(84, 1, 0), (84, 2, 11), (28, 1, 0), (28, 2, 11), (28, u64::MAX, 11)] {
        let wanted = MmdhFrame { answer, accepted: 1, used: 28, feed: closed, dropped: 0 };
        assert_eq!(frame(LIVE, &bytes[..length], allowed, 5_001), (wanted, Words::new()));
    }
}

#[test]
fn a_frame_by_its_single_call() {
    let mut feed = Feed::new(1_000).expect("listed");
    let mut tables = Tables::with_slots(2);
    let nothing = feed.arrive_frame(&mut tables, &units().concat(), 0, 0);
    assert_eq!((nothing.answer, nothing.accepted, nothing.used), (Answer::Taken, 0, 0));
    assert_eq!((feed.phase(), feed.heard()), (Phase::Idle, 0));
    assert!(feed.connect(Connect::Fresh, 5_000).is_accepted());
    let logon = [unit(1, 0, &message(1105, 532)), unit(2, 0, &session(1102, 0))].concat();
    let bytes = [logon, units().concat()].concat();
    let frame = feed.arrive_frame(&mut tables, &bytes, 9, 5_001);
    assert_eq!((frame.answer, frame.accepted, frame.used), (Answer::Taken, 9, bytes.len()));
    let (plain, words) = singles(LIVE, &units().concat(), 7, 5_001);
    assert_eq!((feed.next(), feed.internal(), feed.heard()), (plain.next, plain.internal, plain.heard));
    assert_eq!((tables.books.words(), tables.strips.words()), (&words.books[..128], &words.strips[..24]));
    let gap = feed.arrive_frame(&mut tables, &unit(99, 6, &bid(5, 1, 9)), u64::MAX, 5_002);
    assert_eq!((gap.answer, gap.accepted, gap.used, feed.phase()), (Answer::NotNext, 0, 0, Phase::Lost));
}

fn connected(time: u64) -> Line {
    let mut line = Line::new(1_000, 128).expect("listed");
    line.connect(Connect::Fresh, time).expect("accepted");
    line
}

/// A line that is live, with three units accepted.
fn live(time: u64) -> Line {
    let mut line = connected(time);
    let logon = [unit(1, 0, &message(1105, 532)), unit(2, 0, &session(1102, 0)), unit(3, 1, &bid(700, 1, 9_730))];
    line.hear(&logon.concat(), time).expect("accepted");
    line
}

/// All that can be seen of two lines is the same.
fn assert_alike(line: &Line, other: &Line, time: u64) {
    assert_eq!((line.feed(), line.units(), line.waiting()), (other.feed(), other.units(), other.waiting()));
    assert_eq!(line.reason(time), other.reason(time));
    assert_eq!(line.books().words(), other.books().words());
    assert_eq!(line.strips().words(), other.strips().words());
}

#[test]
fn a_morning_in_frames_ends_as_it_does_by_pieces() {
    let morning = std::fs::read("../../captures/morning.bin").expect("the capture");
    let mut whole = connected(7);
    let heard = whole.hear(&morning, 7).expect("accepted");
    let mut dice = Dice::new(5);
    for (largest, most) in [(4_000, u64::MAX), (4_000, 100), (500, 3), (1_000_000, 32)] {
        let (mut line, mut rest, mut units) = (connected(7), &morning[..], 0);
        while !rest.is_empty() || line.waiting() > 0 {
            let (piece, after) = rest.split_at(dice.place(largest + 1).min(rest.len()));
            let allowed = dice.below(most).saturating_add(1);
            let heard = line.hear_frame(piece, allowed, 7).expect("accepted");
            assert!(heard.units <= allowed && heard.waiting == line.waiting());
            units += heard.units;
            rest = after;
        }
        assert_eq!(units, heard.units);
        assert_alike(&line, &whole, 8);
    }
}

#[test]
fn damaged_lines_end_in_a_frame_as_they_do_unit_by_unit() {
    let morning = std::fs::read("../../captures/morning.bin").expect("the capture");
    let mut dice = Dice::new(78);
    let mut met = std::collections::BTreeSet::new();
    for _ in 0..200 {
        let stream = dice.damaged(&morning[..40_000]);
        let (mut line, mut by_units) = (connected(7), connected(7));
        let ended = line.hear_frame(&stream, u64::MAX, 8);
        assert_eq!(ended, by_units.hear_each(&stream, 8, |_| {}));
        assert_alike(&line, &by_units, 9);
        met.insert(ended.err().map(|refused| refused.answer().number()));
    }
    assert!(met.len() >= 5, "refusals met: {:?}", met);
}

#[test]
fn a_line_keeps_what_is_not_allowed_yet() {
    let mut line = live(5_000);
    let bytes = [unit(4, 2, &nominal(700, 9_740)), HEARTBEAT.to_vec(), unit(5, 3, &bid(700, 1, 9_750))].concat();
    let heard = line.hear_frame(&bytes[..60], 0, 4_000).expect("nothing is refused");
    assert_eq!((heard.units, heard.waiting, line.feed().heard()), (0, 60, 5_000));
    let heard = line.hear_frame(&bytes[60..], 2, 5_100).expect("accepted");
    assert_eq!((heard.units, heard.waiting, line.units()), (2, 56, 5));
    assert_eq!(line.books().bids(700).expect("a book").len(), 1);
    let heard = line.hear_frame(&[], 2, 5_100).expect("accepted");
    assert_eq!((heard.units, heard.waiting), (1, 0));
    assert_eq!(line.books().bids(700).expect("a book").len(), 2);
    // what a frame leaves is also there for a call without a limit
    line.hear_frame(&[&unit(6, 4, &bid(5, 1, 9))[..], &HEARTBEAT].concat(), 1, 5_200).expect("accepted");
    assert_eq!(line.hear(&HEARTBEAT[..7], 5_300).map(|heard| (heard.units, heard.waiting)), Ok((1, 7)));
}

#[test]
fn a_frame_before_the_last_heard_time_drops_what_waits_for_it() {
    let mut line = live(5_000);
    let bytes = [unit(4, 2, &nominal(700, 9_740)), HEARTBEAT.to_vec()].concat();
    assert_eq!(line.hear_frame(&bytes, 1, 5_100).map(|heard| (heard.units, heard.waiting)), Ok((1, 20)));
    assert_eq!(line.hear_frame(&[], 1, 5_099).unwrap_err().answer(), Answer::Early);
    assert_eq!((line.waiting(), line.badge(5_100), line.is_dropping()), (0, Badge::Green, true));
    let heard = line.hear_frame(&bytes, u64::MAX, 5_200).expect("no answer");
    assert_eq!((heard.units, heard.waiting, heard.dropping), (0, 0, true));
}

#[test]
fn nothing_allowed_is_never_refused() {
    let mut line = Line::new(1_000, 4).expect("listed");
    assert_eq!(line.hear_frame(&HEARTBEAT, 0, 0).map(|heard| (heard.units, heard.waiting)), Ok((0, 20)));
    assert_eq!(line.hear_frame(&[], 1, 0).unwrap_err().answer(), Answer::NotOpen);
    let mut line = live(5_000);
    assert!(line.hear(&unit(9, 9, &bid(5, 1, 9)), 5_000).is_err());
    let heard = line.hear_frame(&HEARTBEAT, 0, 0).expect("nothing is refused");
    assert_eq!((heard.units, heard.waiting, heard.dropping), (0, 20, true));
    assert_eq!((line.why(5_000), line.feed().heard()), (Why::Lost, 5_000));
    // the next call with a unit allowed finds that the line drops, and drops them
    let heard = line.hear_frame(&[], 1, 5_000).expect("no answer");
    assert_eq!((heard.waiting, heard.dropping, line.waiting()), (0, true, 0));
}

#[test]
fn a_refusal_in_a_frame_says_which_unit() {
    let mut line = live(5_000);
    let bytes = [unit(4, 2, &nominal(700, 9_740)), unit(6, 3, &bid(5, 1, 9)), HEARTBEAT.to_vec()].concat();
    assert_eq!(line.hear_frame(&bytes, 100, 5_100).unwrap_err().answer(), Answer::NotNext);
    let words = "lost: the sequence number is not the next (answer 13), unit 5, type 53, SeqNum 5 expected and 6 met";
    assert_eq!((line.reason(5_100).to_string(), line.units(), line.waiting()), (words.to_string(), 4, 0));
    assert_eq!(line.strips().strip(700).expect("a strip").nominal, Some(9_740), "what stands before it stays");
}

#[test]
fn what_closed_a_line_in_a_frame_is_told() {
    let bytes = [unit(4, 2, &nominal(700, 9_740)), HEARTBEAT.to_vec(), unit(5, 0, &session(1103, 103))].concat();
    let words = "closed: logged out (type 1103, status 103), unit 6";
    for allowed in [3, 4, u64::MAX] {
        let mut line = live(5_000);
        assert_eq!(line.hear_frame(&bytes, allowed, 5_100).expect("accepted").units, 3);
        assert_eq!((line.reason(5_100).to_string(), line.is_open()), (words.to_string(), false));
        assert_eq!(line.hear_frame(&HEARTBEAT[..19], 1, 5_100).map(|heard| heard.waiting), Ok(19));
        assert_eq!(line.hear_frame(&HEARTBEAT[19..], 1, 5_100).unwrap_err().answer(), Answer::NotOpen);
    }
    let mut line = live(5_000);
    let behind = [&bytes[..], &HEARTBEAT].concat();
    assert_eq!(line.hear_frame(&behind, 4, 5_100).unwrap_err().answer(), Answer::NotOpen);
    assert!(line.reason(5_100).to_string().starts_with(words) && line.units() == 6);
    // torn bytes behind it wait where its own were
    let mut line = live(5_000);
    assert_eq!(line.hear_frame(&bytes[..70], u64::MAX, 5_100).map(|heard| heard.waiting), Ok(18));
    let behind = [&bytes[70..], &HEARTBEAT[..15]].concat();
    assert_eq!(line.hear_frame(&behind, u64::MAX, 5_100).map(|heard| (heard.units, heard.waiting)), Ok((1, 15)));
    assert_eq!(line.reason(5_100).to_string(), words);
    let mut line = connected(0);
    let turned_down = [unit(1, 0, &message(1105, 4)), unit(2, 0, &session(1102, 5))].concat();
    assert_eq!(line.hear_frame(&turned_down, 9, 0).expect("accepted").units, 2);
    assert_eq!(line.reason(0).to_string(), "closed: the logon was turned down (type 1102, status 5), unit 2");
}
