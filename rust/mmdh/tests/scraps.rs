//! Scraps by the calls of a line: what they say, what waits and where, and that any cutting ends as one piece does.

use exchange::dice::Dice;
use exchange::{book_message, message, nominal, session, unit, Entry};
use mmdh::raw::{self, Lent, MmdhFeed, MmdhHeard, MmdhLine, MmdhLinked};
use mmdh::single::{Feed, LentLine, LONGEST};
use mmdh::{Answer, Badge, Connect, Line, Phase, Tables};

const LIVE: MmdhFeed = MmdhFeed { phase: 4, next: 3, internal: 0, heard: 5_000, limit: 1_000, whole: 1, fresh: 1 };
const HEARTBEAT: [u8; 20] = [20, 0, 0, 0, 2, 0, 0, 0, 0, 0, 0, 0, 0, 0, 0, 0, 0, 0, 0, 0];

fn line(feed: MmdhFeed) -> MmdhLine {
    MmdhLine { feed, held: 0, dropping: 0 }
}

/// A scrap without tables.
fn scrap(line: MmdhLine, hold: &mut [u8], bytes: &[u8], allowed: u64, time: u64) -> MmdhHeard {
    raw::line_scrap(line, Lent { books: &mut [], strips: &mut [] }, hold, bytes, allowed, time)
}

#[test]
fn nothing_allowed_and_dropping_hand_the_line_back_as_it_came() {
    let odd = MmdhFeed { phase: 9, heard: 5_000, limit: 0, whole: 7, fresh: 256, ..LIVE };
    for held in [0, 5, 41, u64::MAX] {
        for dropping in [0, 1, 7, u64::MAX] {
            let line = MmdhLine { feed: odd, held, dropping };
            for (room, bytes) in [(40, &HEARTBEAT[..]), (40, &[]), (0, &HEARTBEAT)] {
                let (mut hold, clean) = (vec![0xEE; room], vec![0xEE; room]);
                let heard = scrap(line, &mut hold, bytes, 0, 0);
                assert_eq!((heard, &hold), (MmdhHeard { line, ..MmdhHeard::default() }, &clean));
                if dropping != 0 {
                    let heard = scrap(line, &mut hold, bytes, 1, 0);
                    let wanted = MmdhHeard { used: bytes.len() as u64, line, ..MmdhHeard::default() };
                    assert_eq!((heard, &hold), (wanted, &clean));
                }
                let refused = raw::line_connect(line, &hold, 0, 4_999);
                assert_eq!(refused, MmdhLinked { answer: 10, line });
            }
        }
    }
}

#[test]
fn the_buffer_has_what_the_contract_says_byte_by_byte() {
    let units = [unit(3, 1, &message(60, 12)), unit(4, 2, &message(60, 8)), HEARTBEAT.to_vec()];
    let bytes = units.concat();
    let clean_behind = |front: &[u8]| [front, &vec![0xEE; 40 - front.len()]].concat();
    // nothing waits: no copy
    let mut hold = vec![0xEE; 40];
    let heard = scrap(line(LIVE), &mut hold, &bytes, 2, 5_000);
    assert_eq!((heard.said, heard.answer, heard.accepted, heard.used), (1, 2, 2, 60));
    assert_eq!(hold, clean_behind(&[]));
    // what is left waits in front
    let heard = scrap(line(LIVE), &mut hold, &bytes[..45], u64::MAX, 5_000);
    assert_eq!((heard.said, heard.answer, heard.accepted, heard.used, heard.line.held), (0, 0, 1, 45, 13));
    assert_eq!(hold, clean_behind(&bytes[32..45]));
    // the missing bytes go behind what waits, and nothing else does
    let heard = scrap(heard.line, &mut hold, &bytes[45..], u64::MAX, 5_000);
    assert_eq!((heard.said, heard.accepted, heard.used, heard.line.held), (0, 2, 35, 0));
    assert_eq!(hold, clean_behind(&units[1]));
    // refused, as accepted
    let (mut hold, wrong) = (vec![0xEE; 40], MmdhFeed { next: 9, ..LIVE });
    let waits = scrap(line(wrong), &mut hold, &bytes[..5], 1, 5_000).line;
    let heard = scrap(waits, &mut hold, &bytes[5..], 1, 5_000);
    assert_eq!((heard.said, heard.answer, heard.used, heard.line.dropping), (1, 13, 75, 1));
    assert_eq!(hold, clean_behind(&units[0]));
    // a line made by hand in which two units wait: what is behind the first moves to the front
    let mut hold = clean_behind(&bytes[..40]);
    let heard = scrap(MmdhLine { held: 40, ..line(LIVE) }, &mut hold, &bytes[40..], 1, 5_000);
    assert_eq!((heard.answer, heard.used, heard.line.held), (2, 0, 8));
    assert_eq!(hold, [&bytes[32..40], &bytes[8..40]].concat());
}

#[test]
fn a_unit_without_room_is_22_when_its_size_is_known() {
    let long = unit(3, 1, &message(60, 21));
    for at in 0..=long.len() {
        let mut hold = vec![0xEE; 40];
        let first = scrap(line(LIVE), &mut hold, &long[..at], 1, 5_000);
        assert_eq!((first.said, first.answer), if at >= 22 { (1, 22) } else { (0, 0) }, "{} bytes", at);
        let wrote = hold.clone();
        if at < 22 {
            let second = scrap(first.line, &mut hold, &long[at..], 1, 5_000);
            assert_eq!((second.said, second.answer, second.used), (1, 22, long.len() as u64 - at as u64));
            let lost = MmdhLine { feed: MmdhFeed { phase: 5, ..LIVE }, held: 0, dropping: 1 };
            assert_eq!((second.line, hold), (lost, wrote), "whole is kept, and nothing is written");
        }
    }
    let mut room = vec![0xEE; 41];
    assert_eq!(scrap(line(LIVE), &mut room, &long, 1, 5_000).answer, 2);
}

#[test]
fn any_cutting_ends_as_one_piece_and_as_single_calls() {
    let morning = std::fs::read("../../captures/morning.bin").expect("the capture");
    let stream = &morning[..50_000];
    let mut feed = Feed::new(1_000).expect("listed");
    let mut tables = Tables::with_slots(128);
    assert!(feed.connect(Connect::Fresh, 7).is_accepted());
    let frame = feed.arrive_frame(&mut tables, stream, u64::MAX, 7);
    assert_eq!(frame.answer, Answer::More);
    let mut dice = Dice::new(4);
    for (room, largest, allowed) in [(LONGEST, 50_000, u64::MAX), (700, 1, 1), (700, 300, 2), (700, 3_000, u64::MAX)] {
        let mut line = LentLine::new(1_000).expect("listed");
        let (mut words, mut hold) = (Tables::with_slots(128), vec![0; room]);
        assert!(line.connect(&hold, Connect::Fresh, 7).is_accepted());
        let (mut rest, mut units) = (stream, 0);
        while !rest.is_empty() {
            let piece = &rest[..dice.place(largest + 1).min(rest.len())];
            let scrap = line.scrap(&mut words, &mut hold, piece, allowed, 7);
            assert!(scrap.said.map_or(scrap.used == piece.len(), Answer::is_accepted));
            units += scrap.accepted;
            rest = &rest[scrap.used..];
        }
        assert_eq!((line.feed(), units), (&feed, frame.accepted));
        assert_eq!((line.held(), &hold[..line.held()]), (stream.len() - frame.used, &stream[frame.used..]));
        assert_eq!(words.books.words(), tables.books.words());
        assert_eq!(words.strips.words(), tables.strips.words());
    }
}

#[test]
fn a_line_with_a_lent_buffer_drops_until_it_is_connected() {
    let mut line = LentLine::new(1_000).expect("listed");
    let (mut tables, mut hold) = (Tables::with_slots(1), [0; 64]);
    assert_eq!(line.connect(&hold, Connect::Resuming, 0), Answer::CannotResume);
    let unasked = line.scrap(&mut tables, &mut hold, &HEARTBEAT, 1, 0);
    assert_eq!((unasked.said, unasked.used, line.is_dropping()), (Some(Answer::NotOpen), 20, true));
    assert_eq!(line.connect(&hold[..21], Connect::Fresh, 0), Answer::TooLong);
    assert!(line.is_dropping());
    assert_eq!(line.connect(&hold, Connect::Fresh, 0), Answer::Taken);
    let one = book_message(5, &[Entry { price: 1, level: 1, ..Entry::default() }]);
    let units = [unit(1, 0, &message(1105, 4)), unit(2, 0, &session(1102, 0)), unit(3, 1, &one)];
    let scrap = line.scrap(&mut tables, &mut hold, &units.concat(), 9, 1);
    assert_eq!((scrap.said, scrap.accepted, line.feed().phase()), (None, 3, Phase::Live));
    assert_eq!(tables.books.bids(5).map(|rows| rows.len()), Ok(1));
    let full = line.scrap(&mut tables, &mut hold, &unit(4, 2, &nominal(6, 1)), 9, 2);
    assert_eq!((full.said, full.accepted), (None, 1));
    let full = line.scrap(&mut tables, &mut hold, &unit(5, 3, &nominal(7, 1)), 9, 3);
    assert_eq!((full.said, line.feed().badge(3), line.feed().whole()), (Some(Answer::Full), Badge::Stale, false));
}

/// The lines of a morning by hear, by hear_each and in frames all end alike, whatever the buffer.
#[test]
fn a_short_buffer_ends_as_a_long_one_while_units_fit() {
    let morning = std::fs::read("../../captures/morning.bin").expect("the capture");
    let mut ends = Vec::new();
    for (room, way) in [(LONGEST, 0), (564, 0), (564, 1), (564, 2), (563, 0)] {
        let mut line = Line::with_hold(1_000, 128, room).expect("listed");
        line.connect(Connect::Fresh, 7).expect("accepted");
        let mut heard = morning.chunks(777).try_for_each(|piece| {
            let heard = match way {
                0 => line.hear(piece, 7),
                1 => line.hear_each(piece, 7, |_| {}),
                _ => line.hear_frame(piece, 3, 7),
            };
            heard.map(|_| ())
        });
        // three a frame leave more than the buffer has room for
        assert_eq!(line.waiting() > room, way == 2);
        while heard.is_ok() && line.waiting() > 0 {
            heard = line.hear_frame(&[], 3, 7).map(|heard| assert!(heard.units > 0));
        }
        ends.push((heard.map_err(|refused| refused.answer()), line.units(), line.books().words().to_vec()));
    }
    assert!(ends[..4].iter().all(|end| end == &ends[0]), "{:?}", ends[..4].iter().map(|end| end.1).collect::<Vec<_>>());
    // the longest unit of the morning has 564 bytes
    assert!(ends[0].0.is_ok() && ends[4].0 == Err(Answer::TooLong) && ends[4].1 < ends[0].1);
}
