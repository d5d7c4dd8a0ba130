//! A line: bytes in any pieces, what it saw, and the life of a connection.

use exchange::dice::Dice;
use exchange::{book_message, imbalance, message, nominal, refresh_complete, session, unit, Entry};
use mmdh::single::Feed;
use mmdh::{Answer, Badge, Connect, Line, Phase, Tables, Why};

/// SendKey, a logon with this status, and what follows it from SeqNum 3 on.
fn session_bytes(status: u8, messages: &[(u32, Vec<u8>)]) -> Vec<u8> {
    let mut bytes = [unit(1, 0, &message(1105, 532)), unit(2, 0, &session(1102, status))].concat();
    for (at, (internal, message)) in messages.iter().enumerate() {
        bytes.extend(unit(at as u32 + 3, *internal, message));
    }
    bytes
}

fn connected(time: u64) -> Line {
    let mut line = Line::new(1_000, 4).expect("listed");
    line.connect(Connect::Fresh, time).expect("accepted");
    line
}

fn bid(code: u32, level: u8, price: i32) -> Vec<u8> {
    book_message(code, &[Entry { quantity: 400, price, orders: 1, level, ..Entry::default() }])
}

fn live(time: u64) -> Line {
    let mut line = connected(time);
    line.hear(&session_bytes(0, &[(1, bid(5, 1, 100))]), time).expect("accepted");
    line
}

#[test]
fn any_pieces_are_one_stream() {
    let morning = std::fs::read("../../captures/morning.bin").expect("the capture");
    let mut feed = Feed::new(1_000).expect("listed");
    let mut tables = Tables::with_slots(128);
    assert!(feed.connect(Connect::Fresh, 7).is_accepted());
    let (mut at, mut units) = (0, 0);
    while at < morning.len() {
        let arrival = feed.arrive(&mut tables, &morning[at..], 7);
        assert!(arrival.answer.is_accepted());
        at += arrival.used;
        units += 1;
    }
    let mut dice = Dice::new(13);
    for largest in [1, 7, 40, 5_000, 1_000_000] {
        let mut line = Line::new(1_000, 128).expect("listed");
        line.connect(Connect::Fresh, 7).expect("accepted");
        let (mut rest, mut heard) = (&morning[..], 0);
        while !rest.is_empty() {
            let (piece, after) = rest.split_at(dice.place(largest + 1).min(rest.len()));
            heard += line.hear(piece, 7).expect("accepted").units;
            rest = after;
        }
        assert_eq!((line.feed(), line.books().words()), (&feed, tables.books.words()));
        assert_eq!(line.strips().words(), tables.strips.words());
        assert_eq!((heard, line.units(), line.waiting()), (units, units, 0));
    }
}

/// The first refusal of a stream in pieces of at most this many bytes, and the line after all of them.
fn followed(stream: &[u8], largest: usize, dice: &mut Dice) -> (Option<Answer>, Line) {
    let mut line = Line::new(1_000, 32).expect("listed");
    line.connect(Connect::Fresh, 7).expect("accepted");
    let (mut rest, mut first) = (stream, None);
    while !rest.is_empty() {
        let (piece, after) = rest.split_at((1 + dice.place(largest)).min(rest.len()));
        let refused = line.hear(piece, 7).err().map(|refused| refused.answer());
        first = first.or(refused);
        rest = after;
    }
    (first, line)
}

#[test]
fn damaged_streams_end_alike_in_any_pieces() {
    let morning = std::fs::read("../../captures/morning.bin").expect("the capture");
    let mut dice = Dice::new(77);
    let mut met = std::collections::BTreeSet::new();
    for _ in 0..300 {
        let stream = dice.damaged(&morning[..60_000]);
        let (whole_first, whole) = followed(&stream, usize::MAX, &mut dice);
        let (first, line) = followed(&stream, 3_000, &mut dice);
        assert_eq!((first, line.feed(), line.units()), (whole_first, whole.feed(), whole.units()));
        assert_eq!((line.reason(8), line.books().words()), (whole.reason(8), whole.books().words()));
        assert_eq!(line.strips().words(), whole.strips().words());
        met.insert(first.map(Answer::number));
    }
    assert!(met.len() >= 5, "refusals met: {:?}", met);
}

#[test]
fn each_unit_is_shown() {
    let bytes =
        session_bytes(0, &[(1, bid(5, 1, 100)), (1, bid(5, 1, 100)), (2, message(60, 52)), (3, nominal(5, 90))]);
    let (mut line, mut shown) = (connected(0), Vec::new());
    for piece in bytes.chunks(11) {
        let each = |unit: &mmdh::Unit<'_>| shown.push((unit.number, unit.answer, unit.bytes.len(), unit.feed.phase()));
        line.hear_each(piece, 0, each).expect("accepted");
    }
    let wanted = [
        (1, Answer::Taken, 552, Phase::WaitLogon),
        (2, Answer::Taken, 28, Phase::Live),
        (3, Answer::Taken, 56, Phase::Live),
        (4, Answer::Seen, 56, Phase::Live),
        (5, Answer::Passed, 72, Phase::Live),
        (6, Answer::Taken, 32, Phase::Live),
    ];
    assert_eq!(shown, wanted);
}

#[test]
fn a_gap_loses_the_line_and_says_which() {
    let mut line = live(5_000);
    assert_eq!((line.badge(5_000), line.why(5_000)), (Badge::Green, Why::Live));
    let refused = line.hear(&[unit(6, 2, &bid(5, 2, 90)), unit(4, 2, &bid(5, 2, 90))].concat(), 5_100).unwrap_err();
    assert_eq!(refused.answer(), Answer::NotNext);
    let reason = line.reason(5_200);
    let loss = reason.loss.expect("what lost the line");
    assert_eq!((loss.answer, loss.expected, loss.met, loss.unit, loss.time), (Answer::NotNext, 4, 6, 4, 5_100));
    assert_eq!((reason.why, reason.badge(), line.badge(5_200)), (Why::Lost, Badge::Stale, Badge::Stale));
    let words = "lost: the sequence number is not the next (answer 13), unit 4, type 53, SeqNum 4 expected and 6 met";
    assert_eq!(reason.to_string(), words);
    assert_eq!((line.is_open(), line.waiting()), (false, 0));
}

#[test]
fn a_lost_line_drops_what_comes_and_says_so() {
    let mut line = live(5_000);
    assert!(line.hear(&unit(9, 9, &bid(5, 2, 90)), 5_000).is_err());
    let next = unit(4, 2, &bid(5, 2, 90));
    for bytes in [&[][..], &[0][..], &next, &next.repeat(3)] {
        let heard = line.hear(bytes, 5_001).expect("no answer");
        assert_eq!((heard.units, heard.waiting, heard.dropping), (0, 0, true));
        assert_eq!((line.is_open(), line.is_dropping(), line.waiting()), (false, true, 0));
    }
    let reason = line.reason(5_001);
    let loss = reason.loss.expect("still the first refusal");
    assert_eq!((loss.answer, loss.met), (Answer::NotNext, 9));
    let dropping = reason.dropping.expect("since the same");
    assert_eq!((dropping.answer, dropping.unit, dropping.time), (Answer::NotNext, 4, 5_000));
    assert!(!reason.to_string().contains("dropped"), "told once: {}", reason);
}

#[test]
fn a_misfit_says_so_and_cannot_resume() {
    let mut line = live(5_000);
    assert!(line.hear(&unit(4, 2, &bid(5, 5, 90)), 5_000).is_err());
    let words = "lost: an entry does not fit the book (answer 16), unit 4, type 53, SeqNum 4";
    assert_eq!(line.reason(5_000).to_string(), words);
    assert_eq!(line.connect(Connect::Resuming, 5_001).unwrap_err().answer(), Answer::CannotResume);
    assert_eq!(line.reason(5_001).refused.map(|refused| refused.answer()), Some(Answer::CannotResume));
    let words = format!("{}; a connect was refused: there is nothing whole to resume from (answer 20)", words);
    assert_eq!(line.reason(5_001).to_string(), words);
    assert_eq!(line.reconnect(5_002), Ok(Connect::Fresh));
    assert_eq!((line.logon_number(), line.reason(5_002).to_string()), (0, "waiting for the key".to_string()));
}

#[test]
fn a_gap_can_be_resumed_from_the_last_internal_number() {
    let mut line = live(5_000);
    assert!(line.hear(&unit(9, 9, &bid(5, 2, 90)), 5_000).is_err());
    assert_eq!(line.reconnect(5_010), Ok(Connect::Resuming));
    assert_eq!((line.logon_number(), line.units(), line.why(5_010)), (1, 0, Why::Key));
    line.hear(&session_bytes(0, &[(1, bid(5, 1, 100)), (2, bid(5, 2, 90))]), 5_020).expect("accepted");
    let prices: Vec<i64> = line.books().bids(5).expect("a book").iter().map(|row| row.price).collect();
    assert_eq!((line.badge(5_020), prices), (Badge::Green, vec![100, 90]));
}

#[test]
fn an_emptied_book_stays_empty_over_a_resuming_connect() {
    let mut line = live(5_000);
    line.hear(&unit(4, 2, &book_message(5, &[])), 5_000).expect("accepted");
    assert_eq!(line.reconnect(5_010), Ok(Connect::Resuming));
    line.hear(&session_bytes(0, &[(1, bid(5, 1, 100)), (2, book_message(5, &[]))]), 5_020).expect("accepted");
    let prices = |line: &Line| line.books().bids(5).expect("a book").iter().map(|row| row.price).collect::<Vec<i64>>();
    assert_eq!((line.badge(5_020), prices(&line)), (Badge::Green, vec![]));
    line.hear(&unit(5, 3, &bid(5, 1, 90)), 5_030).expect("accepted");
    assert_eq!(prices(&line), [90]);
}

#[test]
fn a_strip_stays_over_a_resuming_connect_and_is_cleared_with_the_books() {
    let mut line = live(5_000);
    line.hear(&unit(4, 2, &nominal(5, 90)), 5_000).expect("accepted");
    assert_eq!(line.reconnect(5_010), Ok(Connect::Resuming));
    // the nominal price comes again and is Seen, though it is another one
    line.hear(&session_bytes(0, &[(2, nominal(5, 80)), (3, imbalance(6, b'B', 400))]), 5_020).expect("accepted");
    let nominals = |line: &Line| [5, 6].map(|code| line.strips().strip(code).map(|strip| strip.nominal).ok());
    assert_eq!(nominals(&line), [Some(Some(90)), Some(None)]);
    assert_eq!(line.strips().codes().collect::<Vec<_>>(), [5, 6]);
    line.connect(Connect::Fresh, 5_030).expect("accepted");
    assert_eq!(nominals(&line)[0], Some(Some(90)), "until the logon");
    line.hear(&session_bytes(101, &[(0, nominal(6, 70))]), 5_030).expect("accepted");
    assert_eq!((nominals(&line), line.books().codes().count()), ([None, Some(Some(70))], 0));
}

#[test]
fn a_direction_that_is_not_listed_loses_the_line() {
    let mut line = live(5_000);
    assert!(line.hear(&unit(4, 2, &imbalance(5, b'X', 400)), 5_000).is_err());
    let words =
        "lost: a status, code, side, level, action or direction is not listed (answer 15), unit 4, type 56, SeqNum 4";
    assert_eq!(line.reason(5_000).to_string(), words);
    assert_eq!(line.reconnect(5_001), Ok(Connect::Fresh));
}

#[test]
fn a_line_needs_as_many_strips_as_codes() {
    let mut line = connected(0);
    let strips: Vec<(u32, Vec<u8>)> = (1..=5).map(|code| (code, nominal(code, 1))).collect();
    assert_eq!(line.hear(&session_bytes(0, &strips), 0).unwrap_err().answer(), Answer::Full);
    assert_eq!((line.strips().codes().count(), line.books().codes().count()), (4, 0));
}

#[test]
fn a_connect_drops_the_bytes_that_waited() {
    let mut line = live(5_000);
    assert_eq!(line.hear(&unit(4, 2, &bid(5, 2, 90))[..30], 5_000).expect("waits").waiting, 30);
    line.connect(Connect::Fresh, 5_000).expect("accepted");
    assert_eq!(line.waiting(), 0);
    let heard = line.hear(&session_bytes(101, &[(0, bid(5, 1, 100)), (0, refresh_complete(77))]), 5_001);
    assert_eq!(heard.expect("accepted").units, 4);
    assert_eq!((line.badge(5_001), line.feed().internal()), (Badge::Green, 77));
}

#[test]
fn a_refused_connect_leaves_all() {
    let mut line = live(5_000);
    assert_eq!(line.hear(&unit(4, 2, &bid(5, 2, 90))[..30], 5_000).expect("waits").waiting, 30);
    assert_eq!(line.connect(Connect::Fresh, 4_999).unwrap_err().answer(), Answer::Early);
    assert_eq!((line.waiting(), line.badge(5_000)), (30, Badge::Green));
    assert_eq!(line.hear(&unit(4, 2, &bid(5, 2, 90))[30..], 5_000).expect("accepted").units, 1);
}

#[test]
fn a_clock_that_goes_back_drops_what_comes_under_a_green_badge() {
    let mut line = live(5_000);
    let next = unit(4, 2, &bid(5, 2, 90));
    // torn bytes only wait, whatever the time
    let heard = line.hear(&next[..40], 4_000).expect("waits");
    assert_eq!((heard.units, heard.waiting, heard.dropping), (0, 40, false));
    assert_eq!(line.hear(&next[40..], 4_998).unwrap_err().answer(), Answer::Early);
    assert_eq!((line.waiting(), line.is_dropping(), line.is_open()), (0, true, false));
    assert_eq!(line.reason(4_998).why, Why::Early);
    for time in [5_000, 5_500, 6_000] {
        assert!(line.hear(&next, time).expect("no answer").dropping);
        assert_eq!((line.badge(time), line.why(time), line.feed().heard()), (Badge::Green, Why::Live, 5_000));
        let words = "live; what comes is dropped since unit 4: the time is before the last heard time (answer 10)";
        assert_eq!(line.reason(time).to_string(), words);
    }
    assert_eq!(line.badge(6_001), Badge::Stale);
    let dropping = line.reason(6_001).dropping.expect("which refusal");
    assert_eq!((dropping.answer, dropping.unit, dropping.time), (Answer::Early, 4, 4_998));
    // a refused connect leaves that too
    assert_eq!(line.connect(Connect::Fresh, 4_999).unwrap_err().answer(), Answer::Early);
    assert!(line.is_dropping() && line.hear(&next, 6_001).expect("no answer").dropping);
    let words = line.reason(6_001).to_string();
    assert!(words.contains("limit is 1000 ms; what comes is dropped since unit 4: "), "{}", words);
    assert!(
        words.ends_with("; a connect was refused: the time is before the last heard time (answer 10)"),
        "{}",
        words
    );
    assert_eq!(line.reconnect(6_002), Ok(Connect::Resuming));
    assert_eq!((line.is_dropping(), line.reason(6_002).dropping), (false, None));
    line.hear(&session_bytes(0, &[(2, bid(5, 2, 90))]), 6_003).expect("accepted");
    assert_eq!(line.books().bids(5).expect("a book").len(), 2);
}

#[test]
fn what_follows_a_logout_is_refused_when_it_is_whole() {
    let mut line = live(5_000);
    let heard = line.hear(&[unit(4, 0, &session(1103, 103)), vec![20, 0, 0]].concat(), 5_000).expect("accepted");
    assert_eq!((heard.units, heard.waiting, heard.dropping, line.is_open()), (1, 3, false, false));
    assert_eq!(line.reason(5_000).to_string(), "closed: logged out (type 1103, status 103), unit 4");
    assert_eq!(line.hear(&[0; 17], 5_001).unwrap_err().answer(), Answer::NotOpen);
    let words =
        "closed: logged out (type 1103, status 103), unit 4; what comes is dropped since unit 5: the feed is not open \
                 for arrivals (answer 11)";
    assert_eq!(line.reason(5_001).to_string(), words);
    assert!(line.hear(&[0; 17], 5_002).expect("no answer").dropping);
}

#[test]
fn a_line_that_was_never_connected_drops_from_the_first_whole_unit() {
    let mut line = Line::new(1_000, 4).expect("listed");
    let key = unit(1, 0, &message(1105, 532));
    assert_eq!(line.hear(&[], 0).map(|heard| heard.waiting), Ok(0));
    assert_eq!(line.hear(&key[..551], 0).map(|heard| heard.waiting), Ok(551));
    assert_eq!(line.hear(&key[551..], 0).unwrap_err().answer(), Answer::NotOpen);
    assert!(line.hear(&key, 0).expect("no answer").dropping);
    line.connect(Connect::Fresh, 0).expect("accepted");
    assert_eq!(line.hear(&key, 0).map(|heard| (heard.units, heard.dropping)), Ok((1, false)));
}

#[test]
fn silence_is_counted_from_the_last_unit() {
    let mut line = live(5_000);
    assert_eq!((line.badge(6_000), line.reason(6_000).lasts()), (Badge::Green, Some(0)));
    assert_eq!((line.badge(6_001), line.reason(6_001).lasts()), (Badge::Stale, None));
    line.hear(&[20, 0, 0, 0].repeat(5), 7_000).expect("a heartbeat");
    assert_eq!((line.badge(7_400), line.reason(7_400).lasts()), (Badge::Green, Some(600)));
}

#[test]
fn a_line_that_hung_up_keeps_its_badge() {
    let mut line = live(5_000);
    line.hung_up(5_400);
    assert_eq!((line.badge(5_500), line.reason(5_500).hung_up), (Badge::Green, Some(5_400)));
    assert_eq!(line.reason(5_500).to_string(), "live; the line hung up 100 ms ago");
    line.reconnect(5_600).expect("accepted");
    assert_eq!(line.reason(5_600).hung_up, None);
}

#[test]
fn what_closed_a_line_is_told() {
    let mut line = live(5_000);
    assert_eq!(line.hear(&unit(4, 0, &session(1103, 103)), 5_000).expect("accepted").units, 1);
    assert!(!line.is_open());
    assert_eq!(line.reason(5_000).to_string(), "closed: logged out (type 1103, status 103), unit 4");
    let mut line = connected(0);
    line.hear(&session_bytes(5, &[]), 0).expect("accepted");
    assert_eq!(line.reason(0).to_string(), "closed: the logon was turned down (type 1102, status 5), unit 2");
}

/// Of a unit that has no room, as much is told as has come.
#[test]
fn a_unit_that_has_no_room_loses_the_line_as_soon_as_that_is_known() {
    let mut line = Line::with_hold(1_000, 4, 552).expect("listed");
    line.connect(Connect::Fresh, 0).expect("accepted");
    line.hear(&session_bytes(0, &[(1, bid(5, 1, 100))]), 0).expect("a key of 552 bytes has room");
    let long = unit(4, 2, &message(60, 533));
    assert_eq!(line.hear(&long[..21], 0).map(|heard| heard.waiting), Ok(21));
    assert_eq!(line.hear(&long[21..22], 0).unwrap_err().answer(), Answer::TooLong);
    let words = "lost: the holding buffer is too short (answer 22), unit 4, SeqNum 4";
    assert_eq!((line.reason(0).to_string(), line.badge(0)), (words.to_string(), Badge::Stale));
    assert_eq!(line.reconnect(1), Ok(Connect::Resuming), "what has come is whole");
    // whole in one piece it has none either
    line.hear(&session_bytes(0, &[]), 2).expect("accepted");
    assert_eq!(line.hear(&unit(3, 2, &message(60, 533)), 2).unwrap_err().answer(), Answer::TooLong);
    let words = "lost: the holding buffer is too short (answer 22), unit 3, type 60, SeqNum 3";
    assert_eq!(line.reason(2).to_string(), words);
}

#[test]
fn the_longest_unit_has_room_in_a_line() {
    let mut line = live(5_000);
    let longest = unit(4, 2, &message(60, 65_535));
    assert_eq!(longest.len(), mmdh::single::LONGEST);
    for piece in longest.chunks(1_000) {
        line.hear(piece, 5_000).expect("accepted");
    }
    assert_eq!((line.units(), line.waiting()), (4, 0));
}

#[test]
fn a_buffer_without_room_for_a_header_and_a_size_is_never_connected() {
    for bytes in [0, 1, 21] {
        let mut line = Line::with_hold(1_000, 4, bytes).expect("listed");
        assert_eq!(line.connect(Connect::Resuming, 0).unwrap_err().answer(), Answer::CannotResume);
        assert_eq!(line.reconnect(0).unwrap_err().answer(), Answer::TooLong);
        let words = "never connected; a connect was refused: the holding buffer is too short (answer 22)";
        assert_eq!((line.reason(0).to_string(), line.is_open()), (words.to_string(), false));
        assert_eq!(line.hear(&[], 0).unwrap_err().answer(), Answer::NotOpen);
    }
    let mut line = Line::with_hold(1_000, 4, 22).expect("listed");
    line.connect(Connect::Fresh, 0).expect("accepted");
    assert_eq!(line.hear(&[20, 0, 0, 0].repeat(50), 0).map(|heard| heard.units), Ok(10), "heartbeats have room");
}

/// Torn in two at every byte, each unit is shown with all of its bytes.
#[test]
fn each_unit_is_shown_whole_wherever_it_was_torn() {
    let units = [unit(1, 0, &message(1105, 40)), unit(2, 0, &session(1102, 0)), [20, 0, 7, 0].repeat(5)];
    let units = [&units[..], &[unit(3, 1, &bid(5, 1, 100)), unit(4, 1, &message(60, 300))]].concat();
    let bytes = units.concat();
    for at in 0..=bytes.len() {
        let (mut line, mut shown) = (connected(0), Vec::new());
        for piece in [&bytes[..at], &bytes[at..]] {
            line.hear_each(piece, 0, |unit| shown.push(unit.bytes.to_vec())).expect("accepted");
        }
        assert_eq!(shown, units, "torn at {}", at);
    }
}

/// What another box cuts goes by the feed alone.
#[test]
fn a_message_already_cut_is_taken_by_a_line_that_drops() {
    let mut line = live(5_000);
    assert_eq!(line.hear(&unit(4, 2, &bid(5, 2, 90)), 4_999).unwrap_err().answer(), Answer::Early);
    assert_eq!(line.hear_cut(4, 2, &bid(5, 2, 90), 5_001), Ok(Answer::Taken));
    assert_eq!((line.is_dropping(), line.feed().heard(), line.units()), (true, 5_001, 4));
    // and its refusal drops no bytes: they are 11 when a unit is whole
    let mut line = live(5_000);
    assert_eq!(line.hear_cut(9, 2, &bid(5, 2, 90), 5_001).unwrap_err().answer(), Answer::NotNext);
    assert_eq!(line.hear(&[20, 0], 5_001).map(|heard| (heard.waiting, heard.dropping)), Ok((2, false)));
    assert_eq!(line.hear(&[0; 18], 5_001).unwrap_err().answer(), Answer::NotOpen);
    let words = line.reason(5_001).to_string();
    assert!(
        words.starts_with("lost: ")
            && words.ends_with("dropped since unit 4: the feed is not open for arrivals (answer 11)")
    );
}

#[test]
fn a_message_too_short_for_a_type_has_none() {
    let mut line = live(5_000);
    assert!(line.hear(&[&unit(4, 2, &[3, 0, 53])[..], &[0; 9]].concat(), 5_000).is_err());
    let loss = line.reason(5_000).loss.expect("what lost the line");
    assert_eq!((loss.answer, loss.kind, loss.met), (Answer::WrongSize, None, 4));
}

#[test]
fn a_line_can_be_looked_at() {
    let shown = format!("{:?}", live(5_000));
    for part in ["Line", "Feed", "codes: [5]", "units: 3", "65555 bytes"] {
        assert!(shown.contains(part), "{} is not in {}", part, shown);
    }
    assert!(shown.len() < 1_000, "{} signs", shown.len());
}
