//! The cover's names against document 01's numbers, and its single calls.

use exchange::{book_message, message, session, unit, Entry};
use mmdh::raw::{self, MmdhFeed};
use mmdh::single::Feed;
use mmdh::{Answer, Badge, Books, Connect, Phase, Row, Side, Tables};

fn live(tables: &mut Tables<'_>, time: u64) -> Feed {
    let mut feed = Feed::new(1_000).expect("listed");
    let _ = feed.connect(Connect::Fresh, time);
    let _ = feed.arrive(tables, &unit(1, 0, &message(1105, 532)), time);
    let _ = feed.arrive(tables, &unit(2, 0, &session(1102, 0)), time);
    feed
}

/// The archive has the calls in the shapes that the cover declares.
#[test]
fn the_archive_is_of_the_covers_version() {
    assert_eq!(raw::version(), raw::VERSION);
}

fn numbers(rows: &[Row]) -> Vec<(i64, u64, u64)> {
    rows.iter().map(|row| (row.price, row.quantity, row.orders)).collect()
}

#[test]
fn answers_have_their_numbers() {
    let numbers: Vec<u64> = Answer::all().map(Answer::number).collect();
    assert_eq!(numbers, (0..=4).chain(10..=20).chain([22, 23]).collect::<Vec<_>>());
    for answer in Answer::all() {
        assert_eq!(Answer::from_number(answer.number()), Some(answer));
        assert_eq!(answer.is_accepted(), answer.number() <= 2);
        assert!(answer.to_string().len() > 4);
    }
    for number in [5, 9, 21, 24, u64::MAX] {
        assert_eq!(Answer::from_number(number), None);
    }
}

#[test]
fn an_error_is_never_a_success() {
    for answer in Answer::all() {
        match answer.or_refused() {
            Ok(same) => assert!(same == answer && answer.number() <= 3),
            Err(refused) => assert!(refused.answer() == answer && answer.number() >= 4),
        }
    }
}

#[test]
fn limits_are_1_to_600_000() {
    for limit in [1, 1_000, 600_000] {
        assert_eq!(Feed::new(limit).map(|feed| feed.limit()), Ok(limit));
    }
    for limit in [0, 600_001, u64::MAX] {
        let refused = Feed::new(limit).expect_err("not listed");
        assert_eq!(refused.answer(), Answer::BadLimit);
        assert_eq!(refused.to_string(), format!("{} (answer 19)", Answer::BadLimit));
        let given = MmdhFeed { phase: 0, next: 1, internal: 0, heard: 0, limit: 1_000, whole: 0, fresh: 1 };
        assert_eq!(raw::new(limit).feed, given);
    }
}

#[test]
fn phases_follow_the_session() {
    let mut tables = Tables::with_slots(2);
    let mut feed = Feed::new(1_000).expect("listed");
    assert_eq!((feed.phase(), feed.badge(0)), (Phase::Idle, Badge::Stale));
    assert_eq!(feed.connect(Connect::Resuming, 5), Answer::CannotResume);
    assert_eq!(feed.connect(Connect::Fresh, 5), Answer::Taken);
    assert_eq!(feed.connect(Connect::Fresh, 4), Answer::Early);
    assert_eq!((feed.phase(), feed.badge(5)), (Phase::WaitKey, Badge::Filling));
    let steps = [
        (message(1105, 4), Phase::WaitLogon, Badge::Filling),
        (session(1102, 101), Phase::Refreshing, Badge::Filling),
        (exchange::refresh_complete(9), Phase::Live, Badge::Green),
        (session(1103, 6), Phase::Closed, Badge::Stale),
    ];
    for (seq, (message, phase, badge)) in steps.into_iter().enumerate() {
        let bytes = unit(seq as u32 + 1, 0, &message);
        let arrival = feed.arrive(&mut tables, &bytes, 6);
        assert_eq!((arrival.answer, arrival.used), (Answer::Taken, bytes.len()));
        assert_eq!((feed.phase(), feed.badge(7)), (phase, badge));
    }
    assert_eq!(feed.arrive(&mut tables, &[], 7).answer, Answer::NotOpen);
    assert_eq!((feed.next(), feed.internal(), feed.heard(), feed.whole()), (5, 9, 6, true));
    assert_eq!(feed.connect(Connect::Resuming, 8), Answer::Taken);
    assert_eq!((feed.fresh(), feed.logon_number()), (false, 9));
    assert_eq!(feed.arrive_cut(&mut tables, 2, 0, &message(1105, 4), 8).answer, Answer::NotNext);
    assert_eq!(feed.phase(), Phase::Lost);
}

#[test]
fn an_unknown_phase_is_handed_back_as_lost() {
    let plain = raw::connect(MmdhFeed { phase: 99, heard: 9, ..MmdhFeed::default() }, 0, 8);
    assert_eq!((plain.answer, plain.feed.phase), (10, 5));
}

#[test]
fn books_are_read_by_row_and_by_side() {
    let mut tables = Tables::with_slots(128);
    let mut feed = live(&mut tables, 5_000);
    let entry = |side, level, price| Entry { quantity: 4_000, price, orders: 2, side, level, action: 0 };
    let sent = book_message(700, &[entry(0, 1, 9_730), entry(0, 2, -5), entry(1, 1, 9_740)]);
    assert_eq!(feed.arrive(&mut tables, &unit(3, 1, &sent), 5_001).answer, Answer::Taken);
    let bids = tables.books.bids(700).expect("a book");
    assert_eq!(numbers(&bids), [(9_730, 4_000, 2), (-5, 4_000, 2)]);
    assert_eq!(numbers(&tables.books.offers(700).expect("a book")), [(9_740, 4_000, 2)]);
    assert_eq!(tables.books.row(700, Side::Bid, 2), Ok(bids[1]));
    let refusal = |code, side, rank| tables.books.row(code, side, rank).map_err(|refused| refused.answer());
    assert_eq!(refusal(700, Side::Offer, 2), Err(Answer::NoRow));
    assert_eq!(refusal(701, Side::Bid, 1), Err(Answer::NoRow));
    assert_eq!(refusal(0, Side::Bid, 1), Err(Answer::NotListed));
    assert_eq!(refusal(700, Side::Bid, 11), Err(Answer::NotListed));
    assert_eq!(tables.books.codes().collect::<Vec<_>>(), [700]);
    assert_eq!(feed.arrive(&mut tables, &unit(4, 1, &sent), 5_002).answer, Answer::Seen);
    assert_eq!(feed.arrive(&mut tables, &unit(5, 2, &sent)[..30], 5_002).answer, Answer::More);
    assert_eq!((feed.badge(6_002), feed.badge(6_003)), (Badge::Green, Badge::Stale));
}

#[test]
fn no_book_is_told_from_an_empty_one() {
    let mut tables = Tables::with_slots(2);
    let mut feed = live(&mut tables, 0);
    let one = Entry { price: 1, level: 1, ..Entry::default() };
    assert_eq!(feed.arrive_cut(&mut tables, 3, 1, &book_message(5, &[one]), 0).answer, Answer::Taken);
    assert_eq!(tables.books.offers(5).map(|rows| rows.len()), Ok(0));
    let clear = Entry { action: exchange::CLEAR, ..Entry::default() };
    assert_eq!(feed.arrive_cut(&mut tables, 4, 2, &book_message(5, &[clear]), 0).answer, Answer::Taken);
    assert_eq!(tables.books.bids(5).map(|rows| rows.len()), Ok(0));
    assert_eq!(tables.books.bids(6).map_err(|refused| refused.answer()), Err(Answer::NoRow));
    assert_eq!(tables.books.bids(0).map_err(|refused| refused.answer()), Err(Answer::NotListed));
    assert_eq!(tables.books.offers(100_000).map_err(|refused| refused.answer()), Err(Answer::NotListed));
}

#[test]
fn an_emptied_book_keeps_its_slot_and_has_no_rows() {
    let mut tables = Tables::with_slots(2);
    let mut feed = live(&mut tables, 0);
    let filled = |code| book_message(code, &[Entry { price: 1, level: 1, ..Entry::default() }]);
    let emptied = |code| book_message(code, &[]);
    // the last is for a code without a book, where no slot is free
    let messages = [filled(5), filled(6), emptied(5), emptied(5), emptied(7)];
    for (at, message) in messages.iter().enumerate() {
        let number = at as u32;
        assert_eq!(
            feed.arrive_cut(&mut tables, number + 3, number + 1, message, 0).answer,
            Answer::Taken,
            "message {}",
            at
        );
    }
    assert_eq!(tables.books.codes().collect::<Vec<_>>(), [5, 6]);
    assert_eq!(
        (tables.books.bids(5).map(|rows| rows.len()), tables.books.offers(5).map(|rows| rows.len())),
        (Ok(0), Ok(0))
    );
    assert_eq!(tables.books.row(5, Side::Bid, 1).map_err(|refused| refused.answer()), Err(Answer::NoRow));
    assert_eq!(tables.books.bids(6).map(|rows| rows.len()), Ok(1));
    assert_eq!(tables.books.bids(7).map_err(|refused| refused.answer()), Err(Answer::NoRow));
    assert_eq!(feed.arrive_cut(&mut tables, 8, 6, &filled(5), 0).answer, Answer::Taken);
    assert_eq!(numbers(&tables.books.bids(5).expect("a book")), [(1, 0, 0)]);
}

#[test]
fn an_unsound_book_is_not_emptied() {
    let mut words = [0; 64];
    words[..4].copy_from_slice(&[5, 0, 0, 1]);
    let mut tables = Tables::with_slots(0);
    let mut feed = live(&mut tables, 0);
    tables.books = Books::over(&mut words);
    let emptied = book_message(5, &[]);
    assert_eq!(feed.arrive_cut(&mut tables, 3, 1, &emptied, 0).answer, Answer::Unsound);
    assert_eq!((feed.phase(), feed.whole(), &words[..4]), (Phase::Lost, false, &[5, 0, 0, 1][..]));
}

#[test]
fn a_full_side_has_ten_rows() {
    let mut tables = Tables::with_slots(1);
    let mut feed = live(&mut tables, 0);
    let ten: Vec<Entry> =
        (1..=10).map(|level| Entry { price: i32::from(level), side: 1, level, ..Entry::default() }).collect();
    assert_eq!(feed.arrive_cut(&mut tables, 3, 1, &book_message(5, &ten), 0).answer, Answer::Taken);
    let offers = tables.books.offers(5).expect("a book");
    assert_eq!(offers.iter().map(|row| row.price).collect::<Vec<_>>(), (1..=10).collect::<Vec<_>>());
    for (at, row) in offers.into_iter().enumerate() {
        assert_eq!(tables.books.row(5, Side::Offer, at as u64 + 1), Ok(*row));
    }
}

#[test]
fn books_may_lie_over_the_callers_words() {
    let mut words = [0; 64 + 63];
    let mut tables = Tables::with_slots(0);
    tables.books = Books::over(&mut words);
    let mut feed = live(&mut tables, 0);
    assert_eq!(tables.books.slots(), 1);
    let sent = |code| book_message(code, &[Entry { price: 1, level: 1, ..Entry::default() }]);
    assert_eq!(feed.arrive_cut(&mut tables, 3, 1, &sent(5), 0).answer, Answer::Taken);
    assert_eq!(feed.arrive_cut(&mut tables, 4, 2, &sent(6), 0).answer, Answer::Full);
    assert!(!feed.whole());
    assert_eq!(words[..2], [5, 1]);
    words[3] = 1;
    let books = Books::over(&mut words);
    assert_eq!(books.row(5, Side::Bid, 1).map_err(|refused| refused.answer()), Err(Answer::Unsound));
    assert_eq!(books.bids(5).map_err(|refused| refused.answer()), Err(Answer::Unsound));
    assert_eq!(Books::with_slots(5_000).slots(), 4_096);
}
