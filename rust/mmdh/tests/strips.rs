//! Strips as the cover reads them.

use exchange::{about, closing, equilibrium, imbalance, message, nominal, reference, session, unit};
use mmdh::single::Feed;
use mmdh::{Answer, Connect, Direction, Phase, Strip, Strips, Tables};

/// A live feed that has had these messages, and the tables it filled; every message must be taken.
fn filled(messages: &[Vec<u8>]) -> (Feed, Tables<'static>) {
    let (mut feed, mut tables) = (Feed::new(1_000).expect("listed"), Tables::with_slots(2));
    assert_eq!(feed.connect(Connect::Fresh, 0), Answer::Taken);
    let _ = feed.arrive(&mut tables, &unit(1, 0, &message(1105, 4)), 0);
    let _ = feed.arrive(&mut tables, &unit(2, 0, &session(1102, 0)), 0);
    for (message, number) in messages.iter().zip(1..) {
        let arrival = feed.arrive(&mut tables, &unit(number + 2, number, message), 0);
        assert_eq!((arrival.answer, arrival.used), (Answer::Taken, 20 + message.len()), "message {}", number);
    }
    (feed, tables)
}

/// The values of a strip in one order, each as it is shown by `Debug`.
fn values(strip: Strip) -> [String; 9] {
    let prices = [strip.nominal, strip.iep, strip.reference, strip.lower, strip.upper, strip.closing];
    let [nominal, iep, reference, lower, upper, closing] = prices.map(|price| format!("{:?}", price));
    let [iev, imbalance] = [strip.iev, strip.imbalance].map(|quantity| format!("{:?}", quantity));
    [nominal, iep, iev, reference, lower, upper, format!("{:?}", strip.direction), imbalance, closing]
}

#[test]
fn a_value_is_there_once_it_has_come() {
    let messages = [
        nominal(700, 9_730),
        equilibrium(700, -5, u64::MAX),
        reference(700, [1, i32::MIN, i32::MAX]),
        imbalance(700, b'B', 400),
        closing(700, 0),
    ];
    let wanted = ["9730", "-5", "18446744073709551615", "1", "-2147483648", "2147483647", "Buy", "400", "0"];
    let come = [1, 3, 6, 8, 9];
    for (count, come) in come.into_iter().enumerate() {
        let (_, tables) = filled(&messages[..=count]);
        let strip = values(tables.strips.strip(700).expect("a strip"));
        for at in 0..9 {
            let shown = if at < come { format!("Some({})", wanted[at]) } else { "None".to_string() };
            assert_eq!(strip[at], shown, "value {} after {} messages", at, count + 1);
        }
    }
}

#[test]
fn the_latest_message_wins() {
    let (_, tables) = filled(&[nominal(5, 1), imbalance(5, b'S', 400), nominal(5, 2), imbalance(5, b' ', 77)]);
    let strip = tables.strips.strip(5).expect("a strip");
    assert_eq!(strip.nominal, Some(2));
    assert_eq!((strip.direction, strip.imbalance), (Some(Direction::NotApplicable), Some(0)));
}

#[test]
fn directions_have_their_letters() {
    for letter in ['N', 'B', 'S', ' '] {
        let (_, tables) = filled(&[imbalance(5, letter as u8, 1)]);
        let direction = tables.strips.strip(5).expect("a strip").direction;
        assert_eq!(direction.map(Direction::letter), Some(letter));
    }
}

#[test]
fn strips_are_refused_by_name() {
    let (mut feed, mut tables) = filled(&[nominal(5, 1), nominal(6, 1)]);
    let refusal = |tables: &Tables<'_>, code| tables.strips.strip(code).map_err(|refused| refused.answer());
    assert_eq!(refusal(&tables, 7), Err(Answer::NoRow));
    for code in [0, 100_000, u64::MAX] {
        assert_eq!(refusal(&tables, code), Err(Answer::NotListed));
    }
    assert_eq!(tables.strips.codes().collect::<Vec<_>>(), [5, 6]);
    assert_eq!(tables.books.codes().count(), 0);
    assert_eq!(feed.arrive_cut(&mut tables, 5, 3, &nominal(7, 1), 0).answer, Answer::Full);
    assert_eq!((feed.phase(), feed.whole()), (Phase::Lost, false));
}

#[test]
fn sizes_and_codes_are_judged() {
    for (kind, size) in [(40, 12), (41, 20), (43, 20), (56, 20), (62, 16)] {
        for (size, code, wanted) in [(size - 1, 5, Answer::WrongSize), (size + 1, 5, Answer::WrongSize)]
            .into_iter()
            .chain([(size, 0, Answer::NotListed), (size, 100_000, Answer::NotListed)])
        {
            let (mut feed, mut tables) = filled(&[]);
            assert_eq!(feed.arrive_cut(&mut tables, 3, 1, &about(kind, size, code), 0).answer, wanted, "type {}", kind);
            assert_eq!(tables.strips.codes().count(), 0);
        }
    }
}

#[test]
fn strips_may_lie_over_the_callers_words() {
    let mut words = [0; 12 + 11];
    words[12..].fill(7);
    let (mut feed, mut tables) = filled(&[]);
    tables.strips = Strips::over(&mut words);
    assert_eq!(tables.strips.slots(), 1);
    assert_eq!(feed.arrive_cut(&mut tables, 3, 1, &nominal(5, -1), 0).answer, Answer::Taken);
    assert_eq!(words[..4], [5, 1, 2_147_483_647, 0]);
    assert_eq!(words[12..], [7; 11]);
    words[11] = 1;
    let (mut feed, mut tables) = filled(&[]);
    tables.strips = Strips::over(&mut words);
    assert_eq!(tables.strips.strip(5).map_err(|refused| refused.answer()), Err(Answer::Unsound));
    assert_eq!(feed.arrive_cut(&mut tables, 3, 1, &nominal(5, 1), 0).answer, Answer::Unsound);
    assert_eq!(format!("{:?}", tables.strips), "Strips { slots: 1, codes: [5] }");
    assert_eq!(Strips::with_slots(5_000).slots(), 4_096);
}
