//! The reason against the badge, over a grid of phases, limits and times.

use exchange::{message, session, unit};
use mmdh::raw;
use mmdh::{Badge, Connect, Line, Why};

const PHASES: [u64; 10] = [0, 1, 2, 3, 4, 5, 6, 7, (1 << 32) + 4, u64::MAX];
const LIMITS: [u64; 7] = [0, 1, 1_000, 600_000, 600_001, 1 << 32, u64::MAX];

/// A line in each phase that can be reached, heard at a time; its reason within the limit.
fn lines(limit: u64, time: u64) -> Vec<(Line, Why)> {
    let key = unit(1, 0, &message(1105, 4));
    let units = [
        (vec![], Why::Key),
        (vec![key.clone()], Why::Logon),
        (vec![key.clone(), unit(2, 0, &session(1102, 101))], Why::Refresh),
        (vec![key.clone(), unit(2, 0, &session(1102, 0))], Why::Live),
        (vec![key.clone(), unit(2, 0, &session(1102, 5))], Why::Closed),
        (vec![key.clone(), key], Why::Lost),
    ];
    let mut lines = vec![(Line::new(limit, 1).expect("listed"), Why::New)];
    for (units, why) in units {
        let mut line = Line::new(limit, 1).expect("listed");
        line.connect(Connect::Fresh, time).expect("accepted");
        let lost = line.hear(&units.concat(), time).is_err();
        assert_eq!(lost, why == Why::Lost);
        lines.push((line, why));
    }
    lines
}

#[test]
fn the_reason_goes_with_the_badge() {
    for limit in [1, 2, 1_000, 600_000] {
        for heard in [0, 1, 5_000, u64::MAX - 600_000, u64::MAX - 1, u64::MAX] {
            for (line, within) in lines(limit, heard) {
                let end = heard.saturating_add(limit);
                for time in [0, heard.saturating_sub(1), heard, end, end.saturating_add(1), u64::MAX] {
                    check(&line, within, time);
                }
            }
        }
    }
}

fn check(line: &Line, within: Why, time: u64) {
    let (why, badge, feed) = (line.why(time), line.badge(time), line.feed());
    assert_eq!(badge == Badge::Green, why == Why::Live, "{:?} at {}", line, time);
    assert_eq!(badge == Badge::Filling, matches!(why, Why::Key | Why::Logon | Why::Refresh), "{:?} at {}", line, time);
    assert_eq!(why.badge(), badge, "{:?} at {}", line, time);
    let wanted = match within {
        Why::New | Why::Lost | Why::Closed => within,
        _ if time < feed.heard() => Why::Early,
        _ if time - feed.heard() > feed.limit() => Why::Silent,
        _ => within,
    };
    assert_eq!(why, wanted, "{:?} at {}", line, time);
}

#[test]
fn reasons_have_their_numbers() {
    let all = [
        Why::Live,
        Why::New,
        Why::Key,
        Why::Logon,
        Why::Refresh,
        Why::Silent,
        Why::Early,
        Why::Lost,
        Why::Closed,
        Why::Limit,
    ];
    for (number, why) in all.into_iter().enumerate() {
        assert_eq!(why.number(), number as u64);
        assert!(why.to_string().len() > 3);
    }
}

/// Green exactly if 0, filling exactly if 2, 3 or 4.
#[test]
fn the_reason_of_any_numbers_goes_with_their_badge() {
    for phase in PHASES {
        for limit in LIMITS {
            for heard in [0, 1, 5_000, u64::MAX - 1_000, u64::MAX] {
                let end = heard.wrapping_add(limit);
                for time in [0, heard.wrapping_sub(1), heard, end, end.wrapping_add(1), u64::MAX] {
                    let badge = [1, 0, 2, 2, 2, 0, 0, 0, 0, 0][raw::why(phase, heard, limit, time) as usize];
                    assert_eq!(badge, raw::badge(phase, heard, limit, time), "{} {} {} {}", phase, heard, limit, time);
                }
            }
        }
    }
}

/// A phase that is stale by itself, then the limit, then the clock, then the phase.
#[test]
fn reasons_come_in_their_order() {
    let cases = [
        (0, 5, 0, 4, 1),
        (5, 5, 0, 4, 7),
        (7, 5, 0, 4, 7),
        (u64::MAX, 5, 1_000, 5, 7),
        (6, 5, 0, 4, 8),
        (4, 5, 0, 4, 9),
        (1, 5, 600_001, 4, 9),
        (4, 5, 1_000, 4, 6),
        (3, 5, 1_000, 1_006, 5),
        (1, 5, 1_000, 1_005, 2),
        (2, 5, 1_000, 5, 3),
        (3, 5, 1_000, 5, 4),
        (4, 5, 1_000, 1_005, 0),
        (4, u64::MAX, 1_000, u64::MAX, 0),
    ];
    for (phase, heard, limit, time, wanted) in cases {
        assert_eq!(raw::why(phase, heard, limit, time), wanted, "{} {} {} {}", phase, heard, limit, time);
    }
}
