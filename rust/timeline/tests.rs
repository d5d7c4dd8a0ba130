//! The changes of a capture against a clock that asks for the badge at every millisecond.

use crate::changes::{changes, Change};
use crate::recording::{events, fits, Event, What};
use mmdh::{Badge, Line};

fn morning() -> (Vec<Event>, Vec<u8>) {
    let text = std::fs::read_to_string("../../captures/morning.times").expect("the times");
    (events(&text).expect("no fault"), std::fs::read("../../captures/morning.bin").expect("the capture"))
}

/// The badge asked for at every millisecond, before what happens in it and after each event: every change.
fn asked(events: &[Event], bytes: &[u8], limit: u64) -> Vec<(u64, Badge)> {
    let (mut line, mut rest) = (Line::new(limit, 128).expect("listed"), bytes);
    let mut found = vec![(0, Badge::Stale)];
    let mut ask = |line: &Line, time: u64| {
        if found[found.len() - 1].1 != line.badge(time) {
            found.push((time, line.badge(time)));
        }
    };
    let mut coming = events.iter().peekable();
    for time in events[0].time..=events[events.len() - 1].time {
        ask(&line, time);
        while let Some(event) = coming.next_if(|event| event.time == time) {
            match event.what {
                What::Connect(kind) => line.connect(kind, time).expect("accepted"),
                What::Bytes(length) => {
                    line.hear(&rest[..length], time).expect("accepted");
                    rest = &rest[length..];
                }
                What::HungUp | What::End => {}
            }
            ask(&line, time);
        }
    }
    found.split_off(1)
}

fn badges(changes: &[Change]) -> Vec<(u64, Badge)> {
    changes.iter().filter(|change| change.before != change.after).map(|change| (change.time, change.after)).collect()
}

#[test]
fn no_change_of_the_morning_is_missed() {
    let (events, bytes) = morning();
    for limit in [400, 1_000, 1_999, 2_000, 3_000, 600_000] {
        let changes = changes(&events, &bytes, limit).expect("listed");
        assert_eq!(badges(&changes), asked(&events, &bytes, limit), "limit {}", limit);
        assert!(changes.iter().all(|change| (change.after == Badge::Stale) == (change.event == "silence")));
        assert!(changes.windows(2).all(|pair| pair[0].after == pair[1].before && pair[0].time <= pair[1].time));
    }
}

#[test]
fn faults_name_their_lines() {
    let fault = |text: &str| events(text).expect_err("a fault");
    assert_eq!(fault("5 connect fresh\n\n6 bytes\n"), "line 3: bytes is no event");
    assert_eq!(fault("# times\nsoon end\n"), "line 2: soon is no number");
    assert_eq!(fault("5\n"), "line 1:  is no event");
    let told = events("5 bytes 7\n6 bytes 1\n").expect("no fault");
    assert_eq!(fits(&told, 9), Err("the times speak of 8 bytes, and there are 9".to_string()));
    assert_eq!(fits(&told, 8), Ok(()));
}
