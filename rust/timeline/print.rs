//! Changes in words, and as lines for a spreadsheet.

use crate::changes::Change;

/// Times from here on are taken to count from 1970.
const CALENDAR: u64 = 1_000_000_000_000;

/// Hong Kong's time of day, where the times count from 1970.
fn clock(time: u64) -> Option<String> {
    if time < CALENDAR {
        return None;
    }
    let of_day = time.wrapping_add(8 * 3_600_000) % 86_400_000;
    let seconds = of_day / 1_000;
    Some(format!("{:02}:{:02}:{:02}.{:03}", seconds / 3_600, seconds / 60 % 60, seconds % 60, of_day % 1_000))
}

/// One line a change.
pub fn words(changes: &[Change]) -> String {
    changes.iter().map(|change| in_words(change) + "\n").collect()
}

fn in_words(change: &Change) -> String {
    let time = clock(change.time).unwrap_or_else(|| format!("{} ms", change.time));
    let badge = if change.before == change.after {
        format!("stays {}", change.after)
    } else {
        format!("{} to {}", change.before, change.after)
    };
    let caused = if change.event == "silence" { String::new() } else { caused(change) + ": " };
    format!("{}  {:<17}  {}{}", time, badge, caused, change.reason)
}

/// What happened, which unit it was and what it was answered.
fn caused(change: &Change) -> String {
    let unit = change.cause.map_or(String::new(), |cause| {
        let kind = cause.kind.map_or(String::new(), |kind| format!(", type {}", kind));
        let seq = cause.seq.map_or(String::new(), |seq| format!(" (SeqNum {}{})", seq, kind));
        format!(" {}{}", cause.unit, seq)
    });
    let answer = change.answer.map_or(String::new(), |answer| format!(", answer {} ({})", answer.number(), answer));
    format!("{}{}{}", change.event, unit, answer)
}

/// A head line, then one line a change.
pub fn csv(changes: &[Change]) -> String {
    let head = "time_ms,clock,event,unit,seqnum,type,answer,answer_words,badge_before,badge,reason\n";
    changes.iter().fold(head.to_string(), |text, change| text + &csv_line(change) + "\n")
}

fn csv_line(change: &Change) -> String {
    let number = |number: Option<u64>| number.map_or(String::new(), |number| number.to_string());
    let cells = [
        change.time.to_string(),
        clock(change.time).unwrap_or_default(),
        change.event.to_string(),
        number(change.cause.map(|cause| cause.unit)),
        number(change.cause.and_then(|cause| cause.seq)),
        number(change.cause.and_then(|cause| cause.kind).map(u64::from)),
        number(change.answer.map(|answer| answer.number())),
        change.answer.map_or(String::new(), |answer| quoted(&answer.to_string())),
        change.before.to_string(),
        change.after.to_string(),
        quoted(&change.reason),
    ];
    cells.join(",")
}

fn quoted(text: &str) -> String {
    format!("\"{}\"", text.replace('"', "\"\""))
}
