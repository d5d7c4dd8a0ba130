//! A capture with times: what happened to a line, and the bytes that came. docs/CAPTURES.md has the format.

use mmdh::Connect;

/// What happened at a time.
#[derive(Clone, Copy, PartialEq, Eq, Debug)]
pub enum What {
    Connect(Connect),
    Bytes(usize),
    HungUp,
    End,
}

/// One line of a capture with times.
#[derive(Clone, Copy, PartialEq, Eq, Debug)]
pub struct Event {
    pub time: u64,
    pub what: What,
}

/// The events of a capture; a fault names its line.
pub fn events(text: &str) -> Result<Vec<Event>, String> {
    let lines = text.lines().enumerate().filter(|(_, line)| !line.trim().is_empty() && !line.starts_with('#'));
    lines.map(|(at, line)| event(line).map_err(|why| format!("line {}: {}", at + 1, why))).collect()
}

fn event(line: &str) -> Result<Event, String> {
    let words: Vec<&str> = line.split_whitespace().collect();
    let number = |word: &str| word.parse().map_err(|_| format!("{} is no number", word));
    let what = match words[1..] {
        ["connect", "fresh"] => What::Connect(Connect::Fresh),
        ["connect", "resuming"] => What::Connect(Connect::Resuming),
        ["bytes", length] => What::Bytes(number(length)? as usize),
        ["hung", "up"] => What::HungUp,
        ["end"] => What::End,
        _ => return Err(format!("{} is no event", words[1..].join(" "))),
    };
    Ok(Event { time: number(words[0])?, what })
}

/// Whether the events speak of these many bytes, no more and no fewer.
pub fn fits(events: &[Event], bytes: usize) -> Result<(), String> {
    let length = |event: &Event| if let What::Bytes(length) = event.what { length as u128 } else { 0 };
    let told: u128 = events.iter().map(length).sum();
    if told != bytes as u128 {
        return Err(format!("the times speak of {} bytes, and there are {}", told, bytes));
    }
    Ok(())
}
