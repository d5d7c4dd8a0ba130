//! The price strip under a book: eight cells, each a name and its value, and a dash for what has not come.

use crate::panel::{fitted, grouped, price, short};
use crate::text::{Style, Text};
use mmdh::{Answer, Badge, Direction, Refused, Strip};

/// Values that a strip shows: direction and quantity of the imbalance are one.
const CELLS: usize = 8;

/// Signs of the longest name, and of the short ones.
const NAME: usize = 7;
const SHORT_NAME: usize = 2;

/// How many cells stand beside each other in so many columns: two where each has room for a price.
fn across(inside: usize) -> usize {
    if inside > 20 {
        2
    } else {
        1
    }
}

/// Lines of a strip in so many columns.
pub fn lines(inside: usize) -> usize {
    CELLS / across(inside)
}

/// What a panel shows of its strip.
pub struct Shown {
    /// The values that have come, none where there is no strip; or why it cannot be read.
    strip: Result<Strip, &'static str>,
    /// Whether they are not to be quoted from.
    is_old: bool,
}

impl Shown {
    /// Of what was read for a panel's code, if it has one.
    pub fn of(read: Option<Result<Strip, Refused>>, badge: Badge) -> Shown {
        let strip = match read {
            Some(Ok(strip)) => Ok(strip),
            Some(Err(refused)) if refused.answer() == Answer::Unsound => Err("strip not sound"),
            _ => Ok(Strip::default()),
        };
        let has_values = strip.map_or(false, |strip| strip != Strip::default());
        Shown { strip, is_old: badge == Badge::Stale && has_values }
    }

    /// The strip's lines, each of so many columns.
    pub fn texts(&self, inside: usize) -> Vec<Text> {
        let across = across(inside);
        let said = match &self.strip {
            Ok(strip) => {
                let cells = values(strip).map(|value| value.cell(inside / across));
                cells.chunks(across).map(|line| line.concat()).collect()
            }
            Err(why) => vec![format!(" {}", why)],
        };
        let nothing = std::iter::repeat(String::new());
        said.into_iter().chain(nothing).take(lines(inside)).map(|line| self.text(&line, inside)).collect()
    }

    /// A line in all its columns, its first sign a mark where it is old.
    fn text(&self, line: &str, inside: usize) -> Text {
        let (mark, style) = if self.is_old { ('~', Style::Old) } else { (' ', Style::Plain) };
        let marked: String = std::iter::once(mark).chain(line.chars().skip(1)).take(inside).collect();
        Text::of(format!("{:<inside$}", marked, inside = inside), style)
    }
}

/// A value: its name, a shorter one where there is little room, and how it looks written out and short.
struct Value {
    name: &'static str,
    short_name: &'static str,
    written: String,
    short: String,
}

impl Value {
    /// The value in its cell, with a space before it.
    fn cell(&self, room: usize) -> String {
        let (name, names) = if room > 2 * NAME { (self.name, NAME) } else { (self.short_name, SHORT_NAME) };
        let left = room - 1 - names;
        let value = if self.written.len() < left { &self.written } else { &self.short };
        format!(" {:<names$}{}", name, fitted(value, left), names = names)
    }
}

/// All that a strip shows, so that what belongs together stands beside each other.
fn values(strip: &Strip) -> [Value; CELLS] {
    let dash = || "-".to_string();
    let money = |name, short_name, value: Option<i64>| {
        let written = value.map_or_else(dash, price);
        Value { name, short_name, short: written.clone(), written }
    };
    let shares = |name, short_name, value: Option<u64>| {
        let (written, short) = (value.map_or_else(dash, grouped), value.map_or_else(dash, short));
        Value { name, short_name, written, short }
    };
    let (written, short) = (imbalance(strip, grouped), imbalance(strip, short));
    [
        money("nominal", "nm", strip.nominal),
        money("closing", "cl", strip.closing),
        money("IEP", "ep", strip.iep),
        shares("volume", "ev", strip.iev),
        money("ref", "rf", strip.reference),
        Value { name: "imbal", short_name: "im", written, short },
        money("lower", "lo", strip.lower),
        money("upper", "up", strip.upper),
    ]
}

/// Direction and quantity of the imbalance, the quantity written by this.
fn imbalance(strip: &Strip, number: fn(u64) -> String) -> String {
    match (strip.direction, strip.imbalance) {
        (None, None) => "-".to_string(),
        (Some(Direction::NotApplicable), _) => "n/a".to_string(),
        (direction, quantity) => {
            let letter = direction.map_or('-', Direction::letter);
            format!("{} {}", letter, quantity.map_or_else(|| "-".to_string(), number))
        }
    }
}
