//! A panel: one book between borders, offers over bids, its price strip under them, the badge in its corner. A row that fell
//! off its side is flashed behind the tenth one, where a border gives way to it: no other row moves. It is old where they are.

use crate::fallen::Tenths;
use crate::strip::{self, Shown};
use crate::text::{Style, Text};
use mmdh::{Answer, Badge, Line, Refused, Row, Side};

/// Columns of price, quantity and orders; a narrow panel leaves the later ones out.
pub type Columns = &'static [usize];

/// From the widest; only the first has room for quantities written out.
pub const COLUMNS: [Columns; 4] = [&[11, 13, 7], &[9, 6, 4], &[9, 6], &[9]];

/// The mark before a row: its side, and whether it is old or fell off.
const MARK: usize = 2;

pub fn width(columns: Columns) -> usize {
    MARK + columns.iter().sum::<usize>() + 3
}

/// Lines of a panel with so many rows a side, and with the strip or without.
pub fn height(columns: Columns, rows: usize, strip: bool) -> usize {
    2 * rows + 4 + if strip { 1 + strip::lines(width(columns) - 2) } else { 0 }
}

/// What a panel shows of its book.
enum Content {
    /// A book that has rows.
    Rows { bids: Vec<Row>, offers: Vec<Row> },
    /// A book that has none. It has been emptied, and keeps its slot and its panel.
    Empty,
    /// No book to be read, and why.
    Missing(&'static str),
}

pub struct Panel {
    code: Option<u64>,
    badge: Badge,
    content: Content,
    strip: Shown,
    fallen_bid: Option<Row>,
    fallen_offer: Option<Row>,
}

impl Panel {
    /// The panel of a code, with those of its rows flashed that fell off.
    pub fn new(line: &Line, code: Option<u64>, badge: Badge, fallen: &Tenths) -> Panel {
        let books = line.books();
        let content = match code.map(|code| (books.bids(code), books.offers(code))) {
            None => Content::Missing("no book yet"),
            Some((Ok(bids), Ok(offers))) if bids.is_empty() && offers.is_empty() => Content::Empty,
            Some((Ok(bids), Ok(offers))) => Content::Rows { bids: bids.to_vec(), offers: offers.to_vec() },
            Some((Err(refused), _) | (_, Err(refused))) => Content::Missing(no_book(refused)),
        };
        let strip = Shown::of(code.map(|code| line.strips().strip(code)), badge);
        let (fallen_bid, fallen_offer) = (fallen.row(code, Side::Bid), fallen.row(code, Side::Offer));
        Panel { code, badge, content, strip, fallen_bid, fallen_offer }
    }

    /// The panel's lines, with so many rows a side, and with the strip or without.
    pub fn lines(&self, columns: Columns, rows: usize, strip: bool) -> Vec<Text> {
        let inside = width(columns) - 2;
        let title = framed(self.title(inside));
        let mut lines = match &self.fallen_offer {
            Some(row) => vec![title, framed(self.flashed(columns, row, Style::FallenOffer))],
            None => vec![rule('┌', inside, '┐'), title],
        };
        let fallen_bid = self.fallen_bid.as_ref().map(|row| framed(self.flashed(columns, row, Style::FallenBid)));
        match &self.content {
            Content::Rows { bids, offers } => {
                lines.extend((0..rows).rev().map(|at| framed(self.row(columns, offers.get(at), Style::Offer))));
                lines.push(rule('├', inside, '┤'));
                lines.extend((0..rows).map(|at| framed(self.row(columns, bids.get(at), Style::Bid))));
            }
            Content::Empty => lines.extend(words(rows, inside, "empty book", self.is_old())),
            Content::Missing(why) => lines.extend(words(rows, inside, why, false)),
        }
        if strip {
            lines.push(fallen_bid.unwrap_or_else(|| rule('├', inside, '┤')));
            lines.extend(self.strip.texts(inside).into_iter().map(framed));
            lines.push(rule('└', inside, '┘'));
        } else {
            lines.push(fallen_bid.unwrap_or_else(|| rule('└', inside, '┘')));
        }
        lines
    }

    /// Code and badge; a letter where there is no room for the badge's word.
    fn title(&self, inside: usize) -> Text {
        let name = self.code.map_or_else(|| "-".to_string(), |code| code.to_string());
        let room = inside.saturating_sub(name.len() + 1);
        let shown = label(self.badge, room);
        let gap = " ".repeat(room.saturating_sub(shown.len()));
        let text = Text::of(" ", Style::Plain).with(name, Style::Strong).with(gap, Style::Plain);
        text.with(shown, Style::Corner(self.badge))
    }

    /// Whether what the book shows is not to be quoted from.
    fn is_old(&self) -> bool {
        self.badge == Badge::Stale
    }

    fn row(&self, columns: Columns, row: Option<&Row>, style: Style) -> Text {
        let old = self.is_old();
        let mark = if style == Style::Bid { "B" } else { "O" };
        match row {
            None => Text::of(" ".repeat(width(columns) - 2), Style::Plain),
            Some(row) => {
                let mark = format!("{}{}", mark, if old { "~" } else { " " });
                marked(columns, &mark, row, if old { Style::Old } else { style })
            }
        }
    }

    /// A row that fell off: reversed among rows that are live, and struck through as they are among old ones.
    fn flashed(&self, columns: Columns, row: &Row, style: Style) -> Text {
        let mark = if style == Style::FallenBid { "B!" } else { "O!" };
        if self.is_old() {
            marked(columns, &format!("{}~", mark), row, Style::Old)
        } else {
            marked(columns, mark, row, style)
        }
    }
}

/// A row behind its mark, of which a third sign takes the space before the price.
fn marked(columns: Columns, mark: &str, row: &Row, style: Style) -> Text {
    Text::of(format!("{}{} ", mark, &cells(columns, row)[mark.len() - MARK..]), style)
}

/// A badge as a word, or as a letter where there is not room for so many signs.
pub fn label(badge: Badge, room: usize) -> String {
    let word = format!(" {} ", badge);
    if word.len() <= room {
        return word;
    }
    match badge {
        Badge::Stale => "S",
        Badge::Green => "G",
        Badge::Filling => "F",
    }
    .to_string()
}

fn no_book(refused: Refused) -> &'static str {
    match refused.answer() {
        Answer::NoRow => "no book",
        Answer::Unsound => "not sound",
        _ => "no such code",
    }
}

/// Words where the best bid would stand, and no rows.
fn words(rows: usize, inside: usize, words: &str, old: bool) -> Vec<Text> {
    let (mark, style) = if old { ("~", Style::Old) } else { (" ", Style::Plain) };
    let said = format!("{}{}", mark, words);
    let gap = " ".repeat(inside.saturating_sub(said.len()));
    let mut lines = vec![framed(Text::of(" ".repeat(inside), Style::Plain)); 2 * rows + 1];
    lines[rows] = rule('├', inside, '┤');
    lines[rows + 1] = framed(Text::of(said, style).cut(inside).with(gap, Style::Plain));
    lines
}

fn rule(left: char, inside: usize, right: char) -> Text {
    Text::of(format!("{}{}{}", left, "─".repeat(inside), right), Style::Border)
}

fn framed(text: Text) -> Text {
    Text::of("│", Style::Border).then(text).with("│", Style::Border)
}

fn cells(columns: Columns, row: &Row) -> String {
    let wide = columns == COLUMNS[0];
    let number = |number: u64| if wide { grouped(number) } else { short(number) };
    let cells = [price(row.price), number(row.quantity), number(row.orders)];
    cells.iter().zip(columns).map(|(cell, &width)| fitted(cell, width)).collect()
}

/// A cell in its column with a space before it; signs for a number that would run over.
pub fn fitted(cell: &str, width: usize) -> String {
    if cell.len() < width {
        format!("{:>width$}", cell, width = width)
    } else {
        format!(" {}", "#".repeat(width - 1))
    }
}

/// Thousandths as dollars.
pub fn price(thousandths: i64) -> String {
    let sign = if thousandths < 0 { "-" } else { "" };
    let size = thousandths.unsigned_abs();
    format!("{}{}.{:03}", sign, size / 1_000, size % 1_000)
}

/// A number with its thousands set apart.
pub fn grouped(number: u64) -> String {
    let digits = number.to_string();
    let apart = digits.char_indices().map(|(at, digit)| match (digits.len() - at) % 3 {
        0 if at > 0 => format!(",{}", digit),
        _ => digit.to_string(),
    });
    apart.collect()
}

/// A number in at most five signs where it can be.
pub fn short(number: u64) -> String {
    match number {
        0..=9_999 => number.to_string(),
        10_000..=9_999_999 => format!("{}K", number / 1_000),
        10_000_000..=9_999_999_999 => format!("{}M", number / 1_000_000),
        _ => format!("{:.0e}", number as f64),
    }
}
