//! A frame as a picture: the same lines in the same styles, each sign in its cell.

use crate::layout::Size;
use crate::text::{Span, Style, Text};
use mmdh::Badge;

/// A cell's width and height, and the space around the frame.
const CELL: usize = 8;
const LINE: usize = 16;
const AROUND: usize = 10;

/// The picture of a frame painted in a size.
pub fn picture(lines: &[Text], size: Size) -> String {
    let columns = lines.iter().map(Text::width).max().unwrap_or(0).min(size.columns);
    let (width, height) = (CELL * columns + 2 * AROUND, LINE * lines.len() + 2 * AROUND);
    let head = format!(
        "<svg xmlns=\"http://www.w3.org/2000/svg\" width=\"{0}\" height=\"{1}\" viewBox=\"0 0 {0} {1}\" \
         font-family=\"monospace\" font-size=\"13\">\n<rect width=\"{0}\" height=\"{1}\" fill=\"#14181d\"/>\n",
        width, height
    );
    let body: String = lines.iter().enumerate().map(|(row, line)| drawn(line, AROUND + LINE * row)).collect();
    head + &body + "</svg>\n"
}

/// One line at a height, span by span.
fn drawn(line: &Text, top: usize) -> String {
    let mut left = AROUND;
    let mut shapes = String::new();
    for span in &line.spans {
        shapes.push_str(&if span.style == Style::Border { border(span, left, top) } else { words(span, left, top) });
        left += CELL * span.text.chars().count();
    }
    shapes
}

/// Borders as strokes from cell to cell.
fn border(span: &Span, left: usize, top: usize) -> String {
    let strokes: String = span.text.chars().enumerate().map(|(at, sign)| stroke(sign, left + CELL * at, top)).collect();
    format!("<path d=\"{}\" stroke=\"#5b6672\" fill=\"none\"/>\n", strokes)
}

/// The strokes of a sign in its cell, each by where it begins and how far it goes.
fn stroke(sign: char, left: usize, top: usize) -> String {
    let (x, y) = (left + CELL / 2, top + LINE / 2);
    let to_left = format!("M{} {}h{}", left, y, CELL / 2);
    let to_right = format!("M{} {}h{}", x, y, CELL / 2);
    let upwards = format!("M{} {}v{}", x, top, LINE / 2);
    let downwards = format!("M{} {}v{}", x, y, LINE / 2);
    match sign {
        '─' => format!("M{} {}h{}", left, y, CELL),
        '│' => format!("M{} {}v{}", x, top, LINE),
        '┌' => to_right + &downwards,
        '┐' => to_left + &downwards,
        '└' => to_right + &upwards,
        '┘' => to_left + &upwards,
        '├' => to_right + &upwards + &downwards,
        '┤' => to_left + &upwards + &downwards,
        _ => String::new(),
    }
}

/// Words in their cells, over a colour where they are a badge or flashed.
fn words(span: &Span, left: usize, top: usize) -> String {
    let cells = |text: &str| CELL * text.chars().count();
    let back = behind(span.style).map_or(String::new(), |back| {
        let place = format!("x=\"{}\" y=\"{}\" width=\"{}\" height=\"{}\"", left, top, cells(&span.text), LINE);
        format!("<rect {} fill=\"{}\"/>\n", place, back)
    });
    let said = span.text.trim();
    if said.is_empty() {
        return back;
    }
    let from = left + cells(&span.text) - cells(span.text.trim_start());
    let place = format!("x=\"{}\" y=\"{}\" textLength=\"{}\"", from, top + 12, cells(said));
    let (colour, more) = look(span.style);
    let text = said.replace('&', "&amp;").replace('<', "&lt;").replace(' ', "&#160;");
    format!("{}<text {} fill=\"{}\"{}>{}</text>\n", back, place, colour, more, text)
}

/// The colour of words, and what else they have.
fn look(style: Style) -> (&'static str, &'static str) {
    match style {
        Style::Plain | Style::Border => ("#c9d1d9", ""),
        Style::Strong => ("#ffffff", " font-weight=\"bold\""),
        Style::Bid => ("#79b8ff", ""),
        Style::Offer => ("#e3b341", ""),
        Style::Old => ("#6e7681", " text-decoration=\"line-through\""),
        Style::FallenBid | Style::FallenOffer => ("#14181d", ""),
        Style::Corner(Badge::Filling) => ("#14181d", ""),
        Style::Corner(_) => ("#ffffff", ""),
    }
}

/// The colour behind a badge, and behind a row that is flashed.
fn behind(style: Style) -> Option<&'static str> {
    match style {
        Style::Corner(Badge::Stale) => Some("#b62324"),
        Style::Corner(Badge::Green) => Some("#238636"),
        Style::Corner(Badge::Filling) => Some("#e3b341"),
        Style::FallenBid => Some("#79b8ff"),
        Style::FallenOffer => Some("#e3b341"),
        _ => None,
    }
}
