//! A line of text in styles, and how it looks without escapes and with them.

use mmdh::Badge;

/// How a part of a line looks.
#[derive(Clone, Copy, PartialEq, Eq, Debug)]
pub enum Style {
    Plain,
    Strong,
    Border,
    Bid,
    Offer,
    /// A row that is not to be quoted from.
    Old,
    /// A row that a new level pushed out of its side, among rows that may be quoted from.
    FallenBid,
    FallenOffer,
    Corner(Badge),
}

/// Some signs in one style.
#[derive(Clone, PartialEq, Eq, Debug)]
pub struct Span {
    pub text: String,
    pub style: Style,
}

/// One line.
#[derive(Clone, PartialEq, Eq, Debug, Default)]
pub struct Text {
    pub spans: Vec<Span>,
}

impl Text {
    pub fn of(text: impl Into<String>, style: Style) -> Text {
        Text::default().with(text, style)
    }

    pub fn with(mut self, text: impl Into<String>, style: Style) -> Text {
        self.spans.push(Span { text: text.into(), style });
        self
    }

    pub fn then(mut self, other: Text) -> Text {
        self.spans.extend(other.spans);
        self
    }

    pub fn width(&self) -> usize {
        self.spans.iter().map(|span| span.text.chars().count()).sum()
    }

    /// No wider than this.
    pub fn cut(mut self, width: usize) -> Text {
        let mut left = width;
        for span in &mut self.spans {
            span.text = span.text.chars().take(left).collect();
            left -= span.text.chars().count();
        }
        self
    }

    /// Without escapes, and with no sign beyond ASCII in the borders.
    pub fn plain(&self) -> String {
        let text: String = self.spans.iter().map(|span| span.text.as_str()).collect();
        let sign = |sign: char| match sign {
            '│' => '|',
            '─' => '-',
            '┌' | '┐' | '└' | '┘' | '├' | '┤' => '+',
            _ => sign,
        };
        text.chars().map(sign).collect::<String>().trim_end().to_string()
    }

    /// With a terminal's escapes.
    pub fn escaped(&self) -> String {
        let shown = |span: &Span| match escape(span.style) {
            "" => span.text.clone(),
            code => format!("\x1b[{}m{}\x1b[0m", code, span.text),
        };
        self.spans.iter().map(shown).collect()
    }
}

fn escape(style: Style) -> &'static str {
    match style {
        Style::Plain => "",
        Style::Strong => "1",
        Style::Border => "90",
        Style::Bid => "94",
        Style::Offer => "33",
        Style::Old => "2;9",
        Style::FallenBid => "7;94",
        Style::FallenOffer => "7;33",
        Style::Corner(Badge::Stale) => "97;41",
        Style::Corner(Badge::Green) => "30;42",
        Style::Corner(Badge::Filling) => "30;43",
    }
}
