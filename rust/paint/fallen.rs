//! Rows that fell off: the tenth rows that a repaint has shown, and which of them new levels have pushed out by the next.

use mmdh::{Books, Row, Side};

/// Rows of a side that has room for no more: a new level pushes out the last of them.
pub const FULL: usize = 10;

/// The tenth rows of some sides, each with its code.
#[derive(Clone, PartialEq, Eq, Debug, Default)]
pub struct Tenths {
    rows: Vec<(u64, Side, Row)>,
}

impl Tenths {
    /// Those of these codes' sides that have one.
    pub fn of(books: &Books<'_>, codes: impl Iterator<Item = u64>) -> Tenths {
        let sides = codes.flat_map(|code| [(code, Side::Bid), (code, Side::Offer)]);
        let tenth = |(code, side)| Some((code, side, books.row(code, side, FULL as u64).ok()?));
        Tenths { rows: sides.filter_map(tenth).collect() }
    }

    /// Those whose side has ten rows again, and none of their price.
    pub fn gone(&self, books: &Books<'_>) -> Tenths {
        let is_gone = |(code, side, row): &&(u64, Side, Row)| {
            let pushed_out = |now: &[Row]| now.len() == FULL && now.iter().all(|other| other.price != row.price);
            books.side(*code, *side).map_or(false, |now| pushed_out(&now))
        };
        Tenths { rows: self.rows.iter().filter(is_gone).copied().collect() }
    }

    /// The row of a panel's side, if it is one of these.
    pub fn row(&self, code: Option<u64>, side: Side) -> Option<Row> {
        self.rows.iter().find(|row| (Some(row.0), row.1) == (code, side)).map(|row| row.2)
    }
}
