//! The books: a table of 64-bit words, owned or lent, and the rows in it.

use crate::raw::{self, MmdhLevel, BOOK_WORDS, ROWS};
use crate::tables::Words;
use crate::{Answer, Refused};
use std::fmt;
use std::ops::Deref;

/// Which side of a book.
#[derive(Clone, Copy, PartialEq, Eq, Hash, Debug)]
pub enum Side {
    /// Buyers, best is highest.
    Bid,
    /// Sellers, best is lowest.
    Offer,
}

impl Side {
    fn number(self) -> u64 {
        match self {
            Side::Bid => 0,
            Side::Offer => 1,
        }
    }
}

/// One row of a side. More may come to stand in it.
#[non_exhaustive]
#[derive(Clone, Copy, PartialEq, Eq, Hash, Debug, Default)]
pub struct Row {
    /// Thousandths of a dollar, signed as sent.
    pub price: i64,
    /// Shares.
    pub quantity: u64,
    /// Orders.
    pub orders: u64,
}

/// A table of books, to be read. A [`Line`](crate::Line) has its own; only whoever makes single calls makes one.
///
/// ```
/// use mmdh::{Answer, Books, Side};
///
/// let books = Books::with_slots(128);
/// assert_eq!(books.slots(), 128);
/// assert_eq!(books.row(700, Side::Bid, 1).unwrap_err().answer(), Answer::NoRow);
/// assert_eq!(books.row(700, Side::Bid, 11).unwrap_err().answer(), Answer::NotListed);
/// assert_eq!(books.bids(700).unwrap_err().answer(), Answer::NoRow);
/// assert_eq!(books.codes().count(), 0);
///
/// // or over words that belong to the caller
/// let mut words = [0; 640];
/// assert_eq!(Books::over(&mut words).slots(), 10);
/// ```
pub struct Books<'a> {
    words: Words<'a, BOOK_WORDS>,
}

impl<'a> Books<'a> {
    /// Empty books with room for this many codes, at most 4,096.
    pub fn with_slots(slots: usize) -> Books<'a> {
        Books { words: Words::with_slots(slots) }
    }

    /// Books over the caller's words, 64 to a book, as they stand. A new feed wants them zero.
    pub fn over(words: &'a mut [u64]) -> Books<'a> {
        Books { words: Words::Lent(words) }
    }

    /// How many codes there is room for.
    pub fn slots(&self) -> usize {
        self.words.slots()
    }

    /// All words of the table.
    pub fn words(&self) -> &[u64] {
        self.words.all()
    }

    pub(crate) fn words_mut(&mut self) -> &mut [u64] {
        self.words.all_mut()
    }

    /// One row, rank 1 the best; refused with 15, 4 or 18 where there is none to read.
    pub fn row(&self, code: u64, side: Side, rank: u64) -> Result<Row, Refused> {
        let read = raw::read_row(self.words(), code, side.number(), rank);
        let row = Row { price: read.price, quantity: read.quantity, orders: read.orders };
        Answer::given(read.answer).or_refused().map(|_| row)
    }

    /// The rows of one side at once, best first; refused with 15 where there is no such code, 4 where it has no book,
    /// 18 where its book is not sound. An empty side is none of these, nor is a book that has been emptied: it has no rows.
    pub fn side(&self, code: u64, side: Side) -> Result<Rows, Refused> {
        let read = raw::read_side(self.words(), code, side.number());
        let rows = Rows { rows: read.row.map(Row::of), count: read.count as usize };
        Answer::given(read.answer).or_refused().map(|_| rows)
    }

    /// The bids of a book, best first.
    pub fn bids(&self, code: u64) -> Result<Rows, Refused> {
        self.side(code, Side::Bid)
    }

    /// The offers of a book, best first.
    pub fn offers(&self, code: u64) -> Result<Rows, Refused> {
        self.side(code, Side::Offer)
    }

    /// The codes that have a slot, in slot order; a book that has been emptied keeps its own.
    pub fn codes(&self) -> impl Iterator<Item = u64> + '_ {
        self.words.codes()
    }
}

impl fmt::Debug for Books<'_> {
    fn fmt(&self, f: &mut fmt::Formatter<'_>) -> fmt::Result {
        let codes: Vec<u64> = self.codes().collect();
        f.debug_struct("Books").field("slots", &self.slots()).field("codes", &codes).finish()
    }
}

impl Row {
    fn of(level: MmdhLevel) -> Row {
        Row { price: level.price, quantity: level.quantity, orders: level.orders }
    }
}

/// The rows of one side, best first: none to ten of them, as a slice.
#[derive(Clone, Copy, PartialEq, Eq)]
pub struct Rows {
    rows: [Row; ROWS],
    count: usize,
}

impl Deref for Rows {
    type Target = [Row];

    fn deref(&self) -> &[Row] {
        &self.rows[..self.count]
    }
}

impl fmt::Debug for Rows {
    fn fmt(&self, f: &mut fmt::Formatter<'_>) -> fmt::Result {
        f.debug_list().entries(self.iter()).finish()
    }
}

impl<'a> IntoIterator for &'a Rows {
    type Item = &'a Row;
    type IntoIter = std::slice::Iter<'a, Row>;

    fn into_iter(self) -> Self::IntoIter {
        self.iter()
    }
}
