//! Books: rows, sides of ten, entries, and one book message ("The book table", "Entries").

use crate::slots::{code_listed, find, slot, slot_mut};
use crate::unit::{u16_at, u32_at, u64_at};
use crate::Answer;

/// Words of one book.
pub const SLOT: usize = 64;
/// Most rows of a side.
pub const ROWS: usize = 10;
/// Bytes of one entry.
pub const ENTRY: usize = 24;

const BIDS_AT: usize = 4;
const OFFERS_AT: usize = 34;
const ZERO_PRICE: u32 = 0x8000_0000;

/// One row of a side.
#[derive(Clone, Copy, PartialEq, Eq, Debug, Default)]
pub struct Row {
    /// Thousandths, as sent.
    pub price: i32,
    /// Shares.
    pub quantity: u64,
    /// Orders.
    pub orders: u32,
}

impl Row {
    /// The row in three words, if price and orders are below 2^32.
    fn read(words: &[u64]) -> Option<Row> {
        let price = u32::try_from(words[0]).ok()?;
        let orders = u32::try_from(words[2]).ok()?;
        Some(Row { price: (price ^ ZERO_PRICE) as i32, quantity: words[1], orders })
    }

    fn write(self, words: &mut [u64]) {
        words[0] = u64::from(self.price as u32 ^ ZERO_PRICE);
        words[1] = self.quantity;
        words[2] = u64::from(self.orders);
    }
}

/// The row that one entry pushed out of its side (request 6 of document 02); zeros where it pushed out none.
#[derive(Clone, Copy, PartialEq, Eq, Debug, Default)]
pub struct Dropped {
    /// Whether a row was dropped.
    pub whether: bool,
    /// Its price in thousandths, signed.
    pub price: i32,
    /// Its shares.
    pub quantity: u64,
    /// Its orders.
    pub orders: u32,
}

impl Dropped {
    fn of(row: Row) -> Dropped {
        Dropped { whether: true, price: row.price, quantity: row.quantity, orders: row.orders }
    }
}

/// Which side of a book.
#[derive(Clone, Copy, PartialEq, Eq, Debug)]
pub enum Way {
    /// Best is highest.
    Bid,
    /// Best is lowest.
    Offer,
}

impl Way {
    fn better(self, price: i32, than: i32) -> bool {
        match self {
            Way::Bid => price > than,
            Way::Offer => price < than,
        }
    }
}

/// One side: its rows, best first.
#[derive(Clone, Copy, Default)]
pub struct Side {
    rows: [Row; ROWS],
    count: usize,
}

impl Side {
    /// The rows in use.
    pub fn rows(&self) -> &[Row] {
        &self.rows[..self.count]
    }

    /// The side that a slot's thirty words hold, if it is sound.
    fn read(way: Way, count: u64, words: &[u64]) -> Option<Side> {
        let count = usize::try_from(count).ok().filter(|&count| count <= ROWS)?;
        let (used, unused) = words.split_at(3 * count);
        if unused.iter().any(|&word| word != 0) {
            return None;
        }
        let mut side = Side { count, ..Side::default() };
        for (row, words) in side.rows.iter_mut().zip(used.chunks_exact(3)) {
            *row = Row::read(words)?;
        }
        let falls = side.rows().windows(2).all(|pair| way.better(pair[0].price, pair[1].price));
        falls.then_some(side)
    }

    fn write(&self, words: &mut [u64]) {
        let (used, unused) = words.split_at_mut(3 * self.count);
        for (row, words) in self.rows().iter().zip(used.chunks_exact_mut(3)) {
            row.write(words);
        }
        unused.fill(0);
    }

    /// Whether a new row may stand at this place, counted from 0.
    fn has_room(&self, way: Way, at: usize, price: i32) -> bool {
        at <= self.count
            && (at == 0 || way.better(self.rows[at - 1].price, price))
            && (at == self.count || way.better(price, self.rows[at].price))
    }

    /// Rows from this place on move down; a row pushed to 11 is dropped.
    fn insert(&mut self, at: usize, row: Row) -> Dropped {
        let dropped = if self.count == ROWS { Dropped::of(self.rows[ROWS - 1]) } else { Dropped::default() };
        let kept = self.count.min(ROWS - 1);
        self.rows.copy_within(at..kept, at + 1);
        self.rows[at] = row;
        self.count = kept + 1;
        dropped
    }

    fn remove(&mut self, at: usize) {
        self.rows.copy_within(at + 1..self.count, at);
        self.count -= 1;
    }

    /// Applies one action to the row at this place: the row that it pushed out, if any; nothing where it does not fit.
    fn apply(&mut self, way: Way, action: Action, at: usize, row: Row) -> Option<Dropped> {
        match action {
            Action::New => self.has_room(way, at, row.price).then(|| self.insert(at, row)),
            Action::Change => {
                let fits = at < self.count && self.rows[at].price == row.price;
                if fits {
                    self.rows[at] = row;
                }
                fits.then(Dropped::default)
            }
            Action::Delete => {
                let fits = at < self.count;
                if fits {
                    self.remove(at);
                }
                fits.then(Dropped::default)
            }
        }
    }
}

/// What is done to a row.
#[derive(Clone, Copy, PartialEq, Eq, Debug)]
pub enum Action {
    /// A new row; those below move down.
    New,
    /// Its quantity and orders are replaced.
    Change,
    /// It goes; those below move up.
    Delete,
}

/// One entry whose fields are listed.
#[derive(Clone, Copy, PartialEq, Eq, Debug)]
pub enum Entry {
    /// Both sides become empty.
    Clear,
    /// One row of a side.
    Row {
        /// Its side.
        way: Way,
        /// What is done to it.
        action: Action,
        /// Its place, counted from 0.
        at: usize,
        /// Its numbers.
        row: Row,
    },
}

impl Entry {
    /// The entry in 24 bytes, if side, level and action are listed.
    pub fn read(bytes: &[u8]) -> Option<Entry> {
        let action = match bytes[19] {
            0 => Action::New,
            1 => Action::Change,
            2 => Action::Delete,
            74 => return Some(Entry::Clear),
            _ => return None,
        };
        let way = match u16_at(bytes, 16) {
            0 => Way::Bid,
            1 => Way::Offer,
            _ => return None,
        };
        let level = usize::from(bytes[18]);
        if !(1..=ROWS).contains(&level) {
            return None;
        }
        let row = Row { quantity: u64_at(bytes, 0), price: u32_at(bytes, 8) as i32, orders: u32_at(bytes, 12) };
        Some(Entry::Row { way, action, at: level - 1, row })
    }
}

/// One book by value.
#[derive(Clone, Copy, Default)]
pub struct Book {
    /// Bids, falling.
    pub bids: Side,
    /// Offers, rising.
    pub offers: Side,
}

impl Book {
    /// The book in a slot, if it is sound.
    pub fn read(slot: &[u64]) -> Option<Book> {
        if slot[3] != 0 {
            return None;
        }
        let bids = Side::read(Way::Bid, slot[1], &slot[BIDS_AT..OFFERS_AT])?;
        let offers = Side::read(Way::Offer, slot[2], &slot[OFFERS_AT..SLOT])?;
        Some(Book { bids, offers })
    }

    fn write(&self, code: u64, slot: &mut [u64]) {
        slot[0] = code;
        slot[1] = self.bids.count as u64;
        slot[2] = self.offers.count as u64;
        slot[3] = 0;
        self.bids.write(&mut slot[BIDS_AT..OFFERS_AT]);
        self.offers.write(&mut slot[OFFERS_AT..SLOT]);
    }

    /// Applies one entry: the row that it pushed out, if any; nothing where it does not fit.
    pub fn apply(&mut self, entry: Entry) -> Option<Dropped> {
        match entry {
            Entry::Clear => {
                *self = Book::default();
                Some(Dropped::default())
            }
            Entry::Row { way: Way::Bid, action, at, row } => self.bids.apply(Way::Bid, action, at, row),
            Entry::Row { way: Way::Offer, action, at, row } => self.offers.apply(Way::Offer, action, at, row),
        }
    }
}

/// Takes a type 53 message of the right size, whole or not at all; how many rows its entries pushed out, each of the book as
/// those before it left it.
pub fn take(table: &mut [u64], message: &[u8]) -> Result<u64, Answer> {
    let code = u64::from(u32_at(message, 4));
    let entries = message[12..].chunks_exact(ENTRY);
    if !code_listed(code) || entries.clone().any(|entry| Entry::read(entry).is_none()) {
        return Err(Answer::NotListed);
    }
    if entries.len() == 0 {
        return empty(table, code).map(|()| 0);
    }
    let (k, mut book) = match find::<SLOT>(table, code) {
        Some(k) => (k, Book::read(slot::<SLOT>(table, k)).ok_or(Answer::Unsound)?),
        None => (find::<SLOT>(table, 0).ok_or(Answer::Full)?, Book::default()),
    };
    let mut dropped = 0;
    for entry in entries.filter_map(Entry::read) {
        let row = book.apply(entry).ok_or(Answer::Misfit)?;
        dropped += u64::from(row.whether);
    }
    book.write(code, slot_mut::<SLOT>(table, k));
    Ok(dropped)
}

/// NoEntries 0: both sides of the code's book become empty, and its slot stays its own (request 1 of document 02). A code
/// without a book takes no slot.
fn empty(table: &mut [u64], code: u64) -> Result<(), Answer> {
    if let Some(k) = find::<SLOT>(table, code) {
        Book::read(slot::<SLOT>(table, k)).ok_or(Answer::Unsound)?;
        Book::default().write(code, slot_mut::<SLOT>(table, k));
    }
    Ok(())
}
