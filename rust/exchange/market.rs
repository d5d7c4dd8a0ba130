//! A small market: it keeps its own books and sends only entries that fit them, and prices around their middle.

use crate::dice::Dice;
use crate::{book_message, closing, equilibrium, imbalance, nominal, reference};
use crate::{Entry, CHANGE, CLEAR, DELETE, NEW};

const ROWS: usize = 10;

#[derive(Clone, Copy)]
struct Row {
    price: i32,
    quantity: u64,
    orders: u32,
}

/// One book: its code, the middle of its prices, its tick, its two sides.
struct Book {
    code: u32,
    middle: i32,
    tick: i32,
    sides: [Vec<Row>; 2],
}

/// Books by their codes, and the dice that move them.
pub struct Market {
    books: Vec<Book>,
    dice: Dice,
}

impl Market {
    /// A market with an empty book for each code and middle price.
    pub fn new(seed: u64, listed: &[(u32, i32)]) -> Market {
        let book = |&(code, middle)| Book { code, middle, tick: tick_at(middle), sides: [Vec::new(), Vec::new()] };
        Market { books: listed.iter().map(book).collect(), dice: Dice::new(seed) }
    }

    /// How many books there are.
    pub fn len(&self) -> usize {
        self.books.len()
    }

    /// Whether there is no book.
    pub fn is_empty(&self) -> bool {
        self.books.is_empty()
    }

    /// The code of a book.
    pub fn code(&self, k: usize) -> u32 {
        self.books[k].code
    }

    /// The dice, for whoever moves the market.
    pub fn dice(&mut self) -> &mut Dice {
        &mut self.dice
    }

    /// A snapshot of one side, filled from nothing to this many rows.
    pub fn snapshot(&mut self, k: usize, side: u16, rows: usize) -> Vec<u8> {
        let mut entries = Vec::new();
        for _ in self.books[k].sides[usize::from(side)].len()..rows.min(ROWS) {
            entries.push(self.append(k, side));
        }
        self.message(k, &entries)
    }

    /// An update of one book with this many entries.
    pub fn update(&mut self, k: usize, entries: usize) -> Vec<u8> {
        let entries: Vec<Entry> = (0..entries).map(|_| self.entry(k)).collect();
        self.message(k, &entries)
    }

    /// One clear.
    pub fn clear(&mut self, k: usize) -> Vec<u8> {
        let book = &mut self.books[k];
        book.sides = [Vec::new(), Vec::new()];
        book_message(book.code, &[Entry { action: CLEAR, ..Entry::default() }])
    }

    /// The message that says a book has been emptied: it has no entries.
    pub fn emptied(&mut self, k: usize) -> Vec<u8> {
        self.message(k, &[])
    }

    /// The nominal price of a book's security.
    pub fn nominal(&mut self, k: usize) -> Vec<u8> {
        let price = self.near(k);
        nominal(self.books[k].code, price)
    }

    /// Its equilibrium price and volume.
    pub fn equilibrium(&mut self, k: usize) -> Vec<u8> {
        let (price, volume) = (self.near(k), 400 * (1 + self.dice.below(2_000)));
        equilibrium(self.books[k].code, price, volume)
    }

    /// The message that says there is no equilibrium price.
    pub fn no_equilibrium(&self, k: usize) -> Vec<u8> {
        equilibrium(self.books[k].code, 0, 0)
    }

    /// Its reference price and the band around it.
    pub fn reference(&mut self, k: usize) -> Vec<u8> {
        let price = self.near(k);
        let band = price / 10 / self.books[k].tick * self.books[k].tick;
        reference(self.books[k].code, [price, price - band, price + band])
    }

    /// The order imbalance at its equilibrium price.
    pub fn imbalance(&mut self, k: usize) -> Vec<u8> {
        let direction = self.dice.of(b"NBBSS");
        let quantity = if direction == b'N' { 0 } else { 400 * (1 + self.dice.below(500)) };
        imbalance(self.books[k].code, direction, quantity)
    }

    /// The order imbalance where there is no equilibrium price.
    pub fn no_imbalance(&self, k: usize) -> Vec<u8> {
        imbalance(self.books[k].code, b' ', 0)
    }

    /// Its closing price.
    pub fn closing(&mut self, k: usize) -> Vec<u8> {
        let price = self.near(k);
        closing(self.books[k].code, price)
    }

    /// A price at most four ticks from the middle.
    fn near(&mut self, k: usize) -> i32 {
        let ticks = self.dice.below(9) as i32 - 4;
        self.books[k].middle + ticks * self.books[k].tick
    }

    /// Type 53 with these entries; one without any empties the book.
    fn message(&mut self, k: usize, entries: &[Entry]) -> Vec<u8> {
        let book = &mut self.books[k];
        if entries.is_empty() {
            book.sides = [Vec::new(), Vec::new()];
        }
        book_message(book.code, entries)
    }

    /// 30 of 100 are new, 25 delete, 45 change; thin sides fill up first.
    fn entry(&mut self, k: usize) -> Entry {
        let side = self.dice.below(2) as u16;
        let count = self.books[k].sides[usize::from(side)].len();
        if count < 6 {
            return self.append(k, side);
        }
        let at = self.dice.place(count).min(self.dice.place(count));
        match self.dice.below(100) {
            0..=29 => self.squeeze(k, side, at),
            30..=54 => self.remove(k, side, at),
            _ => self.change(k, side, at),
        }
    }

    fn fresh_row(&mut self, price: i32) -> Row {
        Row { price, quantity: 400 * (1 + self.dice.below(900)), orders: 1 + self.dice.below(40) as u32 }
    }

    fn sent(&self, k: usize, side: u16, at: usize, action: u8) -> Entry {
        let row = self.books[k].sides[usize::from(side)][at];
        Entry { quantity: row.quantity, price: row.price, orders: row.orders, side, level: at as u8 + 1, action }
    }

    fn insert(&mut self, k: usize, side: u16, at: usize, price: i32) -> Entry {
        let row = self.fresh_row(price);
        let rows = &mut self.books[k].sides[usize::from(side)];
        rows.insert(at, row);
        rows.truncate(ROWS);
        self.sent(k, side, at, NEW)
    }

    /// A new worst row.
    fn append(&mut self, k: usize, side: u16) -> Entry {
        let away = if side == 0 { -1 } else { 1 };
        let step = 1 + self.dice.below(3) as i32;
        let book = &self.books[k];
        let rows = &book.sides[usize::from(side)];
        let from = rows.last().map_or(book.middle, |row| row.price);
        let (at, price) = (rows.len(), from + away * step * book.tick);
        self.insert(k, side, at, price)
    }

    /// A new row at a place, or at the next one below with room between two prices; where there is none, a change.
    fn squeeze(&mut self, k: usize, side: u16, at: usize) -> Entry {
        let away = if side == 0 { -1 } else { 1 };
        let book = &self.books[k];
        let rows = &book.sides[usize::from(side)];
        let roomy = |at: usize| at == 0 || (rows[at].price - rows[at - 1].price).abs() > book.tick;
        match (at..rows.len()).find(|&at| roomy(at)) {
            Some(0) => {
                // the best row stays on its own side of the middle
                let price = rows[0].price - away * book.tick;
                if (price - book.middle) * away <= 0 {
                    return self.change(k, side, 0);
                }
                self.insert(k, side, 0, price)
            }
            Some(at) => {
                let price = rows[at - 1].price + away * book.tick;
                self.insert(k, side, at, price)
            }
            None => self.change(k, side, at),
        }
    }

    fn remove(&mut self, k: usize, side: u16, at: usize) -> Entry {
        let gone = self.books[k].sides[usize::from(side)].remove(at);
        Entry { price: gone.price, side, level: at as u8 + 1, action: DELETE, ..Entry::default() }
    }

    fn change(&mut self, k: usize, side: u16, at: usize) -> Entry {
        let price = self.books[k].sides[usize::from(side)][at].price;
        let row = self.fresh_row(price);
        self.books[k].sides[usize::from(side)][at] = row;
        self.sent(k, side, at, CHANGE)
    }
}

/// The exchange's spread at a price, in thousandths.
fn tick_at(price: i32) -> i32 {
    match price {
        i32::MIN..=249 => 1,
        250..=499 => 5,
        500..=9_999 => 10,
        10_000..=19_999 => 20,
        20_000..=99_999 => 50,
        100_000..=199_999 => 100,
        _ => 200,
    }
}
