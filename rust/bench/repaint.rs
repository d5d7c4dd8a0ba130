//! A whole repaint: all rows of all books of a course, by sides at once and by single reads.

use crate::course::{Course, BOOKS, FIRST_CODE};
use mmdh::raw::{self, ROWS};
use std::time::Instant;

/// Repaints of a pass, and passes.
const REPAINTS: u32 = 20;
const PASSES: u32 = 40;

/// What a screen would show: how many rows, and a sum over their numbers.
#[derive(Clone, Copy, PartialEq, Eq, Default)]
pub struct Shown {
    pub rows: u64,
    sum: u64,
}

impl Shown {
    fn add(&mut self, price: i64, quantity: u64, orders: u64) {
        self.rows += 1;
        let row = (price as u64).rotate_left(32) ^ quantity.rotate_left(16) ^ orders;
        self.sum = self.sum.rotate_left(7).wrapping_add(row);
    }
}

fn codes() -> impl Iterator<Item = u64> {
    (0..BOOKS as u64).map(|k| u64::from(FIRST_CODE) + k)
}

/// Two calls a book.
#[inline(never)]
pub fn by_sides(table: &[u64]) -> Shown {
    let mut shown = Shown::default();
    for code in codes() {
        for side in 0..2 {
            let read = raw::read_side(table, code, side);
            read.row[..read.count as usize].iter().for_each(|row| shown.add(row.price, row.quantity, row.orders));
        }
    }
    shown
}

/// Twenty calls a book.
#[inline(never)]
pub fn by_rows(table: &[u64]) -> Shown {
    let mut shown = Shown::default();
    for code in codes() {
        for side in 0..2 {
            for rank in 1..=ROWS as u64 {
                let row = raw::read_row(table, code, side, rank);
                if row.answer == 0 {
                    shown.add(row.price, row.quantity, row.orders);
                }
            }
        }
    }
    shown
}

/// Both ways show the same; how many rows.
pub fn check(course: &Course) -> Result<u64, String> {
    let table = course.tables().books;
    let shown = by_sides(&table);
    if shown.rows == 0 || shown != by_rows(&table) {
        return Err(format!("{} slots: a repaint by sides shows other rows than one by single reads", course.slots()));
    }
    Ok(shown.rows)
}

/// The best pass of each way, in microseconds a repaint, the two taking turns.
pub fn measure(course: &Course) -> [f64; 2] {
    let table = course.tables().books;
    let mut best = [f64::INFINITY; 2];
    for _ in 0..PASSES {
        for (way, best) in [by_sides, by_rows].iter().zip(&mut best) {
            let began = Instant::now();
            let rows: u64 = (0..REPAINTS).map(|_| way(&table).rows).sum();
            assert!(rows > 0, "a repaint shows something");
            *best = best.min(began.elapsed().as_secs_f64() * 1e6 / f64::from(REPAINTS));
        }
    }
    best
}
