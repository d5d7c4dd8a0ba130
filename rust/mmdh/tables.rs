//! The tables that a feed fills: words that are owned or lent, in slots of one width.

use crate::{Books, Strips};

const SLOTS: usize = 4096;

/// A table's words, in slots of so many.
pub(crate) enum Words<'a, const WIDTH: usize> {
    Owned(Vec<u64>),
    Lent(&'a mut [u64]),
}

impl<'a, const WIDTH: usize> Words<'a, WIDTH> {
    /// Zeros with room for this many codes, at most 4,096.
    pub(crate) fn with_slots(slots: usize) -> Words<'a, WIDTH> {
        Words::Owned(vec![0; WIDTH * slots.min(SLOTS)])
    }

    /// How many codes there is room for.
    pub(crate) fn slots(&self) -> usize {
        (self.all().len() / WIDTH).min(SLOTS)
    }

    pub(crate) fn all(&self) -> &[u64] {
        match self {
            Words::Owned(words) => words,
            Words::Lent(words) => words,
        }
    }

    pub(crate) fn all_mut(&mut self) -> &mut [u64] {
        match self {
            Words::Owned(words) => words,
            Words::Lent(words) => words,
        }
    }

    /// The codes that have a slot, in slot order.
    pub(crate) fn codes(&self) -> impl Iterator<Item = u64> + '_ {
        let slots = self.all().chunks_exact(WIDTH).take(SLOTS);
        slots.map(|slot| slot[0]).filter(|&code| code != 0)
    }
}

/// All tables that single calls fill, lent to them as one. A [`Line`](crate::Line) has its own. More may come.
///
/// ```
/// use mmdh::{Strips, Tables};
///
/// let tables = Tables::with_slots(128);
/// assert_eq!((tables.books.slots(), tables.strips.slots()), (128, 128));
///
/// // a table may lie over words that belong to the caller
/// let mut words = [0; 120];
/// let mut tables = Tables::with_slots(10);
/// tables.strips = Strips::over(&mut words);
/// assert_eq!(tables.strips.slots(), 10);
/// ```
#[non_exhaustive]
#[derive(Debug)]
pub struct Tables<'a> {
    /// The order books.
    pub books: Books<'a>,
    /// The price strip under each.
    pub strips: Strips<'a>,
}

impl<'a> Tables<'a> {
    /// Empty tables, each with room for this many codes, at most 4,096. A code that comes and finds no room is 17, in
    /// books and in strips alike.
    pub fn with_slots(slots: usize) -> Tables<'a> {
        Tables { books: Books::with_slots(slots), strips: Strips::with_slots(slots) }
    }
}
