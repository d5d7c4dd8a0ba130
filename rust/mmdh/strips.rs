//! The price strips: a table of 64-bit words, owned or lent, and the values in it.

use crate::raw::{self, MmdhStrip, STRIP_WORDS};
use crate::tables::Words;
use crate::{Answer, Refused};
use std::fmt;

/// Which way the orders at the equilibrium price are out of balance, as the exchange's letters have it.
#[derive(Clone, Copy, PartialEq, Eq, Hash, Debug)]
pub enum Direction {
    /// `N`: as much to buy as to sell.
    Balanced,
    /// `B`: more to buy.
    Buy,
    /// `S`: more to sell.
    Sell,
    /// A space: there is no equilibrium price, and the quantity is 0.
    NotApplicable,
}

impl Direction {
    /// The exchange's letter.
    pub fn letter(self) -> char {
        match self {
            Direction::Balanced => 'N',
            Direction::Buy => 'B',
            Direction::Sell => 'S',
            Direction::NotApplicable => ' ',
        }
    }

    /// The direction that a call gave; the calls are proved to give no other number.
    fn given(number: u64) -> Direction {
        match u8::try_from(number) {
            Ok(b'N') => Direction::Balanced,
            Ok(b'B') => Direction::Buy,
            Ok(b'S') => Direction::Sell,
            Ok(b' ') => Direction::NotApplicable,
            _ => unreachable!("the archive gave direction {}, which is not listed", number),
        }
    }
}

/// The strip of one code: each value as it came last, none where it has not come. Prices are thousandths of a dollar,
/// signed as sent; one that the exchange has not available comes as 0. More may come to stand in it.
#[non_exhaustive]
#[derive(Clone, Copy, PartialEq, Eq, Hash, Debug, Default)]
pub struct Strip {
    /// Nominal price (type 40).
    pub nominal: Option<i64>,
    /// Indicative equilibrium price (41).
    pub iep: Option<i64>,
    /// Its volume, in shares (41).
    pub iev: Option<u64>,
    /// Reference price (43).
    pub reference: Option<i64>,
    /// Lower price (43).
    pub lower: Option<i64>,
    /// Upper price (43).
    pub upper: Option<i64>,
    /// Direction of the order imbalance (56).
    pub direction: Option<Direction>,
    /// Shares of the order imbalance (56).
    pub imbalance: Option<u64>,
    /// Closing price (62).
    pub closing: Option<i64>,
}

impl Strip {
    fn of(read: &MmdhStrip) -> Strip {
        let come = |value: u32| (read.flags >> value) & 1 == 1;
        let price = |value, price| Some(price).filter(|_| come(value));
        let number = |value, number| Some(number).filter(|_| come(value));
        Strip {
            nominal: price(0, read.nominal),
            iep: price(1, read.iep),
            iev: number(2, read.iev),
            reference: price(3, read.reference),
            lower: price(4, read.lower),
            upper: price(5, read.upper),
            direction: number(6, read.direction).map(Direction::given),
            imbalance: number(7, read.imbalance),
            closing: price(8, read.closing),
        }
    }
}

/// A table of strips, to be read. A [`Line`](crate::Line) has its own; only whoever makes single calls makes one.
///
/// ```
/// use mmdh::{Answer, Strips};
///
/// let strips = Strips::with_slots(128);
/// assert_eq!(strips.slots(), 128);
/// assert_eq!(strips.strip(700).unwrap_err().answer(), Answer::NoRow);
/// assert_eq!(strips.strip(0).unwrap_err().answer(), Answer::NotListed);
///
/// // or over words that belong to the caller: code 700, value 0, 9.730, has come
/// let mut words = [700, 1, 2_147_493_378, 0, 0, 0, 0, 0, 0, 0, 0, 0];
/// let strip = Strips::over(&mut words).strip(700)?;
/// assert_eq!((strip.nominal, strip.iep), (Some(9_730), None));
/// # Ok::<(), mmdh::Refused>(())
/// ```
pub struct Strips<'a> {
    words: Words<'a, STRIP_WORDS>,
}

impl<'a> Strips<'a> {
    /// Empty strips with room for this many codes, at most 4,096.
    pub fn with_slots(slots: usize) -> Strips<'a> {
        Strips { words: Words::with_slots(slots) }
    }

    /// Strips over the caller's words, 12 to a strip, as they stand. A new feed wants them zero.
    pub fn over(words: &'a mut [u64]) -> Strips<'a> {
        Strips { words: Words::Lent(words) }
    }

    /// How many codes there is room for.
    pub fn slots(&self) -> usize {
        self.words.slots()
    }

    /// All words of the table.
    pub fn words(&self) -> &[u64] {
        self.words.all()
    }

    pub(crate) fn words_mut(&mut self) -> &mut [u64] {
        self.words.all_mut()
    }

    /// The strip of a code; refused with 15 where there is no such code, 4 where it has no strip, 18 where its strip is
    /// not sound.
    pub fn strip(&self, code: u64) -> Result<Strip, Refused> {
        let read = raw::read_strip(self.words(), code);
        Answer::given(read.answer).or_refused().map(|_| Strip::of(&read))
    }

    /// The codes that have a slot, in slot order; it is not that of the books.
    pub fn codes(&self) -> impl Iterator<Item = u64> + '_ {
        self.words.codes()
    }
}

impl fmt::Debug for Strips<'_> {
    fn fmt(&self, f: &mut fmt::Formatter<'_>) -> fmt::Result {
        let codes: Vec<u64> = self.codes().collect();
        f.debug_struct("Strips").field("slots", &self.slots()).field("codes", &codes).finish()
    }
}
