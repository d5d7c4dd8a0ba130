//! Price strips: nine values a security, each there once it has come (request 2 of document 02).

use crate::slots::{code_listed, find, slot, slot_mut};
use crate::unit::{u16_at, u32_at, u64_at};
use crate::Answer;

/// Words of one strip: code, flags, the values, a spare one.
pub const STRIP: usize = 12;
/// Values of a strip.
pub const VALUES: usize = 9;

const VALUES_AT: usize = 2;
const SPARE_AT: usize = 11;
const ZERO_PRICE: u32 = 0x8000_0000;

/// Nominal price.
pub const NOMINAL: usize = 0;
/// Indicative equilibrium price.
pub const IEP: usize = 1;
/// Its volume.
pub const IEV: usize = 2;
/// Reference price.
pub const REFERENCE: usize = 3;
/// Lower price.
pub const LOWER: usize = 4;
/// Upper price.
pub const UPPER: usize = 5;
/// Imbalance direction, a character's number.
pub const DIRECTION: usize = 6;
/// Imbalance quantity.
pub const IMBALANCE: usize = 7;
/// Closing price.
pub const CLOSING: usize = 8;

/// Whether a value is a price, kept plus 2,147,483,648.
pub fn is_price(value: usize) -> bool {
    !matches!(value, IEV | DIRECTION | IMBALANCE)
}

/// Whether a direction is N, B, S or space.
pub fn direction_listed(direction: u64) -> bool {
    [b'N', b'B', b'S', b' '].map(u64::from).contains(&direction)
}

/// The size of a type that brings values, and of no other.
pub fn size(kind: u16) -> Option<usize> {
    match kind {
        40 => Some(12),
        41 | 43 | 56 => Some(20),
        62 => Some(16),
        _ => None,
    }
}

/// One strip by value: the words of those values that have come.
#[derive(Clone, Copy, PartialEq, Eq, Debug, Default)]
pub struct Strip {
    values: [Option<u64>; VALUES],
}

impl Strip {
    /// The strip in a slot, if it is sound.
    pub fn read(slot: &[u64]) -> Option<Strip> {
        let flags = slot[1];
        if flags >= 1 << VALUES || slot[SPARE_AT] != 0 {
            return None;
        }
        let mut strip = Strip::default();
        for (k, &word) in slot[VALUES_AT..SPARE_AT].iter().enumerate() {
            let come = (flags >> k) & 1 == 1;
            let sound = match k {
                _ if !come => word == 0,
                DIRECTION => direction_listed(word),
                _ => !is_price(k) || word < 1 << 32,
            };
            if !sound {
                return None;
            }
            strip.values[k] = Some(word).filter(|_| come);
        }
        Some(strip)
    }

    fn write(&self, code: u64, slot: &mut [u64]) {
        slot[0] = code;
        slot[1] = self.flags();
        for (word, value) in slot[VALUES_AT..SPARE_AT].iter_mut().zip(self.values) {
            *word = value.unwrap_or(0);
        }
        slot[SPARE_AT] = 0;
    }

    /// Bit k is set where value k has come.
    pub fn flags(&self) -> u64 {
        self.values.iter().rev().fold(0, |flags, value| 2 * flags + u64::from(value.is_some()))
    }

    /// A quantity or a direction, 0 where it has not come.
    pub fn number(&self, value: usize) -> u64 {
        self.values[value].unwrap_or(0)
    }

    /// A price as sent, 0 where it has not come.
    pub fn price(&self, value: usize) -> i64 {
        self.values[value].map_or(0, |word| i64::from((word as u32 ^ ZERO_PRICE) as i32))
    }

    /// The values that a message brings replace those that were there.
    fn apply(&mut self, message: &[u8]) {
        let price = |at: usize| Some(u64::from(u32_at(message, at) ^ ZERO_PRICE));
        match u16_at(message, 2) {
            40 => self.values[NOMINAL] = price(8),
            41 => {
                self.values[IEP] = price(8);
                self.values[IEV] = Some(u64_at(message, 12));
            }
            43 => {
                self.values[REFERENCE] = price(8);
                self.values[LOWER] = price(12);
                self.values[UPPER] = price(16);
            }
            56 => {
                let applies = message[8] != b' ';
                self.values[DIRECTION] = Some(u64::from(message[8]));
                self.values[IMBALANCE] = Some(if applies { u64_at(message, 10) } else { 0 });
            }
            _ => self.values[CLOSING] = price(8),
        }
    }
}

/// Takes a message of one of the five types, of the right size.
pub fn take(table: &mut [u64], message: &[u8]) -> Result<(), Answer> {
    let code = u64::from(u32_at(message, 4));
    let listed = u16_at(message, 2) != 56 || direction_listed(u64::from(message[8]));
    if !code_listed(code) || !listed {
        return Err(Answer::NotListed);
    }
    let (k, mut strip) = match find::<STRIP>(table, code) {
        Some(k) => (k, Strip::read(slot::<STRIP>(table, k)).ok_or(Answer::Unsound)?),
        None => (find::<STRIP>(table, 0).ok_or(Answer::Full)?, Strip::default()),
    };
    strip.apply(message);
    strip.write(code, slot_mut::<STRIP>(table, k));
    Ok(())
}
