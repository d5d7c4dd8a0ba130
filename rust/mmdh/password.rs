//! New passwords, checked before the hub does: the exchange's rule in two editions of its document.
//!
//! ```
//! use mmdh::password::{check, Edition, Item, Verdict};
//!
//! // the last passwords, one behind the other, and how many bytes each has
//! let (lengths, history) = ([8, 9], b"Spring24Summer-24");
//! assert_eq!(check(Edition::V1_11, b"Autumn24", &lengths, history), Verdict::Passes);
//! assert_eq!(check(Edition::V1_11, b"Spring24", &lengths, history), Verdict::Fails(Item::History));
//! assert_eq!(check(Edition::V1_36, b"Autumn24", &lengths, history), Verdict::Fails(Item::Length));
//! assert_eq!(check(Edition::V1_36, b"Autumn leaves 24", &lengths, history), Verdict::Fails(Item::Special));
//! assert_eq!(Item::Digit.to_string(), "it has no digit, 0 to 9");
//!
//! // lengths of another history: it is not looked at, and neither is the password
//! assert_eq!(check(Edition::V1_11, b"Autumn24", &[8, 8], history), Verdict::BadHistory);
//! ```

use crate::raw;
use crate::Answer;
use std::fmt;

/// The edition of the exchange's document that a site goes by. More may come.
#[non_exhaustive]
#[derive(Clone, Copy, PartialEq, Eq, Hash, Debug)]
pub enum Edition {
    /// 1.11: at least 8 characters, an upper case letter, a lower case letter and a digit.
    V1_11,
    /// 1.36: at least 16, and one of `! @ # $ ^ & * ( )` besides.
    V1_36,
}

impl Edition {
    /// The number that the call knows it by.
    pub fn number(self) -> u64 {
        match self {
            Edition::V1_11 => 111,
            Edition::V1_36 => 136,
        }
    }
}

impl fmt::Display for Edition {
    fn fmt(&self, f: &mut fmt::Formatter<'_>) -> fmt::Result {
        f.pad(match self {
            Edition::V1_11 => "1.11",
            Edition::V1_36 => "1.36",
        })
    }
}

/// What a new password can fail, in the order in which it is tried. More may come.
#[non_exhaustive]
#[derive(Clone, Copy, PartialEq, Eq, Hash, Debug)]
pub enum Item {
    /// 1: it is too short.
    Length,
    /// 2: it has no upper case letter.
    Upper,
    /// 3: it has no lower case letter.
    Lower,
    /// 4: it has no digit.
    Digit,
    /// 5: it has no special character; edition 1.36 alone asks for one.
    Special,
    /// 6: it is one of the last passwords.
    History,
}

/// Every item in its order, with its sentence. The first has number 1.
const SENTENCES: [(Item, &str); 6] = [
    (Item::Length, "it is too short: edition 1.11 asks for at least 8 characters, edition 1.36 for at least 16"),
    (Item::Upper, "it has no upper case letter, A to Z"),
    (Item::Lower, "it has no lower case letter, a to z"),
    (Item::Digit, "it has no digit, 0 to 9"),
    (Item::Special, "it has none of ! @ # $ ^ & * ( ), and edition 1.36 asks for one"),
    (Item::History, "it is one of the last passwords"),
];

impl Item {
    /// The item's number, which is no answer's.
    pub fn number(self) -> u64 {
        self.place() as u64 + 1
    }

    /// All items, in their order.
    pub fn all() -> impl Iterator<Item = Item> {
        SENTENCES.iter().map(|entry| entry.0)
    }

    fn place(self) -> usize {
        SENTENCES.iter().position(|entry| entry.0 == self).expect("every item has its line")
    }
}

impl fmt::Display for Item {
    fn fmt(&self, f: &mut fmt::Formatter<'_>) -> fmt::Result {
        f.pad(SENTENCES[self.place()].1)
    }
}

/// What is said of a new password.
#[must_use]
#[derive(Clone, Copy, PartialEq, Eq, Hash, Debug)]
pub enum Verdict {
    /// 0: it meets the rule.
    Passes,
    /// The first item that it fails.
    Fails(Item),
    /// 23: more than 5 last passwords, or lengths that do not add up to their bytes. The new one has not been looked at.
    BadHistory,
}

impl Verdict {
    /// The call's number: 0, an item's, or 23.
    pub fn number(self) -> u64 {
        match self {
            Verdict::Passes => 0,
            Verdict::Fails(item) => item.number(),
            Verdict::BadHistory => Answer::BadHistory.number(),
        }
    }

    /// The verdict that the call gave; of an edition that is listed it is proved to give no other number.
    fn given(number: u64) -> Verdict {
        let failed = Item::all().find(|item| item.number() == number);
        match (number, failed) {
            (0, _) => Verdict::Passes,
            (23, _) => Verdict::BadHistory,
            (_, Some(item)) => Verdict::Fails(item),
            _ => unreachable!("the archive said {} of a password, which is not listed", number),
        }
    }
}

impl fmt::Display for Verdict {
    fn fmt(&self, f: &mut fmt::Formatter<'_>) -> fmt::Result {
        match self {
            Verdict::Passes => f.pad("it passes"),
            Verdict::Fails(item) => item.fmt(f),
            Verdict::BadHistory => Answer::BadHistory.fmt(f),
        }
    }
}

/// Whether a new password meets an edition's rule, and else what is wrong first.
///
/// The last passwords, at most 5 and in any order, lie in `history` one behind the other, and `lengths` has how many bytes each has.
/// They are lent flat because a slice of slices would have to be copied together for the call: here nothing is copied and
/// nothing written, so each password stays where its owner can wipe it.
///
/// Characters are bytes, and none but those asked for are judged. The hub may still turn down what passes: it has a longest
/// password, and by edition 1.11 nobody may change one twice within 24 hours.
pub fn check(edition: Edition, password: &[u8], lengths: &[u64], history: &[u8]) -> Verdict {
    Verdict::given(raw::password(edition.number(), password, lengths, history))
}
