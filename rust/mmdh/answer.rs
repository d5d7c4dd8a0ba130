//! The answers of documents 01 and 02, and the refusals among them.

use std::error::Error;
use std::fmt;

/// What a call answers. The numbers are document 01's, 22 and 23 are document 02's; more may come.
///
/// ```
/// use mmdh::Answer;
/// assert_eq!(Answer::NotNext.number(), 13);
/// assert!(Answer::Seen.is_accepted() && !Answer::More.is_accepted());
/// assert!(Answer::More.or_refused().is_ok() && Answer::NotNext.or_refused().is_err());
/// assert_eq!(Answer::NotNext.to_string(), "the sequence number is not the next");
/// ```
#[must_use]
#[non_exhaustive]
#[derive(Clone, Copy, PartialEq, Eq, Hash, Debug)]
pub enum Answer {
    /// 0: taken; a connect or a new feed accepted; a row or a strip read.
    Taken,
    /// 1: a market message that was there already, by its internal number.
    Seen,
    /// 2: a market message of which nothing is kept.
    Passed,
    /// 3: no whole unit yet; hand in the same bytes again with more behind them.
    More,
    /// 4: there is no book for the code, or no such row in it; or no strip.
    NoRow,
    /// 10: the time lies before the last heard time.
    Early,
    /// 11: an arrival in Idle, Lost or Closed.
    NotOpen,
    /// 12: a size is wrong.
    WrongSize,
    /// 13: the sequence number is not the next.
    NotNext,
    /// 14: the type or the internal number is not allowed in this phase.
    NotAllowed,
    /// 15: a status, code, side, level, action or direction is not listed.
    NotListed,
    /// 16: an entry does not fit the book.
    Misfit,
    /// 17: the code has no book or strip, and no slot is free for one.
    Full,
    /// 18: the code's book or strip in the table is not sound.
    Unsound,
    /// 19: a silence limit outside 1 to 600,000 ms.
    BadLimit,
    /// 20: resuming without a whole table and an internal number to resume from.
    CannotResume,
    /// 22: a unit is longer than the holding buffer; or the buffer has fewer than 22 bytes, a header and MsgSize, at a connect
    /// too; or more bytes wait than it has.
    TooLong,
    /// 23: more than 5 last passwords, or lengths that do not add up to their bytes; only a password gets it.
    BadHistory,
}

/// Every answer with its number and its sentence.
const SENTENCES: [(u64, Answer, &str); 18] = [
    (0, Answer::Taken, "taken"),
    (1, Answer::Seen, "seen before"),
    (2, Answer::Passed, "passed over"),
    (3, Answer::More, "more bytes are needed for a whole unit"),
    (4, Answer::NoRow, "there is no such book, row or strip"),
    (10, Answer::Early, "the time is before the last heard time"),
    (11, Answer::NotOpen, "the feed is not open for arrivals"),
    (12, Answer::WrongSize, "the message has a wrong size"),
    (13, Answer::NotNext, "the sequence number is not the next"),
    (14, Answer::NotAllowed, "the type or the internal number is not allowed in this phase"),
    (15, Answer::NotListed, "a status, code, side, level, action or direction is not listed"),
    (16, Answer::Misfit, "an entry does not fit the book"),
    (17, Answer::Full, "the code has no slot in the table and none is free"),
    (18, Answer::Unsound, "the code's book or strip in the table is not sound"),
    (19, Answer::BadLimit, "the silence limit is outside 1 to 600,000 ms"),
    (20, Answer::CannotResume, "there is nothing whole to resume from"),
    (22, Answer::TooLong, "the holding buffer is too short"),
    (23, Answer::BadHistory, "there are more than 5 last passwords, or their lengths do not add up to their bytes"),
];

impl Answer {
    /// The document's number.
    pub fn number(self) -> u64 {
        self.entry().0
    }

    /// Whether this is 0, 1 or 2.
    pub fn is_accepted(self) -> bool {
        matches!(self, Answer::Taken | Answer::Seen | Answer::Passed)
    }

    /// The answer itself where it is 0 to 3: accepted, or only waiting for more bytes. Else the refusal.
    pub fn or_refused(self) -> Result<Answer, Refused> {
        if self.is_accepted() || self == Answer::More {
            Ok(self)
        } else {
            Err(Refused(self))
        }
    }

    /// The answer with this number, if there is one.
    pub fn from_number(number: u64) -> Option<Answer> {
        SENTENCES.iter().find(|entry| entry.0 == number).map(|entry| entry.1)
    }

    /// All answers, by rising numbers.
    pub fn all() -> impl Iterator<Item = Answer> {
        SENTENCES.iter().map(|entry| entry.1)
    }

    /// The answer that a call gave; the calls are proved to give no other number.
    pub(crate) fn given(number: u64) -> Answer {
        match Answer::from_number(number) {
            Some(answer) => answer,
            None => unreachable!("the archive gave {}, which is not listed", number),
        }
    }

    fn entry(self) -> &'static (u64, Answer, &'static str) {
        SENTENCES.iter().find(|entry| entry.1 == self).expect("every answer has its line")
    }
}

impl fmt::Display for Answer {
    fn fmt(&self, f: &mut fmt::Formatter<'_>) -> fmt::Result {
        f.pad(self.entry().2)
    }
}

/// A call was refused: an answer of 4 or above, never one that is accepted and never More.
///
/// ```
/// use mmdh::{Answer, Line};
/// let refused = Line::new(0, 128).unwrap_err();
/// assert_eq!(refused.answer(), Answer::BadLimit);
/// assert_eq!(refused.to_string(), "the silence limit is outside 1 to 600,000 ms (answer 19)");
/// ```
#[derive(Clone, Copy, PartialEq, Eq, Hash, Debug)]
pub struct Refused(Answer);

impl Refused {
    /// The answer that the call got.
    pub fn answer(self) -> Answer {
        self.0
    }
}

impl fmt::Display for Refused {
    fn fmt(&self, f: &mut fmt::Formatter<'_>) -> fmt::Result {
        write!(f, "{} (answer {})", self.0, self.0.number())
    }
}

impl Error for Refused {}
