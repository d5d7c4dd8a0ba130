//! Why a badge is what it is.

use crate::{Answer, Badge, Refused};
use std::fmt;

/// Why a feed's badge is what it is at a time: green exactly if `Live`, filling exactly if `Key`, `Logon` or
/// `Refresh`. More may come.
///
/// ```
/// use mmdh::{Badge, Line, Why};
/// let line = Line::new(1_000, 128)?;
/// assert_eq!(line.why(0), Why::New);
/// assert_eq!(Why::Refresh.badge(), Badge::Filling);
/// assert_eq!(Why::Silent.to_string(), "silent");
/// # Ok::<(), mmdh::Refused>(())
/// ```
#[non_exhaustive]
#[derive(Clone, Copy, PartialEq, Eq, Hash, Debug)]
pub enum Why {
    /// 0: live, and heard within the limit.
    Live,
    /// 1: never connected.
    New,
    /// 2: connected; SendKey is to come.
    Key,
    /// 3: the logon response is to come.
    Logon,
    /// 4: the snapshot is coming in.
    Refresh,
    /// 5: nothing was heard for longer than the silence limit.
    Silent,
    /// 6: the time asked about lies before the last heard time.
    Early,
    /// 7: an arrival was refused; only a connect leads on.
    Lost,
    /// 8: logged out, or the logon was turned down; only a connect leads on.
    Closed,
    /// 9: the silence limit is outside 1 to 600,000 ms.
    Limit,
}

/// Every reason by its number, with its badge and its words.
const REASONS: [(Why, Badge, &str); 10] = [
    (Why::Live, Badge::Green, "live"),
    (Why::New, Badge::Stale, "never connected"),
    (Why::Key, Badge::Filling, "waiting for the key"),
    (Why::Logon, Badge::Filling, "waiting for the logon"),
    (Why::Refresh, Badge::Filling, "refreshing"),
    (Why::Silent, Badge::Stale, "silent"),
    (Why::Early, Badge::Stale, "the clock is before the last heard time"),
    (Why::Lost, Badge::Stale, "lost"),
    (Why::Closed, Badge::Stale, "closed"),
    (Why::Limit, Badge::Stale, "the silence limit is outside 1 to 600,000 ms"),
];

impl Why {
    /// The number of the reason.
    pub fn number(self) -> u64 {
        REASONS.iter().position(|reason| reason.0 == self).unwrap_or_default() as u64
    }

    /// The badge that goes with the reason.
    pub fn badge(self) -> Badge {
        REASONS[self.number() as usize].1
    }

    /// The reason that a call gave.
    pub(crate) fn given(number: u64) -> Why {
        match usize::try_from(number).ok().and_then(|at| REASONS.get(at)) {
            Some(reason) => reason.0,
            None => unreachable!("the archive gave reason {}, which is not listed", number),
        }
    }
}

impl fmt::Display for Why {
    fn fmt(&self, f: &mut fmt::Formatter<'_>) -> fmt::Result {
        f.pad(REASONS[self.number() as usize].2)
    }
}

/// The arrival that lost a line.
#[non_exhaustive]
#[derive(Clone, Copy, PartialEq, Eq, Debug)]
pub struct Loss {
    /// Its answer, 12 to 18 or 22.
    pub answer: Answer,
    /// The SeqNum that was the next.
    pub expected: u64,
    /// The SeqNum in its header.
    pub met: u64,
    /// Its MsgType, where its message is long enough to have one.
    pub kind: Option<u16>,
    /// Which unit it was, counted from 1 since the connect, heartbeats too.
    pub unit: u64,
    /// When it came.
    pub time: u64,
}

/// The unit that closed a line: a logout, or a logon that was turned down.
#[non_exhaustive]
#[derive(Clone, Copy, PartialEq, Eq, Debug)]
pub struct Closing {
    /// 1102 or 1103.
    pub kind: u16,
    /// Its SessionStatus.
    pub status: u8,
    /// Which unit it was, counted from 1 since the connect, heartbeats too.
    pub unit: u64,
    /// When it came.
    pub time: u64,
}

/// The refusal since which a line drops what comes.
#[non_exhaustive]
#[derive(Clone, Copy, PartialEq, Eq, Debug)]
pub struct Dropping {
    /// The answer: 10 or 11, which leave the badge as it is, or one that lost the line.
    pub answer: Answer,
    /// Which unit got it, counted from 1 since the connect, heartbeats too.
    pub unit: u64,
    /// When it came, by the call's time.
    pub time: u64,
}

/// Why a line's badge is what it is at a time, and what the line saw that led to it. In words by `Display`.
///
/// ```
/// use mmdh::{Connect, Line};
/// let mut line = Line::new(1_000, 128)?;
/// assert!(line.connect(Connect::Resuming, 5_000).is_err());
/// assert_eq!(
///     line.reason(5_000).to_string(),
///     "never connected; a connect was refused: there is nothing whole to resume from (answer 20)"
/// );
/// line.connect(Connect::Fresh, 5_000)?;
/// assert_eq!(line.reason(6_000).to_string(), "waiting for the key");
/// assert_eq!(line.reason(6_200).to_string(), "silent: nothing heard for 1200 ms, and the limit is 1000 ms");
/// line.hung_up(6_300);
/// assert_eq!(
///     line.reason(6_300).to_string(),
///     "silent: nothing heard for 1300 ms, and the limit is 1000 ms; the line hung up 0 ms ago"
/// );
/// # Ok::<(), mmdh::Refused>(())
/// ```
#[non_exhaustive]
#[derive(Clone, Copy, PartialEq, Eq, Debug)]
pub struct Reason {
    /// The reason by the feed alone; it decides the badge.
    pub why: Why,
    /// The time asked about.
    pub time: u64,
    /// The last heard time.
    pub heard: u64,
    /// The silence limit.
    pub limit: u64,
    /// The arrival that lost the line.
    pub loss: Option<Loss>,
    /// The unit that closed the line.
    pub closing: Option<Closing>,
    /// The refusal since which what comes is dropped, if no connect has been accepted since. The badge may still be green.
    pub dropping: Option<Dropping>,
    /// The refusal of the last connect, if none has been accepted since.
    pub refused: Option<Refused>,
    /// When the caller said that the line had hung up, if no connect has been accepted since.
    pub hung_up: Option<u64>,
}

impl Reason {
    /// The badge that goes with the reason.
    pub fn badge(&self) -> Badge {
        self.why.badge()
    }

    /// For how many milliseconds from the time asked about the badge stays as it is, if nothing more comes.
    pub fn lasts(&self) -> Option<u64> {
        match self.badge() {
            Badge::Stale => None,
            _ => Some(self.heard.saturating_add(self.limit).saturating_sub(self.time)),
        }
    }
}

impl fmt::Display for Reason {
    fn fmt(&self, f: &mut fmt::Formatter<'_>) -> fmt::Result {
        write!(f, "{}", self.why)?;
        match self.why {
            Why::Silent => {
                let quiet = self.time.saturating_sub(self.heard);
                write!(f, ": nothing heard for {} ms, and the limit is {} ms", quiet, self.limit)?;
            }
            Why::Early => write!(f, " by {} ms", self.heard.saturating_sub(self.time))?,
            Why::Lost => self.loss.map_or(Ok(()), |loss| write!(f, ": {}", loss))?,
            Why::Closed => self.closing.map_or(Ok(()), |closing| write!(f, ": {}", closing))?,
            _ => {}
        }
        // the others lost the line, and have been told
        if let Some(dropping) = self.dropping.filter(Dropping::is_beside_loss) {
            write!(f, "; {}", dropping)?;
        }
        if let Some(time) = self.hung_up {
            write!(f, "; the line hung up {} ms ago", self.time.saturating_sub(time))?;
        }
        self.refused.map_or(Ok(()), |refused| write!(f, "; a connect was refused: {}", refused))
    }
}

impl fmt::Display for Loss {
    fn fmt(&self, f: &mut fmt::Formatter<'_>) -> fmt::Result {
        write!(f, "{} (answer {}), unit {}, ", self.answer, self.answer.number(), self.unit)?;
        self.kind.map_or(Ok(()), |kind| write!(f, "type {}, ", kind))?;
        if self.met == self.expected {
            write!(f, "SeqNum {}", self.met)
        } else {
            write!(f, "SeqNum {} expected and {} met", self.expected, self.met)
        }
    }
}

impl Dropping {
    /// Whether the refusal left the feed as it was: 10 and 11.
    fn is_beside_loss(&self) -> bool {
        matches!(self.answer, Answer::Early | Answer::NotOpen)
    }
}

impl fmt::Display for Dropping {
    fn fmt(&self, f: &mut fmt::Formatter<'_>) -> fmt::Result {
        let (answer, number) = (self.answer, self.answer.number());
        write!(f, "what comes is dropped since unit {}: {} (answer {})", self.unit, answer, number)
    }
}

impl fmt::Display for Closing {
    fn fmt(&self, f: &mut fmt::Formatter<'_>) -> fmt::Result {
        let what = if self.kind == 1103 { "logged out" } else { "the logon was turned down" };
        write!(f, "{} (type {}, status {}), unit {}", what, self.kind, self.status, self.unit)
    }
}
