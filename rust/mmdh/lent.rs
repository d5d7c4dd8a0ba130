//! One line by its single calls: its tables and its holding buffer are lent to it.

use crate::feed::lent;
use crate::raw::{self, MmdhLine};
use crate::single::Feed;
use crate::{Answer, Connect, Refused, Tables};

/// Bytes of the longest unit, a header and the most that MsgSize can say: a holding buffer of so many never gets 22.
pub const LONGEST: usize = 65_555;

/// What a scrap comes to.
#[must_use]
#[non_exhaustive]
#[derive(Clone, Copy, PartialEq, Eq, Debug)]
pub struct Scrap {
    /// The last unit's answer: 0, 1 or 2 where the allowed number was reached, and then come again with the rest; else the
    /// refusal, and then the line drops what comes. None where what is left waits, or is dropped.
    pub said: Option<Answer>,
    /// Units that were accepted, with 0, 1 or 2, heartbeats too.
    pub accepted: u64,
    /// Bytes used of the scrap: by units, by waiting, or dropped. All of them, but where the allowed number was reached.
    pub used: usize,
    /// Rows that the accepted units pushed out, as [`Arrival::dropped`](crate::single::Arrival::dropped) has it, also where the
    /// last unit was refused. Bytes that the line drops are another matter: they push out nothing.
    pub dropped: u64,
}

/// One line without its tables and without its holding buffer: a feed, how many bytes wait at the buffer's front, and
/// whether it drops what comes.
///
/// These are single calls; [`Line`](crate::Line) makes them for you. Whoever makes them lends the same tables and the same
/// buffer at every call and writes neither in between.
///
/// ```
/// use mmdh::single::LentLine;
/// use mmdh::{Answer, Badge, Connect, Tables};
///
/// let mut line = LentLine::new(1_000)?;
/// let (mut tables, mut hold) = (Tables::with_slots(128), [0; 28]);
/// assert!(line.connect(&hold, Connect::Fresh, 5_000).is_accepted());
///
/// // SendKey (1105) and the logon response (1102) with status 0, each behind its header; then a unit of 56 bytes
/// let bytes = [
///     24, 0, 0, 0, 1, 0, 0, 0, 0, 0, 0, 0, 0, 0, 0, 0, 0, 0, 0, 0, 4, 0, 0x51, 4,
///     28, 0, 0, 0, 2, 0, 0, 0, 0, 0, 0, 0, 0, 0, 0, 0, 0, 0, 0, 0, 8, 0, 0x4E, 4, 0, 0, 0, 0,
///     56, 0, 0, 0, 3, 0, 0, 0, 1, 0, 0, 0, 0, 0, 0, 0, 0, 0, 0, 0, 36, 0, 53, 0,
/// ];
/// let scrap = line.scrap(&mut tables, &mut hold, &bytes[..40], u64::MAX, 5_000);
/// assert_eq!((scrap.said, scrap.accepted, scrap.used), (None, 1, 40));
/// assert_eq!((line.held(), &hold[..16]), (16, &bytes[24..40]));
///
/// // with 1 allowed every answer is seen
/// let scrap = line.scrap(&mut tables, &mut hold, &bytes[40..], 1, 5_000);
/// assert_eq!((scrap.said, scrap.used), (Some(Answer::Taken), 12));
/// assert_eq!(hold, bytes[24..52]);
///
/// // the buffer is too short for the third: that is known as soon as its MsgSize is
/// let scrap = line.scrap(&mut tables, &mut hold, &bytes[52..], 1, 5_100);
/// assert_eq!((scrap.said, scrap.used), (Some(Answer::TooLong), 24));
/// assert!(line.is_dropping() && line.feed().whole());
/// assert_eq!(line.feed().badge(5_100), Badge::Stale);
///
/// // what follows has no answer, until a connect is accepted
/// let scrap = line.scrap(&mut tables, &mut hold, &bytes, 1, 5_200);
/// assert_eq!((scrap.said, scrap.used), (None, 76));
/// assert_eq!(line.connect(&hold[..21], Connect::Fresh, 5_300), Answer::TooLong);
/// assert_eq!(line.connect(&hold, Connect::Fresh, 5_300), Answer::Taken);
/// assert!(!line.is_dropping());
/// # Ok::<(), mmdh::Refused>(())
/// ```
#[derive(PartialEq, Eq, Debug)]
pub struct LentLine {
    pub(crate) feed: Feed,
    held: u64,
    dropping: bool,
}

impl LentLine {
    /// A line that is not connected yet, with a silence limit of 1 to 600,000 ms; any other limit is refused with 19.
    pub fn new(limit: u64) -> Result<LentLine, Refused> {
        Ok(LentLine { feed: Feed::new(limit)?, held: 0, dropping: false })
    }

    /// The line has been connected, and this is its holding buffer: 0, and then nothing waits and nothing is dropped; or 10,
    /// 20, or 22 for a buffer of fewer than 22 bytes, with the line unchanged.
    pub fn connect(&mut self, hold: &[u8], kind: Connect, time: u64) -> Answer {
        let linked = raw::line_connect(self.plain(), hold, u64::from(kind == Connect::Resuming), time);
        self.after(linked.line);
        Answer::given(linked.answer)
    }

    /// A scrap has come: units that are finished with it go through the feed, at most as many as are allowed, and the rest
    /// waits in the holding buffer. With 0 allowed nothing is looked at, and nothing is used.
    pub fn scrap(&mut self, tables: &mut Tables<'_>, hold: &mut [u8], scrap: &[u8], allowed: u64, time: u64) -> Scrap {
        let heard = raw::line_scrap(self.plain(), lent(tables), hold, scrap, allowed, time);
        self.after(heard.line);
        let said = Some(heard.answer).filter(|_| heard.said != 0).map(Answer::given);
        Scrap { said, accepted: heard.accepted, used: heard.used as usize, dropped: heard.dropped }
    }

    /// The feed, to be looked at.
    pub fn feed(&self) -> &Feed {
        &self.feed
    }

    /// How many bytes wait at the front of the holding buffer for the rest of their unit.
    pub fn held(&self) -> usize {
        self.held as usize
    }

    /// Whether what comes is dropped: since a refusal, until a connect is accepted.
    pub fn is_dropping(&self) -> bool {
        self.dropping
    }

    fn plain(&self) -> MmdhLine {
        MmdhLine { feed: self.feed.plain, held: self.held, dropping: u64::from(self.dropping) }
    }

    fn after(&mut self, line: MmdhLine) {
        self.feed.plain = line.feed;
        self.held = line.held;
        self.dropping = line.dropping != 0;
    }
}
