//! One feed by its single calls, and the badge that it has earned.

use crate::raw::{self, Lent, MmdhFeed, MmdhGiven};
use crate::{Answer, Refused, Tables, Why};
use std::fmt;

/// Where a feed stands.
#[derive(Clone, Copy, PartialEq, Eq, Hash, Debug)]
pub enum Phase {
    /// New, not yet connected.
    Idle,
    /// Connected; SendKey is to come.
    WaitKey,
    /// The logon response is to come.
    WaitLogon,
    /// The snapshot is coming in.
    Refreshing,
    /// The books follow the market.
    Live,
    /// An arrival was refused; only a connect leads on.
    Lost,
    /// Logged out, or the logon was turned down; only a connect leads on.
    Closed,
}

/// What the corner of a panel shows.
///
/// ```
/// use mmdh::{Badge, Line};
/// let line = Line::new(1_000, 128)?;
/// assert_eq!(line.badge(0), Badge::Stale);
/// assert_eq!(Badge::Green.number(), 1);
/// # Ok::<(), mmdh::Refused>(())
/// ```
#[derive(Clone, Copy, PartialEq, Eq, Hash, Debug)]
pub enum Badge {
    /// 0: not to be quoted from.
    Stale,
    /// 1: live and heard within the limit.
    Green,
    /// 2: on its way to live, and heard within the limit.
    Filling,
}

impl Badge {
    /// Document 01's number.
    pub fn number(self) -> u64 {
        match self {
            Badge::Stale => 0,
            Badge::Green => 1,
            Badge::Filling => 2,
        }
    }
}

impl fmt::Display for Badge {
    fn fmt(&self, f: &mut fmt::Formatter<'_>) -> fmt::Result {
        f.pad(match self {
            Badge::Stale => "stale",
            Badge::Green => "green",
            Badge::Filling => "filling",
        })
    }
}

/// Which kind of connect.
#[derive(Clone, Copy, PartialEq, Eq, Hash, Debug)]
pub enum Connect {
    /// From empty tables: the accepted logon clears them.
    Fresh,
    /// From the last internal number: the tables are kept, if they are whole.
    Resuming,
}

/// What an arrival comes to, of bytes or of a message already cut.
#[must_use]
#[non_exhaustive]
#[derive(Clone, Copy, PartialEq, Eq, Debug)]
pub struct Arrival {
    /// The answer.
    pub answer: Answer,
    /// Bytes used: go on behind them. 0 unless the answer is 0, 1 or 2, and of a message already cut.
    pub used: usize,
    /// Rows of a full side that new levels in a book message pushed out: the old tenth row each time, as the entries before
    /// left it. A delete or a clear behind it takes none back. 0 for all that is not a book message taken.
    pub dropped: u64,
}

/// What a whole frame comes to.
#[must_use]
#[non_exhaustive]
#[derive(Clone, Copy, PartialEq, Eq, Debug)]
pub struct Frame {
    /// The last unit's answer: 0, 1 or 2 where the allowed number was reached, 3 where bytes are missing, else the refusal.
    /// Where no unit was allowed it is 0.
    pub answer: Answer,
    /// Units that were accepted, with 0, 1 or 2, heartbeats too.
    pub accepted: u64,
    /// Bytes that they used: go on behind them.
    pub used: usize,
    /// Rows that they pushed out, as [`Arrival::dropped`] has it, also where the frame ends in a refusal.
    pub dropped: u64,
}

/// One feed: what is known of a line, and whether its books may be shown as live.
///
/// These are single calls; [`Line`](crate::Line) makes them for you. Whoever makes them keeps two things right by
/// hand: the same tables are lent at every call, and bytes that were not used are handed in again with more behind
/// them. A feed is neither `Copy` nor `Clone`: its state after a call is the only one to go on with.
///
/// ```
/// use mmdh::single::Feed;
/// use mmdh::{Answer, Badge, Connect, Phase, Tables};
///
/// let mut feed = Feed::new(1_000)?;
/// let mut tables = Tables::with_slots(128);
/// assert!(feed.connect(Connect::Fresh, 5_000).is_accepted());
///
/// // SendKey (1105) and the logon response (1102) with status 0, each behind its header; then a unit cut short
/// let line = [
///     24, 0, 0, 0, 1, 0, 0, 0, 0, 0, 0, 0, 0, 0, 0, 0, 0, 0, 0, 0, 4, 0, 0x51, 4,
///     28, 0, 0, 0, 2, 0, 0, 0, 0, 0, 0, 0, 0, 0, 0, 0, 0, 0, 0, 0, 8, 0, 0x4E, 4, 0, 0, 0, 0,
///     20, 0, 0,
/// ];
/// let mut at = 0;
/// loop {
///     let arrival = feed.arrive(&mut tables, &line[at..], 5_000);
///     match arrival.answer.or_refused() {
///         Ok(Answer::More) => break,            // wait for the line, and hand in what is left again
///         Ok(_) => at += arrival.used,          // taken, seen or passed: go on behind it
///         Err(refused) => return Err(refused),  // lost or closed: nothing more will be taken, connect anew
///     }
/// }
/// assert_eq!(line[at..], [20, 0, 0]);
/// assert_eq!(feed.phase(), Phase::Live);
/// assert_eq!(feed.badge(6_000), Badge::Green);
/// assert_eq!(feed.badge(6_001), Badge::Stale);
/// # Ok::<(), mmdh::Refused>(())
/// ```
///
/// ```compile_fail,E0277
/// fn goes_on_twice<T: Clone>() {}
/// goes_on_twice::<mmdh::single::Feed>();
/// ```
#[derive(PartialEq, Eq, Debug)]
pub struct Feed {
    pub(crate) plain: MmdhFeed,
}

impl Feed {
    /// A new feed with a silence limit of 1 to 600,000 ms; any other limit is refused with 19.
    pub fn new(limit: u64) -> Result<Feed, Refused> {
        let given = raw::new(limit);
        Answer::given(given.answer).or_refused().map(|_| Feed { plain: given.feed })
    }

    /// The line has been connected: 0, or 10 or 20 with the feed unchanged.
    pub fn connect(&mut self, kind: Connect, time: u64) -> Answer {
        let given = raw::connect(self.plain, u64::from(kind == Connect::Resuming), time);
        self.after(given)
    }

    /// Works on the first unit in these bytes.
    pub fn arrive(&mut self, tables: &mut Tables<'_>, bytes: &[u8], time: u64) -> Arrival {
        let given = raw::arrive(self.plain, lent(tables), bytes, time);
        self.arrival(given)
    }

    /// Works on a whole frame's units at once, at most as many as are allowed: what [`Feed::arrive`] does at this time with
    /// the first unit, then with the next, up to one that is not accepted. Those before it stay accepted. With 0 allowed
    /// nothing is looked at, whatever the time and the phase, and all stays as it is.
    ///
    /// ```
    /// use mmdh::single::Feed;
    /// use mmdh::{Answer, Connect, Phase, Tables};
    ///
    /// let mut feed = Feed::new(1_000)?;
    /// let mut tables = Tables::with_slots(128);
    /// assert!(feed.connect(Connect::Fresh, 5_000).is_accepted());
    ///
    /// // SendKey (1105), the logon response (1102) with status 0, a heartbeat; then a unit cut short
    /// let line = [
    ///     24, 0, 0, 0, 1, 0, 0, 0, 0, 0, 0, 0, 0, 0, 0, 0, 0, 0, 0, 0, 4, 0, 0x51, 4,
    ///     28, 0, 0, 0, 2, 0, 0, 0, 0, 0, 0, 0, 0, 0, 0, 0, 0, 0, 0, 0, 8, 0, 0x4E, 4, 0, 0, 0, 0,
    ///     20, 0, 0, 0, 2, 0, 0, 0, 0, 0, 0, 0, 0, 0, 0, 0, 0, 0, 0, 0,
    ///     56, 0, 0,
    /// ];
    /// let frame = feed.arrive_frame(&mut tables, &line, 2, 5_016);
    /// assert_eq!((frame.answer, frame.accepted, frame.used), (Answer::Taken, 2, 52));
    /// assert_eq!(feed.phase(), Phase::Live);
    ///
    /// // the next frame ends where bytes are missing, and they are handed in again with more behind them
    /// let frame = feed.arrive_frame(&mut tables, &line[52..], 100, 5_033);
    /// assert_eq!((frame.answer, frame.accepted, frame.used), (Answer::More, 1, 20));
    /// assert_eq!(feed.heard(), 5_033);
    /// # Ok::<(), mmdh::Refused>(())
    /// ```
    pub fn arrive_frame(&mut self, tables: &mut Tables<'_>, bytes: &[u8], allowed: u64, time: u64) -> Frame {
        let given = raw::arrive_frame(self.plain, lent(tables), bytes, allowed, time);
        self.plain = given.feed;
        let (answer, used) = (Answer::given(given.answer), given.used as usize);
        Frame { answer, accepted: given.accepted, used, dropped: given.dropped }
    }

    /// Works on a message already cut out, with the two numbers of its header. No bytes are used.
    ///
    /// ```
    /// use mmdh::single::Feed;
    /// use mmdh::{Answer, Connect, Tables};
    /// let mut feed = Feed::new(1_000)?;
    /// let mut tables = Tables::with_slots(1);
    /// assert_eq!(feed.arrive_cut(&mut tables, 1, 0, &[4, 0, 0x51, 4], 0).answer, Answer::NotOpen);
    /// assert_eq!(feed.connect(Connect::Fresh, 0), Answer::Taken);
    /// assert_eq!(feed.arrive_cut(&mut tables, 1, 0, &[4, 0, 0x51, 4], 0).answer, Answer::Taken);
    /// # Ok::<(), mmdh::Refused>(())
    /// ```
    pub fn arrive_cut(
        &mut self,
        tables: &mut Tables<'_>,
        seq: u32,
        internal: u32,
        message: &[u8],
        time: u64,
    ) -> Arrival {
        let given = raw::arrive_cut(self.plain, lent(tables), seq, internal, message, time);
        self.arrival(given)
    }

    /// What the panel's corner shows at a time.
    pub fn badge(&self, time: u64) -> Badge {
        match raw::badge(self.plain.phase, self.plain.heard, self.plain.limit, time) {
            1 => Badge::Green,
            2 => Badge::Filling,
            _ => Badge::Stale,
        }
    }

    /// Why the badge is what it is at a time.
    pub fn why(&self, time: u64) -> Why {
        Why::given(raw::why(self.plain.phase, self.plain.heard, self.plain.limit, time))
    }

    /// Where the feed stands.
    pub fn phase(&self) -> Phase {
        match self.plain.phase {
            0 => Phase::Idle,
            1 => Phase::WaitKey,
            2 => Phase::WaitLogon,
            3 => Phase::Refreshing,
            4 => Phase::Live,
            6 => Phase::Closed,
            _ => Phase::Lost,
        }
    }

    /// The next SeqNum; 4,294,967,296 after the last one.
    pub fn next(&self) -> u64 {
        self.plain.next
    }

    /// The last internal number.
    pub fn internal(&self) -> u64 {
        self.plain.internal
    }

    /// The last heard time, in milliseconds.
    pub fn heard(&self) -> u64 {
        self.plain.heard
    }

    /// The silence limit, in milliseconds.
    pub fn limit(&self) -> u64 {
        self.plain.limit
    }

    /// Whether the tables hold all that was sent since the last clearing.
    pub fn whole(&self) -> bool {
        self.plain.whole != 0
    }

    /// Whether the last accepted connect was fresh.
    pub fn fresh(&self) -> bool {
        self.plain.fresh != 0
    }

    /// Whether an arrival can be taken: from WaitKey to Live.
    pub fn is_open(&self) -> bool {
        !matches!(self.phase(), Phase::Idle | Phase::Lost | Phase::Closed)
    }

    /// The InternalSeqNum to log on with: 0 after a fresh connect, else the last internal number.
    pub fn logon_number(&self) -> u64 {
        if self.fresh() {
            0
        } else {
            self.internal()
        }
    }

    fn after(&mut self, given: MmdhGiven) -> Answer {
        self.plain = given.feed;
        Answer::given(given.answer)
    }

    fn arrival(&mut self, given: MmdhGiven) -> Arrival {
        Arrival { answer: self.after(given), used: given.used as usize, dropped: given.dropped }
    }
}

/// The tables' words, for one call.
pub(crate) fn lent<'a>(tables: &'a mut Tables<'_>) -> Lent<'a> {
    Lent { books: tables.books.words_mut(), strips: tables.strips.words_mut() }
}
