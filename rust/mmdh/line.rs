//! One line: the owner of a feed, of the tables it fills and of the bytes not yet used.

use crate::single::{Feed, LentLine, Scrap, LONGEST};
use crate::why::{Closing, Dropping, Loss, Reason};
use crate::{Answer, Badge, Books, Connect, Phase, Refused, Strips, Tables, Why};
use std::fmt;

const HEADER: usize = 20;

/// One line of the exchange, all of it: the feed, the books and strips that it fills and the bytes that wait for the rest
/// of their unit. Nothing else can write them, so the badge speaks of what [`Line::books`] and [`Line::strips`] show.
///
/// ```
/// use mmdh::{Badge, Connect, Line, Why};
///
/// let mut line = Line::new(1_000, 128)?;
/// line.connect(Connect::Fresh, 5_000)?;
///
/// // SendKey (1105) and the logon response (1102) with status 0, in pieces as a socket gives them
/// let key = [24, 0, 0, 0, 1, 0, 0, 0, 0, 0, 0, 0, 0, 0, 0, 0, 0, 0, 0, 0, 4, 0, 0x51, 4];
/// let logon = [28, 0, 0, 0, 2, 0, 0, 0, 0, 0, 0, 0, 0, 0, 0, 0, 0, 0, 0, 0, 8, 0, 0x4E, 4, 0, 0, 0, 0];
/// let heard = line.hear(&key[..7], 5_000)?;
/// assert_eq!((heard.units, heard.waiting), (0, 7));
/// let heard = line.hear(&key[7..], 5_000)?;
/// assert_eq!((heard.units, heard.waiting), (1, 0));
/// line.hear(&logon, 5_000)?;
/// assert_eq!(line.badge(6_000), Badge::Green);
/// assert_eq!(line.why(6_001), Why::Silent);
///
/// // the same unit again: its number is not the next, and the line is lost
/// let refused = line.hear(&logon, 5_100).unwrap_err();
/// assert_eq!(refused.answer().number(), 13);
/// assert_eq!(line.badge(5_100), Badge::Stale);
/// assert_eq!(
///     line.reason(5_100).to_string(),
///     "lost: the sequence number is not the next (answer 13), unit 3, type 1102, SeqNum 3 expected and 2 met"
/// );
/// # Ok::<(), mmdh::Refused>(())
/// ```
#[derive(Debug)]
pub struct Line {
    lent: LentLine,
    tables: Tables<'static>,
    hold: Hold,
    /// Bytes of frames in which the allowed number was reached before them.
    left: Vec<u8>,
    saw: Saw,
}

/// The holding buffer; looked at, it is its length.
struct Hold(Vec<u8>);

impl fmt::Debug for Hold {
    fn fmt(&self, f: &mut fmt::Formatter<'_>) -> fmt::Result {
        write!(f, "{} bytes", self.0.len())
    }
}

/// What a line saw since its last accepted connect.
#[derive(Debug, Default)]
struct Saw {
    units: u64,
    dropped: u64,
    loss: Option<Loss>,
    closing: Option<Closing>,
    dropping: Option<Dropping>,
    refused: Option<Refused>,
    hung_up: Option<u64>,
}

/// What a piece of bytes came to.
#[non_exhaustive]
#[derive(Clone, Copy, PartialEq, Eq, Debug, Default)]
pub struct Heard {
    /// Units that were accepted.
    pub units: u64,
    /// Bytes that wait for the rest of their unit; after a frame in which the allowed number was reached there may be whole
    /// units among them.
    pub waiting: usize,
    /// Whether the line drops what comes: a unit was refused before this piece, and no connect has been accepted since. The
    /// piece is dropped too; with 0 allowed it only waits, and the next call with a unit allowed drops it. Nothing more is
    /// taken, whatever the badge is: connect anew.
    pub dropping: bool,
    /// Rows that new levels pushed out of full sides: each time the old tenth row, which is gone for good. Rows, not bytes:
    /// `dropping` is another matter. Where a unit is refused, [`Line::dropped`] has what those before it pushed out.
    pub dropped: u64,
}

/// One accepted unit, as [`Line::hear_each`] shows it.
#[non_exhaustive]
#[derive(Clone, Copy, Debug)]
pub struct Unit<'a> {
    /// Taken, seen or passed.
    pub answer: Answer,
    /// Which unit it is, counted from 1 since the connect, heartbeats too.
    pub number: u64,
    /// Its bytes, header and message.
    pub bytes: &'a [u8],
    /// The feed after it.
    pub feed: &'a Feed,
    /// The books after it.
    pub books: &'a Books<'static>,
    /// The strips after it.
    pub strips: &'a Strips<'static>,
    /// Rows that its entries pushed out; 0 of all but a book message that was taken.
    pub dropped: u64,
}

impl Line {
    /// A line that is not connected yet, with a silence limit of 1 to 600,000 ms (else refused with 19) and empty
    /// books and strips with room for this many codes each, at most 4,096. Bytes wait for the rest of their unit in a
    /// holding buffer with room for the longest there is.
    pub fn new(limit: u64, slots: usize) -> Result<Line, Refused> {
        Line::with_hold(limit, slots, LONGEST)
    }

    /// The same with a holding buffer of so many bytes. A unit that is longer than it is 22, and loses the line; where it has
    /// fewer than 22 bytes no connect is accepted.
    ///
    /// ```
    /// use mmdh::{Answer, Connect, Line};
    /// let mut line = Line::with_hold(1_000, 128, 600)?;
    /// line.connect(Connect::Fresh, 0)?;
    /// let mut header = [0; 22];
    /// header[20..].copy_from_slice(&[0x45, 2]); // a MsgSize of 581
    /// assert_eq!(line.hear(&header, 0).unwrap_err().answer(), Answer::TooLong);
    /// let words = "lost: the holding buffer is too short (answer 22), unit 1, SeqNum 1 expected and 0 met";
    /// assert_eq!(line.reason(0).to_string(), words);
    /// # Ok::<(), mmdh::Refused>(())
    /// ```
    pub fn with_hold(limit: u64, slots: usize, bytes: usize) -> Result<Line, Refused> {
        let (lent, tables) = (LentLine::new(limit)?, Tables::with_slots(slots));
        Ok(Line { lent, tables, hold: Hold(vec![0; bytes]), left: Vec::new(), saw: Saw::default() })
    }

    /// The line has been connected. Bytes that still waited are dropped, and those that come are taken again. Refused with 10
    /// or 20, or with 22 where the holding buffer has fewer than 22 bytes, and then nothing is changed: a line that drops
    /// goes on dropping.
    pub fn connect(&mut self, kind: Connect, time: u64) -> Result<(), Refused> {
        match self.lent.connect(&self.hold.0, kind, time).or_refused() {
            Ok(_) => {
                self.left.clear();
                self.saw = Saw::default();
                Ok(())
            }
            Err(refused) => {
                self.saw.refused = Some(refused);
                Err(refused)
            }
        }
    }

    /// The line has been connected again: resuming where there is something whole to resume from, else fresh. Which
    /// it was says what to log on with, and so does [`Line::logon_number`].
    pub fn reconnect(&mut self, time: u64) -> Result<Connect, Refused> {
        match self.connect(Connect::Resuming, time) {
            Err(refused) if refused.answer() == Answer::CannotResume => {
                self.connect(Connect::Fresh, time).map(|()| Connect::Fresh)
            }
            connected => connected.map(|()| Connect::Resuming),
        }
    }

    /// The caller noticed that the line hung up. Document 01 has no such event: the badge stays as it is, and goes
    /// stale by silence; [`Line::reason`] says what was noticed.
    pub fn hung_up(&mut self, time: u64) {
        self.saw.hung_up = Some(time);
    }

    /// Bytes have come, in whatever pieces. Every whole unit is worked on, the rest waits.
    ///
    /// A refusal ends it, and what is left is dropped: with 12 to 18, and with 22, the line is lost; with 11 it was not open;
    /// with 10 the time lies before the last heard one. 10 and 11 are found when a unit is whole; torn bytes only wait. From
    /// then on the line drops what comes, without an answer, until a connect is accepted: [`Heard::dropping`] says so,
    /// [`Line::is_dropping`], and [`Line::reason`], which has the refusal. After 10 the badge stays as it is till the limit
    /// runs out, so it may be green over bytes that are dropped.
    ///
    /// ```
    /// use mmdh::{Badge, Connect, Line};
    /// # let key = [24, 0, 0, 0, 1, 0, 0, 0, 0, 0, 0, 0, 0, 0, 0, 0, 0, 0, 0, 0, 4, 0, 0x51, 4];
    /// # let logon = [28, 0, 0, 0, 2, 0, 0, 0, 0, 0, 0, 0, 0, 0, 0, 0, 0, 0, 0, 0, 8, 0, 0x4E, 4, 0, 0, 0, 0];
    /// # let heartbeat = [20, 0, 0, 0, 2, 0, 0, 0, 0, 0, 0, 0, 0, 0, 0, 0, 0, 0, 0, 0];
    /// let mut line = Line::new(1_000, 128)?;
    /// line.connect(Connect::Fresh, 5_000)?;
    /// line.hear(&[&key[..], &logon].concat(), 5_000)?;
    ///
    /// // a clock that goes back: the heartbeat is refused with 10, and the next one is dropped, though its time is right
    /// assert_eq!(line.hear(&heartbeat, 4_999).unwrap_err().answer().number(), 10);
    /// assert!(line.hear(&heartbeat, 5_001)?.dropping);
    /// assert_eq!((line.badge(6_000), line.badge(6_001)), (Badge::Green, Badge::Stale));
    /// assert_eq!(
    ///     line.reason(5_001).to_string(),
    ///     "live; what comes is dropped since unit 3: the time is before the last heard time (answer 10)"
    /// );
    /// line.reconnect(5_002)?;
    /// assert!(!line.is_dropping());
    /// # Ok::<(), mmdh::Refused>(())
    /// ```
    pub fn hear(&mut self, bytes: &[u8], time: u64) -> Result<Heard, Refused> {
        self.hear_frame(bytes, u64::MAX, time)
    }

    /// The same, and each accepted unit is shown.
    ///
    /// ```
    /// use mmdh::{Answer, Connect, Line};
    /// let mut line = Line::new(1_000, 128)?;
    /// line.connect(Connect::Fresh, 5_000)?;
    /// // SendKey in two pieces
    /// # let key = [24, 0, 0, 0, 1, 0, 0, 0, 0, 0, 0, 0, 0, 0, 0, 0, 0, 0, 0, 0, 4, 0, 0x51, 4];
    /// let mut shown = Vec::new();
    /// for piece in key.chunks(13) {
    ///     line.hear_each(piece, 5_000, |unit| shown.push((unit.number, unit.answer, unit.bytes.to_vec())))?;
    /// }
    /// assert_eq!(shown, [(1, Answer::Taken, key.to_vec())]);
    /// # Ok::<(), mmdh::Refused>(())
    /// ```
    pub fn hear_each(&mut self, bytes: &[u8], time: u64, mut each: impl FnMut(&Unit<'_>)) -> Result<Heard, Refused> {
        self.behind_left(bytes, |line, bytes| {
            let mut used = 0;
            loop {
                let (rest, held) = (&bytes[used..], line.lent.held());
                let scrap = line.take(rest, 1, time);
                used += scrap.used;
                match scrap.said.filter(|answer| answer.is_accepted()) {
                    None => return (used, scrap.said),
                    Some(answer) => {
                        let bytes = if held > 0 { &line.hold.0[..held + scrap.used] } else { &rest[..scrap.used] };
                        let (number, feed, dropped) = (line.saw.units, line.feed(), scrap.dropped);
                        let Tables { books, strips } = &line.tables;
                        each(&Unit { answer, number, bytes, feed, books, strips, dropped });
                    }
                }
            }
        })
    }

    /// Bytes have come, or none, and the screen is to be painted: at most as many units as are allowed are worked on, all in
    /// one call. The rest waits for the next. Where `units` is the allowed number there may be whole units in it; else it
    /// waits for the line.
    ///
    /// A refusal ends it as it ends [`Line::hear`], and units that were accepted before it stay so. With 0 allowed nothing
    /// is refused, heard or dropped, whatever the time and the phase: the bytes only wait.
    ///
    /// ```
    /// use mmdh::{Badge, Connect, Line};
    /// let mut line = Line::new(1_000, 128)?;
    /// line.connect(Connect::Fresh, 5_000)?;
    ///
    /// // SendKey, the logon response with status 0 and a heartbeat came before the first repaint
    /// # let key = [24, 0, 0, 0, 1, 0, 0, 0, 0, 0, 0, 0, 0, 0, 0, 0, 0, 0, 0, 0, 4, 0, 0x51, 4];
    /// # let logon = [28, 0, 0, 0, 2, 0, 0, 0, 0, 0, 0, 0, 0, 0, 0, 0, 0, 0, 0, 0, 8, 0, 0x4E, 4, 0, 0, 0, 0];
    /// # let bytes = [&key[..], &logon, &[20, 0, 0, 0].repeat(5)].concat();
    /// let heard = line.hear_frame(&bytes, 2, 5_016)?;
    /// assert_eq!((heard.units, heard.waiting), (2, 20));
    /// assert_eq!(line.badge(5_016), Badge::Green);
    ///
    /// // nothing more has come by the second, which takes what was left
    /// let heard = line.hear_frame(&[], 2, 5_033)?;
    /// assert_eq!((heard.units, heard.waiting), (1, 0));
    /// # Ok::<(), mmdh::Refused>(())
    /// ```
    pub fn hear_frame(&mut self, bytes: &[u8], allowed: u64, time: u64) -> Result<Heard, Refused> {
        self.behind_left(bytes, |line, bytes| {
            let scrap = line.take(bytes, allowed, time);
            (scrap.used, scrap.said)
        })
    }

    /// Works on the bytes that a frame has left with these behind them, and keeps what is not used; the last answer, if it is
    /// a refusal, is the end of it.
    fn behind_left<F>(&mut self, bytes: &[u8], work: F) -> Result<Heard, Refused>
    where
        F: FnOnce(&mut Line, &[u8]) -> (usize, Option<Answer>),
    {
        let before = (self.saw.units, self.saw.dropped);
        let mut left = std::mem::take(&mut self.left);
        let said = if left.is_empty() {
            let (used, said) = work(self, bytes);
            left.extend_from_slice(&bytes[used..]);
            said
        } else {
            left.extend_from_slice(bytes);
            let (used, said) = work(self, &left);
            left.drain(..used);
            said
        };
        self.left = left;
        match said.map(Answer::or_refused) {
            Some(Err(refused)) => Err(refused),
            _ => Ok(Heard {
                units: self.saw.units - before.0,
                waiting: self.waiting(),
                dropping: self.is_dropping(),
                dropped: self.saw.dropped - before.1,
            }),
        }
    }

    /// One call over a scrap, and what the line saw in it.
    fn take(&mut self, scrap: &[u8], allowed: u64, time: u64) -> Scrap {
        let front = Front::of(&self.hold.0[..self.lent.held()], scrap);
        let came = self.lent.scrap(&mut self.tables, &mut self.hold.0, scrap, allowed, time);
        self.saw.dropped += came.dropped;
        if came.accepted > 0 {
            self.accepted(came.accepted, || &front.unit(scrap, came.accepted - 1)[HEADER..], time);
        }
        if let Some(Err(refused)) = came.said.map(Answer::or_refused) {
            let (answer, unit) = (refused.answer(), self.saw.units + 1);
            self.saw.dropping = Some(Dropping { answer, unit, time });
            self.refused_unit(refused, front.unit(scrap, came.accepted), time);
        }
        came
    }

    /// A message that another box has cut out of its unit, with the two numbers of its header. It is judged by the feed alone,
    /// with the answers of [`Line::hear`] but for 22: bytes that wait have no part in it, and its refusal does not make a line
    /// drop; where it loses the line, the next whole unit is 11. On a line whose bytes are dropped an accepted one is heard all
    /// the same, and the badge goes on being green. Take a connection's messages either in this way or as bytes: the promises
    /// about runs are of lines fed by bytes, or of feeds fed by single calls, not of a mix. Rows that it pushed out are counted
    /// in [`Line::dropped`].
    ///
    /// ```
    /// use mmdh::{Answer, Badge, Connect, Line};
    /// let mut line = Line::new(1_000, 128)?;
    /// line.connect(Connect::Fresh, 0)?;
    /// assert_eq!(line.hear_cut(1, 0, &[4, 0, 0x51, 4], 0)?, Answer::Taken);
    /// assert_eq!(line.hear_cut(2, 0, &[8, 0, 0x4E, 4, 0, 0, 0, 0], 0)?, Answer::Taken);
    /// assert_eq!(line.badge(0), Badge::Green);
    /// assert_eq!(line.hear_cut(7, 1, &[4, 0, 60, 0], 0).unwrap_err().answer(), Answer::NotNext);
    /// assert_eq!(line.reason(0).loss.map(|loss| (loss.expected, loss.met)), Some((3, 7)));
    /// # Ok::<(), mmdh::Refused>(())
    /// ```
    pub fn hear_cut(&mut self, seq: u32, internal: u32, message: &[u8], time: u64) -> Result<Answer, Refused> {
        let expected = self.feed().next();
        let arrival = self.lent.feed.arrive_cut(&mut self.tables, seq, internal, message, time);
        self.saw.dropped += arrival.dropped;
        let heard = arrival.answer.or_refused();
        match heard {
            Ok(_) => self.accepted(1, || message, time),
            Err(refused) => self.refused(refused, (expected, seq), message, time),
        }
        heard
    }

    /// Notes units, and by the last one's message what closes the line: behind it none is accepted.
    fn accepted<'a>(&mut self, units: u64, last: impl FnOnce() -> &'a [u8], time: u64) {
        self.saw.units += units;
        if self.feed().phase() != Phase::Closed {
            return;
        }
        if let Some(message) = last().get(..8) {
            let kind = u16::from_le_bytes([message[2], message[3]]);
            let status = if kind == 1103 { message[4] } else { message[6] };
            self.saw.closing = Some(Closing { kind, status, unit: self.saw.units, time });
        }
    }

    /// Notes the unit at the front of these bytes that lost the line, if it did; next is still what it was.
    fn refused_unit(&mut self, refused: Refused, bytes: &[u8], time: u64) {
        let met = bytes.get(4..8).and_then(|seq| seq.try_into().ok()).map_or(0, u32::from_le_bytes);
        self.refused(refused, (self.feed().next(), met), bytes.get(HEADER..).unwrap_or(&[]), time);
    }

    /// Notes the arrival that lost the line, with the SeqNums expected and met.
    fn refused(&mut self, refused: Refused, (expected, met): (u64, u32), message: &[u8], time: u64) {
        if matches!(refused.answer(), Answer::Early | Answer::NotOpen) {
            return;
        }
        let kind = match message.get(..4) {
            Some(&[low, high, first, second]) if high > 0 || low >= 4 => Some(u16::from_le_bytes([first, second])),
            _ => None,
        };
        let (answer, unit) = (refused.answer(), self.saw.units + 1);
        self.saw.loss = Some(Loss { answer, expected, met: u64::from(met), kind, unit, time });
    }

    /// What the panels' corners show at a time.
    pub fn badge(&self, time: u64) -> Badge {
        self.feed().badge(time)
    }

    /// Why the badge is what it is at a time, by the feed alone.
    pub fn why(&self, time: u64) -> Why {
        self.feed().why(time)
    }

    /// Why the badge is what it is at a time, with what the line saw.
    pub fn reason(&self, time: u64) -> Reason {
        Reason {
            why: self.why(time),
            time,
            heard: self.feed().heard(),
            limit: self.feed().limit(),
            loss: self.saw.loss,
            closing: self.saw.closing,
            dropping: self.saw.dropping,
            refused: self.saw.refused,
            hung_up: self.saw.hung_up,
        }
    }

    /// The books, to be read.
    pub fn books(&self) -> &Books<'static> {
        &self.tables.books
    }

    /// The price strips, to be read.
    ///
    /// ```
    /// use mmdh::{Connect, Line};
    /// let mut line = Line::new(1_000, 128)?;
    /// line.connect(Connect::Fresh, 0)?;
    /// line.hear_cut(1, 0, &[4, 0, 0x51, 4], 0)?;
    /// line.hear_cut(2, 0, &[8, 0, 0x4E, 4, 0, 0, 0, 0], 0)?;
    ///
    /// // Nominal Price (40) of code 700: 9.730
    /// line.hear_cut(3, 1, &[12, 0, 40, 0, 0xBC, 2, 0, 0, 2, 0x26, 0, 0], 0)?;
    /// let strip = line.strips().strip(700)?;
    /// assert_eq!((strip.nominal, strip.closing), (Some(9_730), None));
    /// # Ok::<(), mmdh::Refused>(())
    /// ```
    pub fn strips(&self) -> &Strips<'static> {
        &self.tables.strips
    }

    /// The feed, to be looked at.
    pub fn feed(&self) -> &Feed {
        self.lent.feed()
    }

    /// Whether bytes can be taken: connected, and neither lost nor closed since, nor dropping them.
    pub fn is_open(&self) -> bool {
        self.feed().is_open() && !self.is_dropping()
    }

    /// Whether what comes is dropped: since a unit was refused, until a connect is accepted. The badge may still be green.
    pub fn is_dropping(&self) -> bool {
        self.lent.is_dropping()
    }

    /// The InternalSeqNum to log on with: 0 after a fresh connect, else the last internal number.
    pub fn logon_number(&self) -> u64 {
        self.feed().logon_number()
    }

    /// Units accepted since the last accepted connect, heartbeats too.
    pub fn units(&self) -> u64 {
        self.saw.units
    }

    /// Rows that new levels pushed out of full sides since the last accepted connect. Behind a refusal the difference to what
    /// it was before the call is what the units before the refused one pushed out.
    ///
    /// ```
    /// use mmdh::{Connect, Line};
    /// let mut line = Line::new(1_000, 128)?;
    /// line.connect(Connect::Fresh, 0)?;
    /// line.hear_cut(1, 0, &[4, 0, 0x51, 4], 0)?;
    /// line.hear_cut(2, 0, &[8, 0, 0x4E, 4, 0, 0, 0, 0], 0)?;
    ///
    /// // code 700, bids from the worst to the best, each a new level 1: the eleventh pushes out the first
    /// for price in 1..=11 {
    ///     let entry = [1, 0, 0, 0, 0, 0, 0, 0, price, 0, 0, 0, 1, 0, 0, 0, 0, 0, 1, 0, 0, 0, 0, 0];
    ///     let message = [&[36, 0, 53, 0, 0xBC, 2, 0, 0, 0, 0, 0, 1][..], &entry].concat();
    ///     line.hear_cut(2 + u32::from(price), u32::from(price), &message, 0)?;
    ///     assert_eq!(line.dropped(), u64::from(price == 11));
    /// }
    /// assert_eq!(line.books().bids(700)?[9].price, 2);
    /// # Ok::<(), mmdh::Refused>(())
    /// ```
    pub fn dropped(&self) -> u64 {
        self.saw.dropped
    }

    /// Bytes that wait for the rest of their unit, or for the next frame.
    pub fn waiting(&self) -> usize {
        self.lent.held() + self.left.len()
    }
}

/// The first bytes that a call works on, those that wait before the scrap's: as many as tell what a unit is and what closes a
/// line.
struct Front {
    bytes: [u8; Front::TOLD],
    length: usize,
    waiting: usize,
}

impl Front {
    /// A header and a message of eight bytes.
    const TOLD: usize = HEADER + 8;

    fn of(waiting: &[u8], scrap: &[u8]) -> Front {
        let mut bytes = [0; Front::TOLD];
        let first = waiting.len().min(Front::TOLD);
        let length = (waiting.len() + scrap.len()).min(Front::TOLD);
        bytes[..first].copy_from_slice(&waiting[..first]);
        bytes[first..length].copy_from_slice(&scrap[..length - first]);
        Front { bytes, length, waiting: waiting.len() }
    }

    /// Where a unit begins, counted from 0; those before it were accepted.
    fn unit<'a>(&'a self, scrap: &'a [u8], number: u64) -> &'a [u8] {
        if number == 0 {
            return &self.bytes[..self.length];
        }
        let first = &scrap[length(&self.bytes) - self.waiting..];
        (1..number).fold(first, |rest, _| &rest[length(rest)..])
    }
}

/// How long the unit at the front is.
fn length(unit: &[u8]) -> usize {
    let heartbeat = unit[..2] == [HEADER as u8, 0];
    HEADER + if heartbeat { 0 } else { usize::from(u16::from_le_bytes([unit[HEADER], unit[HEADER + 1]])) }
}
