//! Document 01 in plain Rust, with requests 1 to 3 and 5 to 7 of document 02, written from the documents alone, but for which
//! bytes of the holding buffer are written (docs/DECISIONS.md, "Every byte of the buffer"): the same calls over the same tables
//! of words.
//! The library is compared with it, answer by answer and word by word.

#![forbid(unsafe_code)]
#![deny(missing_docs)]

pub mod book;
pub mod line;
pub mod password;
pub mod slots;
pub mod strip;
pub mod tuned;
pub mod unit;

use book::{Book, SLOT};
use strip::{Strip, STRIP};
use unit::{u16_at, u32_at, Unit, HEADER};

/// Longest stretch of bytes that the program of example 10 holds.
pub const BUFFER: usize = 65_536;

/// Document 01's answers, by their numbers; 22 is document 02's, by which a scrap may have none.
#[derive(Clone, Copy, PartialEq, Eq, Debug)]
pub enum Answer {
    /// Taken.
    Taken = 0,
    /// Seen before.
    Seen = 1,
    /// A market message of which nothing is kept.
    Passed = 2,
    /// Not yet a whole unit.
    More = 3,
    /// No book or no such row; no strip.
    NoRow = 4,
    /// Time before last heard.
    Early = 10,
    /// Arrival in Idle, Lost or Closed.
    NotOpen = 11,
    /// Size wrong.
    WrongSize = 12,
    /// SeqNum not the next.
    NotNext = 13,
    /// Type or internal number not allowed in the phase.
    NotAllowed = 14,
    /// Status, code, side, level, action or direction not listed.
    NotListed = 15,
    /// An entry does not fit.
    Misfit = 16,
    /// No slot free.
    Full = 17,
    /// The code's book or strip is not sound.
    Unsound = 18,
    /// Limit outside 1 to 600,000.
    BadLimit = 19,
    /// Resuming without its need.
    CannotResume = 20,
    /// The holding buffer is too short.
    TooLong = 22,
}

impl Answer {
    /// Taken, Seen or Passed.
    pub fn is_accepted(self) -> bool {
        matches!(self, Answer::Taken | Answer::Seen | Answer::Passed)
    }
}

/// Where a feed stands.
#[derive(Clone, Copy, PartialEq, Eq, Debug)]
#[allow(missing_docs)]
pub enum Phase {
    Idle,
    WaitKey,
    WaitLogon,
    Refreshing,
    Live,
    Lost,
    Closed,
}

impl Phase {
    /// The phase of a number; an unknown one counts as Lost.
    pub fn of(number: u64) -> Phase {
        match number {
            0 => Phase::Idle,
            1 => Phase::WaitKey,
            2 => Phase::WaitLogon,
            3 => Phase::Refreshing,
            4 => Phase::Live,
            6 => Phase::Closed,
            _ => Phase::Lost,
        }
    }
}

/// All that is kept of one feed.
#[derive(Clone, Copy, PartialEq, Eq, Debug)]
pub struct Feed {
    /// Where it stands.
    pub phase: Phase,
    /// The next SeqNum.
    pub next: u64,
    /// The last internal number.
    pub internal: u64,
    /// The last heard time.
    pub heard: u64,
    /// The silence limit.
    pub limit: u64,
    /// Whether the tables are whole.
    pub whole: bool,
    /// Whether the last accepted connect was fresh.
    pub fresh: bool,
}

/// The tables lent to an arrival.
#[derive(Debug)]
pub struct Tables<'a> {
    /// Books, 64 words each.
    pub books: &'a mut [u64],
    /// Strips, 12 words each.
    pub strips: &'a mut [u64],
}

impl Tables<'_> {
    /// The same tables, for one call of several.
    fn again(&mut self) -> Tables<'_> {
        Tables { books: self.books, strips: self.strips }
    }
}

/// What a call hands back.
#[derive(Clone, Copy, PartialEq, Eq, Debug)]
pub struct Given {
    /// The answer.
    pub answer: Answer,
    /// Bytes used.
    pub used: u64,
    /// The feed after the call.
    pub feed: Feed,
    /// Rows that the entries of a book message pushed out; 0 unless it was taken.
    pub dropped: u64,
}

/// What a whole frame hands back.
#[derive(Clone, Copy, PartialEq, Eq, Debug)]
pub struct Frame {
    /// The last answer; Taken where no unit was allowed.
    pub answer: Answer,
    /// Units accepted.
    pub accepted: u64,
    /// Bytes that they used.
    pub used: u64,
    /// The feed after them.
    pub feed: Feed,
    /// Rows that they pushed out.
    pub dropped: u64,
}

/// What reading a row hands back.
#[derive(Clone, Copy, PartialEq, Eq, Debug)]
pub struct Read {
    /// The answer.
    pub answer: Answer,
    /// Thousandths, as sent.
    pub price: i64,
    /// Shares.
    pub quantity: u64,
    /// Orders.
    pub orders: u64,
}

/// What reading a side hands back.
#[derive(Clone, PartialEq, Eq, Debug)]
pub struct ReadSide {
    /// The answer.
    pub answer: Answer,
    /// Price, quantity and orders of each row, best first; none with an answer other than 0.
    pub rows: Vec<(i64, u64, u64)>,
}

/// What reading a strip hands back: prices as sent, 0 for what has not come, all 0 with an answer other than 0.
#[derive(Clone, Copy, PartialEq, Eq, Debug)]
pub struct ReadStrip {
    /// The answer.
    pub answer: Answer,
    /// Bit k is set where value k has come.
    pub flags: u64,
    /// Nominal price.
    pub nominal: i64,
    /// Indicative equilibrium price.
    pub iep: i64,
    /// Its volume.
    pub iev: u64,
    /// Reference price.
    pub reference: i64,
    /// Lower price.
    pub lower: i64,
    /// Upper price.
    pub upper: i64,
    /// Imbalance direction, a character's number.
    pub direction: u64,
    /// Imbalance quantity.
    pub imbalance: u64,
    /// Closing price.
    pub closing: i64,
}

fn limit_listed(limit: u64) -> bool {
    (1..=600_000).contains(&limit)
}

/// A new feed.
pub fn new(limit: u64) -> Given {
    let (answer, limit) = if limit_listed(limit) { (Answer::Taken, limit) } else { (Answer::BadLimit, 1_000) };
    let feed = Feed { phase: Phase::Idle, next: 1, internal: 0, heard: 0, limit, whole: false, fresh: true };
    feed.given(answer, 0)
}

/// A connect, fresh or resuming.
pub fn connect(feed: Feed, resuming: bool, time: u64) -> Given {
    if time < feed.heard {
        return feed.unchanged(Answer::Early);
    }
    if resuming && !(feed.whole && feed.internal >= 1) {
        return feed.unchanged(Answer::CannotResume);
    }
    Feed { phase: Phase::WaitKey, next: 1, heard: time, fresh: !resuming, ..feed }.given(Answer::Taken, 0)
}

/// The first unit of a stream arrives.
pub fn arrive(feed: Feed, mut tables: Tables<'_>, stream: &[u8], time: u64) -> Given {
    if let Some(answer) = feed.shut(time) {
        return feed.unchanged(answer);
    }
    match unit::cut(stream) {
        Unit::More => feed.unchanged(Answer::More),
        Unit::Heartbeat => {
            let heard = Feed { heard: time, ..feed }.given(Answer::Taken, 0);
            Given { used: HEADER as u64, ..heard }
        }
        Unit::Message { seq, internal, message } => {
            let given = feed.delivered(&mut tables, seq, internal, message, time);
            let used = if given.answer.is_accepted() { HEADER + message.len() } else { 0 };
            Given { used: used as u64, ..given }
        }
    }
}

/// A whole frame's units arrive, at most as many as are allowed; More and the first refusal end it too.
pub fn arrive_frame(feed: Feed, mut tables: Tables<'_>, stream: &[u8], allowed: u64, time: u64) -> Frame {
    let mut frame = Frame { answer: Answer::Taken, accepted: 0, used: 0, feed, dropped: 0 };
    while frame.accepted < allowed {
        let given = arrive(frame.feed, tables.again(), &stream[frame.used as usize..], time);
        frame.answer = given.answer;
        frame.feed = given.feed;
        if !given.answer.is_accepted() {
            break;
        }
        frame.accepted += 1;
        frame.used += given.used;
        frame.dropped += given.dropped;
    }
    frame
}

/// A message already cut arrives.
pub fn arrive_cut(feed: Feed, mut tables: Tables<'_>, seq: u32, internal: u32, message: &[u8], time: u64) -> Given {
    match feed.shut(time) {
        Some(answer) => feed.unchanged(answer),
        None => feed.delivered(&mut tables, seq, internal, message, time),
    }
}

/// The badge: 0 Stale, 1 Green, 2 Filling.
pub fn badge(phase: u64, heard: u64, limit: u64, time: u64) -> u64 {
    let quiet = match time.checked_sub(heard) {
        Some(quiet) if limit_listed(limit) => quiet,
        _ => return 0,
    };
    match phase {
        4 if quiet <= limit => 1,
        1..=3 if quiet <= limit => 2,
        _ => 0,
    }
}

/// Why the badge is what it is: first the phases that are stale by themselves, then the limit, then the clock, else the
/// phase. 0 live, 1 new, 2 key, 3 logon, 4 refresh, 5 silent, 6 early, 7 lost, 8 closed, 9 limit.
pub fn why(phase: u64, heard: u64, limit: u64, time: u64) -> u64 {
    let waits = match Phase::of(phase) {
        Phase::Idle => return 1,
        Phase::Lost => return 7,
        Phase::Closed => return 8,
        Phase::WaitKey => 2,
        Phase::WaitLogon => 3,
        Phase::Refreshing => 4,
        Phase::Live => 0,
    };
    if !limit_listed(limit) {
        return 9;
    }
    match time.checked_sub(heard) {
        None => 6,
        Some(quiet) if quiet > limit => 5,
        Some(_) => waits,
    }
}

/// Reads a row by code, side (0 bid, 1 offer) and rank (1 to 10).
pub fn read_row(table: &[u64], code: u64, side: u64, rank: u64) -> Read {
    let none = |answer| Read { answer, price: 0, quantity: 0, orders: 0 };
    if !slots::code_listed(code) || side > 1 || !(1..=10).contains(&rank) {
        return none(Answer::NotListed);
    }
    let book = match slots::find::<SLOT>(table, code) {
        None => return none(Answer::NoRow),
        Some(k) => match Book::read(slots::slot::<SLOT>(table, k)) {
            None => return none(Answer::Unsound),
            Some(book) => book,
        },
    };
    let rows = if side == 0 { book.bids.rows() } else { book.offers.rows() };
    match rows.get(rank as usize - 1) {
        None => none(Answer::NoRow),
        Some(row) => Read {
            answer: Answer::Taken,
            price: i64::from(row.price),
            quantity: row.quantity,
            orders: u64::from(row.orders),
        },
    }
}

/// Reads all rows of a side at once: 15 where code or side are not listed, 4 where the code has no book, 18, else 0.
pub fn read_side(table: &[u64], code: u64, side: u64) -> ReadSide {
    let rows = side_rows(table, code, side);
    ReadSide { answer: rows.as_ref().err().copied().unwrap_or(Answer::Taken), rows: rows.unwrap_or_default() }
}

fn side_rows(table: &[u64], code: u64, side: u64) -> Result<Vec<(i64, u64, u64)>, Answer> {
    if !slots::code_listed(code) || side > 1 {
        return Err(Answer::NotListed);
    }
    let slot = slots::find::<SLOT>(table, code).map(|k| slots::slot::<SLOT>(table, k)).ok_or(Answer::NoRow)?;
    let book = Book::read(slot).ok_or(Answer::Unsound)?;
    let rows = [book.bids, book.offers][side as usize];
    Ok(rows.rows().iter().map(|row| (i64::from(row.price), row.quantity, u64::from(row.orders))).collect())
}

/// Reads a strip by code: 15 where the code is not listed, 4 where it has no strip, 18, else 0.
pub fn read_strip(table: &[u64], code: u64) -> ReadStrip {
    let read = strip_of(table, code);
    let answer = read.err().unwrap_or(Answer::Taken);
    let strip = read.unwrap_or_default();
    ReadStrip {
        answer,
        flags: strip.flags(),
        nominal: strip.price(strip::NOMINAL),
        iep: strip.price(strip::IEP),
        iev: strip.number(strip::IEV),
        reference: strip.price(strip::REFERENCE),
        lower: strip.price(strip::LOWER),
        upper: strip.price(strip::UPPER),
        direction: strip.number(strip::DIRECTION),
        imbalance: strip.number(strip::IMBALANCE),
        closing: strip.price(strip::CLOSING),
    }
}

fn strip_of(table: &[u64], code: u64) -> Result<Strip, Answer> {
    if !slots::code_listed(code) {
        return Err(Answer::NotListed);
    }
    let k = slots::find::<STRIP>(table, code).ok_or(Answer::NoRow)?;
    Strip::read(slots::slot::<STRIP>(table, k)).ok_or(Answer::Unsound)
}

/// Types that are no market message.
fn is_session(kind: u16) -> bool {
    matches!(kind, 203 | 1101 | 1102 | 1103 | 1105 | 1201 | 1202)
}

/// Whether a given part is as long as its MsgSize and its type ask.
fn size_right(message: &[u8]) -> bool {
    let len = message.len();
    if len < 4 || usize::from(u16_at(message, 0)) != len {
        return false;
    }
    match u16_at(message, 2) {
        203 | 1102 | 1103 | 1202 => len == 8,
        53 => len >= 12 && len == 12 + 24 * usize::from(message[11]),
        kind => strip::size(kind).map_or(true, |size| len == size),
    }
}

impl Feed {
    /// An answer with this feed after it, no bytes used, and rows that were pushed out.
    fn given(self, answer: Answer, dropped: u64) -> Given {
        Given { answer, used: 0, feed: self, dropped }
    }

    fn unchanged(self, answer: Answer) -> Given {
        self.given(answer, 0)
    }

    fn lost(self, answer: Answer) -> Given {
        let spoilt = matches!(answer, Answer::NotListed | Answer::Misfit | Answer::Full | Answer::Unsound);
        Feed { phase: Phase::Lost, whole: self.whole && !spoilt, ..self }.given(answer, 0)
    }

    /// Why no arrival is looked at, if so.
    fn shut(self, time: u64) -> Option<Answer> {
        if time < self.heard {
            return Some(Answer::Early);
        }
        match self.phase {
            Phase::Idle | Phase::Lost | Phase::Closed => Some(Answer::NotOpen),
            _ => None,
        }
    }

    /// Whether the phase allows this type with this internal number.
    fn allows(self, kind: u16, internal: u32) -> bool {
        let market = !is_session(kind);
        kind == 1103
            || match self.phase {
                Phase::WaitKey => kind == 1105,
                Phase::WaitLogon => kind == 1102,
                Phase::Refreshing => kind == 1202 || kind == 203 || (market && internal == 0),
                Phase::Live => market && internal >= 1,
                Phase::Idle | Phase::Lost | Phase::Closed => false,
            }
    }

    /// Answers 12 to 18, 0, 1 and 2 to a message.
    fn delivered(self, tables: &mut Tables<'_>, seq: u32, internal: u32, message: &[u8], time: u64) -> Given {
        if !size_right(message) {
            return self.lost(Answer::WrongSize);
        }
        if u64::from(seq) != self.next {
            return self.lost(Answer::NotNext);
        }
        let kind = u16_at(message, 2);
        if !self.allows(kind, internal) {
            return self.lost(Answer::NotAllowed);
        }
        let heard = Feed { next: self.next + 1, heard: time, ..self };
        let acted = if is_session(kind) {
            heard.session(tables, kind, message).map(|feed| feed.given(Answer::Taken, 0))
        } else {
            heard.market(tables, kind, u64::from(internal), message)
        };
        acted.unwrap_or_else(|answer| self.lost(answer))
    }

    /// A session message that the phase allows.
    fn session(self, tables: &mut Tables<'_>, kind: u16, message: &[u8]) -> Result<Feed, Answer> {
        match kind {
            1105 => Ok(Feed { phase: Phase::WaitLogon, ..self }),
            1102 => self.logon(tables, message[6]),
            203 => Ok(Feed { phase: Phase::Live, whole: true, internal: u64::from(u32_at(message, 4)), ..self }),
            1202 if message[4] == 0 => Ok(self),
            1103 if matches!(message[4], 6 | 102 | 103) => Ok(Feed { phase: Phase::Closed, ..self }),
            _ => Err(Answer::NotListed),
        }
    }

    fn logon(self, tables: &mut Tables<'_>, status: u8) -> Result<Feed, Answer> {
        match status {
            0 | 2 => {
                let feed = if self.fresh { self.cleared(tables) } else { self };
                Ok(Feed { phase: Phase::Live, whole: true, ..feed })
            }
            101 => Ok(Feed { phase: Phase::Refreshing, ..self.cleared(tables) }),
            1 | 3 | 8 => Ok(self),
            5 | 6 | 100 | 104 | 105 => Ok(Feed { phase: Phase::Closed, ..self }),
            _ => Err(Answer::NotListed),
        }
    }

    /// Zeroes all slots of both tables.
    fn cleared(self, tables: &mut Tables<'_>) -> Feed {
        slots::clear::<SLOT>(tables.books);
        slots::clear::<STRIP>(tables.strips);
        Feed { internal: 0, whole: false, ..self }
    }

    /// A market message that the phase allows.
    fn market(self, tables: &mut Tables<'_>, kind: u16, internal: u64, message: &[u8]) -> Result<Given, Answer> {
        let live = self.phase == Phase::Live;
        if live && internal <= self.internal {
            return Ok(self.given(Answer::Seen, 0));
        }
        let feed = if live { Feed { internal, ..self } } else { self };
        match kind {
            53 => book::take(tables.books, message).map(|dropped| feed.given(Answer::Taken, dropped)),
            _ if strip::size(kind).is_some() => {
                strip::take(tables.strips, message).map(|()| feed.given(Answer::Taken, 0))
            }
            _ => Ok(feed.given(Answer::Passed, 0)),
        }
    }
}

/// The program of example 10: one connection's bytes in, all of its output back.
pub fn program(input: &[u8]) -> String {
    let (mut books, mut strips) = (vec![0; SLOT * 128], vec![0; STRIP * 128]);
    let mut feed = connect(new(1_000).feed, false, 0).feed;
    let (mut at, mut units) = (0, 0);
    let last = loop {
        let held = &input[at..input.len().min(at + BUFFER)];
        let given = arrive(feed, Tables { books: &mut books, strips: &mut strips }, held, 0);
        feed = given.feed;
        if !given.answer.is_accepted() {
            break given.answer;
        }
        at += given.used as usize;
        units += 1;
    };
    format!("code side rank price quantity orders\n{}end {} units {}\n", rows(&books), last as u64, units)
}

/// A line for each row, in slot order, bids before offers.
fn rows(table: &[u64]) -> String {
    let mut lines = String::new();
    for slot in table.chunks_exact(SLOT).filter(|slot| slot[0] != 0) {
        let book = Book::read(slot).unwrap_or_default();
        for (name, side) in [("B", book.bids), ("O", book.offers)] {
            for (at, row) in side.rows().iter().enumerate() {
                let line = format!("{} {} {} {} {} {}\n", slot[0], name, at + 1, row.price, row.quantity, row.orders);
                lines.push_str(&line);
            }
        }
    }
    lines
}
