//! The C calls as they are: plain numbers in, plain numbers out.
//!
//! Every number has an answer, so nothing has to be checked before a call. An unknown phase is handled as Lost;
//! for `whole`, `fresh`, `dropping` and `resuming` 0 is no and anything else yes.

/// A feed in plain numbers.
#[repr(C)]
#[derive(Clone, Copy, PartialEq, Eq, Debug, Default)]
pub struct MmdhFeed {
    /// 0 to 6: Idle, WaitKey, WaitLogon, Refreshing, Live, Lost, Closed.
    pub phase: u64,
    /// The next SeqNum.
    pub next: u64,
    /// The last internal number.
    pub internal: u64,
    /// The last heard time, in milliseconds.
    pub heard: u64,
    /// The silence limit, in milliseconds.
    pub limit: u64,
    /// Whether the tables hold all that was sent.
    pub whole: u64,
    /// Whether the last accepted connect was fresh.
    pub fresh: u64,
}

/// What a call on a feed hands back.
#[repr(C)]
#[derive(Clone, Copy, PartialEq, Eq, Debug, Default)]
pub struct MmdhGiven {
    /// Document 01's number.
    pub answer: u64,
    /// Bytes used of those handed in.
    pub used: u64,
    /// The feed after the call.
    pub feed: MmdhFeed,
    /// Rows that the entries of a book message pushed out; 0 unless it was taken.
    pub dropped: u64,
}

/// What a whole frame hands back.
#[repr(C)]
#[derive(Clone, Copy, PartialEq, Eq, Debug, Default)]
pub struct MmdhFrame {
    /// The last unit's number; 0 where none was allowed.
    pub answer: u64,
    /// Units accepted.
    pub accepted: u64,
    /// Bytes that they used.
    pub used: u64,
    /// The feed after them.
    pub feed: MmdhFeed,
    /// Rows that they pushed out, also where the frame ended in a refusal.
    pub dropped: u64,
}

/// A feed whose bytes come in scraps. A new one is a new feed with 0 and 0.
#[repr(C)]
#[derive(Clone, Copy, PartialEq, Eq, Debug, Default)]
pub struct MmdhLine {
    /// The feed.
    pub feed: MmdhFeed,
    /// How many bytes wait at the front of the holding buffer.
    pub held: u64,
    /// Whether what comes is dropped: since a refusal, until a connect is accepted.
    pub dropping: u64,
}

/// What a connect of a line hands back.
#[repr(C)]
#[derive(Clone, Copy, PartialEq, Eq, Debug, Default)]
pub struct MmdhLinked {
    /// 0, 10, 20 or 22.
    pub answer: u64,
    /// The line after it; refused, as it was handed in.
    pub line: MmdhLine,
}

/// What a scrap hands back.
#[repr(C)]
#[derive(Clone, Copy, PartialEq, Eq, Debug, Default)]
pub struct MmdhHeard {
    /// 1 where the last unit was refused, or was the last that is allowed; 0 where the rest waits or is dropped.
    pub said: u64,
    /// That unit's number; 0 where `said` is.
    pub answer: u64,
    /// Units accepted.
    pub accepted: u64,
    /// Bytes of the scrap used; all of them but where the allowed number was reached.
    pub used: u64,
    /// The line after it.
    pub line: MmdhLine,
    /// Rows that the units accepted pushed out, also where the last one was refused.
    pub dropped: u64,
}

/// What reading a row hands back.
#[repr(C)]
#[derive(Clone, Copy, PartialEq, Eq, Debug, Default)]
pub struct MmdhRow {
    /// Document 01's number.
    pub answer: u64,
    /// Thousandths, signed as sent.
    pub price: i64,
    /// Shares.
    pub quantity: u64,
    /// Orders.
    pub orders: u64,
}

/// The request that last changed the shape of a call or a struct; [`version`] gives the archive's.
pub const VERSION: u64 = 6;
/// Words of one book.
pub const BOOK_WORDS: usize = 64;
/// Words of one strip.
pub const STRIP_WORDS: usize = 12;
/// Most rows of a side.
pub const ROWS: usize = 10;

/// The tables that an arrival is lent.
#[derive(Debug)]
pub struct Lent<'a> {
    /// Books, 64 words each.
    pub books: &'a mut [u64],
    /// Strips, 12 words each.
    pub strips: &'a mut [u64],
}

/// A row of a side that is read at once.
#[repr(C)]
#[derive(Clone, Copy, PartialEq, Eq, Debug, Default)]
pub struct MmdhLevel {
    /// Thousandths, signed as sent.
    pub price: i64,
    /// Shares.
    pub quantity: u64,
    /// Orders.
    pub orders: u64,
}

/// What reading a side hands back: behind the count, and with an answer other than 0, all is 0.
#[repr(C)]
#[derive(Clone, Copy, PartialEq, Eq, Debug, Default)]
pub struct MmdhSide {
    /// 15, 4, 18 or 0.
    pub answer: u64,
    /// How many rows there are.
    pub count: u64,
    /// The rows, best first.
    pub row: [MmdhLevel; ROWS],
}

/// What reading a strip hands back: prices as sent, 0 for what has not come, all 0 with an answer other than 0.
#[repr(C)]
#[derive(Clone, Copy, PartialEq, Eq, Debug, Default)]
pub struct MmdhStrip {
    /// 15, 4, 18 or 0.
    pub answer: u64,
    /// Bit k is set once value k has come; they are numbered from 0 in the order of the fields that follow.
    pub flags: u64,
    /// Nominal price, in thousandths.
    pub nominal: i64,
    /// Indicative equilibrium price.
    pub iep: i64,
    /// Its volume.
    pub iev: u64,
    /// Reference price.
    pub reference: i64,
    /// Lower price.
    pub lower: i64,
    /// Upper price.
    pub upper: i64,
    /// Direction of the order imbalance: the number of `N`, `B`, `S` or a space.
    pub direction: u64,
    /// Quantity of the order imbalance.
    pub imbalance: u64,
    /// Closing price.
    pub closing: i64,
}

extern "C" {
    fn mmdh_version() -> u64;
    fn mmdh_new(limit: u64) -> MmdhGiven;
    fn mmdh_connect(feed: MmdhFeed, resuming: u64, time: u64) -> MmdhGiven;
    fn mmdh_arrive(
        feed: MmdhFeed,
        books: *mut u64,
        books_len: usize,
        strips: *mut u64,
        strips_len: usize,
        bytes: *const u8,
        len: usize,
        time: u64,
    ) -> MmdhGiven;
    fn mmdh_arrive_frame(
        feed: MmdhFeed,
        books: *mut u64,
        books_len: usize,
        strips: *mut u64,
        strips_len: usize,
        bytes: *const u8,
        len: usize,
        allowed: u64,
        time: u64,
    ) -> MmdhFrame;
    fn mmdh_arrive_cut(
        feed: MmdhFeed,
        books: *mut u64,
        books_len: usize,
        strips: *mut u64,
        strips_len: usize,
        seq: u32,
        internal: u32,
        message: *const u8,
        len: usize,
        time: u64,
    ) -> MmdhGiven;
    fn mmdh_line_connect(line: MmdhLine, hold: *const u8, hold_len: usize, resuming: u64, time: u64) -> MmdhLinked;
    fn mmdh_line_scrap(
        line: MmdhLine,
        books: *mut u64,
        books_len: usize,
        strips: *mut u64,
        strips_len: usize,
        hold: *mut u8,
        hold_len: usize,
        scrap: *const u8,
        scrap_len: usize,
        allowed: u64,
        time: u64,
    ) -> MmdhHeard;
    fn mmdh_read_row(table: *const u64, words: usize, code: u64, side: u64, rank: u64) -> MmdhRow;
    fn mmdh_read_side(table: *const u64, words: usize, code: u64, side: u64) -> MmdhSide;
    fn mmdh_read_strip(strips: *const u64, strips_len: usize, code: u64) -> MmdhStrip;
    fn mmdh_badge(phase: u64, heard: u64, limit: u64, time: u64) -> u64;
    fn mmdh_why(phase: u64, heard: u64, limit: u64, time: u64) -> u64;
    fn mmdh_password(
        edition: u64,
        password: *const u8,
        password_len: usize,
        lengths: *const u64,
        lengths_len: usize,
        history: *const u8,
        history_len: usize,
    ) -> u64;
}

/// The request that last changed the shape of a call or a struct of the archive; [`VERSION`] is this cover's.
#[inline]
pub fn version() -> u64 {
    // SAFETY: a number by value only; the call touches no memory of ours.
    unsafe { mmdh_version() }
}

/// A new feed with a silence limit.
#[inline]
pub fn new(limit: u64) -> MmdhGiven {
    // SAFETY: numbers by value only; the call is proved to answer for every one and touches no memory of ours.
    unsafe { mmdh_new(limit) }
}

/// A connect; `resuming` 0 is fresh.
#[inline]
pub fn connect(feed: MmdhFeed, resuming: u64, time: u64) -> MmdhGiven {
    // SAFETY: numbers by value only, as above.
    unsafe { mmdh_connect(feed, resuming, time) }
}

/// The first unit of a stream arrives.
#[inline]
pub fn arrive(feed: MmdhFeed, lent: Lent<'_>, bytes: &[u8], time: u64) -> MmdhGiven {
    let (books, strips, len) = (lent.books.len(), lent.strips.len(), bytes.len());
    let (at_books, at_strips) = (lent.books.as_mut_ptr(), lent.strips.as_mut_ptr());
    // SAFETY: all pointers come with the lengths of the slices they are from. The call reads and writes only within the
    // tables and reads only within the bytes, keeps none of them, and `&mut` says that they lie apart.
    unsafe { mmdh_arrive(feed, at_books, books, at_strips, strips, bytes.as_ptr(), len, time) }
}

/// A whole frame's units arrive, at most as many as are allowed; with 0 the feed comes back as it was handed in.
#[inline]
pub fn arrive_frame(feed: MmdhFeed, lent: Lent<'_>, bytes: &[u8], allowed: u64, time: u64) -> MmdhFrame {
    let (books, strips, len) = (lent.books.len(), lent.strips.len(), bytes.len());
    let (at_books, at_strips) = (lent.books.as_mut_ptr(), lent.strips.as_mut_ptr());
    // SAFETY: as for `arrive`.
    unsafe { mmdh_arrive_frame(feed, at_books, books, at_strips, strips, bytes.as_ptr(), len, allowed, time) }
}

/// A message already cut arrives, with the header's two numbers.
#[inline]
pub fn arrive_cut(feed: MmdhFeed, lent: Lent<'_>, seq: u32, internal: u32, message: &[u8], time: u64) -> MmdhGiven {
    let (books, strips, len) = (lent.books.len(), lent.strips.len(), message.len());
    let (at_books, at_strips) = (lent.books.as_mut_ptr(), lent.strips.as_mut_ptr());
    // SAFETY: as for `arrive`, with the message for the bytes.
    unsafe { mmdh_arrive_cut(feed, at_books, books, at_strips, strips, seq, internal, message.as_ptr(), len, time) }
}

/// A connect of a line, with the holding buffer that its bytes will wait in; `resuming` 0 is fresh.
#[inline]
pub fn line_connect(line: MmdhLine, hold: &[u8], resuming: u64, time: u64) -> MmdhLinked {
    // SAFETY: pointer and length are one slice's; the call writes nothing and keeps nothing.
    unsafe { mmdh_line_connect(line, hold.as_ptr(), hold.len(), resuming, time) }
}

/// A scrap has come: at most as many units as are allowed go through the feed, and what is left of it waits in the holding
/// buffer, behind the bytes that wait there. With 0 allowed, and while the line drops, it comes back as it was handed in.
#[inline]
pub fn line_scrap(line: MmdhLine, lent: Lent<'_>, hold: &mut [u8], scrap: &[u8], allowed: u64, time: u64) -> MmdhHeard {
    let (books, strips, room, len) = (lent.books.len(), lent.strips.len(), hold.len(), scrap.len());
    let (at_books, at_strips, at_hold) = (lent.books.as_mut_ptr(), lent.strips.as_mut_ptr(), hold.as_mut_ptr());
    let at = scrap.as_ptr();
    // SAFETY: as for `arrive`, with the scrap for the bytes; the holding buffer is lent as the tables are.
    unsafe { mmdh_line_scrap(line, at_books, books, at_strips, strips, at_hold, room, at, len, allowed, time) }
}

/// Reads a row by code, side (0 bid, 1 offer) and rank (1 to 10).
#[inline]
pub fn read_row(table: &[u64], code: u64, side: u64, rank: u64) -> MmdhRow {
    // SAFETY: pointer and length are one slice's; the call reads within it, writes nothing and keeps nothing.
    unsafe { mmdh_read_row(table.as_ptr(), table.len(), code, side, rank) }
}

/// Reads all rows of a side (0 bid, 1 offer) at once: row k is what `read_row` gives at rank k + 1.
#[inline]
pub fn read_side(table: &[u64], code: u64, side: u64) -> MmdhSide {
    // SAFETY: as for `read_row`.
    unsafe { mmdh_read_side(table.as_ptr(), table.len(), code, side) }
}

/// Reads a strip by code.
#[inline]
pub fn read_strip(strips: &[u64], code: u64) -> MmdhStrip {
    // SAFETY: as for `read_row`.
    unsafe { mmdh_read_strip(strips.as_ptr(), strips.len(), code) }
}

/// The badge: 0 Stale, 1 Green, 2 Filling.
#[inline]
pub fn badge(phase: u64, heard: u64, limit: u64, time: u64) -> u64 {
    // SAFETY: numbers by value only, as above.
    unsafe { mmdh_badge(phase, heard, limit, time) }
}

/// Why the badge is what it is, 0 to 9: live, new, key, logon, refresh, silent, early, lost, closed, limit.
#[inline]
pub fn why(phase: u64, heard: u64, limit: u64, time: u64) -> u64 {
    // SAFETY: numbers by value only, as above.
    unsafe { mmdh_why(phase, heard, limit, time) }
}

/// Whether a new password passes (0) the rule of an edition, 111 or 136; else 23 where the lengths are not those of the history, 15
/// where the edition is another, or the first item that fails, 1 to 6: length, upper, lower, digit, special, history.
#[inline]
pub fn password(edition: u64, password: &[u8], lengths: &[u64], history: &[u8]) -> u64 {
    let (new, many, old) = (password.len(), lengths.len(), history.len());
    // SAFETY: as for `read_row`, with three slices.
    unsafe { mmdh_password(edition, password.as_ptr(), new, lengths.as_ptr(), many, history.as_ptr(), old) }
}
