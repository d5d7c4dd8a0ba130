//! A course: a table with 128 books or strips spread over all its slots, and a stream of messages that all fit.

use exchange::market::Market;
use mmdh::raw::{self, Lent, MmdhFeed, MmdhLine, BOOK_WORDS, STRIP_WORDS};
use mmdh::single::LONGEST;
use twin::{Answer, Feed, Frame, Phase};

pub const BOOKS: usize = 128;
const SEED: u64 = 0x9E37_79B9_7F4A_7C15;
/// Messages to each book before the course begins.
const WARM: usize = 8;
pub const FIRST_CODE: u32 = 700;

/// Who walks the course.
#[derive(Clone, Copy)]
pub enum Walker {
    Library,
    Plain,
    Tuned,
}

pub const WALKERS: [Walker; 3] = [Walker::Library, Walker::Plain, Walker::Tuned];

/// How a course is walked: a call for each message, or one for a frame.
#[derive(Clone, Copy)]
pub enum Way {
    Single,
    Frames,
}

pub const WAYS: [Way; 2] = [Way::Single, Way::Frames];

/// Units of a frame.
pub const FRAME: usize = 32;

/// How the library is handed scraps: a whole message in each, or each message torn in two.
#[derive(Clone, Copy)]
pub enum Scraps {
    Whole,
    Torn,
}

pub const SCRAPS: [Scraps; 2] = [Scraps::Whole, Scraps::Torn];

/// The words of both tables.
#[derive(Clone, PartialEq, Eq)]
pub struct Tables {
    pub books: Vec<u64>,
    strips: Vec<u64>,
}

impl Tables {
    /// The same words as another's of the same lengths.
    pub fn copy(&mut self, other: &Tables) {
        self.books.copy_from_slice(&other.books);
        self.strips.copy_from_slice(&other.strips);
    }

    fn lend(&mut self) -> Lent<'_> {
        Lent { books: &mut self.books, strips: &mut self.strips }
    }

    fn lend_twin(&mut self) -> twin::Tables<'_> {
        twin::Tables { books: &mut self.books, strips: &mut self.strips }
    }
}

pub struct Course {
    slots: usize,
    messages: usize,
    tables: Tables,
    stream: Vec<u8>,
    /// Where each message ends in the stream.
    ends: Vec<usize>,
}

/// How many messages a walk took, and how many rows they dropped.
#[derive(Clone, Copy, PartialEq, Eq, Default)]
pub struct Walked {
    pub taken: usize,
    pub dropped: u64,
}

/// Where a walk ended.
#[derive(PartialEq, Eq)]
pub struct End {
    pub walked: Walked,
    tables: Tables,
}

/// A frame of one of the twins.
type ArriveFrame = fn(Feed, twin::Tables<'_>, &[u8], u64, u64) -> Frame;

fn market() -> Market {
    let listed: Vec<(u32, i32)> = (0..BOOKS as u32).map(|k| (FIRST_CODE + k, 300 + 777 * k as i32)).collect();
    Market::new(SEED, &listed)
}

impl Course {
    /// Book messages of 2 to 4 entries.
    pub fn new(slots: usize, messages: usize) -> Course {
        let mut market = market();
        let mut books = spread::<BOOK_WORDS>(slots);
        for k in (0..BOOKS).cycle().take(BOOKS * WARM) {
            let message = market.update(k, 3);
            twin::book::take(&mut books, &message).expect("a message of the market fits");
        }
        let tables = Tables { books, strips: vec![0; STRIP_WORDS * BOOKS] };
        Course::of(slots, messages, tables, || {
            let (book, entries) = (market.dice().place(BOOKS), 2 + market.dice().place(3));
            market.update(book, entries)
        })
    }

    /// Strip messages of all five types.
    pub fn strips(slots: usize, messages: usize) -> Course {
        let mut market = market();
        let mut strips = spread::<STRIP_WORDS>(slots);
        for (k, which) in (0..BOOKS).flat_map(|k| (0..STRIP_TYPES).map(move |which| (k, which))) {
            let message = strip_message(&mut market, k, which);
            twin::strip::take(&mut strips, &message).expect("a code that has its slot");
        }
        let tables = Tables { books: vec![0; BOOK_WORDS * BOOKS], strips };
        Course::of(slots, messages, tables, || {
            let (k, which) = (market.dice().place(BOOKS), market.dice().below(STRIP_TYPES));
            strip_message(&mut market, k, which)
        })
    }

    fn of(slots: usize, messages: usize, tables: Tables, mut next: impl FnMut() -> Vec<u8>) -> Course {
        let (mut stream, mut ends) = (Vec::new(), Vec::with_capacity(messages));
        for number in 1..=messages as u32 {
            stream.extend(exchange::unit(number, number, &next()));
            ends.push(stream.len());
        }
        Course { slots, messages, tables, stream, ends }
    }

    pub fn slots(&self) -> usize {
        self.slots
    }

    pub fn messages(&self) -> usize {
        self.messages
    }

    /// The tables at the start.
    pub fn tables(&self) -> Tables {
        self.tables.clone()
    }

    pub fn end(&self, walker: Walker, way: Way) -> End {
        let mut tables = self.tables();
        let walked = self.walk(walker, way, &mut tables, self.messages);
        End { walked, tables }
    }

    /// Where the library ends in scraps.
    pub fn end_in(&self, scraps: Scraps) -> End {
        let mut tables = self.tables();
        let walked = self.walk_in(scraps, &mut tables);
        End { walked, tables }
    }

    /// All messages by the library's line.
    #[inline(never)]
    pub fn walk_in(&self, scraps: Scraps, tables: &mut Tables) -> Walked {
        let mut line = MmdhLine { feed: LIVE, held: 0, dropping: 0 };
        let mut hold = vec![0; LONGEST];
        let (mut from, mut walked) = (0, Walked::default());
        for &end in &self.ends {
            let message = &self.stream[from..end];
            let torn = match scraps {
                Scraps::Whole => 0,
                Scraps::Torn => message.len() / 2,
            };
            if torn > 0 {
                line = raw::line_scrap(line, tables.lend(), &mut hold, &message[..torn], u64::MAX, 1).line;
            }
            let heard = raw::line_scrap(line, tables.lend(), &mut hold, &message[torn..], u64::MAX, 1);
            line = heard.line;
            walked.taken += heard.accepted as usize;
            walked.dropped += heard.dropped;
            from = end;
        }
        walked
    }

    /// The first messages.
    pub fn walk(&self, walker: Walker, way: Way, tables: &mut Tables, messages: usize) -> Walked {
        match (walker, way) {
            (Walker::Library, Way::Single) => self.walk_library(tables, messages),
            (Walker::Plain, Way::Single) => self.walk_plain(tables, messages),
            (Walker::Tuned, Way::Single) => self.walk_tuned(tables, messages),
            (Walker::Library, Way::Frames) => self.frames_library(tables, messages),
            (Walker::Plain, Way::Frames) => self.frames_of(twin::arrive_frame, tables, messages),
            (Walker::Tuned, Way::Frames) => self.frames_of(twin::tuned::arrive_frame, tables, messages),
        }
    }

    #[inline(never)]
    fn frames_library(&self, tables: &mut Tables, messages: usize) -> Walked {
        let mut feed = LIVE;
        self.in_frames(messages, |bytes, allowed| {
            let frame = raw::arrive_frame(feed, tables.lend(), bytes, allowed, 1);
            feed = frame.feed;
            Some((frame.used, frame.dropped)).filter(|_| (frame.answer, frame.accepted) == (0, allowed))
        })
    }

    #[inline(never)]
    fn frames_of(&self, arrive: ArriveFrame, tables: &mut Tables, messages: usize) -> Walked {
        let mut feed = live();
        self.in_frames(messages, |bytes, allowed| {
            let frame = arrive(feed, tables.lend_twin(), bytes, allowed, 1);
            feed = frame.feed;
            Some((frame.used, frame.dropped)).filter(|_| (frame.answer, frame.accepted) == (Answer::Taken, allowed))
        })
    }

    /// The first messages by a call for each frame, which tells the bytes used and the rows dropped where all that are allowed
    /// were taken.
    #[inline(always)]
    fn in_frames(&self, messages: usize, mut call: impl FnMut(&[u8], u64) -> Option<(u64, u64)>) -> Walked {
        let (mut at, mut walked) = (0, Walked::default());
        while walked.taken < messages {
            let allowed = FRAME.min(messages - walked.taken);
            match call(&self.stream[at..], allowed as u64) {
                Some((used, dropped)) => {
                    at += used as usize;
                    walked.dropped += dropped;
                }
                None => break,
            }
            walked.taken += allowed;
        }
        walked
    }

    #[inline(never)]
    fn walk_library(&self, tables: &mut Tables, messages: usize) -> Walked {
        let (mut feed, mut at, mut dropped) = (LIVE, 0, 0);
        for taken in 0..messages {
            let given = raw::arrive(feed, tables.lend(), &self.stream[at..], 1);
            if given.answer != 0 {
                return Walked { taken, dropped };
            }
            at += given.used as usize;
            dropped += given.dropped;
            feed = given.feed;
        }
        Walked { taken: messages, dropped }
    }

    #[inline(never)]
    fn walk_plain(&self, tables: &mut Tables, messages: usize) -> Walked {
        let (mut feed, mut at, mut dropped) = (live(), 0, 0);
        for taken in 0..messages {
            let given = twin::arrive(feed, tables.lend_twin(), &self.stream[at..], 1);
            if given.answer != Answer::Taken {
                return Walked { taken, dropped };
            }
            at += given.used as usize;
            dropped += given.dropped;
            feed = given.feed;
        }
        Walked { taken: messages, dropped }
    }

    #[inline(never)]
    fn walk_tuned(&self, tables: &mut Tables, messages: usize) -> Walked {
        let (mut feed, mut at, mut dropped) = (live(), 0, 0);
        for taken in 0..messages {
            let arrival = twin::tuned::arrive(&mut feed, tables.lend_twin(), &self.stream[at..], 1);
            if arrival.answer != Answer::Taken {
                return Walked { taken, dropped };
            }
            at += arrival.used as usize;
            dropped += arrival.dropped;
        }
        Walked { taken: messages, dropped }
    }
}

const LIVE: MmdhFeed = MmdhFeed { phase: 4, next: 1, internal: 0, heard: 0, limit: 1_000, whole: 1, fresh: 1 };

fn live() -> Feed {
    Feed { phase: Phase::Live, next: 1, internal: 0, heard: 0, limit: 1_000, whole: true, fresh: true }
}

/// Types that bring values to strips.
const STRIP_TYPES: u64 = 5;

fn strip_message(market: &mut Market, k: usize, which: u64) -> Vec<u8> {
    match which {
        0 => market.nominal(k),
        1 => market.equilibrium(k),
        2 => market.reference(k),
        3 => market.imbalance(k),
        _ => market.closing(k),
    }
}

/// The codes at even distances; every slot between has a code of its own.
fn spread<const WIDTH: usize>(slots: usize) -> Vec<u64> {
    let mut table = vec![0; WIDTH * slots];
    let apart = (slots / BOOKS).max(1);
    for (k, slot) in table.chunks_exact_mut(WIDTH).enumerate() {
        let is_book = k % apart == apart - 1 && k / apart < BOOKS;
        slot[0] = if is_book { u64::from(FIRST_CODE) + (k / apart) as u64 } else { 50_000 + k as u64 };
    }
    table
}
