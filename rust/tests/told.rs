//! A message to one feed, whose answer, feed, words and number of rows dropped are told by the case that sends it.

use crate::pair::Pair;
use crate::tables::Tables;
use exchange::unit;
use mmdh::raw::{MmdhFeed, MmdhGiven};

pub const LIVE: MmdhFeed = MmdhFeed { phase: 4, next: 7, internal: 40, heard: 5_000, limit: 1_000, whole: 1, fresh: 1 };
pub const REFRESHING: MmdhFeed = MmdhFeed { phase: 3, internal: 0, whole: 0, ..LIVE };
pub const TIME: u64 = 5_001;

/// Feeds that take a market message, and the internal number that it must have.
pub const OPEN: [(MmdhFeed, u32); 2] = [(LIVE, 41), (REFRESHING, 0)];

/// Words behind the slots.
pub const TAIL: [u64; 5] = [7; 5];

/// The feed after an answer to the next message.
fn feed_after(feed: MmdhFeed, internal: u32, answer: u64) -> MmdhFeed {
    let heard = MmdhFeed { next: feed.next + 1, heard: TIME, ..feed };
    match answer {
        0 | 2 if feed.phase == 4 => MmdhFeed { internal: u64::from(internal), ..heard },
        0..=2 => heard,
        12..=14 => MmdhFeed { phase: 5, ..feed },
        _ => MmdhFeed { phase: 5, whole: 0, ..feed },
    }
}

/// The message as a stream and already cut: the answer, the bytes used, the feed and every word, and that no row is dropped.
pub fn sent(
    pair: &mut Pair,
    feed: MmdhFeed,
    internal: u32,
    message: &[u8],
    before: &Tables,
    answer: u64,
    after: &Tables,
) {
    dropping(pair, (feed, internal), message, before, (answer, 0), after);
}

/// The same with so many rows dropped.
pub fn dropping(
    pair: &mut Pair,
    (feed, internal): (MmdhFeed, u32),
    message: &[u8],
    before: &Tables,
    (answer, dropped): (u64, u64),
    after: &Tables,
) {
    let used = if answer <= 2 { (20 + message.len()) as u64 } else { 0 };
    let wanted = MmdhGiven { answer, used, feed: feed_after(feed, internal, answer), dropped };
    let input = || format!("{:?}, internal {}, {:02x?}", feed, internal, message);
    let given = pair.arrive(feed, before, &unit(7, internal, message), TIME);
    let words = pair.after().clone();
    pair.tally.same(&(given, &words), &(wanted, after), input);
    let given = pair.arrive_cut(feed, before, 7, internal, message, TIME);
    let words = pair.after().clone();
    pair.tally.same(&(given, &words), &(MmdhGiven { used: 0, ..wanted }, after), input);
}
