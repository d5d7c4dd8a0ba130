//! Whole frames (request 3 of document 02): the library against the twin and against its own single calls. Where one ends and
//! what it counts is said here too, for streams made by hand.

use crate::falls;
use crate::pair::{plain_feed, twin_feed, Pair};
use crate::scene::{self, SLOT, STRIP};
use crate::tables::Tables;
use crate::tally::{Call, Meeting, Tally};
use crate::told::{LIVE, TIME};
use exchange::dice::Dice;
use exchange::{book_message, imbalance, message, nominal, session, unit, Entry};
use mmdh::raw::{MmdhFeed, MmdhFrame, MmdhGiven};

pub const HEARTBEAT: [u8; 20] = [20, 0, 0, 0, 9, 0, 0, 0, 8, 0, 0, 0, 7, 7, 7, 7, 7, 7, 7, 7];

const PHASES: [u64; 10] = [0, 1, 2, 3, 4, 5, 6, 7, 9, u64::MAX];

/// Streams by hand, cut and changed everywhere.
pub fn check(pair: &mut Pair) {
    pair.tally.part("frames by hand: every length, allowed number and phase, and every refusal at every place");
    lengths(pair);
    phases(pair);
    refusals(pair);
    closed(pair);
}

pub fn bid(code: u32, level: u8, price: i32) -> Vec<u8> {
    book_message(code, &[Entry { quantity: 400, price, orders: 1, level, ..Entry::default() }])
}

/// Units that a feed in Live accepts one behind the other, each with its answer.
pub fn units() -> Vec<(u64, Vec<u8>)> {
    vec![
        (0, unit(7, 41, &bid(700, 1, 9_730))),
        (0, unit(8, 42, &nominal(700, 9_740))),
        (2, unit(9, 43, &message(60, 12))),
        (0, HEARTBEAT.to_vec()),
        (1, unit(10, 43, &bid(700, 2, 9_720))),
        (0, unit(11, 44, &bid(700, 2, 9_720))),
        (0, unit(12, 45, &imbalance(5, b'B', 400))),
    ]
}

/// Two books and two strips that are free, one of each that is not sound, and words behind the slots.
pub fn tables() -> Tables {
    let mut tables = Tables::zeros(3 * SLOT + 5, 3 * STRIP + 5);
    tables.books[0..4].copy_from_slice(&[6, 0, 0, 1]);
    tables.strips[0..2].copy_from_slice(&[6, 512]);
    tables.books[3 * SLOT..].fill(7);
    tables.strips[3 * STRIP..].fill(7);
    tables
}

/// The bytes of units, and where each ends.
pub fn joined(units: &[(u64, Vec<u8>)]) -> (Vec<u8>, Vec<u64>) {
    let mut bytes = Vec::new();
    let mut ends = vec![0];
    for (_, unit) in units {
        bytes.extend_from_slice(unit);
        ends.push(bytes.len() as u64);
    }
    (bytes, ends)
}

const ALLOWED: [u64; 11] = [0, 1, 2, 3, 4, 5, 6, 7, 8, 1 << 32, u64::MAX];

/// Every length of the stream: as many units as are whole and allowed, and then the last one's answer or 3.
fn lengths(pair: &mut Pair) {
    let (units, before) = (units(), tables());
    let (bytes, ends) = joined(&units);
    for len in 0..=bytes.len() {
        let whole = ends[1..].iter().filter(|&&end| end <= len as u64).count();
        for allowed in ALLOWED {
            let accepted = whole.min(allowed.min(100) as usize);
            let answer = match accepted {
                _ if (accepted as u64) < allowed => 3,
                0 => 0,
                _ => units[accepted - 1].0,
            };
            let (given, _) = pair.frame(LIVE, &before, &bytes[..len], allowed, TIME);
            let (got, wanted) = ((given.answer, given.accepted, given.used), (answer, accepted as u64, ends[accepted]));
            pair.tally.same(&got, &wanted, || format!("{} bytes, {} allowed", len, allowed));
            let next = (LIVE.next + accepted as u64) - u64::from(accepted > 3);
            pair.tally.same(&given.feed.next, &next, || format!("next after {} units", accepted));
        }
    }
}

/// Every phase and odd numbers, before the last heard time and after it: with none allowed the feed comes back as it was.
fn phases(pair: &mut Pair) {
    let (bytes, _) = joined(&units());
    let session = [unit(7, 0, &message(1105, 4)), unit(8, 0, &session(1102, 0)), unit(9, 41, &bid(5, 1, 9))].concat();
    for phase in PHASES {
        for (whole, fresh) in [(0, 0), (1, 1), (7, 256)] {
            let feed = MmdhFeed { phase, whole, fresh, ..LIVE };
            for time in [0, LIVE.heard - 1, LIVE.heard, TIME, u64::MAX] {
                for bytes in [&bytes[..], &session, &session[24..], &HEARTBEAT, &[]] {
                    for allowed in [0, 1, 2, 3, u64::MAX] {
                        let (given, _) = pair.frame(feed, &tables(), bytes, allowed, time);
                        let early = time < LIVE.heard;
                        let untouched = MmdhFrame { answer: 0, accepted: 0, used: 0, feed, dropped: 0 };
                        match allowed {
                            0 => pair.tally.same(&given, &untouched, || format!("{:?} at {}", feed, time)),
                            _ => pair.tally.same(&(given.answer == 10), &early, || format!("10 at {}", time)),
                        };
                    }
                }
            }
        }
    }
}

/// A unit for each refusal, with these two numbers in its header.
pub fn refused(seq: u32, internal: u32) -> [(u64, Vec<u8>); 8] {
    [
        (12, unit(seq, internal, &message(53, 40))),
        (13, unit(seq + 1, internal, &bid(5, 1, 9))),
        (14, unit(seq, 0, &bid(5, 1, 9))),
        (15, unit(seq, internal, &bid(0, 1, 9))),
        (16, unit(seq, internal, &bid(700, 9, 9))),
        (17, unit(seq, internal, &bid(1, 1, 9))),
        (18, unit(seq, internal, &bid(6, 1, 9))),
        (18, unit(seq, internal, &nominal(6, 9))),
    ]
}

/// Every refusal at every place, with what would have been accepted behind it: the units before it stay, it is not counted
/// and uses nothing, and it is met only where it is allowed.
fn refusals(pair: &mut Pair) {
    let mut before = tables();
    // one free slot goes to 2 and the other to 700, so that 1 finds none
    before.books[2 * SLOT] = 2;
    for at in 0..=units().len() {
        let (seq, internal) = (7 + at as u32 - u32::from(at > 3), 50);
        for (answer, bad) in refused(seq, internal) {
            // before the first unit a slot is free
            if at == 0 && answer == 17 {
                continue;
            }
            let mut units = units();
            units.insert(at, (answer, bad));
            let (bytes, ends) = joined(&units);
            for allowed in [at as u64, at as u64 + 1, at as u64 + 2, u64::MAX] {
                let met = allowed > at as u64;
                let last = if met { answer } else { units[..at].last().map_or(0, |unit| unit.0) };
                let (given, _) = pair.frame(LIVE, &before, &bytes, allowed, TIME);
                let (got, wanted) = ((given.answer, given.accepted, given.used), (last, at as u64, ends[at]));
                pair.tally.same(&got, &wanted, || format!("{} at {}, {} allowed", answer, at, allowed));
                let (phase, whole) = (if met { 5 } else { 4 }, u64::from(!met || answer < 15));
                let got = (given.feed.phase, given.feed.whole);
                pair.tally.same(&got, &(phase, whole), || format!("{} at {}, {} allowed", answer, at, allowed));
            }
        }
    }
}

/// Behind a logout it is 11, whether bytes follow or not; and so it is behind a logon that is turned down.
fn closed(pair: &mut Pair) {
    let logout = unit(8, 0, &session(1103, 6));
    let turned_down = unit(8, 0, &session(1102, 5));
    for (phase, first, last) in
        [(4, unit(7, 41, &bid(700, 1, 9_730)), logout), (1, unit(7, 0, &message(1105, 4)), turned_down)]
    {
        let feed = MmdhFeed { phase, ..LIVE };
        let used = (first.len() + last.len()) as u64;
        for rest in [&[][..], &[20, 0], &HEARTBEAT, &unit(9, 42, &nominal(5, 9))] {
            let bytes = [&first[..], &last, rest].concat();
            for (allowed, answer) in [(2, 0), (3, 11), (u64::MAX, 11)] {
                let (given, _) = pair.frame(feed, &tables(), &bytes, allowed, TIME);
                let got = (given.answer, given.accepted, given.used, given.feed.phase);
                pair.tally.same(&got, &(answer, 2, used, 6), || format!("closed, {} allowed", allowed));
            }
        }
    }
}

/// How many units a random frame is allowed, where about so many are sent.
pub fn allowed(dice: &mut Dice, sent: u64) -> u64 {
    match dice.below(10) {
        0 => 0,
        1 => 1,
        2 => 2,
        3 => sent.saturating_sub(1),
        4 | 5 => sent,
        6 => dice.below(8),
        7 => sent + 1 + dice.below(100),
        8 => dice.any(),
        _ => u64::MAX,
    }
}

/// Most tries for a unit that is accepted.
const TRIES: u64 = 3;

/// So many units, most of them accepted behind those before; behind one that is not, others that would have been. Now and
/// then the last is torn, or there are heartbeats only.
pub fn stream(
    dice: &mut Dice,
    feed: MmdhFeed,
    tables: &Tables,
    (sent, time): (u64, u64),
    mut next: impl FnMut(&mut Dice, &MmdhFeed, &Tables) -> Vec<u8>,
) -> Vec<u8> {
    if dice.once_in(24) {
        return HEARTBEAT.repeat(sent as usize);
    }
    let (mut feed, mut tables) = (twin_feed(feed), tables.clone());
    let mut bytes = Vec::new();
    for _ in 0..sent {
        if dice.once_in(12) {
            bytes.extend_from_slice(&HEARTBEAT);
            continue;
        }
        let tries = if dice.once_in(12) { 1 } else { TRIES };
        for left in (0..tries).rev() {
            let unit = next(dice, &plain_feed(feed), &tables);
            let given = twin::arrive(feed, tables.lend_twin(), &unit, time);
            if given.answer.is_accepted() {
                feed = given.feed;
            }
            if given.answer.is_accepted() || left == 0 {
                bytes.extend_from_slice(&unit);
                break;
            }
        }
    }
    if dice.once_in(8) {
        let torn = dice.place(24.min(bytes.len()) + 1);
        bytes.truncate(bytes.len() - torn);
    }
    bytes
}

/// One frame on any feed and tables of all kinds.
pub fn single(pair: &mut Pair, dice: &mut Dice, tables: &Tables) {
    let (feed, bytes, allowed, time) = any(dice, tables);
    let (given, calls) = pair.frame(feed, tables, &bytes, allowed, time);
    note(&mut pair.tally, (feed, allowed, time), &bytes, &given, &calls);
    falls(&mut pair.tally, (feed, tables), (&bytes, time), &given);
}

/// Notes what a frame pushed out of these tables, which must be what the rule has.
pub fn falls(tally: &mut Tally, start: (MmdhFeed, &Tables), stream: (&[u8], u64), given: &MmdhFrame) {
    let came = falls::Came { answer: given.answer, accepted: given.accepted, dropped: given.dropped };
    falls::note_units(tally, Call::ArriveFrame, start, stream, came);
}

/// The same of the tuned twin against the plain one.
pub fn tuned(pair: &mut Pair, dice: &mut Dice, tables: &Tables) {
    let (feed, bytes, allowed, time) = any(dice, tables);
    pair.tuned_frame(feed, tables, &bytes, allowed, time);
}

/// Any feed, units for it, how many are allowed, and a time.
pub fn any(dice: &mut Dice, tables: &Tables) -> (MmdhFeed, Vec<u8>, u64, u64) {
    let feed = scene::feed(dice);
    let time = scene::time(dice, feed.heard);
    let sent = dice.of(&[0, 1, 2, 3, 3, 4, 6]);
    let bytes = stream(dice, feed, tables, (sent, time), |dice, feed, tables| {
        let message = scene::message(dice, feed.phase, &tables.books);
        let (seq, internal) = scene::numbers(dice, feed);
        if dice.once_in(8) {
            scene::unit(dice, seq, internal, &message)
        } else {
            unit(seq, internal, &message)
        }
    });
    (feed, bytes, allowed(dice, sent), time)
}

/// What an accepted unit is.
#[derive(PartialEq, Eq)]
enum Kind {
    Heartbeat,
    Book,
    Strip,
    Other,
}

/// The accepted units of a frame, by what single calls to them handed back; a message that was not taken is Other.
fn kinds(bytes: &[u8], calls: &[MmdhGiven]) -> Vec<Kind> {
    let (mut kinds, mut at) = (Vec::new(), 0);
    for given in calls.iter().filter(|given| given.answer <= 2) {
        kinds.push(match given.used {
            20 => Kind::Heartbeat,
            _ if given.answer != 0 => Kind::Other,
            _ => match u16::from_le_bytes([bytes[at + 22], bytes[at + 23]]) {
                53 => Kind::Book,
                40 | 41 | 43 | 56 | 62 => Kind::Strip,
                _ => Kind::Other,
            },
        });
        at += given.used as usize;
    }
    kinds
}

/// Notes what a frame of a feed met, with so many units allowed at a time.
pub fn note(
    tally: &mut Tally,
    (feed, allowed, time): (MmdhFeed, u64, u64),
    bytes: &[u8],
    given: &MmdhFrame,
    calls: &[MmdhGiven],
) {
    if allowed == 0 {
        tally.frame(Meeting::NoneAllowed(feed.phase.min(7)));
        if time < feed.heard {
            tally.frame(Meeting::NoneAllowedEarly);
        }
        return;
    }
    let at_end = given.used == bytes.len() as u64;
    tally.frame(match given.accepted {
        accepted if accepted == allowed => Meeting::Reached(given.answer),
        0 => Meeting::AtOnce(given.answer),
        _ => Meeting::Behind(given.answer),
    });
    let kinds = kinds(bytes, calls);
    let message = |kind: &Kind| *kind != Kind::Heartbeat;
    let first = kinds.iter().position(message).unwrap_or(kinds.len());
    let last = kinds.iter().rposition(message).unwrap_or(0);
    let several = kinds.len() >= 2;
    let through = feed.phase == 1 && matches!(given.feed.phase, 3 | 4);
    let others = [
        (given.accepted == allowed && at_end, Meeting::ReachedAtTheEnd),
        (given.answer == 3 && at_end && !kinds.is_empty(), Meeting::Beyond),
        (allowed == u64::MAX && !kinds.is_empty(), Meeting::Unlimited),
        (several, Meeting::Several(feed.phase)),
        (through, Meeting::Through(given.feed.phase)),
        (kinds.contains(&Kind::Book) && kinds.contains(&Kind::Strip), Meeting::Mixed),
        (several && kinds.iter().all(|kind| *kind == Kind::Heartbeat), Meeting::Heartbeats),
        (kinds.get(first..last).map_or(false, |kinds| kinds.contains(&Kind::Heartbeat)), Meeting::Between),
    ];
    others.into_iter().filter(|(met, _)| *met).for_each(|(_, meeting)| tally.frame(meeting));
}
