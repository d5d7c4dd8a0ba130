//! The same arrivals, tuned by hand: a short way for a book or a strip message in Live, worked out in its slot, which is
//! put back as it was where an entry does not fit.

use crate::book::{ENTRY, SLOT};
use crate::slots::{code_listed, slot_words};
use crate::strip::{self, STRIP};
use crate::unit::{u16_at, u32_at, u64_at, HEADER};
use crate::{Answer, Feed, Frame, Phase, Tables};

/// What an arrival hands back beside the feed.
#[derive(Clone, Copy, PartialEq, Eq, Debug)]
pub struct Arrival {
    /// The answer.
    pub answer: Answer,
    /// Bytes used.
    pub used: u64,
    /// Rows that the entries of a book message pushed out.
    pub dropped: u64,
}

/// The first unit of a stream arrives.
pub fn arrive(feed: &mut Feed, tables: Tables<'_>, stream: &[u8], time: u64) -> Arrival {
    match live_message(feed, stream, time) {
        Some(message) => arrive_live(feed, tables, stream, message, time),
        None => {
            let given = crate::arrive(*feed, tables, stream, time);
            *feed = given.feed;
            Arrival { answer: given.answer, used: given.used, dropped: given.dropped }
        }
    }
}

/// A whole frame's units arrive, at most as many as are allowed.
pub fn arrive_frame(mut feed: Feed, mut tables: Tables<'_>, stream: &[u8], allowed: u64, time: u64) -> Frame {
    let (mut accepted, mut dropped, mut rest) = (0, 0, stream);
    let mut last = Answer::Taken;
    while accepted < allowed {
        let arrival = arrive(&mut feed, tables.again(), rest, time);
        last = arrival.answer;
        if !last.is_accepted() {
            break;
        }
        accepted += 1;
        dropped += arrival.dropped;
        rest = &rest[arrival.used as usize..];
    }
    Frame { answer: last, accepted, used: (stream.len() - rest.len()) as u64, feed, dropped }
}

/// The message, if it is the next one, new to a feed in Live, and a book or a strip message of the right size.
#[inline]
fn live_message<'a>(feed: &Feed, stream: &'a [u8], time: u64) -> Option<&'a [u8]> {
    if feed.phase != Phase::Live || time < feed.heard || stream.len() < HEADER + 12 {
        return None;
    }
    let size = usize::from(u16_at(stream, HEADER));
    let is_next = u64::from(u32_at(stream, 4)) == feed.next && u64::from(u32_at(stream, 8)) > feed.internal;
    let is_kept = match u16_at(stream, HEADER + 2) {
        53 => size == 12 + ENTRY * usize::from(stream[HEADER + 11]),
        kind => strip::size(kind) == Some(size),
    };
    if !is_next || !is_kept || usize::from(u16_at(stream, 0)) == HEADER {
        return None;
    }
    stream.get(HEADER..HEADER + size)
}

#[inline]
fn arrive_live(feed: &mut Feed, tables: Tables<'_>, stream: &[u8], message: &[u8], time: u64) -> Arrival {
    let taken = match u16_at(message, 2) {
        53 => take(tables.books, message),
        kind => take_strip(tables.strips, kind, message).map(|()| 0),
    };
    match taken {
        Ok(dropped) => {
            feed.next += 1;
            feed.internal = u64::from(u32_at(stream, 8));
            feed.heard = time;
            Arrival { answer: Answer::Taken, used: (HEADER + message.len()) as u64, dropped }
        }
        Err(answer) => {
            feed.phase = Phase::Lost;
            feed.whole = false;
            Arrival { answer, used: 0, dropped: 0 }
        }
    }
}

/// Takes a type 53 message of the right size, whole or not at all; how many rows it pushed out.
fn take(table: &mut [u64], message: &[u8]) -> Result<u64, Answer> {
    let code = u64::from(u32_at(message, 4));
    let entries = &message[12..];
    if !code_listed(code) || !entries.chunks_exact(ENTRY).all(listed) {
        return Err(Answer::NotListed);
    }
    let words = slot_words::<SLOT>(table);
    let slots = &mut table[..words];
    if entries.is_empty() {
        return empty_out(slots, code).map(|()| 0);
    }
    let slot: &mut [u64; SLOT] = slot_for(slots, code)?;
    if slot[0] != 0 && !sound(slot) {
        return Err(Answer::Unsound);
    }
    let before = *slot;
    if slot[0] == 0 {
        *slot = empty(code);
    }
    let mut dropped = 0;
    for entry in entries.chunks_exact(ENTRY) {
        match apply(slot, entry.try_into().expect("an entry")) {
            Some(row) => dropped += u64::from(row.is_some()),
            None => {
                *slot = before;
                return Err(Answer::Misfit);
            }
        }
    }
    Ok(dropped)
}

/// NoEntries 0: the code's book, if it has one, loses its rows and keeps its slot.
#[cold]
fn empty_out(slots: &mut [u64], code: u64) -> Result<(), Answer> {
    if let Some(k) = find::<SLOT>(slots, code) {
        let slot: &mut [u64; SLOT] = slot_at(slots, k);
        if !sound(slot) {
            return Err(Answer::Unsound);
        }
        *slot = empty(code);
    }
    Ok(())
}

fn listed(entry: &[u8]) -> bool {
    let action = entry[19];
    action == 74 || (action <= 2 && u16_at(entry, 16) <= 1 && entry[18].wrapping_sub(1) < 10)
}

/// Takes a message of a strip's type, of the right size.
#[inline]
fn take_strip(table: &mut [u64], kind: u16, message: &[u8]) -> Result<(), Answer> {
    let code = u64::from(u32_at(message, 4));
    if !code_listed(code) || (kind == 56 && !strip::direction_listed(u64::from(message[8]))) {
        return Err(Answer::NotListed);
    }
    let words = slot_words::<STRIP>(table);
    let slot: &mut [u64; STRIP] = slot_for(&mut table[..words], code)?;
    if slot[0] == 0 {
        *slot = [0; STRIP];
        slot[0] = code;
    } else if !sound_strip(slot) {
        return Err(Answer::Unsound);
    }
    let price = |at: usize| u64::from(u32_at(message, at) ^ 0x8000_0000);
    match kind {
        40 => bring(slot, strip::NOMINAL, [price(8)]),
        41 => bring(slot, strip::IEP, [price(8), u64_at(message, 12)]),
        43 => bring(slot, strip::REFERENCE, [price(8), price(12), price(16)]),
        56 => {
            let quantity = if message[8] == b' ' { 0 } else { u64_at(message, 10) };
            bring(slot, strip::DIRECTION, [u64::from(message[8]), quantity]);
        }
        _ => bring(slot, strip::CLOSING, [price(8)]),
    }
    Ok(())
}

/// Puts values beside each other into a strip, from one on.
#[inline]
fn bring<const N: usize>(slot: &mut [u64; STRIP], from: usize, values: [u64; N]) {
    slot[1] |= ((1 << N) - 1) << from;
    slot[2 + from..2 + from + N].copy_from_slice(&values);
}

#[inline]
fn sound_strip(slot: &[u64; STRIP]) -> bool {
    let flags = slot[1];
    let mut sound = flags < 1 << strip::VALUES && slot[11] == 0;
    for k in 0..strip::VALUES {
        let word = slot[2 + k];
        sound &= match k {
            _ if (flags >> k) & 1 == 0 => word == 0,
            strip::DIRECTION => strip::direction_listed(word),
            strip::IEV | strip::IMBALANCE => true,
            _ => word < 1 << 32,
        };
    }
    sound
}

fn find<const WIDTH: usize>(slots: &[u64], code: u64) -> Option<usize> {
    slots.chunks_exact(WIDTH).position(|slot| slot[0] == code)
}

fn slot_at<const WIDTH: usize>(slots: &mut [u64], k: usize) -> &mut [u64; WIDTH] {
    (&mut slots[WIDTH * k..WIDTH * (k + 1)]).try_into().expect("a slot")
}

/// The code's slot, or the lowest free one.
#[inline]
fn slot_for<const WIDTH: usize>(slots: &mut [u64], code: u64) -> Result<&mut [u64; WIDTH], Answer> {
    let k = match find::<WIDTH>(slots, code) {
        Some(k) => k,
        None => find::<WIDTH>(slots, 0).ok_or(Answer::Full)?,
    };
    Ok(slot_at(slots, k))
}

fn empty(code: u64) -> [u64; SLOT] {
    let mut book = [0; SLOT];
    book[0] = code;
    book
}

#[inline]
fn sound(book: &[u64; SLOT]) -> bool {
    let bids: &[u64; 30] = book[4..34].try_into().expect("thirty words");
    let offers: &[u64; 30] = book[34..64].try_into().expect("thirty words");
    book[3] == 0 && sound_side(bids, book[1], true) && sound_side(offers, book[2], false)
}

#[inline]
fn sound_side(words: &[u64; 30], count: u64, falling: bool) -> bool {
    let mut sound = count <= 10;
    for at in 0..10 {
        let (price, quantity, orders) = (words[3 * at], words[3 * at + 1], words[3 * at + 2]);
        sound &= if (at as u64) < count {
            let follows = at == 0 || if falling { words[3 * at - 3] > price } else { words[3 * at - 3] < price };
            follows & ((price | orders) < 1 << 32)
        } else {
            price | quantity | orders == 0
        };
    }
    sound
}

/// The words of a row that an entry pushed out, if it did.
type Fell = Option<[u64; 3]>;

/// Applies one listed entry; nothing where it does not fit.
#[inline]
fn apply(book: &mut [u64; SLOT], entry: &[u8; ENTRY]) -> Option<Fell> {
    if entry[19] == 74 {
        book[1..].fill(0);
        return Some(None);
    }
    let bid = entry[16] == 0;
    let (count_at, rows_at) = if bid { (1, 4) } else { (2, 34) };
    let count = book[count_at] as usize;
    let rows: &mut [u64; 30] = (&mut book[rows_at..rows_at + 30]).try_into().expect("thirty words");
    let (count, fell) = apply_side(rows, count, bid, entry)?;
    book[count_at] = count as u64;
    Some(fell)
}

/// The count of rows after an entry to one side, and the row that it pushed out.
#[inline]
fn apply_side(rows: &mut [u64; 30], count: usize, bid: bool, entry: &[u8; ENTRY]) -> Option<(usize, Fell)> {
    let at = usize::from(entry[18]) - 1;
    let price = u64::from(u32_at(entry, 8) ^ 0x8000_0000);
    let row = [price, u64_at(entry, 0), u64::from(u32_at(entry, 12))];
    let better = |a: u64, b: u64| if bid { a > b } else { a < b };
    match entry[19] {
        0 => {
            let after_above = at == 0 || better(rows[3 * at - 3], price);
            if at > count || !after_above || (at < count && !better(price, rows[3 * at])) {
                return None;
            }
            let fell = (count == 10).then(|| [rows[27], rows[28], rows[29]]);
            let kept = count.min(9);
            rows.copy_within(3 * at..3 * kept, 3 * at + 3);
            rows[3 * at..3 * at + 3].copy_from_slice(&row);
            Some((kept + 1, fell))
        }
        1 => {
            if at >= count || rows[3 * at] != price {
                return None;
            }
            rows[3 * at..3 * at + 3].copy_from_slice(&row);
            Some((count, None))
        }
        _ => {
            if at >= count {
                return None;
            }
            rows.copy_within(3 * at + 3..3 * count, 3 * at);
            rows[3 * count - 3..3 * count].fill(0);
            Some((count - 1, None))
        }
    }
}
