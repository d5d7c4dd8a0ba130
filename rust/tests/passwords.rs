//! New passwords, library against twin: what must be said stands here where a case is made by hand, and the rest is drawn. A case
//! that goes wrong is known by its name, by numbers or by its seed; no password is ever printed.

use crate::tally::{Call, Tally};
use exchange::dice::Dice;
use mmdh::raw;
use std::collections::{BTreeMap, BTreeSet};

/// The editions, each with the fewest bytes that it takes.
const EDITIONS: [(u64, usize); 2] = [(111, 8), (136, 16)];
const OTHERS: [u64; 12] = [0, 1, 11, 36, 110, 112, 135, 137, 111 + 256, 136 + (1 << 32), 1 << 63, u64::MAX];

const NOT_LISTED: u64 = 15;
const BAD_HISTORY: u64 = 23;

/// The classes of bytes that are asked for, letter by letter, in the order of their items: 2 to 5.
const CLASSES: [&[u8]; 4] = [b"ABCDEFGHIJKLMNOPQRSTUVWXYZ", b"abcdefghijklmnopqrstuvwxyz", b"0123456789", b"!@#$^&*()"];
/// A byte of none of them.
const FILLER: u8 = b'~';

/// A new password and the last ones, as they are lent. It has no `Debug`.
#[derive(Clone, PartialEq, Eq)]
struct Case {
    password: Vec<u8>,
    lengths: Vec<u64>,
    history: Vec<u8>,
}

impl Case {
    fn of(password: Vec<u8>, last: &[&[u8]]) -> Case {
        Case { password, lengths: last.iter().map(|old| old.len() as u64).collect(), history: last.concat() }
    }

    /// A password with one byte of each of these classes, fillers behind them, and no history.
    fn with(classes: impl Iterator<Item = &'static [u8]>, length: usize) -> Case {
        let mut password: Vec<u8> = classes.map(|class| class[class.len() / 2]).collect();
        password.resize(length, FILLER);
        Case::of(password, &[])
    }

    /// The same password with other lengths, over so many bytes.
    fn over(&self, lengths: &[u64], bytes: usize) -> Case {
        Case { password: self.password.clone(), lengths: lengths.to_vec(), history: vec![FILLER; bytes] }
    }
}

pub fn check(tally: &mut Tally, dice: &mut Dice, rounds: u64) {
    tally.part("passwords by hand: every set of items, every byte, lengths, histories");
    sets(tally);
    bytes(tally);
    lengths(tally);
    histories(tally);
    sums(tally);
    tally.part("passwords at random, library against twin");
    at_random(tally, dice, rounds);
}

/// One case to the library and to the twin, and what the library said; nothing that is lent may be written.
fn compared(tally: &mut Tally, edition: u64, case: &Case, name: impl FnOnce() -> String) -> u64 {
    let copy = case.clone();
    let ours = raw::password(edition, &case.password, &case.lengths, &case.history);
    let twins = twin::password::check(edition, &copy.password, &copy.lengths, &copy.history);
    tally.met(Call::Password, ours);
    tally.same(&(ours, *case == copy), &(twins, true), || format!("password, edition {}: {}", edition, name()));
    ours
}

/// The same where it is known what must be said.
fn told(tally: &mut Tally, edition: u64, case: &Case, wanted: u64, name: impl Fn() -> String) {
    let ours = compared(tally, edition, case, &name);
    tally.same(&ours, &wanted, || format!("password, edition {}, by hand: {}", edition, name()));
}

/// All sets of items that a password may fail: the first that the edition asks for is told, another edition before them, and a
/// history that is none before that.
fn sets(tally: &mut Tally) {
    for (edition, least) in EDITIONS {
        for set in 0..64 {
            let fails = |item: u64| (set >> (item - 1)) & 1 == 1;
            let classes = CLASSES.into_iter().zip(2..).filter(|(_, item)| !fails(*item)).map(|(class, _)| class);
            let mut case = Case::with(classes, least - usize::from(fails(1)));
            if fails(6) {
                case = Case::of(case.password.clone(), &[b"old", &case.password, b""]);
            }
            let wanted = (1..=6).find(|&item| fails(item) && (item != 5 || edition == 136)).unwrap_or(0);
            let name = || format!("set {}", set);
            told(tally, edition, &case, wanted, name);
            for other in OTHERS {
                told(tally, other, &case, NOT_LISTED, name);
            }
            case.lengths.push(1);
            for edition in [edition].into_iter().chain(OTHERS) {
                told(tally, edition, &case, BAD_HISTORY, name);
            }
        }
    }
}

/// Every byte at every place of a password that is good but for one class, and of one that has them all.
fn bytes(tally: &mut Tally) {
    for (edition, least) in EDITIONS {
        for missing in 0..=CLASSES.len() {
            let kept = || CLASSES.into_iter().enumerate().filter(|(at, _)| *at != missing).map(|(_, class)| class);
            let listed: &[u8] = CLASSES.get(missing).copied().unwrap_or_default();
            let asked = missing < 3 || (missing == 3 && edition == 136);
            for place in 0..least {
                for byte in 0..=255 {
                    // the last byte is a filler, and goes to the place
                    let mut case = Case::with(kept(), least);
                    case.password[least - 1] = byte;
                    case.password.rotate_right(place + 1);
                    let wanted = if asked && !listed.contains(&byte) { missing as u64 + 2 } else { 0 };
                    told(tally, edition, &case, wanted, || {
                        format!("without class {}, byte {} at {}", missing, byte, place)
                    });
                }
            }
        }
    }
}

fn lengths(tally: &mut Tally) {
    for (edition, least) in EDITIONS {
        for length in (0..=40).chain([255, 256, 257, 4_096, 65_536]) {
            let wanted = u64::from(length < least);
            let case = Case::with(CLASSES.into_iter().take(length), length);
            told(tally, edition, &case, wanted, || format!("{} bytes", length));
        }
    }
}

/// Up to seven last passwords, one of them the new one or something like it, at every place.
fn histories(tally: &mut Tally) {
    for (edition, least) in EDITIONS {
        let new = Case::with(CLASSES.into_iter(), least).password;
        for (what, old, wanted) in like(&new) {
            for (count, place) in (1..=7).flat_map(|count| (0..count).map(move |place| (count, place))) {
                let mut last: Vec<&[u8]> = (0..count).map(|at| &b"Old passwords"[..5 + at]).collect();
                last[place] = &old;
                let wanted = if count > 5 { BAD_HISTORY } else { wanted };
                let name = || format!("{}, {} of {}", what, place + 1, count);
                told(tally, edition, &Case::of(new.clone(), &last), wanted, name);
            }
        }
        // its bytes are there, and two of the last share them
        for cut in 1..least {
            let case = Case::of(new.clone(), &[&new[..cut], &new[cut..]]);
            told(tally, edition, &case, 0, || format!("across two, {} bytes in the first", cut));
        }
    }
}

/// The new password and what is like it, each with its name and what it must be told where this is one of the last.
fn like(new: &[u8]) -> Vec<(&'static str, Vec<u8>, u64)> {
    let last = new.len() - 1;
    let other = |at: usize, bit: u8| {
        let mut old = new.to_vec();
        old[at] ^= bit;
        old
    };
    vec![
        ("the same", new.to_vec(), 6),
        ("a byte less", new[1..].to_vec(), 0),
        ("a byte less at its end", new[..last].to_vec(), 0),
        ("a byte more", [new, &[FILLER]].concat(), 0),
        ("a byte more at its front", [&[FILLER], new].concat(), 0),
        ("empty", Vec::new(), 0),
        ("another first byte", other(0, 32), 0),
        ("another last byte", other(last, 1), 0),
    ]
}

/// Lengths that add up, that are wrong by one, and that would add up if a sum wrapped.
fn sums(tally: &mut Tally) {
    for (edition, least) in EDITIONS {
        let new = Case::with(CLASSES.into_iter(), least);
        told(tally, edition, &new.over(&[], 1), BAD_HISTORY, || "bytes without lengths".to_string());
        for bytes in 0..=20 {
            for (count, place) in (1..=7).flat_map(|count| (0..count).map(move |place| (count, place))) {
                for more in [0, 1, u64::MAX] {
                    let mut lengths = vec![0; count];
                    lengths[place] = more.wrapping_add(bytes);
                    let wanted = if more == 0 && count <= 5 { 0 } else { BAD_HISTORY };
                    let name = || format!("{} bytes, length {} of {}, more {}", bytes, place + 1, count, more);
                    told(tally, edition, &new.over(&lengths, bytes as usize), wanted, name);
                }
            }
            for (sum, lengths) in wrapping(bytes).iter().enumerate() {
                let name = || format!("{} bytes, sum {}", bytes, sum);
                told(tally, edition, &new.over(lengths, bytes as usize), BAD_HISTORY, name);
            }
        }
    }
}

/// Lengths that add up to so many bytes only where a sum of 64 bits wraps, or one of 32.
fn wrapping(bytes: u64) -> [Vec<u64>; 12] {
    const HALF: u64 = 1 << 63;
    [
        vec![HALF, HALF, bytes],
        vec![HALF, bytes, HALF],
        vec![bytes, HALF, HALF],
        vec![HALF + bytes, HALF],
        vec![u64::MAX, bytes + 1],
        vec![bytes + 1, u64::MAX],
        vec![bytes, 1, u64::MAX],
        vec![1, bytes, 1, u64::MAX - 1],
        vec![u64::MAX, u64::MAX, u64::MAX, u64::MAX, bytes + 4],
        vec![HALF / 2, HALF / 2, HALF / 2, HALF / 2, bytes],
        vec![bytes, 1 << 32],
        vec![bytes + (1 << 32)],
    ]
}

/// Whatever the newer edition passes the older one does, and each has said all that it may.
fn at_random(tally: &mut Tally, dice: &mut Dice, rounds: u64) {
    let mut met: BTreeMap<u64, BTreeSet<u64>> = BTreeMap::new();
    for _ in 0..rounds {
        let seed = dice.any();
        let case = drawn(&mut Dice::new(seed));
        let name = || format!("seed {}", seed);
        let [older, newer] = EDITIONS.map(|(edition, _)| {
            let said = compared(tally, edition, &case, name);
            met.entry(edition).or_default().insert(said);
            said
        });
        tally.holds(newer != 0 || older == 0, || format!("password: 1.36 passes it and 1.11 does not, {}", name()));
        if dice.once_in(4) {
            met.entry(0).or_default().insert(compared(tally, dice.of(&OTHERS), &case, name));
        }
    }
    let wanted = [(0, &[15, 23][..]), (111, &[0, 1, 2, 3, 4, 6, 23]), (136, &[0, 1, 2, 3, 4, 5, 6, 23])];
    for (edition, wanted) in wanted {
        let met: Vec<u64> = met.remove(&edition).unwrap_or_default().into_iter().collect();
        tally.same(&met, &wanted.to_vec(), || format!("what edition {} said at random, 0 for others", edition));
    }
}

/// A password and a history, often like it.
fn drawn(dice: &mut Dice) -> Case {
    let password = word(dice);
    let count = dice.of(&[0, 1, 1, 2, 2, 3, 3, 4, 4, 5, 5, 5, 6, 7]);
    let last: Vec<Vec<u8>> = (0..count).map(|_| old(dice, &password)).collect();
    let mut case = Case::of(password, &last.iter().map(Vec::as_slice).collect::<Vec<_>>());
    match dice.below(16) {
        0 => case.history.push(dice.any() as u8),
        1 => {
            case.history.pop();
        }
        2 => add(dice, &mut case.lengths, &[1, u64::MAX]),
        3 => wrap(dice, &mut case.lengths),
        4 => shift(dice, &mut case.lengths),
        _ => {}
    }
    case
}

/// Bytes from some of the classes, mostly from their ends and from beyond these, in a length near one that is asked for.
fn word(dice: &mut Dice) -> Vec<u8> {
    const ENDS: [&[u8]; 6] =
        [b"AMZ", b"amz", b"059", b"!@#$^&*()", b"@[`{/:%+-_ ~", &[0, 1, 31, 127, 128, 161, 193, 225, 255]];
    let from: Vec<&[u8]> = ENDS.into_iter().filter(|_| !dice.once_in(6)).collect();
    let length = dice.of(&[0, 1, 6, 7, 8, 9, 12, 14, 15, 16, 16, 16, 17, 20, 40]);
    let byte = |dice: &mut Dice| match from.get(dice.place(from.len() + 1)) {
        Some(ends) => dice.of(ends),
        None => FILLER,
    };
    (0..length).map(|_| byte(dice)).collect()
}

/// One of the last passwords: the new one, something like it, or another.
fn old(dice: &mut Dice, new: &[u8]) -> Vec<u8> {
    match dice.below(8) {
        0 => new.to_vec(),
        1 => new[..dice.place(new.len() + 1)].to_vec(),
        2 => [new, &[FILLER]].concat(),
        3 if !new.is_empty() => dice.damaged(new),
        4 => Vec::new(),
        _ => word(dice),
    }
}

/// One of the lengths is more by one of these.
fn add(dice: &mut Dice, lengths: &mut [u64], more: &[u64]) {
    if !lengths.is_empty() {
        let at = dice.place(lengths.len());
        lengths[at] = lengths[at].wrapping_add(dice.of(more));
    }
}

/// They add up to as much as before if the sum wraps, and mostly only then.
fn wrap(dice: &mut Dice, lengths: &mut [u64]) {
    if let Some((last, others)) = lengths.split_last_mut() {
        for length in others {
            let more = dice.of(&[0, 1, 5, 1 << 32, 1 << 62, 1 << 63, u64::MAX]);
            *length = length.wrapping_add(more);
            *last = last.wrapping_sub(more);
        }
    }
}

/// The border between two of them moves: they add up to as much as before.
fn shift(dice: &mut Dice, lengths: &mut [u64]) {
    if lengths.len() > 1 {
        let at = dice.place(lengths.len() - 1);
        if lengths[at] > 0 {
            lengths[at] -= 1;
            lengths[at + 1] += 1;
        }
    }
}
