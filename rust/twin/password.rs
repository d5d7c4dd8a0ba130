//! New passwords (request 7 of document 02; 000 and 003, section 2.2.1).

/// Most of the last passwords that are looked at.
pub const LAST: usize = 5;
/// The special characters of edition 1.36.
pub const SPECIAL: [u8; 9] = *b"!@#$^&*()";

const NOT_LISTED: u64 = 15;
const BAD_HISTORY: u64 = 23;

/// What a new password is told: 0 where it passes; 23 where the lengths are not those of the history; 15 where the edition is
/// neither 111 nor 136; else the first item that it fails: 1 length, 2 upper, 3 lower, 4 digit, 5 special, 6 history.
pub fn check(edition: u64, password: &[u8], lengths: &[u64], history: &[u8]) -> u64 {
    let last = match pieces(lengths, history) {
        Some(last) if last.len() <= LAST => last,
        _ => return BAD_HISTORY,
    };
    let (least, wants_special) = match edition {
        111 => (8, false),
        136 => (16, true),
        _ => return NOT_LISTED,
    };
    let has = |listed: fn(&u8) -> bool| password.iter().any(listed);
    let met = [
        password.len() >= least,
        has(u8::is_ascii_uppercase),
        has(u8::is_ascii_lowercase),
        has(u8::is_ascii_digit),
        !wants_special || has(|byte| SPECIAL.contains(byte)),
        !last.contains(&password),
    ];
    met.iter().zip(1..).find(|(met, _)| !**met).map_or(0, |(_, item)| item)
}

/// The history cut into its passwords, if these are as long as it is: each takes its bytes off the front, and none are left.
fn pieces<'a>(lengths: &[u64], history: &'a [u8]) -> Option<Vec<&'a [u8]>> {
    let mut rest = history;
    let mut last = Vec::new();
    for &length in lengths {
        let length = usize::try_from(length).ok().filter(|&length| length <= rest.len())?;
        let (piece, behind) = rest.split_at(length);
        last.push(piece);
        rest = behind;
    }
    Some(last).filter(|_| rest.is_empty())
}
