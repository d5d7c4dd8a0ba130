//! The password rule as the cover has it. A case that goes wrong says which it is, and no password.

use mmdh::password::{check, Edition, Item, Verdict};
use mmdh::{raw, Answer};
use Edition::{V1_11, V1_36};
use Verdict::{BadHistory, Fails, Passes};

const EDITIONS: [Edition; 2] = [V1_11, V1_36];

/// The fewest bytes that an edition takes.
fn least(edition: Edition) -> usize {
    match edition {
        V1_11 => 8,
        _ => 16,
    }
}

/// A byte of no class, to make passwords as long as they must be.
const FILLER: u8 = b'~';

/// One byte of each class that is asked for, and a filler.
const GOOD: [u8; 5] = *b"Qz7$~";

/// A password of so many bytes: these first, and fillers behind.
fn filled(first: &[u8], length: usize) -> Vec<u8> {
    let mut password = first.to_vec();
    password.resize(length, FILLER);
    password
}

/// A password that passes both editions.
fn good() -> Vec<u8> {
    filled(&GOOD, 16)
}

/// A new password and the last ones, as they are lent. There is no `Debug`, so that none of it is printed.
#[derive(Clone, PartialEq, Eq)]
struct Case {
    password: Vec<u8>,
    lengths: Vec<u64>,
    history: Vec<u8>,
}

impl Case {
    fn of(password: &[u8], last: &[&[u8]]) -> Case {
        let lengths = last.iter().map(|old| old.len() as u64).collect();
        Case { password: password.to_vec(), lengths, history: last.concat() }
    }

    /// One for an edition that fails these items; all others pass.
    fn failing(edition: Edition, items: &[Item]) -> Case {
        let has = |item| !items.contains(&item);
        let classes = [(Item::Upper, b'Q'), (Item::Lower, b'z'), (Item::Digit, b'7'), (Item::Special, b'$')];
        let first: Vec<u8> = classes.into_iter().filter(|(item, _)| has(*item)).map(|(_, byte)| byte).collect();
        let password = filled(&first, least(edition) - usize::from(!has(Item::Length)));
        let last = if has(Item::History) { vec![] } else { vec![&b"other"[..], &password] };
        Case::of(&password, &last)
    }

    fn said(&self, edition: Edition) -> Verdict {
        check(edition, &self.password, &self.lengths, &self.history)
    }

    fn number(&self, edition: u64) -> u64 {
        raw::password(edition, &self.password, &self.lengths, &self.history)
    }
}

/// What an edition says without a history.
fn alone(edition: Edition, password: &[u8]) -> Verdict {
    check(edition, password, &[], &[])
}

/// What an edition says where these are the last passwords.
fn after(edition: Edition, password: &[u8], last: &[&[u8]]) -> Verdict {
    Case::of(password, last).said(edition)
}

/// What an edition says of a password that fails these items.
fn said(edition: Edition, items: &[Item]) -> Verdict {
    Case::failing(edition, items).said(edition)
}

/// All sets of items, each with a number.
fn sets() -> impl Iterator<Item = (usize, Vec<Item>)> {
    let of = |set: usize| Item::all().enumerate().filter(move |(at, _)| (set >> at) & 1 == 1).map(|(_, item)| item);
    (0..64).map(move |set| (set, of(set).collect()))
}

#[test]
fn each_item_fails_alone() {
    for edition in EDITIONS {
        assert_eq!(said(edition, &[]), Passes, "{}", edition);
        for item in Item::all() {
            let asked = item != Item::Special || edition == V1_36;
            assert_eq!(said(edition, &[item]), if asked { Fails(item) } else { Passes }, "{}", edition);
        }
    }
}

/// Neighbours, and any others.
#[test]
fn of_several_the_first_item_is_told() {
    let all: Vec<Item> = Item::all().collect();
    for edition in EDITIONS {
        for (at, &first) in all.iter().enumerate() {
            for &second in &all[at + 1..] {
                let told = if first == Item::Special && edition == V1_11 { second } else { first };
                assert_eq!(said(edition, &[first, second]), Fails(told), "{}: {} and {:?}", edition, first, second);
            }
            // with all that come behind it
            let told = if first == Item::Special && edition == V1_11 { Item::History } else { first };
            assert_eq!(said(edition, &all[at..]), Fails(told), "{}: {} and all behind it", edition, first);
        }
    }
}

#[test]
fn at_least_8_bytes_or_16() {
    for length in [0, 1, 5, 7, 8, 9, 15, 16, 17, 20, 21, 255, 256, 65_536] {
        for edition in EDITIONS {
            let short = length < least(edition);
            let wanted = if short { Fails(Item::Length) } else { Passes };
            let password = if length < 5 { vec![FILLER; length] } else { filled(&GOOD, length) };
            assert_eq!(alone(edition, &password), wanted, "{}: {} bytes", edition, length);
        }
    }
}

/// Every byte, in a password that has no other of the class: 64 and 91, 96 and 123, 47 and 58 are none, nor is any beyond ASCII.
#[test]
fn classes_end_where_ascii_has_them() {
    let classes = [(Item::Upper, 65, 90), (Item::Lower, 97, 122), (Item::Digit, 48, 57)];
    for edition in EDITIONS {
        for (item, first, last) in classes {
            for byte in 0..=255 {
                for place in [0, 3, least(edition) - 1] {
                    let mut password = Case::failing(edition, &[item]).password;
                    // fillers at all three places
                    password.rotate_right(4);
                    password[place] = byte;
                    let wanted = if first <= byte && byte <= last { Passes } else { Fails(item) };
                    assert_eq!(alone(edition, &password), wanted, "{}: byte {} at {}", edition, byte, place);
                }
            }
        }
    }
}

#[test]
fn nine_special_characters_and_no_more() {
    let special = |byte| alone(V1_36, &filled(&[b'Q', b'z', b'7', byte], 16));
    for byte in 0..=255 {
        let listed = [33, 64, 35, 36, 94, 38, 42, 40, 41].contains(&byte);
        assert_eq!(special(byte), if listed { Passes } else { Fails(Item::Special) }, "byte {}", byte);
    }
    for byte in [b'%', b'+', b'-', b'_', b'~'] {
        assert_eq!(special(byte), Fails(Item::Special), "byte {}", byte);
    }
}

#[test]
fn no_other_byte_is_judged() {
    for edition in EDITIONS {
        for byte in 0..=255 {
            let mut password = good();
            password[15] = byte;
            assert_eq!(alone(edition, &password), Passes, "{}: byte {}", edition, byte);
        }
    }
}

#[test]
fn the_last_passwords_wherever_they_stand() {
    let (new, others) = (good(), [&b"first"[..], b"", b"Third-one", b"4"]);
    for edition in EDITIONS {
        for others in (0..=4).map(|count| &others[..count]) {
            assert_eq!(after(edition, &new, others), Passes, "{}: {} others", edition, others.len());
            for place in 0..=others.len() {
                let last = [&others[..place], &[&new[..]], &others[place..]].concat();
                let verdict = after(edition, &new, &last);
                assert_eq!(verdict, Fails(Item::History), "{}: {} of {}", edition, place + 1, last.len());
            }
        }
    }
}

/// Only a whole password counts, and only as it was cut.
#[test]
fn what_is_like_one_of_the_last_passes() {
    let new = good();
    let (longer, mut changed, mut first) = ([&new[..], b"~"].concat(), new.clone(), new.clone());
    changed[15] ^= 1;
    first[0] ^= 32;
    let cases: [(&str, Vec<&[u8]>); 8] = [
        ("one that it begins", vec![&longer]),
        ("one that begins it", vec![&new[..15]]),
        ("one that ends it", vec![&new[1..]]),
        ("another last byte", vec![&changed]),
        ("another case", vec![&first]),
        ("one that is empty", vec![b""]),
        ("its bytes across two", vec![&new[..9], &new[9..]]),
        ("its bytes in the middle of one", vec![b"x", &longer, b""]),
    ];
    for edition in EDITIONS {
        for (what, last) in &cases {
            assert_eq!(after(edition, &new, last), Passes, "{}: {}", edition, what);
        }
    }
    // an empty password is one of the last, and too short before that
    assert_eq!(after(V1_11, b"", &[b""]), Fails(Item::Length));
}

#[test]
fn at_most_five_of_the_last() {
    let new = good();
    for edition in EDITIONS {
        for count in 0..=7 {
            let wanted = if count <= 5 { Passes } else { BadHistory };
            assert_eq!(after(edition, &new, &vec![&b"old"[..]; count]), wanted, "{}: {} of them", edition, count);
            assert_eq!(check(edition, &new, &vec![0; count], &[]), wanted, "{}: {} empty ones", edition, count);
        }
        // the sixth is not left out: it would have been found
        assert_eq!(after(edition, &new, &[&new, b"", b"", b"", b"", b""]), BadHistory, "{}", edition);
    }
}

/// Lengths of any size, some of which add up to the bytes if a sum may wrap.
#[test]
fn lengths_add_up_to_the_bytes() {
    let half = 1 << 63;
    let cases: [(&[u64], usize, Verdict); 18] = [
        (&[], 0, Passes),
        (&[], 1, BadHistory),
        (&[0], 1, BadHistory),
        (&[1], 0, BadHistory),
        (&[3, 4], 7, Passes),
        (&[3, 4], 6, BadHistory),
        (&[3, 4], 8, BadHistory),
        (&[0, 7, 0], 7, Passes),
        (&[half, half], 0, BadHistory),
        (&[half, half, 2], 2, BadHistory),
        (&[2, half, half], 2, BadHistory),
        (&[u64::MAX, 3], 2, BadHistory),
        (&[3, u64::MAX], 2, BadHistory),
        (&[2, 1, u64::MAX], 2, BadHistory),
        (&[1, 2, 1, u64::MAX - 1], 2, BadHistory),
        (&[u64::MAX, u64::MAX, u64::MAX, u64::MAX, 6], 2, BadHistory),
        (&[1 << 32, 2], 2, BadHistory),
        (&[u64::MAX], 2, BadHistory),
    ];
    for edition in EDITIONS {
        for (sum, (lengths, bytes, wanted)) in cases.into_iter().enumerate() {
            assert_eq!(check(edition, &good(), lengths, &vec![b'x'; bytes]), wanted, "{}: sum {}", edition, sum);
        }
    }
}

/// A bad history before an edition that is not listed, and that before every item.
#[test]
fn the_history_is_looked_at_first_and_then_the_edition() {
    for (set, items) in sets() {
        for edition in EDITIONS {
            let mut case = Case::failing(edition, &items);
            for other in [0, 1, 110, 112, 135, 137, 367, (1 << 32) + 111, u64::MAX] {
                assert_eq!(case.number(other), 15, "set {}, edition {}", set, other);
            }
            case.history.push(FILLER);
            assert_eq!(case.said(edition), BadHistory, "set {}, {}", set, edition);
            for other in [0, 112, u64::MAX] {
                assert_eq!(case.number(other), 23, "set {}, edition {}", set, other);
            }
        }
    }
    // with no password at all
    for edition in EDITIONS.map(Edition::number).into_iter().chain([0, 112]) {
        assert_eq!(raw::password(edition, &[], &[1], &[]), 23, "edition {}", edition);
        assert_eq!(raw::password(edition, &[], &[0; 6], &[]), 23, "edition {}", edition);
    }
    assert_eq!(raw::password(112, &[], &[], &[]), 15);
}

/// What passes 1.36 passes 1.11 with the same history.
#[test]
fn the_new_rule_is_the_stricter() {
    let mut passed = 0;
    for (set, items) in sets() {
        let case = Case::failing(V1_36, &items);
        if case.said(V1_36) == Passes {
            assert_eq!(case.said(V1_11), Passes, "set {}", set);
            passed += 1;
        }
    }
    assert_eq!(passed, 1);
}

#[test]
fn nothing_that_is_lent_is_written() {
    for (set, items) in sets() {
        for edition in EDITIONS {
            let case = Case::failing(edition, &items);
            let copy = case.clone();
            let _ = case.said(edition);
            assert!(case == copy, "set {}, {}", set, edition);
        }
    }
}

#[test]
fn numbers_and_sentences() {
    assert_eq!(EDITIONS.map(Edition::number), [111, 136]);
    assert_eq!(EDITIONS.map(|edition| edition.to_string()), ["1.11", "1.36"]);
    let items: Vec<Item> = Item::all().collect();
    assert_eq!(items, [Item::Length, Item::Upper, Item::Lower, Item::Digit, Item::Special, Item::History]);
    assert_eq!(items.iter().map(|item| item.number()).collect::<Vec<_>>(), (1..=6).collect::<Vec<_>>());
    assert_eq!([Passes, BadHistory].map(Verdict::number), [0, 23]);
    assert!(items.iter().all(|&item| Fails(item).number() == item.number()));
    assert!(items.iter().all(|&item| Fails(item).to_string() == item.to_string()));
    assert_eq!(BadHistory.to_string(), Answer::BadHistory.to_string());
    let verdicts = items.iter().map(|&item| Fails(item)).chain([Passes, BadHistory]);
    let sentences: std::collections::BTreeSet<String> = verdicts.map(|verdict| verdict.to_string()).collect();
    assert!(sentences.len() == 8 && sentences.iter().all(|sentence| sentence.len() > 6), "{:?}", sentences);
    let length = Item::Length.to_string();
    assert!(length.contains("at least 8 ") && length.contains("at least 16"), "{}", length);
    assert!(Item::Special.to_string().contains("! @ # $ ^ & * ( )") && Item::Special.to_string().contains("1.36"));
}
