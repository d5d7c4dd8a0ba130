//! Frames at every size, and what must stand in them.

use crate::capture::Capture;
use crate::desk::Desk;
use crate::layout::Size;
use crate::options::Options;
use crate::svg::picture;
use crate::text::{Span, Style, Text};
use exchange::{book_message, closing, equilibrium, header, imbalance, message, nominal, reference, session, unit};
use exchange::{Entry, CHANGE, CLEAR, DELETE};
use mmdh::Badge;

/// The morning, as far as it had come so many milliseconds after its first unit.
fn morning(at: u64) -> (Desk, u64) {
    let bytes = std::fs::read("../../captures/morning.bin").expect("the capture");
    let mut desk = Desk::new(3_000, Capture::new(bytes)).expect("listed");
    let time = desk.begins() + at;
    desk.hear(time);
    (desk, time)
}

/// A morning in which a byte of SeqNum was changed: it is lost on the way.
fn lost() -> (Desk, u64) {
    let mut bytes = std::fs::read("../../captures/morning.bin").expect("the capture");
    let middle = bytes.len() / 2;
    let next = (middle..).find(|&at| bytes[at..at + 2] == [0x38, 0] && bytes[at + 20..at + 24] == [0x24, 0, 53, 0]);
    bytes[next.expect("a book message of one entry") + 7] = 1;
    let mut desk = Desk::new(3_000, Capture::new(bytes)).expect("listed");
    let time = desk.ends();
    desk.hear(time);
    (desk, time)
}

fn asked(words: &str) -> Options {
    Options::read(words.split_whitespace().map(str::to_string)).expect("known options")
}

fn refused(words: &str) -> String {
    Options::read(words.split_whitespace().map(str::to_string)).err().expect("a refusal")
}

fn plain(lines: &[Text]) -> Vec<String> {
    lines.iter().map(Text::plain).collect()
}

fn frame(desk: &Desk, words: &str, columns: usize, lines: usize, time: u64) -> Vec<String> {
    plain(&desk.frame(&asked(words), Size { columns, lines }, time))
}

/// The badge that a frame begins with.
fn first_corner(lines: &[Text]) -> Option<Badge> {
    match lines.first()?.spans.first()?.style {
        Style::Corner(badge) if !lines[0].spans[0].text.trim().is_empty() => Some(badge),
        _ => None,
    }
}

#[test]
fn the_badge_is_on_the_screen_at_every_size() {
    let cases = [(morning(500), Badge::Filling), (morning(12_000), Badge::Green), (morning(60_000), Badge::Stale)];
    for ((desk, time), badge) in cases.into_iter().chain([(lost(), Badge::Stale)]) {
        for columns in (1..=30).chain([39, 80, 132, 400]) {
            for lines in (1..=12).chain([24, 60]) {
                let painted = desk.frame(&asked(""), Size { columns, lines }, time);
                assert!(painted.len() <= lines, "{} by {}: {} lines", columns, lines, painted.len());
                assert!(painted.iter().all(|line| line.width() <= columns), "{} by {}: too wide", columns, lines);
                assert_eq!(first_corner(&painted), Some(badge), "{} by {}", columns, lines);
            }
        }
    }
}

#[test]
fn the_reason_stands_first_and_is_never_cut() {
    let (desk, time) = lost();
    let reason = "lost: the sequence number is not the next (answer 13),";
    for columns in [20, 24, 40, 80, 200] {
        let painted = frame(&desk, "", columns, 24, time).join(" ");
        let words: Vec<&str> = painted.split_whitespace().collect();
        let wanted: Vec<&str> = reason.split_whitespace().collect();
        assert_eq!((words[0], &words[1..=wanted.len()]), ("stale", &wanted[..]), "{} columns", columns);
        assert!(painted.contains("expected"), "{}", painted);
    }
    assert_eq!(frame(&desk, "", 12, 2, time)[0], " stale  lost");
}

/// Beside the reason stands that bytes are dropped, and since which refusal, where that is not the reason itself.
#[test]
fn a_line_that_drops_says_so() {
    let units = [unit(3, 0, &session(1103, 6)), unit(4, 0, &message(60, 4))].concat();
    let bytes = [unit(1, 0, &message(1105, 4)), unit(2, 0, &session(1102, 0)), units].concat();
    for (length, dropping) in [(bytes.len(), true), (bytes.len() - 1, false)] {
        let mut desk = Desk::new(3_000, Capture::new(bytes[..length].to_vec())).expect("listed");
        desk.hear(1);
        let painted = frame(&desk, "", 80, 24, 1).join(" ");
        assert_eq!(painted.contains("what comes is dropped since unit 4:"), dropping, "{}", painted);
        assert!(painted.contains("closed: logged out") && desk.is_over(), "{}", painted);
        let short = frame(&desk, "", 25, 1, 1).join(" ");
        assert!(short.starts_with(if dropping { " stale  closed, dropping" } else { " stale  closed" }), "{}", short);
        assert_eq!(short.contains("dropping"), dropping, "{}", short);
        // with no room for both, that it drops
        let shorter = frame(&desk, "", 16, 1, 1).join(" ");
        assert!(shorter.starts_with(if dropping { " stale  dropping" } else { " stale  closed" }), "{}", shorter);
    }
}

#[test]
fn panels_that_do_not_fit_are_announced() {
    let (desk, time) = morning(12_000);
    for (columns, lines) in [(30, 12), (80, 10), (24, 24), (9, 40), (200, 3)] {
        let painted = frame(&desk, "", columns, lines, time);
        let titles = painted.iter().map(|line| line.matches(" green |").count()).sum::<usize>();
        let words = painted.join(" ").split_whitespace().collect::<Vec<_>>().join(" ");
        let announced = format!("{} of 6 panels do not fit", 6 - titles);
        assert!(titles < 6 && words.contains(&announced), "{} by {}: {}", columns, lines, words);
    }
    assert!(!frame(&desk, "", 80, 24, time).join(" ").contains("fit"));
    assert!(frame(&desk, "--codes 700,5,16", 27, 13, time).join(" ").contains("2 of 3 panels do not fit 5 16"));
}

#[test]
fn a_large_terminal_is_used() {
    let (desk, time) = morning(12_000);
    let rows = |columns, lines| {
        let painted = frame(&desk, "", columns, lines, time);
        painted.iter().map(|line| line.matches("|B ").count()).sum::<usize>()
    };
    assert!(rows(80, 24) < rows(100, 40) && rows(100, 40) < rows(200, 60) && rows(200, 60) < rows(400, 110));
    assert!(frame(&desk, "", 240, 60, time).join(" ").contains("297,"), "quantities written out");
}

#[test]
fn the_countdown_runs_to_stale() {
    let (desk, time) = morning(60_000);
    let heard = desk.ends() - 3_001;
    for (after, words) in [(0, "stale in 3.0 s, limit 3.0 s"), (2_900, "stale in 0.1 s"), (3_000, "stale in 0.0 s")] {
        assert!(frame(&desk, "", 80, 24, heard + after).join(" ").contains(words), "{} ms", after);
    }
    let painted = frame(&desk, "", 80, 24, time).join(" ");
    assert!(painted.contains("limit 3.0 s") && !painted.contains("stale in"), "{}", painted);
}

#[test]
fn stale_rows_look_stale_and_sides_differ() {
    let styles = |(desk, time): (Desk, u64)| {
        let painted = desk.frame(&asked(""), Size { columns: 80, lines: 24 }, time);
        let spans: Vec<_> = painted.into_iter().flat_map(|line| line.spans).collect();
        [Style::Bid, Style::Offer, Style::Old].map(|style| spans.iter().filter(|span| span.style == style).count())
    };
    // a row of each side in six panels, and four lines of each one's strip
    assert_eq!(styles(morning(12_000)), [6, 6, 0]);
    assert_eq!(styles(morning(60_000)), [0, 0, 6 + 6 + 24]);
    let (desk, time) = morning(60_000);
    assert!(frame(&desk, "", 80, 24, time).iter().any(|line| line.contains("|B~") || line.contains("|O~")));
}

#[test]
fn no_book_is_told_from_an_empty_book() {
    let (desk, time) = morning(500);
    assert!(frame(&desk, "--codes 4711", 80, 24, time).join(" ").contains("no book "));
    assert!(frame(&desk, "", 80, 24, time).join(" ").contains("no book yet"));
    let clear = Entry { action: CLEAR, ..Entry::default() };
    let painted = frame(&live(&[book_message(5, &[clear])], 1), "--codes 5,6", 80, 24, 1).join(" ");
    assert!(painted.contains("empty book") && painted.contains("no book "), "{}", painted);
}

/// A desk that is live at 0 and then gets a message each millisecond, as far as it had come by a time.
fn live(messages: &[Vec<u8>], time: u64) -> Desk {
    let mut desk = to_come(messages);
    desk.hear(time);
    desk
}

/// The same before anything has come.
fn to_come(messages: &[Vec<u8>]) -> Desk {
    logged_on(0, messages)
}

/// A desk whose logon gets this status, and whose messages are to come: live ones, or a snapshot's with 101.
fn logged_on(status: u8, messages: &[Vec<u8>]) -> Desk {
    let mut bytes = [unit(1, 0, &message(1105, 4)), unit(2, 0, &session(1102, status))].concat();
    for (message, at) in messages.iter().zip(1..) {
        let internal = if status == 101 { 0 } else { at };
        bytes.extend(header(at + 2, internal, message.len(), u64::from(at) * 1_000_000));
        bytes.extend(message);
    }
    Desk::new(3_000, Capture::new(bytes)).expect("listed")
}

/// An emptied book (NoEntries 0) keeps its panel, with code and badge, and shows none of its old rows. A code without a book
/// gets none by it.
#[test]
fn an_emptied_book_looks_empty() {
    let bid = Entry { quantity: 4_000, price: 9_730, orders: 2, level: 1, ..Entry::default() };
    let filled = book_message(5, &[bid, Entry { side: 1, price: 9_740, ..bid }]);
    let messages = [filled, book_message(5, &[]), book_message(6, &[]), book_message(5, &[bid])];
    for (time, bids, offers) in [(1, 1, 1), (2, 0, 0), (3, 0, 0), (4, 1, 0)] {
        let painted = frame(&live(&messages, time), "--codes 5,6", 80, 24, time);
        let shown = |mark: &str| painted.iter().map(|line| line.matches(mark).count()).sum::<usize>();
        assert_eq!((shown("|B "), shown("|O ")), (bids, offers), "{:#?}", painted);
        assert_eq!(shown("empty book"), usize::from(bids + offers == 0), "{:#?}", painted);
        assert_eq!((shown("no book"), shown("1 of 1 books")), (1, 1), "{:#?}", painted);
        assert!(shown("| 5 ") == 1 && shown("green") == 3, "{:#?}", painted);
    }
    let stale = frame(&live(&messages, 3), "--codes 5,6", 80, 24, 9_000).join(" ");
    assert!(stale.contains("|~empty book ") && stale.contains("| no book "), "{}", stale);
}

/// Three books of the morning are emptied: two fill again, and one stays empty.
#[test]
fn the_emptied_books_of_the_morning() {
    let emptied = |at, code: &str| {
        let (desk, time) = morning(at);
        frame(&desk, &format!("--codes {}", code), 80, 24, time).join(" ").contains("empty book")
    };
    for (code, filled, empty) in [("66", 11_000, 12_000), ("27", 17_370, 17_390), ("3988", 31_690, 60_000)] {
        assert!(!emptied(filled, code) && emptied(empty, code), "{}", code);
    }
    assert!(!emptied(60_000, "66") && !emptied(60_000, "27"), "filled again");
}

/// An entry of a side, 0 bids and 1 offers; its quantity is its price.
fn entry(action: u8, side: u16, level: u8, price: i32) -> Entry {
    Entry { quantity: price as u64, price, orders: 7, side, level, action }
}

/// A message that makes a book of so many rows a side: bids from 1.000 down, offers from 2.000 up, in steps of 10.
fn filled(code: u32, rows: u8) -> Vec<u8> {
    let row = |side: u16, level: u8| {
        let worse = 10 * i32::from(level - 1);
        entry(0, side, level, if side == 0 { 1_000 - worse } else { 2_000 + worse })
    };
    let rows: Vec<Entry> = (0..2).flat_map(|side| (1..=rows).map(move |level| row(side, level))).collect();
    book_message(code, &rows)
}

const LARGE: Size = Size { columns: 80, lines: 60 };

/// A repaint after each message, on a screen with room for ten rows a side.
fn repaints(messages: &[Vec<u8>], words: &str) -> Vec<Vec<Text>> {
    let mut desk = to_come(messages);
    (0..=messages.len() as u64).map(|time| desk.repaint(&asked(words), LARGE, time)).collect()
}

/// The rows that a frame flashes, each from its mark on.
fn flashed(frame: &[Text]) -> Vec<String> {
    let spans = marked(frame, "B!").into_iter().chain(marked(frame, "O!"));
    spans.map(|span| span.text.split_whitespace().collect::<Vec<_>>().join(" ")).collect()
}

/// The rows of a frame that have this mark.
fn marked(frame: &[Text], mark: &str) -> Vec<Span> {
    frame.iter().flat_map(|line| &line.spans).filter(|span| span.text.starts_with(mark)).cloned().collect()
}

/// The row that the last message makes a frame flash, behind a frame with both sides of 5 full.
fn flash(entries: &[Entry]) -> Vec<String> {
    let frames = repaints(&[filled(5, 10), book_message(5, entries)], "--codes 5");
    assert!(flashed(&frames[0]).is_empty() && flashed(&frames[1]).is_empty());
    flashed(&frames[2])
}

#[test]
fn a_row_that_falls_off_is_flashed_for_one_repaint() {
    for (side, old, mark) in [(0, "B! 0.910 910 7", "|B!"), (1, "O! 2.090 2,090 7", "|O!")] {
        for level in [1, 5, 10] {
            let worse = 10 * i32::from(level - 1) - 5;
            let new = entry(0, side, level, if side == 0 { 1_000 - worse } else { 2_000 + worse });
            let nothing = nominal(5, 1_500);
            let frames = repaints(&[filled(5, 10), book_message(5, &[new]), nothing], "--codes 5");
            let shown: Vec<Vec<String>> = frames.iter().map(|frame| flashed(frame)).collect();
            assert_eq!(shown, [vec![], vec![], vec![old.to_string()], vec![]], "level {}", level);
            // behind the side: under the tenth bid, over the tenth offer
            let painted = plain(&frames[2]);
            let at = painted.iter().position(|line| line.contains(mark)).expect("the row");
            let beside = if side == 0 { at - 1 } else { at + 1 };
            let place = |mark: &str| painted.iter().position(|line| line.contains(mark));
            let last = painted.iter().rposition(|line| line.contains("|B "));
            assert_eq!(Some(beside), if side == 0 { last } else { place("|O ") }, "{:#?}", painted);
        }
    }
}

/// The frame has its size, and no row, strip or badge stands elsewhere than without: borders give way.
#[test]
fn a_flashed_row_moves_no_other() {
    let new = [entry(0, 0, 1, 1_005), entry(0, 1, 1, 1_995)];
    for words in ["--codes 5", "--codes 5 --no-strips", "--codes 6,5,7"] {
        let messages = [filled(5, 10), book_message(5, &new)];
        let painted = plain(&repaints(&messages, words)[2]);
        let still = plain(&live(&messages, 2).frame(&asked(words), LARGE, 2));
        assert_eq!(painted.len(), still.len());
        let rows = |lines: &[String]| -> Vec<(usize, String)> {
            let is_row = |line: &String| line.contains("|B ") || line.contains("|O ") || line.contains("nominal");
            lines.iter().cloned().enumerate().filter(|(_, line)| is_row(line)).collect()
        };
        assert_eq!(rows(&painted), rows(&still), "{}", words);
        assert_eq!(painted.iter().filter(|line| line.contains("|B!") || line.contains("|O!")).count(), 2);
        assert!(painted.iter().any(|line| line.contains("| 5 ") && line.contains("green")), "{:#?}", painted);
    }
}

#[test]
fn a_row_that_was_deleted_is_not_flashed() {
    let delete = |side, level| entry(DELETE, side, level, 0);
    for side in 0..2 {
        let worst = if side == 0 { 905 } else { 2_095 };
        assert!(flash(&[delete(side, 10)]).is_empty());
        // another row takes its place: ten rows again, and still no level pushed it out
        assert!(flash(&[delete(side, 10), entry(0, side, 10, worst)]).is_empty());
        // pushed out, and then the side has nine
        let best = if side == 0 { 1_005 } else { 1_995 };
        assert!(flash(&[entry(0, side, 1, best), delete(side, 1)]).is_empty());
    }
    assert!(flash(&[entry(CHANGE, 0, 10, 910)]).is_empty());
}

#[test]
fn a_book_that_was_cleared_or_emptied_flashes_nothing() {
    let clear = Entry { action: CLEAR, ..Entry::default() };
    assert!(flash(&[clear]).is_empty());
    assert!(flash(&[]).is_empty());
    // one row was pushed out before
    assert!(flash(&[entry(0, 0, 1, 1_005), clear]).is_empty());
    assert!(flash(&[entry(0, 0, 1, 1_005), clear, entry(0, 0, 1, 50)]).is_empty());
}

#[test]
fn only_what_was_shown_is_flashed() {
    let new = |level, price| book_message(5, &[entry(0, 0, level, price)]);
    // nine rows: the new one is the tenth, and the next pushes out the ninth of before
    let frames = repaints(&[filled(5, 9), new(1, 1_005), new(1, 1_010)], "--codes 5");
    assert_eq!([2, 3].map(|at| flashed(&frames[at])), [vec![], vec!["B! 0.920 920 7".to_string()]]);
    // three in one repaint: the tenth row that was shown, and none of those that came and went between
    let three = [entry(0, 0, 10, 911), entry(0, 0, 10, 912), entry(0, 0, 10, 913)];
    assert_eq!(flash(&three), ["B! 0.910 910 7"]);
    // it was pushed out and is the tenth again
    assert!(flash(&[entry(0, 0, 10, 915), entry(DELETE, 0, 10, 0), entry(0, 0, 10, 910)]).is_empty());
    // the first frame, and one that is painted alone
    let messages = [filled(5, 10), new(1, 1_005)];
    assert!(flashed(&to_come(&messages).repaint(&asked("--codes 5"), LARGE, 2)).is_empty());
    assert!(flashed(&live(&messages, 2).frame(&asked("--codes 5"), LARGE, 2)).is_empty());
}

#[test]
fn a_side_that_does_not_show_its_tenth_row_flashes_none() {
    let messages = [filled(5, 10), book_message(5, &[entry(0, 0, 1, 1_005)])];
    let painted = |words: &str, before: Size, after: Size| {
        let mut desk = to_come(&messages);
        desk.repaint(&asked(words), before, 1);
        flashed(&desk.repaint(&asked(words), after, 2)).len()
    };
    let small = Size { columns: 80, lines: 20 };
    assert_eq!(painted("--codes 5", LARGE, LARGE), 1);
    assert_eq!(painted("--codes 5 --rows 9", LARGE, LARGE), 0);
    assert_eq!([painted("--codes 5", small, LARGE), painted("--codes 5", LARGE, small)], [0, 0]);
    assert_eq!(painted("--codes 6", LARGE, LARGE), 0);
}

/// Every panel for itself, both sides at once; what another book drops makes no row of this one flash that stands.
#[test]
fn each_panel_flashes_its_own_rows() {
    let both = [entry(0, 0, 3, 985), entry(0, 1, 9, 2_075)];
    let messages = [filled(5, 10), filled(6, 10), filled(7, 10), book_message(6, &both)];
    let frames = repaints(&messages, "--codes 5,6,7");
    assert_eq!(flashed(&frames[4]), ["B! 0.910 910 7", "O! 2.090 2,090 7"]);
    // panels of 36 columns, two beside each other: 6 is the second
    let painted = plain(&frames[4]);
    let flashes = painted.iter().filter_map(|line| line.find("|B!").or_else(|| line.find("|O!")));
    assert_eq!(flashes.collect::<Vec<_>>(), [36, 36]);
    assert!(painted.iter().take(30).any(|line| line.find("| 6 ") == Some(36)), "{:#?}", painted);
}

/// What was accepted before a refusal pushed out its rows all the same; they are old, as what stands is.
#[test]
fn rows_fall_off_before_a_refusal_too() {
    let new = book_message(5, &[entry(0, 0, 1, 1_005)]);
    let mut desk = to_come(&[filled(5, 10), new.clone(), new]);
    desk.repaint(&asked("--codes 5"), LARGE, 1);
    let frame = desk.repaint(&asked("--codes 5"), LARGE, 3);
    assert!(plain(&frame)[0].contains("an entry does not fit") && desk.is_over());
    assert_eq!(flashed(&frame), ["B!~ 0.910 910 7"]);
    // struck through on a terminal and in a picture, and nothing is reversed or has a ground of its side's colour
    let escaped: String = frame.iter().map(Text::escaped).collect();
    assert!(escaped.contains("\x1b[2;9mB!~") && !escaped.contains("\x1b[7;"), "{:?}", escaped);
    let drawn = picture(&frame, LARGE);
    let row = drawn.lines().find(|line| line.contains(">B!~")).expect("the row's words");
    assert!(row.contains("line-through") && !drawn.contains("#79b8ff"), "{}", row);
}

/// A flashed row is old exactly where the rows that stand are: refused, closed or silent, and not while filling.
#[test]
fn a_flashed_row_is_as_old_as_the_others() {
    let new = book_message(5, &[entry(0, 0, 1, 1_005), entry(0, 1, 1, 1_995)]);
    let cases = [
        (0, vec![], 2, Badge::Green),
        (101, vec![], 2, Badge::Filling),
        (0, vec![new.clone()], 3, Badge::Stale),
        (0, vec![session(1103, 6)], 3, Badge::Stale),
        (0, vec![], 9_000, Badge::Stale),
    ];
    for (status, behind, time, badge) in cases {
        let mut desk = logged_on(status, &[vec![filled(5, 10), new.clone()], behind].concat());
        desk.repaint(&asked("--codes 5"), LARGE, 1);
        let frame = desk.repaint(&asked("--codes 5"), LARGE, time);
        assert_eq!(first_corner(&frame), Some(badge), "status {}, {} ms", status, time);
        let old = badge == Badge::Stale;
        for (side, live, fallen) in [("B", Style::Bid, Style::FallenBid), ("O", Style::Offer, Style::FallenOffer)] {
            let styles = |sign: &str| -> Vec<Style> {
                marked(&frame, &format!("{}{}", side, sign)).iter().map(|span| span.style).collect()
            };
            let (stand, gone) = if old { ("~", "!~") } else { (" ", "! ") };
            assert_eq!(styles(stand), [if old { Style::Old } else { live }; 10], "{:?}", badge);
            assert_eq!(styles(gone), [if old { Style::Old } else { fallen }], "{:?}", badge);
        }
    }
}

/// Reversed on a terminal, on a ground of its side's colour in a picture.
#[test]
fn a_flashed_row_is_seen_on_a_terminal_and_in_a_picture() {
    let new = [entry(0, 0, 1, 1_005), entry(0, 1, 1, 1_995)];
    let frame = &repaints(&[filled(5, 10), book_message(5, &new)], "--codes 5")[2];
    let escaped: String = frame.iter().map(Text::escaped).collect();
    assert!(escaped.contains("\x1b[7;94mB!") && escaped.contains("\x1b[7;33mO!"));
    let drawn = picture(frame, LARGE);
    for (mark, colour) in [("B!", "#79b8ff"), ("O!", "#e3b341")] {
        let at = drawn.find(&format!(">{}", mark)).expect("the row's words");
        let ground = drawn[..at].lines().rev().nth(1).expect("what is drawn before them");
        assert!(ground.starts_with("<rect ") && ground.contains(colour), "{}", ground);
    }
}

/// In a morning of repaints every row that is flashed was the tenth of its side in the frame before, and is gone.
#[test]
fn the_rows_that_fall_off_in_the_morning() {
    let bytes = std::fs::read("../../captures/morning.bin").expect("the capture");
    let count: usize = [1, 3, 5, 11, 16].iter().map(|code| fallen_of(&bytes, &format!("--codes {}", code))).sum();
    assert!(count > 5, "{} rows", count);
}

/// How many rows of one book are flashed in the morning.
fn fallen_of(bytes: &[u8], words: &str) -> usize {
    let mut desk = Desk::new(3_000, Capture::new(bytes.to_vec())).expect("listed");
    let (mut time, mut before, mut count) = (desk.begins(), Vec::new(), 0);
    let rows = |lines: &[String], mark: &str| -> Vec<String> {
        lines.iter().filter_map(|line| Some(line.strip_prefix(mark)?.to_string())).collect()
    };
    while time < desk.ends() {
        let now = plain(&desk.repaint(&asked(words), Size { columns: 27, lines: 40 }, time));
        for (mark, fallen) in [("|B ", "|B!"), ("|O ", "|O!")] {
            for row in rows(&now, fallen) {
                let shown = rows(&before, mark);
                let tenth = if mark == "|B " { shown.last() } else { shown.first() };
                assert_eq!((shown.len(), tenth), (10, Some(&row)), "{:#?}", now);
                assert!(rows(&now, mark).len() == 10 && !rows(&now, mark).contains(&row), "{:#?}", now);
                count += 1;
            }
        }
        before = now;
        time += 100;
    }
    count
}

/// However many frames come before it, a frame shows the same: each takes what was sent since the one before.
#[test]
fn a_frame_takes_all_that_was_sent_since_the_one_before() {
    let bytes = std::fs::read("../../captures/morning.bin").expect("the capture");
    let (at_once, end) = morning(12_003);
    for step in [1, 33, 500, 11_000] {
        let mut desk = Desk::new(3_000, Capture::new(bytes.clone())).expect("listed");
        let mut time = desk.begins();
        while time < end {
            desk.hear(time);
            time = end.min(time + step);
        }
        desk.hear(end);
        for time in [end, end + 2_000, end + 3_500] {
            let (painted, wanted) = (frame(&desk, "", 132, 60, time), frame(&at_once, "", 132, 60, time));
            assert_eq!(painted, wanted, "steps of {} ms", step);
        }
    }
}

/// A unit that has not come whole is handed in, and says nothing of when it was sent: it is not heard.
#[test]
fn a_torn_unit_tells_no_time() {
    let sent = |seq: u32, time: u64| {
        let mut unit = unit(seq, 0, &message(1105, 4));
        unit[12..20].copy_from_slice(&(time * 1_000_000).to_le_bytes());
        unit
    };
    let units = [sent(1, 5_000), sent(2, 5_900)].concat();
    for length in 24..units.len() {
        let mut capture = Capture::new(units[..length].to_vec());
        let wanted = if length < 44 { &units[..24] } else { &units[..length] };
        assert_eq!(capture.due(9_000), Some((wanted, 5_000)), "{} bytes", length);
        assert_eq!(capture.due(9_000), None);
    }
    assert_eq!(Capture::new(units.clone()).due(9_000), Some((&units[..], 5_900)));
}

/// What stands in a panel's strip.
fn strip_of(painted: &[String]) -> Vec<String> {
    let from = painted.iter().position(|line| line.contains("nominal") || line.contains("nm ")).expect("a strip");
    painted[from..].iter().take_while(|line| !line.contains("+-")).map(|line| line.replace('|', "")).collect()
}

/// Under a book stands what came last of each value, and a dash for what has not come.
#[test]
fn a_strip_stands_under_its_book() {
    let bid = Entry { quantity: 4_000, price: 9_730, orders: 2, level: 1, ..Entry::default() };
    let messages = [
        book_message(5, &[bid]),
        nominal(5, 9_730),
        equilibrium(5, -20, 120_400),
        reference(5, [9_700, 8_730, 10_670]),
        imbalance(5, b'B', 4_000),
        closing(5, 9_750),
        nominal(5, 9_740),
        imbalance(5, b' ', 77),
    ];
    let none = [" nominal        - closing        -", " IEP            - volume         -"];
    let at = |time| strip_of(&frame(&live(&messages, time), "--codes 5", 80, 24, time));
    assert_eq!(at(1)[..2], none);
    assert_eq!(at(1)[2..], [" ref            - imbal          -", " lower          - upper          -"]);
    assert_eq!(at(2)[0], " nominal    9.730 closing        -");
    assert_eq!(at(3)[1], " IEP       -0.020 volume   120,400");
    assert_eq!(at(4)[2..], [" ref        9.700 imbal          -", " lower      8.730 upper     10.670"]);
    assert_eq!(at(5)[2], " ref        9.700 imbal    B 4,000");
    assert_eq!(at(6)[0], " nominal    9.730 closing    9.750");
    assert_eq!(at(7)[0], " nominal    9.740 closing    9.750");
    assert_eq!(at(8)[2], " ref        9.700 imbal        n/a");
    // the book above it is as it was, and six of them have room for short names
    let painted = frame(&live(&messages, 8), "--codes 5,6,7,8,9,10", 80, 24, 8);
    assert!(painted.join(" ").contains("|B     9.730  4000   2 |"), "{:#?}", painted);
    assert_eq!(strip_of(&painted)[1][..22], *" ep  -0.020 ev 120,400");
}

/// A code may have a strip and no book; one with neither has dashes, and no old ones.
#[test]
fn a_strip_needs_no_book() {
    let desk = live(&[nominal(5, 9_730)], 1);
    let painted = frame(&desk, "--codes 5,6", 80, 24, 1).join(" ");
    assert!(painted.matches("no book").count() == 2 && painted.contains("nominal    9.730"), "{}", painted);
    let stale = frame(&desk, "--codes 5,6", 80, 24, 9_000).join(" ");
    assert!(stale.contains("|~nominal    9.730") && stale.contains("| nominal        -"), "{}", stale);
    assert!(frame(&desk, "", 80, 24, 1).join(" ").contains("0 of 0 books"));
}

/// A number too long for its cell is never cut.
#[test]
fn a_value_that_does_not_fit_is_not_shown_in_part() {
    let messages = [equilibrium(5, i32::MIN, u64::MAX), imbalance(5, b'S', u64::MAX), closing(5, i32::MAX)];
    let strip = strip_of(&frame(&live(&messages, 3), "--codes 5", 80, 24, 3)).join(" ");
    assert_eq!(strip.matches("########").count(), 2, "{}", strip);
    assert!(strip.contains("volume      2e19") && strip.contains("imbal     S 2e19"), "{}", strip);
}

/// All panels first, then their strips; without them, more rows.
#[test]
fn strips_give_way_to_panels_and_on_demand() {
    let (desk, time) = morning(12_000);
    let shown = |words: &str, columns, lines| {
        let painted = frame(&desk, words, columns, lines, time).join(" ");
        (painted.matches(" green |").count(), painted.matches(" nm ").count(), painted.matches("|B ").count())
    };
    assert_eq!(shown("", 80, 24), (6, 6, 6));
    assert_eq!(shown("--no-strips", 80, 24), (6, 0, 18));
    assert_eq!(shown("", 80, 23), (6, 0, 18));
}

#[test]
fn it_is_over_after_lost() {
    assert!(lost().0.is_over());
    assert!(!morning(60_000).0.is_over());
}

#[test]
fn plain_frames_have_no_escapes_and_the_others_are_the_same_words() {
    let (desk, time) = morning(12_000);
    for line in desk.frame(&asked(""), Size { columns: 132, lines: 60 }, time) {
        assert!(line.plain().is_ascii() && !line.plain().contains('\x1b'));
        let mut words = line.escaped();
        while let Some(at) = words.find('\x1b') {
            let end = words[at..].find('m').expect("the end of an escape");
            words.replace_range(at..=at + end, "");
        }
        assert_eq!(words, line.spans.iter().map(|span| span.text.as_str()).collect::<String>());
    }
}

#[test]
fn a_picture_has_every_word_of_its_frame() {
    let (desk, time) = morning(12_000);
    let size = Size { columns: 80, lines: 24 };
    let painted = desk.frame(&asked(""), size, time);
    let drawn = picture(&painted, size).replace("&#160;", " ");
    for span in painted.iter().flat_map(|line| &line.spans).filter(|span| span.style != Style::Border) {
        assert!(drawn.contains(span.text.trim()), "{:?} is not in the picture", span);
    }
}

#[test]
fn what_is_not_known_is_refused_by_name() {
    assert_eq!(refused("--colour"), "--colour is not known (see --help)");
    assert_eq!(refused("-x 5"), "-x is not known (see --help)");
    assert_eq!(refused("a.bin b.bin"), "b.bin is a file too many (see --help)");
    assert_eq!(refused("--rows 11"), "--rows 11: wants a number from 1 to 10");
    assert_eq!(refused("--svg"), "--svg wants a value (see --help)");
    assert_eq!(asked("-").file.as_deref(), Some("-"));
}
