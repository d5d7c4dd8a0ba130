//! What a script works on: one feed, the tables and the holding buffer lent to it, through the C calls.

use crate::words::Words;
use mmdh::raw::{self, Lent, MmdhFeed, MmdhGiven, MmdhHeard, MmdhLine};

/// One feed, once there is one, the tables of its books and of their strips, and what scraps wait in.
#[derive(Default)]
pub struct Desk {
    feed: Option<MmdhFeed>,
    tables: Tables,
    hold: Option<Hold>,
    scraps: u64,
}

/// The tables that are lent.
#[derive(Clone, Default, PartialEq, Eq)]
struct Tables {
    books: Vec<u64>,
    strips: Vec<u64>,
}

impl Tables {
    fn lend(&mut self) -> Lent<'_> {
        Lent { books: &mut self.books, strips: &mut self.strips }
    }
}

/// A holding buffer, how many bytes wait at its front, and whether what comes is dropped.
struct Hold {
    bytes: Vec<u8>,
    held: u64,
    dropping: u64,
}

/// All that a scrap works on.
#[derive(Clone, PartialEq, Eq)]
struct Scrapped {
    line: MmdhLine,
    tables: Tables,
    hold: Vec<u8>,
}

impl Scrapped {
    /// One call; the line goes on with what it hands back.
    fn call(&mut self, scrap: &[u8], allowed: u64, now: u64) -> MmdhHeard {
        let heard = raw::line_scrap(self.line, self.tables.lend(), &mut self.hold, scrap, allowed, now);
        self.line = heard.line;
        heard
    }

    /// Unit by unit, up to a refusal or what waits; the answers, and the rows dropped.
    fn by_units(&mut self, scrap: &[u8], now: u64) -> (Vec<u64>, u64) {
        let (mut answers, mut dropped, mut rest) = (Vec::new(), 0, scrap);
        loop {
            let heard = self.call(rest, 1, now);
            dropped += heard.dropped;
            if heard.said == 0 {
                return (answers, dropped);
            }
            answers.push(heard.answer);
            if heard.answer > 2 {
                return (answers, dropped);
            }
            rest = &rest[heard.used as usize..];
        }
    }
}

impl Desk {
    /// Runs one line; what it prints, if it prints anything.
    pub fn run(&mut self, mut words: Words<'_>) -> Result<Option<String>, String> {
        let printed = match words.operation() {
            "table" => self.table(&mut words).map(|()| None),
            "poke" => poke(&mut self.tables.books, &mut words).map(|()| None),
            "pokestrip" => poke(&mut self.tables.strips, &mut words).map(|()| None),
            "feed" => self.made(&mut words).map(|()| None),
            "new" => self.new_feed(&mut words).map(Some),
            "connect" => self.connect(&mut words).map(Some),
            "arrive" => self.arrive(&mut words).map(Some),
            "frame" => self.frame(&mut words).map(Some),
            "cut" => self.cut(&mut words).map(Some),
            "hold" => self.held(&mut words).map(|()| None),
            "resize" => self.resize(&mut words).map(|()| None),
            "hconnect" => self.line_connect(&mut words).map(Some),
            "scrap" => self.scrap(&mut words).map(Some),
            "badge" => self.badge(&mut words).map(Some),
            "badgec" => badge_of_numbers(&mut words).map(Some),
            "row" => self.row(&mut words).map(Some),
            "strip" => self.strip(&mut words).map(Some),
            "password" => password(&mut words).map(Some),
            "digest" => words.end().map(|()| Some(format!("digest {}", self.each_table(digest).join(" ")))),
            "words" => words.end().map(|()| Some(self.each_table(set_words).join("\n"))),
            unknown => Err(format!("{} is no operation", unknown)),
        }?;
        Ok(printed)
    }

    /// Strips that are not named have no words. A tape may be named; it is not lent.
    fn table(&mut self, words: &mut Words<'_>) -> Result<(), String> {
        let books = words.length("BOOKS")?;
        let strips = if words.left() > 0 { words.length("STRIPS")? } else { 0 };
        if words.left() > 0 {
            words.length("TAPE")?;
        }
        words.end()?;
        self.tables = Tables { books: vec![0; books], strips: vec![0; strips] };
        Ok(())
    }

    /// What is told of each table that is lent.
    fn each_table(&self, told: impl Fn(&[u64]) -> String) -> [String; 2] {
        [told(&self.tables.books), told(&self.tables.strips)]
    }

    fn made(&mut self, words: &mut Words<'_>) -> Result<(), String> {
        let feed = MmdhFeed {
            phase: words.number("PHASE")?,
            next: words.number("NEXT")?,
            internal: words.number("INTERNAL")?,
            heard: words.number("HEARD")?,
            limit: words.number("LIMIT")?,
            whole: words.number("WHOLE")?,
            fresh: words.number("FRESH")?,
        };
        words.end()?;
        self.feed = Some(feed);
        Ok(())
    }

    fn feed(&self) -> Result<MmdhFeed, String> {
        self.feed.ok_or_else(|| "there is no feed yet: a line 'new' or 'feed' comes first".to_string())
    }

    /// Goes on with the feed that was handed back.
    fn after(&mut self, name: &str, given: MmdhGiven) -> String {
        self.feed = Some(given.feed);
        format!("{} {} {}", name, given.answer, numbers(&given.feed))
    }

    fn new_feed(&mut self, words: &mut Words<'_>) -> Result<String, String> {
        let limit = words.number("LIMIT")?;
        words.end()?;
        Ok(self.after("new", raw::new(limit)))
    }

    fn connect(&mut self, words: &mut Words<'_>) -> Result<String, String> {
        let (resuming, now) = (words.number("RESUMING")?, words.number("NOW")?);
        words.end()?;
        let given = raw::connect(self.feed()?, resuming, now);
        Ok(self.after("connect", given))
    }

    fn arrive(&mut self, words: &mut Words<'_>) -> Result<String, String> {
        let (now, bytes) = (words.number("NOW")?, words.bytes("BYTES")?);
        words.end()?;
        let given = raw::arrive(self.feed()?, self.tables.lend(), &bytes, now);
        self.feed = Some(given.feed);
        Ok(format!("arrive {} {} {} {}", given.answer, given.used, numbers(&given.feed), given.dropped))
    }

    fn frame(&mut self, words: &mut Words<'_>) -> Result<String, String> {
        let (now, allowed, bytes) = (words.number("NOW")?, words.number("ALLOWED")?, words.bytes("BYTES")?);
        words.end()?;
        let frame = raw::arrive_frame(self.feed()?, self.tables.lend(), &bytes, allowed, now);
        self.feed = Some(frame.feed);
        let counts = format!("{} {} {}", frame.answer, frame.accepted, frame.used);
        Ok(format!("frame {} {} {}", counts, numbers(&frame.feed), frame.dropped))
    }

    fn cut(&mut self, words: &mut Words<'_>) -> Result<String, String> {
        let (now, seq, internal) = (words.number("NOW")?, words.short("SEQ")?, words.short("INTERNAL")?);
        let message = words.bytes("BYTES")?;
        words.end()?;
        let given = raw::arrive_cut(self.feed()?, self.tables.lend(), seq, internal, &message, now);
        Ok(format!("{} {}", self.after("cut", given), given.dropped))
    }

    /// A new holding buffer: nothing waits and nothing is dropped.
    fn held(&mut self, words: &mut Words<'_>) -> Result<(), String> {
        let size = words.size("SIZE")?;
        words.end()?;
        self.hold = Some(Hold { bytes: vec![0; size], held: 0, dropping: 0 });
        Ok(())
    }

    /// A buffer of another length with the same bytes, as far as they have room; as many wait as before.
    fn resize(&mut self, words: &mut Words<'_>) -> Result<(), String> {
        let size = words.size("SIZE")?;
        words.end()?;
        self.hold()?.bytes.resize(size, 0);
        Ok(())
    }

    fn hold(&mut self) -> Result<&mut Hold, String> {
        self.hold.as_mut().ok_or_else(|| "there is no holding buffer yet: a line 'hold' comes first".to_string())
    }

    fn line(&mut self) -> Result<MmdhLine, String> {
        let (feed, hold) = (self.feed()?, self.hold()?);
        Ok(MmdhLine { feed, held: hold.held, dropping: hold.dropping })
    }

    fn line_connect(&mut self, words: &mut Words<'_>) -> Result<String, String> {
        let (resuming, now) = (words.number("RESUMING")?, words.number("NOW")?);
        words.end()?;
        let line = self.line()?;
        let linked = raw::line_connect(line, &self.hold()?.bytes, resuming, now);
        self.goes_on(linked.line)?;
        Ok(format!("hconnect {} {}", linked.answer, numbers(&linked.line.feed)))
    }

    /// The line after a call.
    fn goes_on(&mut self, line: MmdhLine) -> Result<(), String> {
        self.feed = Some(line.feed);
        let hold = self.hold()?;
        hold.held = line.held;
        hold.dropping = line.dropping;
        Ok(())
    }

    /// Unit by unit. Every other time all units at once, on copies, must end in the same.
    fn scrap(&mut self, words: &mut Words<'_>) -> Result<String, String> {
        let (now, bytes) = (words.number("NOW")?, words.bytes("BYTES")?);
        words.end()?;
        let before = Scrapped { line: self.line()?, tables: self.tables.clone(), hold: self.hold()?.bytes.clone() };
        let mut after = before.clone();
        let (answers, dropped) = after.by_units(&bytes, now);
        self.scraps += 1;
        if self.scraps % 2 == 0 {
            at_once(before, &bytes, now, (&answers, dropped), &after)?;
        }
        let line = after.line;
        self.tables = after.tables;
        self.hold()?.bytes = after.hold;
        self.goes_on(line)?;
        let listed: Vec<String> = answers.iter().map(u64::to_string).collect();
        let listed = if listed.is_empty() { "-".to_string() } else { listed.join(",") };
        Ok(format!("scrap {} {} {} {} {}", listed, numbers(&line.feed), line.held, line.dropping, dropped))
    }

    fn badge(&self, words: &mut Words<'_>) -> Result<String, String> {
        let now = words.number("NOW")?;
        words.end()?;
        let feed = self.feed()?;
        Ok(format!("badge {}", raw::badge(feed.phase, feed.heard, feed.limit, now)))
    }

    fn row(&self, words: &mut Words<'_>) -> Result<String, String> {
        let (code, side, rank) = (words.number("CODE")?, words.number("SIDE")?, words.number("RANK")?);
        words.end()?;
        let row = raw::read_row(&self.tables.books, code, side, rank);
        Ok(format!("row {} {} {} {}", row.answer, row.price, row.quantity, row.orders))
    }

    fn strip(&self, words: &mut Words<'_>) -> Result<String, String> {
        let code = words.number("CODE")?;
        words.end()?;
        let strip = raw::read_strip(&self.tables.strips, code);
        let auction = format!("{} {} {}", strip.nominal, strip.iep, strip.iev);
        let band = format!("{} {} {}", strip.reference, strip.lower, strip.upper);
        let rest = format!("{} {} {}", strip.direction, strip.imbalance, strip.closing);
        Ok(format!("strip {} {} {} {} {}", strip.answer, strip.flags, auction, band, rest))
    }
}

/// All units of a scrap in one call, where unit by unit they got these answers, dropped so many rows and ended so.
fn at_once(
    mut all: Scrapped,
    scrap: &[u8],
    now: u64,
    (answers, dropped): (&[u64], u64),
    after: &Scrapped,
) -> Result<(), String> {
    let heard = all.call(scrap, u64::MAX, now);
    let accepted = answers.iter().filter(|&&answer| answer <= 2).count() as u64;
    let refused = answers.last().copied().filter(|&answer| answer > 2);
    let wanted = (accepted, refused.is_some(), refused.unwrap_or(0), scrap.len() as u64, dropped);
    let got = (heard.accepted, heard.said != 0, heard.answer, heard.used, heard.dropped);
    if got == wanted && all == *after {
        return Ok(());
    }
    Err(format!(
        "scrap: in one call it ends elsewhere than unit by unit: (accepted, said, answer, used, dropped) {:?} and {:?}, {:?} and {:?}",
        got, wanted, all.line, after.line
    ))
}

fn poke(table: &mut [u64], words: &mut Words<'_>) -> Result<(), String> {
    let (at, value) = (words.number("AT")?, words.number("VALUE")?);
    words.end()?;
    let length = table.len();
    let word = usize::try_from(at).ok().and_then(|at| table.get_mut(at));
    let missing = || format!("{}: there is no word {} in a table of {}", words.operation(), at, length);
    *word.ok_or_else(missing)? = value;
    Ok(())
}

fn badge_of_numbers(words: &mut Words<'_>) -> Result<String, String> {
    let (phase, heard) = (words.number("PHASE")?, words.number("HEARD")?);
    let (limit, now) = (words.number("LIMIT")?, words.number("NOW")?);
    words.end()?;
    Ok(format!("badgec {}", raw::badge(phase, heard, limit, now)))
}

/// What is said of a new password: its number, or the name of the item that it fails.
fn password(words: &mut Words<'_>) -> Result<String, String> {
    const ITEMS: [&str; 6] = ["length", "upper", "lower", "digit", "special", "history"];
    let edition = match words.word("EDITION")? {
        "1.11" => 111,
        "1.36" => 136,
        _ => return Err("password: EDITION is neither 1.11 nor 1.36".to_string()),
    };
    let (new, lengths) = (words.bytes("the bytes of NEW")?, words.numbers("LENGTHS", "length")?);
    let history = words.bytes("the bytes of HISTORY")?;
    words.end()?;
    let said = raw::password(edition, &new, &lengths, &history);
    let item = ITEMS.iter().zip(1..).find(|(_, number)| *number == said);
    Ok(format!("password {}", item.map_or_else(|| said.to_string(), |(item, _)| item.to_string())))
}

fn numbers(feed: &MmdhFeed) -> String {
    let numbers = [feed.phase, feed.next, feed.internal, feed.heard, feed.limit, feed.whole, feed.fresh];
    numbers.map(|number| number.to_string()).join(" ")
}

/// A table's digest, over every word of what is lent.
fn digest(table: &[u64]) -> String {
    let mix = |sum: u64, word: &u64| (sum ^ word).wrapping_mul(0x100_0000_01b3);
    format!("{:016x}", table.iter().fold(0xcbf2_9ce4_8422_2325, mix))
}

/// The words of a table that are not zero, each with its place.
fn set_words(table: &[u64]) -> String {
    let set = table.iter().enumerate().filter(|(_, &word)| word != 0);
    set.fold("words".to_string(), |line, (at, word)| format!("{} {}:{}", line, at, word))
}
