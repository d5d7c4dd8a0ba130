//! What is painted: a line that follows a capture, and a frame of its panels at a time.

use crate::capture::{clock, Capture};
use crate::fallen::{Tenths, FULL};
use crate::layout::{layout, Asked, Layout, Size};
use crate::options::Options;
use crate::panel::{self, Panel};
use crate::text::{Style, Text};
use mmdh::{Connect, Line, Refused};

/// Room for every code that the table can have.
const SLOTS: usize = 4_096;

/// Most panels that do not fit and are named.
const NAMED: usize = 6;

pub struct Desk {
    line: Line,
    capture: Capture,
    /// The tenth rows that the last repaint showed.
    shown: Tenths,
}

impl Desk {
    pub fn new(limit: u64, capture: Capture) -> Result<Desk, Refused> {
        let mut line = Line::new(limit, SLOTS)?;
        line.connect(Connect::Fresh, capture.begins())?;
        Ok(Desk { line, capture, shown: Tenths::default() })
    }

    pub fn begins(&self) -> u64 {
        self.capture.begins()
    }

    /// When nothing more can change: the last unit was sent and the limit has passed since.
    pub fn ends(&self) -> u64 {
        self.capture.ends().saturating_add(self.line.feed().limit()).saturating_add(1)
    }

    /// Everything that has come by this time, in one call at the time of the newest whole unit; how many rows it pushed out.
    /// What is refused is the end of it: the line says so, and why.
    pub fn hear(&mut self, time: u64) -> u64 {
        let before = self.line.dropped();
        if let Some((units, sent)) = self.capture.due(time) {
            let _ = self.line.hear_frame(units, u64::MAX, sent);
        }
        self.line.dropped() - before
    }

    /// One repaint: what has come by this time, and a frame of it. Where it pushed out rows, a tenth row that the repaint before
    /// showed is flashed, if its side has ten rows again and none of its price. Where it pushed out none, no row is: one that is
    /// gone was deleted.
    pub fn repaint(&mut self, options: &Options, size: Size, time: u64) -> Vec<Text> {
        let dropped = self.hear(time);
        let fallen = if dropped > 0 { self.shown.gone(self.line.books()) } else { Tenths::default() };
        let (frame, shown) = self.painted(options, size, time, &fallen);
        self.shown = shown;
        frame
    }

    /// Whether nothing can change any more but the time: after Lost and Closed. A line that only drops may still be green.
    pub fn is_over(&self) -> bool {
        !self.line.feed().is_open()
    }

    /// A frame no wider and no higher than the size: badge and reason first, then the rest as far as there is room.
    pub fn frame(&self, options: &Options, size: Size, time: u64) -> Vec<Text> {
        self.painted(options, size, time, &Tenths::default()).0
    }

    /// A frame with these rows flashed, and the tenth rows that it shows. Neither is anything where sides have fewer rows on the
    /// screen: the tenth is not among them.
    fn painted(&self, options: &Options, size: Size, time: u64, fallen: &Tenths) -> (Vec<Text>, Tenths) {
        let mut lines = self.head(size, time);
        let codes = self.codes(options);
        let room = size.lines.saturating_sub(lines.len());
        let (info, layout) = self.arranged(options, &codes, Size { lines: room, ..size }, time);
        match lines.last_mut() {
            Some(last) if room == 0 => {
                *last = std::mem::take(last).with(" ", Style::Plain).with(info.join(" "), Style::Plain)
            }
            _ => lines.extend(info.into_iter().map(|line| Text::of(line, Style::Plain))),
        }
        let codes = &codes[..layout.shown];
        let (fallen, shown) = match layout.rows {
            FULL => (fallen.clone(), Tenths::of(self.line.books(), codes.iter().flatten().copied())),
            _ => Default::default(),
        };
        lines.extend(self.panels(codes, &layout, time, &fallen));
        lines.truncate(size.lines);
        (lines.into_iter().map(|line| line.cut(size.columns)).collect(), shown)
    }

    /// The lines of information and the layout of the panels below them, both in the room there is.
    fn arranged(&self, options: &Options, codes: &[Option<u64>], room: Size, time: u64) -> (Vec<String>, Layout) {
        let wanted = options.wanted();
        let asked =
            Asked { panels: wanted, more: codes.len() - wanted, rows: options.rows, strips: !options.no_strips };
        let mut kept = 1;
        loop {
            let layout = layout(asked, Size { lines: room.lines.saturating_sub(kept), ..room });
            let shown = codes[..layout.shown].iter().flatten();
            let info =
                self.info(shown.filter(|&&code| self.line.books().codes().any(|book| book == code)).count(), time);
            let lines = wrap(0, &(info + &missing(codes, layout.shown, wanted)), room.columns);
            if lines.len() <= kept || kept >= room.lines {
                return (lines, layout);
            }
            kept += 1;
        }
    }

    /// The badge, and the reason in full; shorter words only where all lines together are too few for it.
    fn head(&self, size: Size, time: u64) -> Vec<Text> {
        let reason = self.line.reason(time);
        let label = panel::label(reason.badge(), size.columns);
        let why = reason.why.to_string();
        let (short, shortest) = if reason.dropping.is_some() && reason.loss.is_none() {
            (format!("{}, dropping", why), "dropping".to_string())
        } else {
            (why.clone(), why)
        };
        let said = [reason.to_string(), short, shortest, String::new()];
        let wrapped = said.iter().map(|words| wrap(label.chars().count(), words, size.columns));
        let fitting = wrapped.into_iter().find(|lines| lines.len() <= size.lines.max(1)).unwrap_or_default();
        let mut lines = fitting.into_iter().map(|line| Text::of(line, Style::Strong));
        let first = Text::of(label, Style::Corner(reason.badge())).then(lines.next().unwrap_or_default());
        std::iter::once(first).chain(lines).collect()
    }

    /// The countdown, the limit, the time of day, and how many books there are.
    fn info(&self, shown: usize, time: u64) -> String {
        let reason = self.line.reason(time);
        let seconds = |milliseconds: u64| format!("{:.1} s", milliseconds as f64 / 1_000.0);
        let left = reason.lasts().map_or(String::new(), |left| format!("stale in {}, ", seconds(left)));
        let books = self.line.books().codes().count();
        format!("{}limit {}, {}, {} of {} books", left, seconds(reason.limit), clock(time), shown, books)
    }

    /// The codes asked for, or all that have a slot, in slot order; no code for a panel that waits for one.
    fn codes(&self, options: &Options) -> Vec<Option<u64>> {
        let mut codes: Vec<Option<u64>> = options.codes.iter().map(|&code| Some(code)).collect();
        if codes.is_empty() {
            codes.extend(self.line.books().codes().map(Some));
            codes.truncate(options.panels.unwrap_or(codes.len()));
            codes.resize(codes.len().max(options.wanted()), None);
        }
        codes
    }

    /// As many panels beside each other as the layout says, the others in bands below.
    fn panels(&self, codes: &[Option<u64>], layout: &Layout, time: u64, fallen: &Tenths) -> Vec<Text> {
        let badge = self.line.badge(time);
        let mut lines = Vec::new();
        for band in codes.chunks(layout.across) {
            let panels = band.iter().map(|&code| Panel::new(&self.line, code, badge, fallen));
            let (columns, rows, strips) = (layout.columns, layout.rows, layout.strips);
            let columns: Vec<Vec<Text>> = panels.map(|panel| panel.lines(columns, rows, strips)).collect();
            let side_by_side =
                |at: usize| columns.iter().fold(Text::default(), |line, column| line.then(column[at].clone()));
            lines.extend((0..panel::height(layout.columns, rows, strips)).map(side_by_side));
        }
        lines
    }
}

/// The panels that were asked for and have no room, in words; the first of them by their codes.
fn missing(codes: &[Option<u64>], shown: usize, wanted: usize) -> String {
    if shown >= wanted {
        return String::new();
    }
    let named: String = codes[shown..wanted].iter().flatten().take(NAMED).map(|code| format!(" {}", code)).collect();
    format!(", {} of {} panels do not fit{}", wanted - shown, wanted, named)
}

/// Words over as many lines as they need; on the first line so many signs are taken already.
fn wrap(taken: usize, words: &str, width: usize) -> Vec<String> {
    let mut lines = vec![String::new()];
    let mut at = taken;
    let words: Vec<Vec<char>> = words.split_whitespace().map(|word| word.chars().collect()).collect();
    for part in words.iter().flat_map(|word| word.chunks(width.max(1))) {
        if at > 0 && at + 1 + part.len() > width {
            lines.push(String::new());
            at = 0;
        }
        let space = usize::from(at > 0);
        let line = lines.last_mut().expect("there is a first line");
        line.extend(std::iter::repeat(' ').take(space));
        line.extend(part);
        at += space + part.len();
    }
    lines
}
