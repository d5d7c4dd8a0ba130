//! Writes a capture: one connection's bytes of a believable morning, the same every time, and beside it their times.
//! Hub up about six, books and the price strips under them fill, badges go green; some books are emptied, once the line
//! falls quiet, and in the end for good.

#![forbid(unsafe_code)]

use exchange::market::Market;
use exchange::{about, header, message, refresh_complete, session};
use std::path::Path;
use std::process::exit;

const SEED: u64 = 600;
const FILE: &str = "captures/morning.bin";
/// Six in the morning in Hong Kong, in milliseconds since 1970.
const HUB_UP: u64 = 1_772_402_400_000;
/// The last internal number that the refresh stands for.
const REFRESHED: u32 = 58_001;

/// Codes and the middle of their prices, in thousandths.
#[rustfmt::skip]
const LISTED: [(u32, i32); 48] = [
    (1, 52_300), (2, 66_450), (3, 6_530), (5, 88_300), (11, 106_200), (16, 92_350), (27, 38_250), (66, 27_350),
    (101, 8_120), (175, 17_480), (241, 4_960), (267, 9_870), (285, 41_150), (288, 7_430), (291, 26_900),
    (316, 121_300), (322, 12_860), (386, 4_510), (388, 391_600), (669, 99_150), (688, 13_940), (700, 512_500),
    (762, 8_730), (823, 41_350), (836, 19_660), (857, 7_840), (883, 18_920), (939, 7_620), (941, 83_450),
    (968, 3_180), (981, 47_350), (992, 10_440), (1038, 52_750), (1044, 22_950), (1088, 33_450), (1093, 6_120),
    (1109, 28_200), (1113, 35_650), (1177, 5_240), (1211, 98_750), (1299, 66_300), (1398, 5_870), (1810, 53_200),
    (2318, 54_100), (2800, 24_660), (3690, 168_500), (3988, 4_410), (9988, 119_300),
];

/// How long the recorder listens after the last unit.
const AFTER: u64 = 5_000;

/// A line: what has been sent so far, and when.
struct Line {
    bytes: Vec<u8>,
    /// Times, and how many bytes came at each.
    times: Vec<(u64, usize)>,
    seq: u32,
    internal: u32,
    time: u64,
}

impl Line {
    fn wait(&mut self, milliseconds: u64) {
        self.time += milliseconds;
    }

    fn push(&mut self, seq: u32, internal: u32, message: &[u8]) {
        self.bytes.extend_from_slice(&header(seq, internal, message.len(), self.time * 1_000_000));
        self.bytes.extend_from_slice(message);
        let length = exchange::HEADER + message.len();
        match self.times.last_mut() {
            Some((time, bytes)) if *time == self.time => *bytes += length,
            _ => self.times.push((self.time, length)),
        }
    }

    /// The capture's times, line by line (docs/CAPTURES.md).
    fn recorded(&self) -> String {
        let head = format!("# one connection of a morning: when its bytes came\n{} connect fresh\n", HUB_UP);
        let lines = self.times.iter().map(|(time, bytes)| format!("{} bytes {}\n", time, bytes));
        head + &lines.collect::<String>() + &format!("{} end\n", self.time + AFTER)
    }

    /// A counted message without an internal number.
    fn send(&mut self, message: &[u8]) {
        self.seq += 1;
        self.push(self.seq, 0, message);
    }

    /// A counted message with the next internal number; these have gaps.
    fn send_live(&mut self, message: &[u8], gap: u32) {
        self.seq += 1;
        self.internal += 1 + gap;
        self.push(self.seq, self.internal, message);
    }

    /// A header with nothing behind it, and the number of the message before.
    fn heartbeat(&mut self) {
        self.push(self.seq, 0, &[]);
    }
}

/// SendKey, and a logon response that calls for a refresh.
fn log_on(line: &mut Line) {
    line.wait(120);
    line.send(&message(1105, 532));
    line.wait(480);
    let mut response = session(1102, 101);
    response[4] = 2;
    line.send(&response);
    line.wait(300);
    line.send(&session(1202, 0));
}

/// The snapshot: what is listed, then the books and their prices, then its end.
fn refresh(line: &mut Line, market: &mut Market) {
    for _ in 0..4 {
        line.send(&message(10, 40));
    }
    for k in 0..market.len() {
        line.wait(8);
        line.send(&about(11, 544, market.code(k)));
    }
    line.send(&message(20, 32));
    for k in 0..market.len() {
        line.wait(50);
        for side in 0..2 {
            let rows = 7 + market.dice().place(4);
            let snapshot = market.snapshot(k, side, rows);
            line.send(&snapshot);
        }
        prices(line, market, k);
    }
    line.wait(60);
    line.internal = REFRESHED;
    line.send(&refresh_complete(REFRESHED));
}

/// The latest prices of one code; one code in three takes no part in the auction.
fn prices(line: &mut Line, market: &mut Market, k: usize) {
    let (nominal, in_auction) = (market.nominal(k), k % 3 != 2);
    if in_auction {
        let latest = [market.imbalance(k), market.equilibrium(k)];
        latest.iter().for_each(|message| line.send(message));
    }
    line.send(&nominal);
    if in_auction {
        let reference = market.reference(k);
        line.send(&reference);
    }
}

/// Updates as they come, busier at the front of the list, with prices between them, and messages of which nothing is kept.
fn trade(line: &mut Line, market: &mut Market, updates: usize) {
    for _ in 0..updates {
        line.wait(market.dice().below(45));
        let books = market.len();
        let k = market.dice().place(books).min(market.dice().place(books));
        let gap = market.dice().below(3) as u32;
        let message = if market.dice().once_in(5) {
            between(market, k)
        } else {
            let entries = market.dice().of(&[1, 1, 2, 2, 3, 4]);
            market.update(k, entries)
        };
        line.send_live(&message, gap);
    }
}

/// A message about a code that changes no book.
fn between(market: &mut Market, k: usize) -> Vec<u8> {
    match market.dice().below(9) {
        0 => about(52, 36, market.code(k)),
        1 => about(60, 52, market.code(k)),
        2 => message(20, 32),
        3 => market.reference(k),
        4 => market.equilibrium(k),
        5 => market.imbalance(k),
        _ => market.nominal(k),
    }
}

/// Where a code is listed.
fn place(code: u32) -> usize {
    LISTED.iter().position(|&(listed, _)| listed == code).expect("a listed code")
}

/// The last orders of a book are matched or withdrawn, and the exchange says that it is empty.
fn empty(line: &mut Line, market: &mut Market, code: u32) {
    line.wait(15);
    let emptied = market.emptied(place(code));
    line.send_live(&emptied, 0);
}

/// An auction is over: equilibrium price and imbalance are set back.
fn set_back(line: &mut Line, market: &mut Market, code: u32) {
    line.wait(5);
    line.send_live(&market.no_equilibrium(place(code)), 0);
    line.send_live(&market.no_imbalance(place(code)), 0);
}

fn close(line: &mut Line, market: &mut Market, code: u32) {
    line.wait(5);
    let closing = market.closing(place(code));
    line.send_live(&closing, 0);
}

/// Heartbeats every two seconds.
fn pause(line: &mut Line, heartbeats: usize) {
    for _ in 0..heartbeats {
        line.wait(2_000);
        line.heartbeat();
    }
}

fn morning() -> Line {
    let mut market = Market::new(SEED, &LISTED);
    let mut line = Line { bytes: Vec::new(), times: Vec::new(), seq: 0, internal: 0, time: HUB_UP };
    log_on(&mut line);
    refresh(&mut line, &mut market);
    trade(&mut line, &mut market, 350);
    // a book that is empty while the line is quiet, and fills again; another that fills again at once
    empty(&mut line, &mut market, 66);
    set_back(&mut line, &mut market, 5);
    pause(&mut line, 2);
    trade(&mut line, &mut market, 100);
    empty(&mut line, &mut market, 27);
    trade(&mut line, &mut market, 150);
    // a line that falls quiet without a heartbeat, and comes back
    line.wait(6_000);
    line.heartbeat();
    trade(&mut line, &mut market, 250);
    // one that stays empty
    empty(&mut line, &mut market, 3988);
    trade(&mut line, &mut market, 100);
    for code in [1, 700, 3988] {
        close(&mut line, &mut market, code);
    }
    pause(&mut line, 2);
    line
}

fn write(file: &Path, bytes: &[u8]) {
    if let Err(fault) = std::fs::write(file, bytes) {
        eprintln!("capture: {}: {}", file.display(), fault);
        exit(1);
    }
    println!("{}: {} bytes", file.display(), bytes.len());
}

fn main() {
    let file = std::env::args().nth(1).unwrap_or_else(|| FILE.to_string());
    let file = Path::new(&file);
    let line = morning();
    if let Some(folder) = file.parent() {
        let _ = std::fs::create_dir_all(folder);
    }
    write(file, &line.bytes);
    write(&file.with_extension("times"), line.recorded().as_bytes());
}
