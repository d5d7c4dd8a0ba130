//! The program of example 10 over the safe cover, and the vectors: standard input and exact standard output.

use crate::tally::Tally;
use exchange::dice::Dice;
use exchange::{message, session, unit};
use mmdh::single::Feed;
use mmdh::{Connect, Rows, Tables};
use std::fs;
use std::path::Path;

const BUFFER: usize = 65_536;

/// All of the program's output.
pub fn run(input: &[u8]) -> String {
    let mut feed = Feed::new(1_000).expect("a limit of 1,000 is listed");
    let mut tables = Tables::with_slots(128);
    let mut last = feed.connect(Connect::Fresh, 0);
    let (mut at, mut units) = (0, 0);
    while last.is_accepted() {
        let held = &input[at..input.len().min(at + BUFFER)];
        let arrival = feed.arrive(&mut tables, held, 0);
        last = arrival.answer;
        at += arrival.used;
        units += u64::from(last.is_accepted());
    }
    let books = &tables.books;
    let mut lines = String::from("code side rank price quantity orders\n");
    for code in books.codes() {
        for (name, rows) in [("B", books.bids(code)), ("O", books.offers(code))] {
            lines.push_str(&printed(code, name, &rows.expect("a code with a slot has a sound book")));
        }
    }
    lines + &format!("end {} units {}\n", last.number(), units)
}

fn printed(code: u64, side: &str, rows: &Rows) -> String {
    let line = |(at, row): (usize, &mmdh::Row)| {
        format!("{} {} {} {} {} {}\n", code, side, at + 1, row.price, row.quantity, row.orders)
    };
    rows.iter().enumerate().map(line).collect()
}

/// Every vector of a folder, of the twin and of the library; the inputs are handed back.
pub fn check_vectors(tally: &mut Tally, folder: &Path) -> Vec<Vec<u8>> {
    tally.part("vectors, twin and library");
    let mut inputs: Vec<_> = match fs::read_dir(folder) {
        Ok(files) => files.flatten().map(|file| file.path()).collect(),
        Err(_) => Vec::new(),
    };
    inputs.retain(|path| matches!(path.extension(), Some(ending) if ending == "in"));
    inputs.sort();
    tally.holds(!inputs.is_empty(), || format!("no vectors in {}", folder.display()));
    let mut read = Vec::new();
    for path in inputs {
        let input = fs::read(&path).unwrap_or_default();
        let wanted = fs::read_to_string(path.with_extension("out")).unwrap_or_default();
        tally.same(&twin::program(&input), &wanted, || format!("twin on {}", path.display()));
        tally.same(&run(&input), &wanted, || format!("library on {}", path.display()));
        read.push(input);
    }
    read
}

/// The vectors with bytes changed, lost or put in, and units around the longest that the program holds.
pub fn check_damaged(tally: &mut Tally, dice: &mut Dice, inputs: &[Vec<u8>], rounds: u64) {
    tally.part("the program on damaged vectors, library against twin");
    for input in inputs.iter().cycle().take(if inputs.is_empty() { 0 } else { rounds as usize }) {
        let mut input = input.clone();
        let at = dice.place(input.len().max(1));
        match dice.below(3) {
            0 => input.truncate(at),
            1 => input.insert(at, dice.any() as u8),
            _ => input.iter_mut().skip(at).take(1).for_each(|byte| *byte = dice.any() as u8),
        }
        tally.same(&run(&input), &twin::program(&input), || format!("the program on {:02x?}", input));
    }
    for size in 65_514..=65_518 {
        let input = [unit(1, 0, &message(1105, size)), unit(2, 0, &session(1102, 0))].concat();
        tally.same(&run(&input), &twin::program(&input), || format!("a unit with MsgSize {}", size));
    }
}
