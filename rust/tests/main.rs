//! The library against the twin, call by call; the vectors, document 01's examples, quantities, emptied books, price strips,
//! frames, scraps, rows that fell off and new passwords.
//! The last line is 'N passed, M failed'.

#![forbid(unsafe_code)]

mod badges;
mod emptied;
mod examples;
mod fallen;
mod falls;
mod frames;
mod grids;
mod history;
mod lines;
mod pair;
mod passwords;
mod program;
mod quantities;
mod runs;
mod scene;
mod scraps;
mod sides;
mod singles;
mod strips;
mod tables;
mod tally;
mod told;

use exchange::dice::Dice;
use pair::Pair;
use std::path::Path;
use std::process::exit;
use std::thread;

const SEED: u64 = 0x0DD1_07C0_FFEE_D001;
const ROUNDS: u64 = 1_600_000;
const USAGE: &str = "tests [--seed N] [--rounds N] [--vectors FOLDER]";

struct Options {
    seed: u64,
    rounds: u64,
    vectors: String,
}

fn options() -> Option<Options> {
    let mut options = Options { seed: SEED, rounds: ROUNDS, vectors: "vectors".to_string() };
    let mut words = std::env::args().skip(1);
    while let Some(word) = words.next() {
        let value = words.next()?;
        match word.as_str() {
            "--seed" => options.seed = value.parse().ok()?,
            "--rounds" => options.rounds = value.parse().ok()?,
            "--vectors" => options.vectors = value,
            _ => return None,
        }
    }
    Some(options)
}

fn main() {
    let options = options().unwrap_or_else(|| {
        eprintln!("{}", USAGE);
        exit(2)
    });
    println!("seed {} rounds {}", options.seed, options.rounds);
    let (mut pair, mut dice) = (Pair::default(), Dice::new(options.seed));
    // single calls beside all the rest, with dice of their own
    let (seed, rounds) = (options.seed.wrapping_add(1), options.rounds);
    let singles = thread::spawn(move || {
        let mut pair = Pair::default();
        singles::check(&mut pair, &mut Dice::new(seed), rounds);
        pair.tally
    });
    let inputs = program::check_vectors(&mut pair.tally, Path::new(&options.vectors));
    program::check_damaged(&mut pair.tally, &mut dice, &inputs, options.rounds / 2_000);
    examples::check(&mut pair);
    quantities::check(&mut pair);
    emptied::check(&mut pair, &mut dice, options.rounds / 100);
    strips::check(&mut pair, &mut dice, options.rounds / 100);
    frames::check(&mut pair);
    scraps::check(&mut pair);
    fallen::check(&mut pair);
    falls::check(&mut pair, &mut dice, options.rounds / 100);
    falls::check_streams(&mut pair.tally, &inputs);
    passwords::check(&mut pair.tally, &mut dice, options.rounds / 25);
    grids::check(&mut pair, &mut dice);
    badges::check(&mut pair, &mut dice, options.rounds / 4);
    sides::check(&mut pair.tally, &mut dice, options.rounds / 1_000);
    singles::check_large(&mut pair, &mut dice, options.rounds / 3_000);
    singles::check_tuned(&mut pair, &mut dice, options.rounds / 4);
    runs::check(&mut pair, &mut dice, options.rounds / 4_000, 500);
    lines::check(&mut pair, &mut dice, options.rounds / 16, 300);
    runs::check_market(&mut pair, (options.rounds / 30) as u32);
    pair.tally.add(singles.join().expect("single calls"));
    if !pair.tally.finish() {
        exit(1);
    }
}
