//! Nanoseconds a message: single arrivals through the C calls, against the plain twin and the tuned one.
//! 128 books, 2 to 4 entries a message, every message fits; all three must end with the same tables and as many rows dropped.
//! The same for strip messages of all five types, over 128 strips, for frames of book messages against single calls, and for
//! scraps, whole messages and torn ones. And microseconds a repaint of all their sides, by sides at once against single reads.

#![forbid(unsafe_code)]

mod course;
mod repaint;

use course::{Course, Scraps, Tables, Walked, Walker, Way, FRAME, SCRAPS, WALKERS, WAYS};
use std::process::exit;
use std::time::Instant;

const USAGE: &str = "bench [--short | --count library|plain|tuned SLOTS|strips MESSAGES]";

/// Slots of the table, messages of a pass, passes.
const COURSES: [(usize, usize, usize); 3] = [(128, 10_000, 60), (512, 5_000, 60), (4_096, 1_500, 60)];

/// The same of strip messages.
const STRIPS: (usize, usize, usize) = (128, 10_000, 60);

/// Messages of a course whose instructions are counted; only some of them are walked.
const COUNTED: usize = 1_500;

/// One way to walk a course.
type Walk<'a> = Box<dyn Fn(&mut Tables) -> Walked + 'a>;

fn walk(course: &Course, walker: Walker, way: Way) -> Walk<'_> {
    Box::new(move |tables| course.walk(walker, way, tables, course.messages()))
}

fn walk_in(course: &Course, scraps: Scraps) -> Walk<'_> {
    Box::new(move |tables| course.walk_in(scraps, tables))
}

/// The best pass of each of these walks, in nanoseconds a message, all taking turns.
fn measure<const N: usize>(course: &Course, walks: [Walk<'_>; N], passes: usize) -> [f64; N] {
    let mut best = [f64::INFINITY; N];
    let start = course.tables();
    let mut tables = course.tables();
    for _ in 0..passes {
        for (walk, best) in walks.iter().zip(&mut best) {
            tables.copy(&start);
            let began = Instant::now();
            walk(&mut tables);
            *best = best.min(began.elapsed().as_nanos() as f64 / course.messages() as f64);
        }
    }
    best
}

/// All three end with the same tables and as many rows dropped, by single calls and by frames, every message taken; the library
/// in scraps too. How many rows that were.
fn check(course: &Course) -> Result<u64, String> {
    let by_calls = WAYS.iter().flat_map(|&way| WALKERS.map(|walker| course.end(walker, way)));
    let ends: Vec<_> = by_calls.chain(SCRAPS.map(|scraps| course.end_in(scraps))).collect();
    if ends.iter().any(|end| end.walked.taken != course.messages()) {
        return Err(format!("{} slots: a message was not taken", course.slots()));
    }
    if ends.iter().any(|end| end.walked != ends[0].walked) {
        let dropped: Vec<u64> = ends.iter().map(|end| end.walked.dropped).collect();
        return Err(format!("{} slots: the rows dropped differ: {:?}", course.slots(), dropped));
    }
    if ends.iter().any(|end| end != &ends[0]) {
        return Err(format!("{} slots: the tables at the end differ", course.slots()));
    }
    Ok(ends[0].walked.dropped)
}

fn short() -> Result<(), String> {
    for (slots, _, _) in COURSES {
        let course = Course::new(slots, 300);
        let dropped = check(&course)?;
        if dropped == 0 {
            return Err(format!("{} slots: no row was dropped", slots));
        }
        println!("{:>5} slots: {} messages, {}", slots, course.messages(), same(dropped));
        println!("{:>5} slots: {} rows, the same by sides and by single reads", slots, repaint::check(&course)?);
    }
    let course = Course::strips(STRIPS.0, 300);
    let dropped = check(&course)?;
    println!("{:>5} slots: {} strip messages, {}", STRIPS.0, course.messages(), same(dropped));
    Ok(())
}

/// What a check has found.
fn same(dropped: u64) -> String {
    format!("the same tables and {} rows dropped three times, by frames of {}, and in scraps", dropped, FRAME)
}

fn full() -> Result<(), String> {
    println!("nanoseconds a book message, best of alternating passes");
    println!("slots  library    plain    tuned  library/plain  library/tuned");
    for (slots, messages, passes) in COURSES {
        timed(&Course::new(slots, messages), passes)?;
    }
    println!("\nnanoseconds a strip message, best of alternating passes");
    println!("slots  library    plain    tuned  library/plain  library/tuned");
    timed(&Course::strips(STRIPS.0, STRIPS.1), STRIPS.2)?;
    frames()?;
    scraps()?;
    repaints()
}

/// Frames of book messages, each time beside its ratio to single calls.
fn frames() -> Result<(), String> {
    println!("\nnanoseconds a book message in frames of {}, and frame/single, best of alternating passes", FRAME);
    println!("slots  library  /single    plain  /single    tuned  /single  library/plain  library/tuned");
    for (slots, messages, passes) in COURSES {
        let course = Course::new(slots, messages);
        check(&course)?;
        let walks: [Walk<'_>; 6] = std::array::from_fn(|at| walk(&course, WALKERS[at % 3], WAYS[at / 3]));
        let times = measure(&course, walks, passes);
        let (single, frame) = times.split_at(3);
        print!("{:>5}", slots);
        frame.iter().zip(single).for_each(|(frame, single)| print!(" {:>8.1} {:>8.2}", frame, frame / single));
        println!(" {:>14.2} {:>14.2}", frame[0] / frame[1], frame[0] / frame[2]);
    }
    Ok(())
}

/// The library in scraps, a whole message in each and each torn in two, beside the ratio to its single calls.
fn scraps() -> Result<(), String> {
    println!("\nnanoseconds a book message of the library in scraps, and scraps/single, best of alternating passes");
    println!("slots   single    whole  /single     torn  /single");
    for (slots, messages, passes) in COURSES {
        let course = Course::new(slots, messages);
        check(&course)?;
        let [whole, torn] = SCRAPS.map(|scraps| walk_in(&course, scraps));
        let walks = [walk(&course, Walker::Library, Way::Single), whole, torn];
        let [single, whole, torn] = measure(&course, walks, passes);
        println!(
            "{:>5} {:>8.1} {:>8.1} {:>8.2} {:>8.1} {:>8.2}",
            slots,
            single,
            whole,
            whole / single,
            torn,
            torn / single
        );
    }
    Ok(())
}

/// One course, its times and their ratios.
fn timed(course: &Course, passes: usize) -> Result<(), String> {
    check(course)?;
    let walks = WALKERS.map(|walker| walk(course, walker, Way::Single));
    let [library, plain, tuned] = measure(course, walks, passes);
    let (slots, ratios) = (course.slots(), (library / plain, library / tuned));
    println!("{:>5} {:>8.1} {:>8.1} {:>8.1} {:>14.2} {:>14.2}", slots, library, plain, tuned, ratios.0, ratios.1);
    Ok(())
}

/// A whole repaint, in a table of its own.
fn repaints() -> Result<(), String> {
    println!("\nmicroseconds a repaint of all sides of 128 books, best of alternating passes");
    println!("slots  by sides   by rows  rows/sides");
    for (slots, _, _) in COURSES {
        let course = Course::new(slots, 0);
        repaint::check(&course)?;
        let [sides, rows] = repaint::measure(&course);
        println!("{:>5} {:>9.1} {:>9.1} {:>11.1}", slots, sides, rows, rows / sides);
    }
    Ok(())
}

/// Walks some of a course with one walker, for whoever counts instructions.
fn count(words: &[String]) -> Result<(), String> {
    let walker = WALKERS.iter().find(|walker| words.first() == Some(&walker.name().to_string()));
    let number = |at: usize| words.get(at).and_then(|word| word.parse().ok());
    let course = match words.get(1).map(String::as_str) {
        Some("strips") => Some(Course::strips(STRIPS.0, COUNTED)),
        _ => number(1).map(|slots| Course::new(slots, COUNTED)),
    };
    match (walker, course, number(2)) {
        (Some(&walker), Some(course), Some(messages)) => {
            course.walk(walker, Way::Single, &mut course.tables(), COUNTED.min(messages));
            Ok(())
        }
        _ => Err(USAGE.to_string()),
    }
}

fn main() {
    let words: Vec<String> = std::env::args().skip(1).collect();
    let done = match words.first().map(String::as_str) {
        None => full(),
        Some("--short") => short(),
        Some("--count") => count(&words[1..]),
        Some(_) => Err(USAGE.to_string()),
    };
    if let Err(fault) = done {
        eprintln!("bench: {}", fault);
        exit(1);
    }
}

impl Walker {
    /// As the command line has it.
    fn name(self) -> &'static str {
        match self {
            Walker::Library => "library",
            Walker::Plain => "plain",
            Walker::Tuned => "tuned",
        }
    }
}
