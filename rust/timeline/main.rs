//! Follows a capture with times and prints each change of the badge: when, by which unit and answer, and why.

#![forbid(unsafe_code)]

mod changes;
mod print;
mod recording;
#[cfg(test)]
mod tests;

use std::io::Write;
use std::path::{Path, PathBuf};
use std::process::exit;

const HELP: &str = "\
timeline [TIMES [BYTES]] [OPTIONS]   every change of the badge in a capture with times (docs/CAPTURES.md)

  TIMES        what happened and when (captures/morning.times)
  BYTES        the bytes that came (TIMES with the ending .bin)
  --csv        lines for a spreadsheet instead of words
  --limit MS   the silence limit, 1 to 600,000 (3000)
  --help       this text
";

struct Options {
    files: Vec<String>,
    csv: bool,
    help: bool,
    limit: u64,
}

fn options(mut words: impl Iterator<Item = String>) -> Result<Options, String> {
    let mut options = Options { files: Vec::new(), csv: false, help: false, limit: 3_000 };
    while let Some(word) = words.next() {
        match word.as_str() {
            "--csv" => options.csv = true,
            "--help" | "-h" => options.help = true,
            "--limit" => {
                let value = words.next().ok_or("--limit wants a value (see --help)")?;
                options.limit = value.parse().map_err(|_| format!("--limit {}: wants a number", value))?;
            }
            name if name.starts_with('-') => return Err(format!("{} is not known (see --help)", name)),
            file if options.files.len() < 2 => options.files.push(file.to_string()),
            file => return Err(format!("{} is a file too many (see --help)", file)),
        }
    }
    Ok(options)
}

fn run() -> Result<(), String> {
    let options = options(std::env::args().skip(1))?;
    if options.help {
        print!("{}", HELP);
        return Ok(());
    }
    let times = PathBuf::from(options.files.first().map_or("captures/morning.times", String::as_str));
    let bytes = options.files.get(1).map_or_else(|| times.with_extension("bin"), PathBuf::from);
    let named = |file: &Path, fault: String| format!("{}: {}", file.display(), fault);
    let text = std::fs::read_to_string(&times).map_err(|fault| named(&times, fault.to_string()))?;
    let stream = std::fs::read(&bytes).map_err(|fault| named(&bytes, fault.to_string()))?;
    let events = recording::events(&text).map_err(|fault| named(&times, fault))?;
    recording::fits(&events, stream.len()).map_err(|fault| named(&bytes, fault))?;
    let changes = changes::changes(&events, &stream, options.limit).map_err(|refused| refused.to_string())?;
    let printed = if options.csv { print::csv(&changes) } else { print::words(&changes) };
    let mut out = std::io::stdout();
    out.write_all(printed.as_bytes()).and_then(|()| out.flush()).map_err(|fault| format!("cannot write: {}", fault))
}

fn main() {
    if let Err(fault) = run() {
        eprintln!("timeline: {}", fault);
        exit(1);
    }
}
