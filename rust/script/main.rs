//! Runs scripts of the library's calls, one operation a line; docs/SCRIPTS.md has the operations.

#![forbid(unsafe_code)]

mod desk;
mod words;

use desk::Desk;
use std::fs;
use std::io::{Read, Write};
use std::path::{Path, PathBuf};
use std::process::exit;
use words::Words;

const USAGE: &str = "\
script FILE              runs a script and prints what comes back; - is standard input
script --check FOLDER..  runs every .in of the folders and holds what it prints to the .out beside it,
                         and the message that ends it to the .err; the last line is 'N passed, M failed'
";

/// What a script prints, and the message that ended it before its end, if one did.
fn run(script: &str) -> (String, Option<String>) {
    let mut desk = Desk::default();
    let mut printed = String::new();
    let lines = script.lines().enumerate().filter_map(|(at, line)| Some((at, Words::of(line)?)));
    for (at, words) in lines {
        match desk.run(words) {
            Ok(Some(text)) => {
                printed.push_str(&text);
                printed.push('\n');
            }
            Ok(None) => {}
            Err(why) => return (printed, Some(format!("line {}: {}", at + 1, why))),
        }
    }
    (printed, None)
}

fn text(file: &Path) -> Result<String, String> {
    fs::read_to_string(file).map_err(|fault| format!("{}: {}", file.display(), fault))
}

/// One script from a file or from standard input.
fn one(name: &str) -> Result<(), String> {
    let script = if name == "-" {
        let mut script = String::new();
        std::io::stdin().read_to_string(&mut script).map_err(|fault| format!("standard input: {}", fault))?;
        script
    } else {
        text(Path::new(name))?
    };
    let (printed, fault) = run(&script);
    let mut out = std::io::stdout();
    out.write_all(printed.as_bytes()).and_then(|()| out.flush()).map_err(|fault| format!("cannot write: {}", fault))?;
    fault.map_or(Ok(()), |fault| Err(format!("{}: {}", name, fault)))
}

/// Holds one script to what it must print and to the message that must end it, if one must.
fn held(script: &Path) -> Result<(), String> {
    let ending = script.with_extension("err");
    let wanted = text(&script.with_extension("out"))?;
    let ended = if ending.exists() { Some(text(&ending)?.trim_end().to_string()) } else { None };
    let (printed, fault) = run(&text(script)?);
    if fault != ended {
        return Err(format!("{}: ended with {:?}, wanted {:?}", script.display(), fault, ended));
    }
    match differs(&printed, &wanted) {
        None => Ok(()),
        Some(place) => Err(format!("{}: {}", script.display(), place)),
    }
}

/// The first line in which two texts differ.
fn differs(printed: &str, wanted: &str) -> Option<String> {
    if printed == wanted {
        return None;
    }
    let (got, want): (Vec<&str>, Vec<&str>) = (printed.lines().collect(), wanted.lines().collect());
    let at = (0..).find(|&at| got.get(at) != want.get(at) || got.get(at).is_none()).unwrap_or(0);
    let shown = |lines: &[&str]| lines.get(at).map_or("nothing".to_string(), |line| line.to_string());
    Some(format!("printed line {}\n  got    {}\n  wanted {}", at + 1, shown(&got), shown(&want)))
}

fn scripts(folder: &str) -> Result<Vec<PathBuf>, String> {
    let files = fs::read_dir(folder).map_err(|fault| format!("{}: {}", folder, fault))?;
    let mut scripts: Vec<PathBuf> = files.flatten().map(|file| file.path()).collect();
    scripts.retain(|path| path.extension().map_or(false, |ending| ending == "in"));
    scripts.sort();
    if scripts.is_empty() {
        return Err(format!("{}: no scripts", folder));
    }
    Ok(scripts)
}

/// Every script of some folders; whether all passed.
fn check(folders: &[&str]) -> Result<bool, String> {
    let scripts = folders.iter().map(|folder| scripts(folder)).collect::<Result<Vec<_>, _>>()?.concat();
    let faults: Vec<String> = scripts.iter().filter_map(|script| held(script).err()).collect();
    for fault in &faults {
        println!("differs: {}", fault);
    }
    println!("{} passed, {} failed", scripts.len() - faults.len(), faults.len());
    Ok(faults.is_empty())
}

fn main() {
    let words: Vec<String> = std::env::args().skip(1).collect();
    let done = match words.iter().map(String::as_str).collect::<Vec<_>>()[..] {
        ["--help"] | ["-h"] => {
            print!("{}", USAGE);
            Ok(true)
        }
        ["--check", ref folders @ ..] if !folders.is_empty() => check(folders),
        [name] if name == "-" || !name.starts_with('-') => one(name).map(|()| true),
        _ => Err(format!("say a script, or --check and folders\n{}", USAGE)),
    };
    match done {
        Ok(true) => {}
        Ok(false) => exit(1),
        Err(why) => {
            eprintln!("script: {}", why.trim_end());
            exit(1);
        }
    }
}
