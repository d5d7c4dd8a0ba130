//! Paints panels from a capture: each a book with a badge in its corner, stepping through time.

#![forbid(unsafe_code)]

mod capture;
mod desk;
mod fallen;
mod layout;
mod options;
mod panel;
mod strip;
mod svg;
mod terminal;
#[cfg(test)]
mod tests;
mod text;

use capture::Capture;
use desk::Desk;
use options::Options;
use std::io::Read;
use std::process::exit;
use std::thread::sleep;
use std::time::Duration;
use terminal::Output;

const CAPTURE: &str = "captures/morning.bin";

/// Paints frame after frame until nothing can change any more, or so many frames.
fn paint(options: &Options, desk: &mut Desk) -> std::io::Result<()> {
    let output = Output::new(options);
    let mut out = std::io::stdout();
    let mut time = desk.begins();
    for _ in 0..options.frames {
        output.show(&mut out, &desk.repaint(options, output.size(options), time))?;
        if desk.is_over() || time > desk.ends() {
            break;
        }
        if output.terminal {
            sleep(Duration::from_millis(options.pace));
        }
        time = time.saturating_add(options.step);
    }
    output.end(&mut out)
}

/// The one frame that was asked for, or the last.
fn one_frame(options: &Options, desk: &mut Desk) -> Result<(), String> {
    let output = Output::new(options);
    let time = options.at.map_or(desk.ends(), |at| desk.begins().saturating_add(at));
    desk.hear(time);
    let size = output.size(options);
    let frame = desk.frame(options, size, time);
    match &options.svg {
        Some(file) => std::fs::write(file, svg::picture(&frame, size)).map_err(|fault| format!("{}: {}", file, fault)),
        None => output.show(&mut std::io::stdout(), &frame).map_err(|fault| fault.to_string()),
    }
}

/// All bytes of a capture.
fn bytes(name: &str) -> Result<Vec<u8>, String> {
    let mut bytes = Vec::new();
    let read = match name {
        "-" => std::io::stdin().read_to_end(&mut bytes).map(|_| bytes),
        file => std::fs::read(file),
    };
    read.map_err(|fault| format!("{}: {}", name, fault))
}

fn run() -> Result<(), String> {
    let options = Options::read(std::env::args().skip(1))?;
    if options.help {
        print!("{}", options::HELP);
        return Ok(());
    }
    let capture = Capture::new(bytes(options.file.as_deref().unwrap_or(CAPTURE))?);
    let mut desk = Desk::new(options.limit, capture).map_err(|refused| refused.to_string())?;
    if options.svg.is_some() || options.at.is_some() {
        return one_frame(&options, &mut desk);
    }
    match paint(&options, &mut desk) {
        Err(fault) if fault.kind() == std::io::ErrorKind::BrokenPipe => Ok(()),
        painted => painted.map_err(|fault| fault.to_string()),
    }
}

fn main() {
    if let Err(fault) = run() {
        eprintln!("paint: {}", fault);
        exit(1);
    }
}
