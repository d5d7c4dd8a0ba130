//! The terminal: whether there is one, its size, and a frame on it.

use crate::layout::Size;
use crate::options::Options;
use crate::text::Text;
use std::io::{Result, Write};
use std::process::{Command, Stdio};

/// Where there is no terminal to ask.
const PAPER: Size = Size { columns: 132, lines: 60 };

/// Where frames go.
#[derive(Clone, Copy, PartialEq, Eq, Debug)]
pub struct Output {
    /// A terminal shows it.
    pub terminal: bool,
    /// Frame over frame, with colours; else frame below frame, with no escapes.
    pub escapes: bool,
}

impl Output {
    pub fn new(options: &Options) -> Output {
        let terminal = is_terminal();
        let set = |name: &str| std::env::var_os(name).map_or(false, |value| !value.is_empty());
        let dumb = std::env::var_os("TERM").map_or(true, |name| name == "dumb");
        Output { terminal, escapes: terminal && !options.plain && !set("NO_COLOR") && !dumb }
    }

    /// What was asked for, or what the terminal says.
    pub fn size(self, options: &Options) -> Size {
        let told = if self.terminal { asked().or_else(named) } else { None };
        let told = told.unwrap_or(PAPER);
        Size { columns: options.width.unwrap_or(told.columns), lines: options.height.unwrap_or(told.lines) }
    }

    /// Paints over the frame before, or puts it below.
    pub fn show(self, out: &mut impl Write, lines: &[Text]) -> Result<()> {
        let frame = if self.escapes { over(lines) } else { below(lines) };
        out.write_all(frame.as_bytes())?;
        out.flush()
    }

    /// Leaves the last frame where it is.
    pub fn end(self, out: &mut impl Write) -> Result<()> {
        out.write_all(if self.escapes { b"\n" } else { b"" })
    }
}

/// Each line at its place, so that no frame makes the screen roll.
fn over(lines: &[Text]) -> String {
    let at = |(row, line): (usize, &Text)| format!("\x1b[{};1H\x1b[2K{}", row + 1, line.escaped());
    let frame: String = lines.iter().enumerate().map(at).collect();
    format!("\x1b[H{}\x1b[0J", frame)
}

fn below(lines: &[Text]) -> String {
    let frame: String = lines.iter().map(|line| line.plain() + "\n").collect();
    frame + "\n"
}

/// What `test -t 1` answers of our own standard output.
fn is_terminal() -> bool {
    Command::new("test").args(["-t", "1"]).stdout(Stdio::inherit()).status().map_or(false, |status| status.success())
}

/// What `stty size` answers of the terminal, wherever our own input comes from.
fn asked() -> Option<Size> {
    let terminal = std::fs::File::open("/dev/tty").ok()?;
    let answer = Command::new("stty").arg("size").stdin(terminal).stderr(Stdio::null()).output().ok()?;
    let text = String::from_utf8(answer.stdout).ok()?;
    let mut numbers = text.split_whitespace().map(str::parse);
    match (numbers.next()?, numbers.next()?) {
        (Ok(lines), Ok(columns)) if lines > 0 && columns > 0 => Some(Size { columns, lines }),
        _ => None,
    }
}

/// What the shell has set.
fn named() -> Option<Size> {
    let number = |name| std::env::var(name).ok()?.parse().ok().filter(|&number: &usize| number > 0);
    Some(Size { columns: number("COLUMNS")?, lines: number("LINES").unwrap_or(24) })
}
