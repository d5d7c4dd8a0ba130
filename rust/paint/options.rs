//! What the painter is asked for.

pub const HELP: &str = "\
paint [FILE] [OPTIONS]   panels of order books from a capture, stepping through time

  FILE            the capture: one connection's bytes (captures/morning.bin); - reads standard input
  --plain         frames one after the other, with no escapes; so it is too where the output is no terminal,
                  where NO_COLOR is set and where TERM is dumb
  --svg FILE      draws one frame to a file instead: the last, or the one that --at says
  --at MS         only the frame so many milliseconds after the first unit
  --frames N      at most N frames
  --step MS       milliseconds of the morning from frame to frame (500)
  --pace MS       milliseconds that a frame stays on a terminal (120)
  --limit MS      the silence limit, 1 to 600,000 (3000)
  --panels N      how many panels (6, and more where there is room)
  --codes A,B,..  the books to show (the first that have a slot)
  --rows N        most rows of a side, 1 to 10 (10)
  --no-strips     leaves the price strips out, for more rows
  --width N       columns to paint in (the terminal's, or 132)
  --height N      lines to paint in (the terminal's, or 60)
  --help          this text

A frame takes all units that were sent since the one before in one call, at the time of the newest whole one.
A panel without rows says why: 'empty book' is a book that has been emptied, 'no book' a code that has none, 'not sound'
a book that cannot be read, and 'no book yet' a panel that waits for a code. Under each book is its price strip, where
there is room for all panels with theirs: nominal (nm) and closing (cl) price, indicative equilibrium price (IEP, ep) and
its volume (ev), reference price (ref, rf), order imbalance (imbal, im) with B for buyers, S for sellers and N for none,
lower (lo) and upper (up) price; a dash is what has not come, n/a what the exchange says there is not. Under a stale
badge rows, strips and the words 'empty book' are marked with ~. Where ten rows a side are shown, a tenth row that a new
level has pushed out since the frame before is shown once more, behind the one that is the tenth now: marked with !, in
reverse colours, for one frame, in the place of a border; under a stale badge marked with !~, and struck through as the
other rows are. A row that was deleted is not shown again.
";

/// Panels where none are asked for.
const PANELS: usize = 6;

pub struct Options {
    pub file: Option<String>,
    pub plain: bool,
    pub help: bool,
    pub svg: Option<String>,
    pub at: Option<u64>,
    pub frames: u64,
    pub step: u64,
    pub pace: u64,
    pub limit: u64,
    pub panels: Option<usize>,
    pub codes: Vec<u64>,
    pub rows: usize,
    pub no_strips: bool,
    pub width: Option<usize>,
    pub height: Option<usize>,
}

impl Default for Options {
    fn default() -> Options {
        Options {
            file: None,
            plain: false,
            help: false,
            svg: None,
            at: None,
            frames: u64::MAX,
            step: 500,
            pace: 120,
            limit: 3_000,
            panels: None,
            codes: Vec::new(),
            rows: 10,
            no_strips: false,
            width: None,
            height: None,
        }
    }
}

impl Options {
    /// The options in the command's words.
    pub fn read(mut words: impl Iterator<Item = String>) -> Result<Options, String> {
        let mut options = Options::default();
        while let Some(word) = words.next() {
            match word.as_str() {
                "--plain" => options.plain = true,
                "--no-strips" => options.no_strips = true,
                "--help" | "-h" => options.help = true,
                name if name.starts_with('-') && name != "-" => options.set(name, &mut words)?,
                file if options.file.is_none() => options.file = Some(file.to_string()),
                file => return Err(format!("{} is a file too many (see --help)", file)),
            }
        }
        Ok(options)
    }

    /// How many panels are wanted in any case.
    pub fn wanted(&self) -> usize {
        if self.codes.is_empty() {
            self.panels.unwrap_or(PANELS)
        } else {
            self.codes.len()
        }
    }

    fn set(&mut self, name: &str, words: &mut impl Iterator<Item = String>) -> Result<(), String> {
        let known = ["--svg", "--at", "--frames", "--step", "--pace", "--limit", "--panels", "--codes", "--rows"];
        if !known.contains(&name) && !["--width", "--height"].contains(&name) {
            return Err(format!("{} is not known (see --help)", name));
        }
        let value = words.next().ok_or_else(|| format!("{} wants a value (see --help)", name))?;
        let within = |least: u64, most: u64| number(name, &value, least, most);
        match name {
            "--svg" => self.svg = Some(value),
            "--at" => self.at = Some(within(0, u64::MAX)?),
            "--frames" => self.frames = within(0, u64::MAX)?,
            "--step" => self.step = within(1, 3_600_000)?,
            "--pace" => self.pace = within(0, 60_000)?,
            "--limit" => self.limit = within(1, 600_000)?,
            "--panels" => self.panels = Some(within(1, 4_096)? as usize),
            "--rows" => self.rows = within(1, 10)? as usize,
            "--width" => self.width = Some(within(1, 10_000)? as usize),
            "--height" => self.height = Some(within(1, 10_000)? as usize),
            _ => {
                let codes = value.split(',').map(|code| number(name, code, 1, 99_999));
                self.codes = codes.collect::<Result<_, _>>()?;
            }
        }
        Ok(())
    }
}

fn number(name: &str, value: &str, least: u64, most: u64) -> Result<u64, String> {
    match value.trim().parse() {
        Ok(number) if (least..=most).contains(&number) => Ok(number),
        _ => Err(format!("{} {}: wants a number from {} to {}", name, value, least, most)),
    }
}
