//! A capture as a line: its bytes come at the times that the headers were sent.

const HEADER: usize = 20;
/// A step of the sender's clock beyond this is not believed.
const LONGEST_STEP: u64 = 60_000;

pub struct Capture {
    bytes: Vec<u8>,
    at: usize,
    time: u64,
    begins: u64,
    ends: u64,
}

impl Capture {
    pub fn new(bytes: Vec<u8>) -> Capture {
        let begins = sent_at(&bytes).unwrap_or(0);
        let mut capture = Capture { bytes, at: 0, time: begins, begins, ends: begins };
        capture.ends = capture.last_sent();
        capture
    }

    /// When the first unit was sent.
    pub fn begins(&self) -> u64 {
        self.begins
    }

    /// When the last unit was sent.
    pub fn ends(&self) -> u64 {
        self.ends
    }

    /// All units that were sent by a time and not handed out before, and when the newest of them was sent; behind them what
    /// there is of one that is not whole, which tells no time. Nothing where there are none.
    pub fn due(&mut self, time: u64) -> Option<(&[u8], u64)> {
        let from = self.at;
        while let Some(sent) = self.next_sent().filter(|&sent| sent <= time) {
            let rest = &self.bytes[self.at..];
            match whole_length(rest) {
                Some(length) => {
                    self.at += length;
                    self.time = sent;
                }
                None => self.at = self.bytes.len(),
            }
        }
        Some((&self.bytes[from..self.at], self.time)).filter(|(units, _)| !units.is_empty())
    }

    fn next_sent(&self) -> Option<u64> {
        sent_at(&self.bytes[self.at..]).map(|sent| step(self.time, sent))
    }

    fn last_sent(&self) -> u64 {
        let (mut at, mut time) = (0, self.begins);
        while let Some(sent) = self.bytes.get(at..).and_then(sent_at) {
            time = step(time, sent);
            at += whole_length(&self.bytes[at..]).unwrap_or(self.bytes.len());
        }
        time
    }
}

/// SendTime of the first unit, in milliseconds.
fn sent_at(bytes: &[u8]) -> Option<u64> {
    let nanoseconds = bytes.get(..HEADER)?[12..].try_into().ok()?;
    Some(u64::from_le_bytes(nanoseconds) / 1_000_000)
}

/// The time after a unit: never back, never far ahead.
fn step(time: u64, sent: u64) -> u64 {
    sent.clamp(time, time.saturating_add(LONGEST_STEP))
}

/// The length of the first unit, if it is whole.
fn whole_length(bytes: &[u8]) -> Option<usize> {
    let length = match bytes.get(..2)? {
        [20, 0] => HEADER,
        _ => {
            let size = bytes.get(HEADER..HEADER + 2)?;
            HEADER + usize::from(u16::from_le_bytes([size[0], size[1]]))
        }
    };
    Some(length).filter(|&length| length <= bytes.len())
}

/// Hong Kong's time of day.
pub fn clock(time: u64) -> String {
    let of_day = time.wrapping_add(8 * 3_600_000) % 86_400_000;
    let seconds = of_day / 1_000;
    format!("{:02}:{:02}:{:02}.{}", seconds / 3_600, seconds / 60 % 60, seconds % 60, of_day % 1_000 / 100)
}
