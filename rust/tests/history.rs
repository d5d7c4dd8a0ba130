//! A run's history as demand 3 tells it, kept from the events and their answers alone: what badge and books must be.

use crate::tally::Call;

/// The silence limit of every run.
pub const LIMIT: u64 = 1_000;

/// What has happened since the last accepted connect, and since the last clearing.
#[derive(Default)]
pub struct History {
    fresh: bool,
    complete: bool,
    heard: u64,
    /// The book and strip messages taken since the last clearing.
    pub taken: Vec<Vec<u8>>,
}

impl History {
    /// Notes a connect and its answer.
    pub fn connect(&mut self, resuming: bool, answer: u64, time: u64) {
        if answer == 0 {
            *self = History { fresh: !resuming, complete: false, heard: time, taken: std::mem::take(&mut self.taken) };
        }
    }

    /// Notes an arrival and its answer.
    pub fn arrive(&mut self, call: Call, answer: u64, used: u64, message: &[u8], time: u64) {
        if matches!(answer, 12..=18 | 22) {
            self.complete = false;
        }
        if answer > 2 {
            return;
        }
        self.heard = time;
        let heartbeat = call != Call::ArriveCut && used == 20;
        if answer == 0 && !heartbeat {
            self.message(message);
        }
    }

    /// A message that was taken.
    fn message(&mut self, message: &[u8]) {
        match (u16::from_le_bytes([message[2], message[3]]), message.get(6)) {
            (1102, Some(0 | 2)) => {
                self.complete = true;
                if self.fresh {
                    self.taken.clear();
                }
            }
            (1102, Some(101)) => self.taken.clear(),
            (203, _) => self.complete = true,
            (1103, _) => self.complete = false,
            (40 | 41 | 43 | 53 | 56 | 62, _) => self.taken.push(message.to_vec()),
            _ => {}
        }
    }

    /// Whether demand 3 has the badge green at a time.
    pub fn green(&self, time: u64) -> bool {
        self.complete && matches!(time.checked_sub(self.heard), Some(quiet) if quiet <= LIMIT)
    }
}
