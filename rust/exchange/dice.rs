//! Random numbers that repeat: xorshift with a seed.

/// A seeded source of numbers.
pub struct Dice(u64);

impl Dice {
    /// The same seed gives the same throws.
    pub fn new(seed: u64) -> Dice {
        Dice(seed.max(1))
    }

    /// Any 64-bit number.
    pub fn any(&mut self) -> u64 {
        self.0 ^= self.0 << 13;
        self.0 ^= self.0 >> 7;
        self.0 ^= self.0 << 17;
        self.0.wrapping_mul(0x2545_F491_4F6C_DD1D)
    }

    /// A number from 0 to n - 1.
    pub fn below(&mut self, n: u64) -> u64 {
        (self.any() >> 16) % n
    }

    /// A place from 0 to n - 1.
    pub fn place(&mut self, n: usize) -> usize {
        self.below(n as u64) as usize
    }

    /// True once in n throws.
    pub fn once_in(&mut self, n: u64) -> bool {
        self.below(n) == 0
    }

    /// One of these.
    pub fn of<T: Copy>(&mut self, choices: &[T]) -> T {
        choices[self.place(choices.len())]
    }

    /// These bytes with one of them changed, left out or put in.
    pub fn damaged(&mut self, bytes: &[u8]) -> Vec<u8> {
        let mut bytes = bytes.to_vec();
        let at = self.place(bytes.len());
        match self.below(3) {
            0 => bytes[at] = self.any() as u8,
            1 => {
                bytes.remove(at);
            }
            _ => bytes.insert(at, self.any() as u8),
        }
        bytes
    }
}
