//! One line of a script: its operation, and the words behind it read one by one.

/// Most words of a table, and most bytes of a holding buffer, that a script may ask for.
const LARGEST: u64 = 1 << 24;

/// The operation whose words are passwords: no message may have any of them.
const SECRET: &str = "password";

/// The words of one line that have not been read yet.
pub struct Words<'a> {
    operation: &'a str,
    rest: Vec<&'a str>,
    at: usize,
}

impl<'a> Words<'a> {
    /// A line's words; none of an empty line and of one that begins with `#`.
    pub fn of(line: &'a str) -> Option<Words<'a>> {
        let mut words = line.split_whitespace();
        let operation = words.next().filter(|word| !word.starts_with('#'))?;
        Some(Words { operation, rest: words.collect(), at: 0 })
    }

    pub fn operation(&self) -> &'a str {
        self.operation
    }

    /// How many words follow that have not been read.
    pub fn left(&self) -> usize {
        self.rest.len() - self.at
    }

    /// The next word as it stands.
    pub fn word(&mut self, name: &str) -> Result<&'a str, String> {
        let word =
            self.rest.get(self.at).ok_or_else(|| format!("{} wants {} and has no more words", self.operation, name))?;
        self.at += 1;
        Ok(word)
    }

    /// A decimal number of 64 bits.
    pub fn number(&mut self, name: &str) -> Result<u64, String> {
        let word = self.word(name)?;
        self.decimal(name, word)
    }

    fn decimal(&self, name: &str, word: &str) -> Result<u64, String> {
        let digits = !word.is_empty() && word.bytes().all(|byte| byte.is_ascii_digit());
        let number = if digits { word.parse().ok() } else { None };
        let wrong = || format!("{}: {} is no decimal number of 64 bits{}", self.operation, name, self.shown(word));
        number.ok_or_else(wrong)
    }

    /// Numbers with commas between them, `-` for none; one that is wrong is told by its place.
    pub fn numbers(&mut self, names: &str, name: &str) -> Result<Vec<u64>, String> {
        match self.word(names)? {
            "-" => Ok(Vec::new()),
            word => {
                word.split(',').zip(1..).map(|(part, at)| self.decimal(&format!("{} {}", name, at), part)).collect()
            }
        }
    }

    /// A word at the end of a message, unless it may be a password or a part of one.
    fn shown(&self, word: &str) -> String {
        if self.operation == SECRET {
            String::new()
        } else {
            format!(": {}", word)
        }
    }

    /// A decimal number of 32 bits.
    pub fn short(&mut self, name: &str) -> Result<u32, String> {
        let number = self.number(name)?;
        number.try_into().map_err(|_| format!("{}: {} is above 4,294,967,295: {}", self.operation, name, number))
    }

    /// A table's length in words.
    pub fn length(&mut self, name: &str) -> Result<usize, String> {
        self.at_most_largest(name, "words")
    }

    /// A holding buffer's length in bytes.
    pub fn size(&mut self, name: &str) -> Result<usize, String> {
        self.at_most_largest(name, "bytes")
    }

    fn at_most_largest(&mut self, name: &str, of: &str) -> Result<usize, String> {
        let number = self.number(name)?;
        if number > LARGEST {
            return Err(format!("{}: {} is above {} {}: {}", self.operation, name, LARGEST, of, number));
        }
        Ok(number as usize)
    }

    /// Bytes as hex digits, `-` for none.
    pub fn bytes(&mut self, name: &str) -> Result<Vec<u8>, String> {
        let word = self.word(name)?;
        if word == "-" {
            return Ok(Vec::new());
        }
        let pairs = word.as_bytes().chunks(2).map(byte);
        let bytes: Option<Vec<u8>> = pairs.collect();
        bytes.ok_or_else(|| format!("{}: {} are not pairs of hex digits", self.operation, name))
    }

    /// Nothing may be left.
    pub fn end(&self) -> Result<(), String> {
        match self.rest.get(self.at) {
            None => Ok(()),
            Some(word) => Err(format!("{} has a word too many{}", self.operation, self.shown(word))),
        }
    }
}

fn byte(pair: &[u8]) -> Option<u8> {
    let digit = |at: usize| pair.get(at).and_then(|&sign| (sign as char).to_digit(16));
    Some((16 * digit(0)? + digit(1)?) as u8)
}
