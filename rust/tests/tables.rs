//! The words of both tables, lent to the library and to the twin alike.

use mmdh::raw::Lent;

#[derive(Clone, Default, PartialEq, Eq, Debug)]
pub struct Tables {
    pub books: Vec<u64>,
    pub strips: Vec<u64>,
}

impl Tables {
    /// So many zero words of each.
    pub fn zeros(books: usize, strips: usize) -> Tables {
        Tables { books: vec![0; books], strips: vec![0; strips] }
    }

    /// Books, with no strips to lend.
    pub fn of_books(books: &[u64]) -> Tables {
        Tables { books: books.to_vec(), strips: Vec::new() }
    }

    pub fn lend(&mut self) -> Lent<'_> {
        Lent { books: &mut self.books, strips: &mut self.strips }
    }

    pub fn lend_twin(&mut self) -> twin::Tables<'_> {
        twin::Tables { books: &mut self.books, strips: &mut self.strips }
    }

    /// The same words as another's, in the room that there is.
    pub fn copy(&mut self, other: &Tables) {
        for (words, others) in [(&mut self.books, &other.books), (&mut self.strips, &other.strips)] {
            words.clear();
            words.extend_from_slice(others);
        }
    }

    /// The first word that differs from another's, with its table.
    pub fn differs(&self, other: &Tables) -> Option<(&'static str, usize, u64, u64)> {
        let tables = [("books", &self.books, &other.books), ("strips", &self.strips, &other.strips)];
        let differs = |(name, ours, others): (&'static str, &Vec<u64>, &Vec<u64>)| {
            let at = ours.iter().zip(others).position(|(a, b)| a != b)?;
            Some((name, at, ours[at], others[at]))
        };
        tables.into_iter().find_map(differs)
    }
}

/// A table's length and its words that are not zero.
pub fn words(table: &[u64]) -> String {
    let set: Vec<String> =
        table.iter().enumerate().filter(|(_, &w)| w != 0).take(200).map(|(at, w)| format!("{}:{}", at, w)).collect();
    format!("table of {} words: {}", table.len(), set.join(" "))
}
