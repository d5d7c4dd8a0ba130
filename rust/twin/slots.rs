//! A lent table as slots of so many words, for books and for strips alike ("The book table").

/// Most slots of a table.
pub const SLOTS: usize = 4096;

/// Whether a code may be asked for or sent.
pub fn code_listed(code: u64) -> bool {
    (1..=99_999).contains(&code)
}

/// The words of a table that belong to slots.
pub fn slot_words<const WIDTH: usize>(table: &[u64]) -> usize {
    (table.len() / WIDTH).min(SLOTS) * WIDTH
}

/// The lowest slot with this word 0: a code, or 0 for a free one.
pub fn find<const WIDTH: usize>(table: &[u64], code: u64) -> Option<usize> {
    table[..slot_words::<WIDTH>(table)].chunks_exact(WIDTH).position(|slot| slot[0] == code)
}

/// The words of one slot.
pub fn slot<const WIDTH: usize>(table: &[u64], k: usize) -> &[u64] {
    &table[WIDTH * k..WIDTH * (k + 1)]
}

/// The words of one slot, to be written.
pub fn slot_mut<const WIDTH: usize>(table: &mut [u64], k: usize) -> &mut [u64] {
    &mut table[WIDTH * k..WIDTH * (k + 1)]
}

/// Zeroes all slots.
pub fn clear<const WIDTH: usize>(table: &mut [u64]) {
    let words = slot_words::<WIDTH>(table);
    table[..words].fill(0);
}
