//! One unit: numbers in bytes, and what stands at the front of a stream ("One unit").

/// Bytes of a message header.
pub const HEADER: usize = 20;

/// The little-endian number in two bytes.
pub fn u16_at(bytes: &[u8], at: usize) -> u16 {
    u16::from_le_bytes([bytes[at], bytes[at + 1]])
}

/// The little-endian number in four bytes.
pub fn u32_at(bytes: &[u8], at: usize) -> u32 {
    u32::from_le_bytes(bytes[at..at + 4].try_into().expect("four bytes"))
}

/// The little-endian number in eight bytes.
pub fn u64_at(bytes: &[u8], at: usize) -> u64 {
    u64::from_le_bytes(bytes[at..at + 8].try_into().expect("eight bytes"))
}

/// What stands at the front of a stream.
#[derive(Clone, Copy, PartialEq, Eq, Debug)]
pub enum Unit<'a> {
    /// Not yet a whole unit.
    More,
    /// A header with nothing behind it.
    Heartbeat,
    /// A message, as the very part of the stream, with the header's two numbers.
    Message {
        /// SeqNum.
        seq: u32,
        /// InternalSeqNum, 0 in a snapshot.
        internal: u32,
        /// MsgSize bytes.
        message: &'a [u8],
    },
}

/// Cuts the first unit out of a stream.
pub fn cut(stream: &[u8]) -> Unit<'_> {
    if stream.len() < HEADER {
        return Unit::More;
    }
    if usize::from(u16_at(stream, 0)) == HEADER {
        return Unit::Heartbeat;
    }
    if stream.len() < HEADER + 2 {
        return Unit::More;
    }
    let size = usize::from(u16_at(stream, HEADER));
    match stream.get(HEADER..HEADER + size) {
        None => Unit::More,
        Some(message) => Unit::Message { seq: u32_at(stream, 4), internal: u32_at(stream, 8), message },
    }
}
