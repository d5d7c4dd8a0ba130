//! What the exchange sends, for tests, captures and benchmarks: units, messages, and a small market whose updates fit.

#![forbid(unsafe_code)]
#![deny(missing_docs)]

pub mod dice;
pub mod market;

/// Bytes of a message header.
pub const HEADER: usize = 20;

/// A new row; those below move down.
pub const NEW: u8 = 0;
/// Replaces quantity and orders.
pub const CHANGE: u8 = 1;
/// Takes a row away.
pub const DELETE: u8 = 2;
/// Empties both sides.
pub const CLEAR: u8 = 74;

/// One entry of a type 53 message, as sent.
#[derive(Clone, Copy, PartialEq, Eq, Debug, Default)]
pub struct Entry {
    /// AggregateQuantity.
    pub quantity: u64,
    /// Price in thousandths.
    pub price: i32,
    /// NumberOfOrders.
    pub orders: u32,
    /// 0 bid, 1 offer.
    pub side: u16,
    /// PriceLevel.
    pub level: u8,
    /// UpdateAction.
    pub action: u8,
}

impl Entry {
    /// The entry's 24 bytes.
    pub fn bytes(&self) -> [u8; 24] {
        let mut bytes = [0; 24];
        bytes[0..8].copy_from_slice(&self.quantity.to_le_bytes());
        bytes[8..12].copy_from_slice(&self.price.to_le_bytes());
        bytes[12..16].copy_from_slice(&self.orders.to_le_bytes());
        bytes[16..18].copy_from_slice(&self.side.to_le_bytes());
        bytes[18] = self.level;
        bytes[19] = self.action;
        bytes
    }
}

/// A header before a message of this length.
pub fn header(seq: u32, internal: u32, len: usize, send_time: u64) -> [u8; HEADER] {
    let mut header = [0; HEADER];
    header[0..2].copy_from_slice(&((HEADER + len) as u16).to_le_bytes());
    header[4..8].copy_from_slice(&seq.to_le_bytes());
    header[8..12].copy_from_slice(&internal.to_le_bytes());
    header[12..20].copy_from_slice(&send_time.to_le_bytes());
    header
}

/// A whole unit, sent at time 0.
pub fn unit(seq: u32, internal: u32, message: &[u8]) -> Vec<u8> {
    let mut unit = header(seq, internal, message.len(), 0).to_vec();
    unit.extend_from_slice(message);
    unit
}

/// A message of some length: MsgSize, MsgType, zeros.
pub fn message(kind: u16, len: usize) -> Vec<u8> {
    let mut message = vec![0; len.max(4)];
    message[0..2].copy_from_slice(&(len as u16).to_le_bytes());
    message[2..4].copy_from_slice(&kind.to_le_bytes());
    message
}

/// A session message of eight bytes with its status where its type has it.
pub fn session(kind: u16, status: u8) -> Vec<u8> {
    let mut message = message(kind, 8);
    message[if kind == 1102 { 6 } else { 4 }] = status;
    message
}

/// 203, with the last internal number of the refresh.
pub fn refresh_complete(last: u32) -> Vec<u8> {
    let mut message = message(203, 8);
    message[4..8].copy_from_slice(&last.to_le_bytes());
    message
}

/// A message about one code: MsgSize, MsgType, SecurityCode, zeros.
pub fn about(kind: u16, len: usize, code: u32) -> Vec<u8> {
    let mut message = message(kind, len);
    message[4..8].copy_from_slice(&code.to_le_bytes());
    message
}

/// Type 40, Nominal Price.
pub fn nominal(code: u32, price: i32) -> Vec<u8> {
    let mut message = about(40, 12, code);
    message[8..12].copy_from_slice(&price.to_le_bytes());
    message
}

/// Type 41, Indicative Equilibrium Price, and its volume.
pub fn equilibrium(code: u32, price: i32, volume: u64) -> Vec<u8> {
    let mut message = about(41, 20, code);
    message[8..12].copy_from_slice(&price.to_le_bytes());
    message[12..20].copy_from_slice(&volume.to_le_bytes());
    message
}

/// Type 43: Reference Price, lower and upper price.
pub fn reference(code: u32, prices: [i32; 3]) -> Vec<u8> {
    let mut message = about(43, 20, code);
    for (price, at) in prices.into_iter().zip([8, 12, 16]) {
        message[at..at + 4].copy_from_slice(&price.to_le_bytes());
    }
    message
}

/// Type 56, Order Imbalance; the direction is `N`, `B`, `S` or a space.
pub fn imbalance(code: u32, direction: u8, quantity: u64) -> Vec<u8> {
    let mut message = about(56, 20, code);
    message[8] = direction;
    message[10..18].copy_from_slice(&quantity.to_le_bytes());
    message
}

/// Type 62, Closing Price.
pub fn closing(code: u32, price: i32) -> Vec<u8> {
    let mut message = about(62, 16, code);
    message[8..12].copy_from_slice(&price.to_le_bytes());
    message
}

/// Type 53; without entries it is what is sent for an emptied book.
pub fn book_message(code: u32, entries: &[Entry]) -> Vec<u8> {
    let mut message = message(53, 12);
    message[0..2].copy_from_slice(&((12 + 24 * entries.len()) as u16).to_le_bytes());
    message[4..8].copy_from_slice(&code.to_le_bytes());
    message[11] = entries.len() as u8;
    for entry in entries {
        message.extend_from_slice(&entry.bytes());
    }
    message
}
