//! Order books on a screen, with a badge that is green only by right.
//!
//! A safe cover over the proved library's C calls. A [`Line`] takes a line's bytes in any pieces, fills its books and the
//! price strips under them, and says what a panel's corner shows, and why. Each call gets one of the answers of documents 01
//! and 02, or none where bytes only wait or are dropped, whatever the bytes, the tables and the clock; nobody has to check
//! first. [`connection`] tells the life of a connection.
//!
//! ```
//! use mmdh::{Badge, Connect, Line};
//!
//! let mut line = Line::new(1_000, 128)?;
//! line.connect(Connect::Fresh, 0)?;
//! assert_eq!(line.badge(0), Badge::Filling);
//!
//! // SendKey; a logon response with status 0; code 700, a new bid at level 1: 9.730, 4,000 shares, 2 orders
//! # let key = [24, 0, 0, 0, 1, 0, 0, 0, 0, 0, 0, 0, 0, 0, 0, 0, 0, 0, 0, 0, 4, 0, 0x51, 4];
//! # let logon = [28, 0, 0, 0, 2, 0, 0, 0, 0, 0, 0, 0, 0, 0, 0, 0, 0, 0, 0, 0, 8, 0, 0x4E, 4, 0, 0, 0, 0];
//! # let header = [56, 0, 0, 0, 3, 0, 0, 0, 1, 0, 0, 0, 0, 0, 0, 0, 0, 0, 0, 0];
//! # let message = [
//! #     0x24, 0, 0x35, 0, 0xBC, 2, 0, 0, 0, 0, 0, 1, 0xA0, 0x0F, 0, 0, 0, 0, 0, 0, 2, 0x26, 0, 0, 2, 0, 0, 0, 0, 0, 1,
//! #     0, 0, 0, 0, 0,
//! # ];
//! # let bytes = [&key[..], &logon, &header, &message].concat();
//! for piece in bytes.chunks(50) {
//!     line.hear(piece, 10)?;
//! }
//! assert_eq!(line.badge(10), Badge::Green);
//! let bids = line.books().bids(700)?;
//! assert_eq!((bids.len(), bids[0].price, bids[0].quantity, bids[0].orders), (1, 9_730, 4_000, 2));
//!
//! // message 3 once more where 4 is next: the line has a hole, and the badge says so at once
//! assert!(line.hear(&bytes[52..], 20).is_err());
//! assert_eq!(line.badge(20), Badge::Stale);
//! # Ok::<(), mmdh::Refused>(())
//! ```
//!
//! Below it, [`single`] has the calls one by one and [`raw`] the C calls themselves. Beside it, [`password`] checks a new
//! password before the hub does.

#![deny(missing_docs)]
#![deny(unsafe_code)]

mod answer;
mod books;
mod feed;
mod lent;
mod line;
pub mod password;
#[allow(unsafe_code)]
pub mod raw;
mod strips;
mod tables;
mod why;

pub use answer::{Answer, Refused};
pub use books::{Books, Row, Rows, Side};
pub use feed::{Badge, Connect, Phase};
pub use line::{Heard, Line, Unit};
pub use strips::{Direction, Strip, Strips};
pub use tables::Tables;
pub use why::{Closing, Dropping, Loss, Reason, Why};

/// Single calls: a feed without its tables and without the bytes not yet used, and a line without its tables and its
/// holding buffer. [`Line`] makes them in the right order; they are for those who keep tables or bytes in a way of their
/// own.
pub mod single {
    pub use crate::feed::{Arrival, Feed, Frame};
    pub use crate::lent::{LentLine, Scrap, LONGEST};
}

/// The life of a connection.
#[cfg(any(doc, doctest))]
pub mod connection {
    #![doc = include_str!("../../docs/CONNECTION.md")]
}
