//! Follows a capture in pieces, and says what the badge is and why.

use mmdh::{Connect, Line};

fn main() -> Result<(), Box<dyn std::error::Error>> {
    let bytes = std::fs::read(std::env::args().nth(1).ok_or("say a capture")?)?;
    let mut line = Line::new(1_000, 128)?; // a silence limit of 1,000 ms, room for 128 books and their strips
    line.connect(Connect::Fresh, 0)?;
    for piece in bytes.chunks(1_000) {
        // at 10 ms; what is not whole waits, and after a refusal nothing more is taken
        if line.hear(piece, 10).is_err() {
            break;
        }
    }
    for time in [10, 1_010, 1_011] {
        println!("{}: {}", line.badge(time), line.reason(time));
    }
    println!("{:?}", line.books().bids(700));
    println!("{:?}", line.strips().strip(700));
    Ok(())
}
