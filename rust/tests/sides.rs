//! A side at once and a strip, as the cover reads them, against the twin's.

use crate::scene;
use crate::tally::Tally;
use exchange::dice::Dice;
use mmdh::{Books, Side, Strip, Strips};
use twin::Answer;

const LENGTHS: [usize; 8] = [0, 63, 64, 65, 128, 192, 200, 640];
const CODES: [u64; 9] = [1, 5, 700, 2_800, 99_999, 42, 0, 100_000, u64::MAX];

/// All rows of a side, or the number that refuses it.
type Read = Result<Vec<(i64, u64, u64)>, u64>;

pub fn check(tally: &mut Tally, dice: &mut Dice, rounds: u64) {
    check_sides(tally, dice, rounds);
    check_strips(tally, dice, rounds);
}

fn check_sides(tally: &mut Tally, dice: &mut Dice, rounds: u64) {
    tally.part("sides at once, cover against twin");
    let mut met = std::collections::BTreeSet::new();
    for _ in 0..rounds {
        let length = dice.of(&LENGTHS);
        let mut table = scene::table(dice, length);
        for code in CODES {
            for side in [Side::Bid, Side::Offer] {
                let wanted = twins(&table, code, side);
                let ours = covers(&mut table, code, side);
                met.insert(ours.as_ref().err().copied().unwrap_or(0));
                tally.same(&ours, &wanted, || format!("the {:?}s of {} in a table of {} words", side, code, length));
            }
        }
    }
    tally.same(&met.into_iter().collect(), &vec![0, 4, 15, 18], || "the answers to sides".to_string());
}

fn covers(table: &mut [u64], code: u64, side: Side) -> Read {
    let rows = Books::over(table).side(code, side).map_err(|refused| refused.answer().number())?;
    Ok(rows.iter().map(|row| (row.price, row.quantity, row.orders)).collect())
}

fn twins(table: &[u64], code: u64, side: Side) -> Read {
    let read = twin::read_side(table, code, u64::from(side == Side::Offer));
    match read.answer {
        Answer::Taken => Ok(read.rows),
        refused => Err(refused as u64),
    }
}

const STRIP_LENGTHS: [usize; 7] = [0, 11, 12, 13, 36, 41, 120];

/// The values of a strip that have come, by their numbers; each as a wide number.
type Values = Result<Vec<(usize, i128)>, u64>;

fn check_strips(tally: &mut Tally, dice: &mut Dice, rounds: u64) {
    tally.part("strips, cover against twin");
    let mut met = std::collections::BTreeSet::new();
    for _ in 0..rounds {
        let length = dice.of(&STRIP_LENGTHS);
        let mut table = scene::strips(dice, length);
        for code in CODES {
            let wanted = twins_strip(&table, code);
            let ours = Strips::over(&mut table).strip(code).map(values).map_err(|refused| refused.answer().number());
            met.insert(ours.as_ref().err().copied().unwrap_or(0));
            tally.same(&ours, &wanted, || format!("the strip of {} in a table of {} words", code, length));
        }
    }
    tally.same(&met.into_iter().collect(), &vec![0, 4, 15, 18], || "the answers to strips".to_string());
}

fn values(strip: Strip) -> Vec<(usize, i128)> {
    let price = |price: Option<i64>| price.map(i128::from);
    let quantity = |quantity: Option<u64>| quantity.map(i128::from);
    let all = [
        price(strip.nominal),
        price(strip.iep),
        quantity(strip.iev),
        price(strip.reference),
        price(strip.lower),
        price(strip.upper),
        strip.direction.map(|direction| i128::from(u32::from(direction.letter()))),
        quantity(strip.imbalance),
        price(strip.closing),
    ];
    all.into_iter().enumerate().filter_map(|(value, came)| Some((value, came?))).collect()
}

fn twins_strip(table: &[u64], code: u64) -> Values {
    let read = twin::read_strip(table, code);
    if read.answer != Answer::Taken {
        return Err(read.answer as u64);
    }
    let prices = [read.nominal, read.iep, read.reference, read.lower, read.upper, read.closing].map(i128::from);
    let [nominal, iep, reference, lower, upper, closing] = prices;
    let [iev, direction, imbalance] = [read.iev, read.direction, read.imbalance].map(i128::from);
    let all = [nominal, iep, iev, reference, lower, upper, direction, imbalance, closing];
    Ok(all.into_iter().enumerate().filter(|(value, _)| (read.flags >> value) & 1 == 1).collect())
}
