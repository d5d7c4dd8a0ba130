//! The badge and its reason over a grid of phases, limits and times, and at random.

use crate::pair::Pair;
use crate::scene;
use exchange::dice::Dice;

const PHASES: [u64; 13] = [0, 1, 2, 3, 4, 5, 6, 7, 8, 255, 256 + 4, (1 << 32) + 4, u64::MAX];
const LIMITS: [u64; 9] = [0, 1, 2, 1_000, 599_999, 600_000, 600_001, 1 << 32, u64::MAX];
const HEARD: [u64; 8] = [0, 1, 5_000, (1 << 32) - 1, 1 << 32, u64::MAX - 1_000, u64::MAX - 1, u64::MAX];

pub fn check(pair: &mut Pair, dice: &mut Dice, rounds: u64) {
    pair.tally.part("badges and their reasons, library against twin and one against the other");
    for phase in PHASES {
        for limit in LIMITS {
            for heard in HEARD {
                for time in times(heard, limit) {
                    pair.badge_and_why(phase, heard, limit, time);
                }
            }
        }
    }
    for _ in 0..rounds {
        let (heard, limit) = (scene::edge(dice), dice.of(&LIMITS));
        let time = heard.wrapping_add(dice.of(&[limit, limit / 2, 0])).wrapping_add(dice.below(5)).wrapping_sub(2);
        pair.badge_and_why(dice.of(&PHASES), heard, limit, time);
    }
}

/// Around the heard time, around the last time within the limit, and the edges of 64 bits.
fn times(heard: u64, limit: u64) -> Vec<u64> {
    let end = heard.wrapping_add(limit);
    let around = |time: u64| [time.wrapping_sub(1), time, time.wrapping_add(1)];
    [around(heard), around(end), around(0)].concat()
}
