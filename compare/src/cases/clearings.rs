//! Clearings from chance, each registration's behind it.

use super::random::Random;
use super::record::Numbers;
use crate::clearings::MOST_CLEARINGS;
use crate::exact::widen;

/// Registrations of which none, some or all are cleared, now and then once too often; where some
/// are, also clearings of any id, known or not.
pub fn some_cleared(random: &mut Random, registrations: Vec<Numbers>) -> Vec<Vec<Numbers>> {
    let percent = random.pick(&[0, 30, 100]);
    let clear = |registration: Numbers| match random.chance(percent) {
        true => {
            let count = random.pick(&[1, 1, 2, 2, 3, 3, MOST_CLEARINGS, MOST_CLEARINGS + 1]);
            with_clearings(random, registration, count)
        }
        false => vec![registration],
    };
    let mut runs: Vec<Vec<Numbers>> = registrations.into_iter().map(clear).collect();
    let strays = if percent > 0 { random.below(3) } else { 0 };
    for _ in 0..strays {
        let id = widen(random.below(64));
        let price = price(random);
        runs.push(vec![clearing(random, id, price)]);
    }
    runs
}

/// Registrations that are all cleared as often as may be.
pub fn all_cleared(random: &mut Random, registrations: Vec<Numbers>) -> Vec<Vec<Numbers>> {
    let clear = |registration| with_clearings(random, registration, MOST_CLEARINGS);
    registrations.into_iter().map(clear).collect()
}

/// A registration and so many clearings behind it; now and then all at price 0, or at prices so low
/// that their average may round to 0.
fn with_clearings(random: &mut Random, registration: Numbers, count: usize) -> Vec<Numbers> {
    let id = registration[1];
    let limit = random.pick(&[1, 2, 4]);
    let is_cheap = random.chance(20);
    let mut run = vec![registration];
    for _ in 0..count {
        let price = match is_cheap {
            true => widen(random.below(limit)),
            false => price(random),
        };
        run.push(clearing(random, id, price));
    }
    run
}

fn clearing(random: &mut Random, id: u64, price: u64) -> Numbers {
    vec![7, id, price, random.value(1, 100_000)]
}

fn price(random: &mut Random) -> u64 {
    random.value(0, 100_000)
}
