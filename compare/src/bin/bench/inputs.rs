//! The records and files that are timed.

use settlement::cases::plan::full_year;
use settlement::cases::random::Random;
use settlement::cases::record::{file, Numbers};

/// Full years of several seeds, whose values are spread in several ways.
pub struct Inputs {
    years: Vec<Vec<Numbers>>,
}

impl Inputs {
    /// Of 100 events so many measure both periods apart.
    pub fn new(percent_apart: usize) -> Self {
        let years = (1..=4).map(|seed| full_year(&mut Random::new(seed), percent_apart));
        Inputs {
            years: years.collect(),
        }
    }

    /// The whole years without their clearings, and with them.
    pub fn full_years(&self) -> [Vec<Vec<u8>>; 2] {
        let without = |year: &Vec<Numbers>| {
            let mut year = year.clone();
            year.retain(|numbers| numbers[0] != 7);
            file(&year)
        };
        let years = self.years.iter();
        [
            years.clone().map(without).collect(),
            years.map(|year| file(year)).collect(),
        ]
    }

    /// Each year's first records of these kinds, so many of each.
    pub fn files(&self, kinds: &[(u64, usize)]) -> Vec<Vec<u8>> {
        let records = |year: &Vec<Numbers>| {
            let of_kind = |(kind, count): &(u64, usize)| {
                let all = year.iter().filter(|numbers| numbers[0] == *kind);
                all.take(*count).map(|numbers| in_june(numbers)).collect()
            };
            let lists: Vec<Vec<Numbers>> = kinds.iter().map(of_kind).collect();
            file(&lists.concat())
        };
        self.years.iter().map(records).collect()
    }
}

/// An event or a test of June, so that it may come before the first close.
fn in_june(numbers: &[u64]) -> Numbers {
    let mut numbers = numbers.to_vec();
    match numbers[0] {
        4 | 8 => numbers[2] = 1,
        5 => numbers[3] = 1,
        _ => {}
    }
    numbers
}

/// A record of each kind, as its numbers.
pub fn records() -> Vec<(&'static str, Numbers)> {
    let deficits = |count: u64| (0..count).flat_map(|seller| [seller, 1_000 + seller]);
    let entries = |count: u64| (0..count).flat_map(|id| [id, 50_000 + id]);
    let lists = |head: [u64; 4], short: u64, count: u64| {
        let mut numbers = head.to_vec();
        numbers.extend([short, count]);
        numbers.extend(deficits(short));
        numbers.extend(entries(count));
        numbers
    };
    let mut apart = vec![8, 1, 1, 16, 64];
    apart.extend(deficits(16));
    apart.extend((0..64).flat_map(|id| [id, 50_000 + id, 60_000 + id]));
    let mut retest = vec![9, 1, 1, 0, 1, 64];
    retest.extend(entries(64));
    vec![
        ("an opening", vec![1, 0, 9_500, 10_800]),
        ("a registration", vec![2, 63, 15, 7, 7, 2, 99_999, 12_345]),
        ("an LSE", vec![3, 15, 999_999]),
        ("an event of 1 entry", lists([4, 1, 1, 1], 0, 1)),
        ("an event of 64 entries", lists([4, 1, 1, 1], 16, 64)),
        ("a test of 64 entries", lists([5, 1, 0, 1], 16, 64)),
        ("a close", vec![6, 15]),
        ("a clearing", vec![7, 63, 12_345, 99_999]),
        ("an event of 64 entries of two reductions", apart),
        ("a retest of 64 entries", retest),
    ]
}
