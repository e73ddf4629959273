//! Years with retests, record by record.

use settlement::cases::record::{file, Numbers};
use settlement::exact::widen;

use crate::common::each_record;

/// Of 4,001 kW 1,000 fail: four times that is one less.
pub const KW: [u64; 3] = [1_000, 2_000, 1_001];
pub const RESULTS: [u64; 3] = [400, 2_100, 1_001];

/// Of 10,800 kW 1,800 fail: four times that is 7,200.
pub const MORE_KW: [u64; 3] = [1_000, 9_000, 800];
pub const TWO_FAIL: [u64; 3] = [400, 9_000, 500];

/// A registration of area 1 at a rate of 10,000.
pub fn registration(id: u64, seller: u64, zone: u64, product: u64, committed: u64) -> Numbers {
    vec![2, id, seller, 1, zone, product, committed, 10_000]
}

/// Seller 0's registrations 0 to 2, of zone 1, Limited.
pub fn three(committed: [u64; 3]) -> Vec<Numbers> {
    let register = |(id, committed)| registration(id, 0, 1, 0, committed);
    (0..).zip(committed).map(register).collect()
}

/// June's test of the three.
pub fn test([a, b, c]: [u64; 3]) -> Numbers {
    vec![5, 1, 0, 1, 0, 3, 0, a, 1, b, 2, c]
}

/// June's retest of seller 0, zone 1, Limited.
pub fn retest(entries: &[[u64; 2]]) -> Numbers {
    let count = widen(entries.len());
    [&[9, 0, 1, 0, 1, count], entries.as_flattened()].concat()
}

pub fn in_month(month: u64, mut retest: Numbers) -> Numbers {
    retest[4] = month;
    retest
}

pub fn close(month: u64) -> Numbers {
    vec![6, month]
}

pub fn closes(last: u64) -> Vec<Numbers> {
    (1..=last).map(close).collect()
}

/// An event of June that lists one registration.
pub fn event(id: u64, reduction: u64) -> Numbers {
    vec![4, 1, 1, 1, 0, 1, id, reduction]
}

/// The file of a year that is not leap, with factors 9,500 and 10,800, so that a kW converts to 1.026,
/// and LSEs of 3,000 and 1,000 kW.
pub fn year(registrations: &[Numbers], records: &[Numbers]) -> Vec<u8> {
    let opening = vec![1, 0, 9_500, 10_800];
    let lses = [vec![3, 0, 3_000], vec![3, 1, 1_000]];
    file(&[&[opening], registrations, &lses, records].concat())
}

/// The numbers that the retests get; all other records are accepted.
pub fn answers(registrations: &[Numbers], records: &[Numbers]) -> Vec<u64> {
    let mut answers = Vec::new();
    each_record(
        &year(registrations, records),
        |numbers, number| match numbers[0] {
            9 => answers.push(number),
            _ => assert_eq!(number, 0),
        },
    );
    answers
}
