//! Years with events that measure both periods apart, record by record.

use settlement::cases::record::{file, Numbers};
use settlement::exact::widen;

/// The numbers of the products.
pub const LIMITED: u64 = 0;
pub const EXTENDED_SUMMER: u64 = 1;
pub const ANNUAL: u64 = 2;

/// Seller 0 has a Limited and two Annual registrations, seller 1 an Annual one.
pub fn four() -> Vec<Numbers> {
    vec![
        registration(0, 0, LIMITED, 1_000, 10_000),
        registration(1, 0, ANNUAL, 2_000, 15_000),
        registration(2, 0, ANNUAL, 1_000, 20_000),
        registration(3, 1, ANNUAL, 2_000, 15_000),
    ]
}

/// Seller 0 has one of 1,000 kW at 10,000, so that its cap is 1,026 × 10,000.
pub fn one(product: u64) -> Vec<Numbers> {
    vec![registration(0, 0, product, 1_000, 10_000)]
}

/// A registration of area 1 and zone 1.
pub fn registration(id: u64, seller: u64, product: u64, committed: u64, rate: u64) -> Numbers {
    vec![2, id, seller, 1, 1, product, committed, rate]
}

/// An event of June and area 1: deficits, and entries with an on-peak and an off-peak reduction.
pub fn apart(deficits: &[[u64; 2]], entries: &[[u64; 3]]) -> Numbers {
    let counts = [widen(deficits.len()), widen(entries.len())];
    let lists = [deficits.as_flattened(), entries.as_flattened()].concat();
    [&[8, 1, 1], &counts[..], &lists].concat()
}

/// An event of June and area 1 with a single reduction, of registration 0.
pub fn single(period: u64, reduction: u64) -> Numbers {
    vec![4, 1, 1, period, 0, 1, 0, reduction]
}

pub fn in_month(month: u64, mut event: Numbers) -> Numbers {
    event[2] = month;
    event
}

/// The closes of these months.
pub fn closes(months: impl Iterator<Item = u64>) -> Vec<Numbers> {
    months.map(|month| vec![6, month]).collect()
}

/// The file of a year that is not leap, with factors 9,500 and 10,800, so that a kW converts to 1.026,
/// and LSEs of 3,000 and 1,000 kW.
pub fn year(registrations: &[Numbers], records: &[Numbers]) -> Vec<u8> {
    let opening = vec![1, 0, 9_500, 10_800];
    let lses = [vec![3, 0, 3_000], vec![3, 1, 1_000]];
    file(&[&[opening], registrations, &lses, records].concat())
}
