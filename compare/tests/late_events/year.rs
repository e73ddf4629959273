//! Years with events, record by record.

use settlement::cases::record::{file, Numbers};

/// The numbers of the products.
pub const LIMITED: u64 = 0;
pub const ANNUAL: u64 = 2;

/// An on-peak event that lists registration 0.
pub fn event(month: u64, reduction: u64) -> Numbers {
    vec![4, 1, month, 1, 0, 1, 0, reduction]
}

/// The closes of these months.
pub fn closes(months: impl Iterator<Item = u64>) -> Vec<Numbers> {
    months.map(|month| vec![6, month]).collect()
}

/// The file of Year A with registration 0 alone, of this product, and these records.
pub fn year(product: u64, records: &[Numbers]) -> Vec<u8> {
    let parties = [
        vec![1, 0, 9_500, 10_800],
        vec![2, 0, 0, 1, 1, product, 1_000, 10_000],
        vec![3, 0, 3_000],
        vec![3, 1, 1_000],
    ];
    file(&[&parties, records].concat())
}
