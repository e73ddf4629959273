//! The clearings of a registration, and their average price.

use crate::average::Average;
use crate::records::Clearing;

pub const MOST_CLEARINGS: usize = 4;

/// How many clearings there are, and their prices by cleared kW.
#[derive(Clone, Copy, Default)]
pub struct Clearings {
    count: u8,
    prices: Average,
}

impl Clearings {
    pub fn has_room(&self) -> bool {
        usize::from(self.count) < MOST_CLEARINGS
    }

    pub fn add(&mut self, clearing: &Clearing) {
        self.count += 1;
        self.prices.add(clearing.kw.into(), clearing.price.into());
    }

    /// The average price, weighted by cleared kW; none without clearings.
    pub fn average(&self) -> Option<i64> {
        self.prices.rounded()
    }
}
