//! The amounts of a close, and the definitions that they are computed by.
//!
//! All numbers fit an i64. The largest is what is left to the LSEs times their obligations: 64
//! registrations of 144,000 unforced kW at a test rate of 120,000 for 366 days, divided by 1,000,
//! come to 4.1e11, and 16 obligations to 1.6e7.

use std::array;

use crate::fields::{LSES, SELLERS};
use crate::records::{Opening, Product};

/// A seller's amounts in cents.
#[derive(Clone, Copy, Default, Debug, PartialEq, Eq)]
pub struct Amounts {
    pub compliance: i64,
    pub test: i64,
    pub credit: i64,
}

/// What each seller with a registration and each LSE owes or is owed, by id.
#[derive(Clone, Copy, Default, Debug, PartialEq, Eq)]
pub struct Owed {
    pub sellers: [Option<Amounts>; SELLERS],
    pub lses: [Option<i64>; LSES],
}

impl Owed {
    /// These amounts less those of the close before; a party absent there had 0.
    pub fn less(&self, before: &Owed) -> Owed {
        let seller = |id: usize, now: Amounts| {
            let earlier = before.sellers[id].unwrap_or_default();
            Amounts {
                compliance: now.compliance - earlier.compliance,
                test: now.test - earlier.test,
                credit: now.credit - earlier.credit,
            }
        };
        let lse = |id: usize, now: i64| now - before.lses[id].unwrap_or(0);
        Owed {
            sellers: array::from_fn(|id| self.sellers[id].map(|now| seller(id, now))),
            lses: array::from_fn(|id| self.lses[id].map(|now| lse(id, now))),
        }
    }
}

/// D(k): days from 1 June to the end of month k.
pub fn days(leap: bool, month: u8) -> i64 {
    const DAYS: [i64; 12] = [30, 61, 92, 122, 153, 183, 214, 245, 273, 304, 334, 365];
    let month = month.min(12);
    DAYS[usize::from(month) - 1] + i64::from(leap && month >= 9)
}

/// Nominated kW to unforced kW.
pub fn convert(opening: &Opening, kw: i64) -> i64 {
    kw * i64::from(opening.dr_factor) * i64::from(opening.forecast_pool_requirement) / 100_000_000
}

/// Allots an amount by weights, asked for one after another in rising id.
#[derive(Clone, Copy)]
pub struct Allotment {
    amount: i64,
    whole: i64,
    sum: i64,
    /// The last quotient: what the weights so far are allotted together.
    allotted: i64,
    divisions: usize,
}

impl Allotment {
    /// The whole is the sum of all weights to come.
    pub fn new(amount: i64, whole: i64) -> Self {
        Allotment {
            amount,
            whole,
            sum: 0,
            allotted: 0,
            divisions: 0,
        }
    }

    /// The share of the next weight: one division, since the quotient to take off is the last one.
    pub fn share(&mut self, weight: i64) -> i64 {
        if self.whole == 0 {
            return 0;
        }
        self.sum += weight;
        let before = self.allotted;
        self.allotted = self.quotient();
        self.allotted - before
    }

    /// What the weights so far are allotted together. Only here is divided, so only here is counted.
    fn quotient(&mut self) -> i64 {
        self.divisions += 1;
        self.amount * self.sum / self.whole
    }

    /// The divisions made so far: one for each share, none where the whole is 0.
    pub fn divisions(&self) -> usize {
        self.divisions
    }
}

/// The month from whose close on an event's charge is due.
pub fn due_month(product: Product, month: u8) -> u8 {
    match product {
        Product::Limited => (month + 3).max(5),
        Product::ExtendedSummer | Product::Annual => (month + 3).max(13),
    }
}

/// The on-peak amount: a daily charge before the cap, in thousandths of a cent. n counts the events
/// that list the registration, but those that are off-peak alone.
pub fn on_peak_amount(unforced: i64, rate: i64, n: i64) -> i64 {
    unforced * rate / n.max(2)
}

/// The off-peak amount: a daily charge before the cap too.
pub fn off_peak_amount(unforced: i64, rate: i64) -> i64 {
    unforced * rate / 52
}

/// The most that a registration is charged a day, in thousandths of a cent.
pub fn cap(opening: &Opening, committed: i64, rate: i64) -> i64 {
    convert(opening, committed) * rate
}
