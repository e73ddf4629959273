//! The rates of a year, by id: each registration's own, and the one in force, which an own rate of
//! 0 borrows from its area.

use crate::average::Average;
use crate::fields::{AREAS, REGISTRATIONS};
use crate::year::Year;

pub type Rates = [i64; REGISTRATIONS];

/// The own rates: the clearings' average, or the field where there are no clearings.
pub fn own(year: &Year) -> Rates {
    let mut rates = [0; REGISTRATIONS];
    for registration in year.registrations.iter().flatten() {
        let id = usize::from(registration.id);
        let average = year.clearings[id].average();
        rates[id] = average.unwrap_or(registration.field_rate.into());
    }
    rates
}

/// The rates in force: the own ones, and where those are 0 what the area lends.
pub fn in_force(year: &Year) -> Rates {
    let mut rates = own(year);
    let lent = lent(year, &rates);
    for registration in year.registrations.iter().flatten() {
        let rate = &mut rates[usize::from(registration.id)];
        if *rate == 0 {
            *rate = lent[usize::from(registration.area)];
        }
    }
    rates
}

/// What each area lends: the average of its own rates above 0, weighted by committed kW, or 0 where
/// there are none. A registration whose own rate is 0 counts neither as rate nor as kW.
fn lent(year: &Year, own: &Rates) -> [i64; AREAS] {
    let mut lenders = [Average::default(); AREAS];
    for registration in year.registrations.iter().flatten() {
        let rate = own[usize::from(registration.id)];
        if rate > 0 {
            lenders[usize::from(registration.area)].add(registration.committed.into(), rate);
        }
    }
    lenders.map(|average| average.rounded().unwrap_or(0))
}
