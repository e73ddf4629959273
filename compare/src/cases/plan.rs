//! Plausible years from chance: parties and clearings, then events, tests, retests and closes.

use std::collections::BTreeSet;

use super::clearings::{all_cleared, some_cleared};
use super::late::comes_late;
use super::parties::{
    opening_and_parties, registrations_of_all_zones, registrations_of_few_places,
    zones_and_products,
};
use super::performance::{alike, entries, entries_apart, failing, few_short};
use super::random::Random;
use super::record::Numbers;
use super::retests::Results;
use crate::counter::{may_be_called, may_be_tested, month_has_begun};
use crate::exact::{narrow, widen};
use crate::records::{registration, Product, Registration};
use crate::year::{CLOSES, MOST_EVENTS};

/// The last count of closed months with which an event that lists a Limited registration comes in time.
const LAST_IN_TIME: u8 = 6;

/// The records of a plausible year, and one more after its end.
pub fn year(random: &mut Random) -> Vec<Numbers> {
    let registrations = narrow(random.value(1, 64));
    let lses = narrow(random.value(1, 16));
    any_year(random, registrations, lses)
}

/// A plausible year of few parties.
pub fn short_year(random: &mut Random) -> Vec<Numbers> {
    let registrations = 1 + random.below(4);
    let lses = 1 + random.below(2);
    any_year(random, registrations, lses)
}

fn any_year(random: &mut Random, registrations: usize, lses: usize) -> Vec<Numbers> {
    let registrations = registrations_of_few_places(random, registrations);
    // With 7, tests are charged for months before an event may list what they tested.
    let first_call = random.pick(&[0, 1, 2, 4, 7]);
    let percent = Percent {
        late: random.pick(&[0, 50, 100]),
        apart: random.pick(&[20, 50, 80]),
        // With 60, caps are used up.
        failing: random.pick(&[0, 0, 60]),
    };
    let mut plan = Plan::new(random, &registrations, first_call, percent);
    let registrations = some_cleared(random, registrations);
    let mut records = opening_and_parties(random, registrations, lses);
    let busyness = random.pick(&[2, 4, 6]);
    for z in (0..).take(CLOSES) {
        // One more in the last month without events, so that a calm year has a test too.
        let more = usize::from(z + 1 == plan.first_call);
        for _ in 0..random.below(busyness) + more {
            records.extend(plan.event_or_test(random, z));
            records.extend(plan.retest(random, z));
        }
        records.push(close_after(z));
    }
    let again = random.below(records.len());
    records.push(records[again].clone());
    records
}

/// A year with no room left: 64 registrations of 4 clearings each, 16 LSEs, 24 tests, 16 events of
/// 64 entries, of which so many of 100 measure both periods apart. No event comes late, so that
/// without such ones an engine from before C-16 takes the year too.
pub fn full_year(random: &mut Random, percent_apart: usize) -> Vec<Numbers> {
    let registrations = registrations_of_all_zones(random);
    let first_call = random.pick(&[0, 1, 2, 4]);
    let percent = Percent {
        late: 0,
        apart: percent_apart,
        failing: 0,
    };
    let mut plan = Plan::new(random, &registrations, first_call, percent);
    let registrations = all_cleared(random, registrations);
    let mut records = opening_and_parties(random, registrations, 16);
    let mut tests = zones_and_products();
    random.shuffle(&mut tests);
    let mut events = MOST_EVENTS;
    for z in (0..).take(CLOSES) {
        // All tests come before the events, which leave nobody to test.
        let keep = if z < plan.first_call {
            random.below(tests.len() + 1)
        } else {
            0
        };
        for (zone, product) in tests.split_off(keep) {
            records.extend(plan.test_of(random, z, zone, product));
        }
        let keep = if z < plan.first_call {
            events
        } else if z < LAST_IN_TIME {
            random.below(events + 1)
        } else {
            0
        };
        for _ in keep..events {
            records.extend(plan.event_of_all(random, z));
        }
        events = keep;
        records.push(close_after(z));
    }
    records
}

fn close_after(z: u8) -> Numbers {
    vec![6, u64::from(z) + 1]
}

/// Of 100 events so many may come late, and so many measure both periods apart; of 100 lists of an event's
/// reductions at least so many are of zeros.
struct Percent {
    late: usize,
    apart: usize,
    failing: usize,
}

/// What a year's events and tests so far leave open.
struct Plan {
    registrations: Vec<Registration>,
    called: BTreeSet<u8>,
    results: Results,
    /// No event comes before so many closes.
    first_call: u8,
    percent: Percent,
    percent_of_tests: usize,
}

impl Plan {
    fn new(
        random: &mut Random,
        registrations: &[Numbers],
        first_call: u8,
        percent: Percent,
    ) -> Self {
        let parse = |numbers: &Numbers| registration(numbers[..].try_into().expect("8 numbers"));
        let mut registrations: Vec<Registration> = registrations.iter().map(parse).collect();
        registrations.sort_by_key(|r| r.id);
        Plan {
            registrations,
            called: BTreeSet::new(),
            results: Results::default(),
            first_call,
            percent,
            percent_of_tests: random.pick(&[4, 20, 60]),
        }
    }

    /// An event or a test with z months closed, if chance finds one to list.
    fn event_or_test(&mut self, random: &mut Random, z: u8) -> Option<Numbers> {
        match z < self.first_call || random.chance(self.percent_of_tests) {
            true => self.test(random, z),
            false => self.event(random, z),
        }
    }

    fn event(&mut self, random: &mut Random, z: u8) -> Option<Numbers> {
        let month = self.month(random, z);
        let area = random.pick(&self.registrations).area;
        let period = random.value(1, 3);
        let head = self.head(random, area, month, period);
        let is_off_peak = matches!(head[..], [4, _, _, 2]);
        let may = |r: &Registration| r.area == area && may_be_called(r.product, month, is_off_peak);
        let percent = random.pick(&[100, 100, 60, 10]);
        let listed = random.some(&self.those(may), percent);
        self.event_of(random, &head, &listed)
    }

    /// A month for an event with z months closed, often one in which every product may be called.
    fn month(&self, random: &mut Random, z: u8) -> u8 {
        let may_be_late = random.chance(self.percent.late);
        let may = |month| month_has_begun(month, z) && (may_be_late || !comes_late(month, z));
        let calls_all = |month| may(month) && may_be_called(Product::Limited, month, false);
        match random.chance(40) && (1..=12).any(calls_all) {
            true => random.month(calls_all),
            false => random.month(may),
        }
    }

    /// An event in time that lists all registrations, which are of one area.
    fn event_of_all(&mut self, random: &mut Random, z: u8) -> Option<Numbers> {
        let month = random.month(|month| {
            month_has_begun(month, z)
                && !comes_late(month, z)
                && may_be_called(Product::Limited, month, false)
        });
        let period = random.pick(&[1, 3]);
        let head = self.head(random, self.registrations[0].area, month, period);
        let listed = self.registrations.clone();
        self.event_of(random, &head, &listed)
    }

    /// The head up to the counts of an event of this period, or of one that measures both apart.
    fn head(&self, random: &mut Random, area: u8, month: u8, period: u64) -> Numbers {
        match random.chance(self.percent.apart) {
            true => vec![8, area.into(), month.into()],
            false => vec![4, area.into(), month.into(), period],
        }
    }

    fn event_of(
        &mut self,
        random: &mut Random,
        head: &[u64],
        listed: &[Registration],
    ) -> Option<Numbers> {
        self.called.extend(listed.iter().map(|r| r.id));
        let mut perform = || match random.chance(self.percent.failing) {
            true => failing(listed),
            false => alike(random, listed),
        };
        let entries = match head[0] {
            8 => entries_apart(&perform(), &perform()),
            _ => entries(&perform()),
        };
        with_lists(random, head, listed, &entries)
    }

    fn test(&mut self, random: &mut Random, z: u8) -> Option<Numbers> {
        let Registration { zone, product, .. } = random.pick(&self.registrations);
        self.test_of(random, z, zone, product)
    }

    fn test_of(
        &mut self,
        random: &mut Random,
        z: u8,
        zone: u8,
        product: Product,
    ) -> Option<Numbers> {
        let month =
            random.month(|month| month_has_begun(month, z) && may_be_tested(product, month));
        let listed =
            self.those(|r| (r.zone, r.product) == (zone, product) && !self.called.contains(&r.id));
        let performed = match random.chance(70) {
            true => few_short(random, &listed),
            false => alike(random, &listed),
        };
        // Now and then a zone and product is tested a second time.
        let is_first = self.results.add((zone, product), month, &performed);
        if !is_first && random.chance(70) {
            return None;
        }
        let head = [5, zone.into(), product.number(), month.into()];
        with_lists(random, &head, &listed, &entries(&performed))
    }

    fn retest(&mut self, random: &mut Random, z: u8) -> Option<Numbers> {
        self.results.retest(random, z, &self.registrations)
    }

    fn those(&self, are: impl Fn(&Registration) -> bool) -> Vec<Registration> {
        self.registrations
            .iter()
            .filter(|r| are(r))
            .copied()
            .collect()
    }
}

/// Puts deficits and entries behind the head of an event or a test; none if nobody is listed.
fn with_lists(
    random: &mut Random,
    head: &[u64],
    listed: &[Registration],
    entries: &[u64],
) -> Option<Numbers> {
    let sellers: BTreeSet<u8> = listed.iter().map(|r| r.seller).collect();
    let sellers: Vec<u8> = sellers.into_iter().collect();
    let percent = random.pick(&[0, 20, 100]);
    let short = random.some(&sellers, percent);
    let mut numbers = head.to_vec();
    numbers.extend([widen(short.len()), widen(listed.len())]);
    for seller in short {
        numbers.extend([seller.into(), deficit(random)]);
    }
    numbers.extend(entries);
    (!listed.is_empty()).then_some(numbers)
}

fn deficit(random: &mut Random) -> u64 {
    let limit = random.pick(&[2, 100, 10_000, 1_000_000]);
    random.value(1, limit)
}
