//! Retests from chance: most list what failed, where a seller failed in a small part; some are of
//! another seller, with another list or before the test's month.

use std::collections::{BTreeMap, BTreeSet};

use super::performance::{alike, entries, Performed};
use super::random::Random;
use super::record::Numbers;
use crate::counter::{may_be_tested, month_has_begun};
use crate::exact::widen;
use crate::records::{Product, Registration};

/// A seller, a zone and a product.
type Place = (u8, u8, Product);

fn place(r: &Registration) -> Place {
    (r.seller, r.zone, r.product)
}

/// What a test gave for a seller.
#[derive(Default)]
struct Outcome {
    tested_kw: u32,
    failed_kw: u32,
    failed: BTreeSet<u8>,
}

/// What the tests of a year gave, and whose retests came.
#[derive(Default)]
pub struct Results {
    /// The month of each zone and product's test.
    months: BTreeMap<(u8, Product), u8>,
    outcomes: BTreeMap<Place, Outcome>,
    retested: BTreeSet<Place>,
}

impl Results {
    /// Adds a test, if it is the first of its zone and product; was it?
    pub fn add(&mut self, tested: (u8, Product), month: u8, performed: &[Performed]) -> bool {
        if self.months.contains_key(&tested) {
            return false;
        }
        self.months.insert(tested, month);
        for (r, reduction) in performed {
            let outcome = self.outcomes.entry(place(r)).or_default();
            outcome.tested_kw += r.committed;
            if *reduction < r.committed.into() {
                outcome.failed_kw += r.committed;
                outcome.failed.insert(r.id);
            }
        }
        true
    }

    /// A retest with z months closed, if chance finds one. The year has these registrations, in rising
    /// id.
    pub fn retest(
        &mut self,
        random: &mut Random,
        z: u8,
        registrations: &[Registration],
    ) -> Option<Numbers> {
        let whose = self.whose(random, registrations)?;
        // Now and then a second one follows.
        if random.chance(80) {
            self.retested.insert(whose);
        }
        let (seller, zone, product) = whose;
        let month = self.month(random, z, zone, product);
        let listed = self.listed(random, whose, registrations);
        let mut numbers = vec![9, seller.into(), zone.into(), product.number()];
        numbers.extend([month.into(), widen(listed.len())]);
        numbers.extend(entries(&alike(random, &listed)));
        Some(numbers)
    }

    /// Whose retest comes: mostly of one that may have it, now and then of one that was not in the
    /// test, or of any.
    fn whose(&self, random: &mut Random, registrations: &[Registration]) -> Option<Place> {
        let places: BTreeSet<Place> = registrations.iter().map(place).collect();
        let mut places: Vec<Place> = places.into_iter().collect();
        match random.below(40) {
            0 => {}
            1..3 => places.retain(|whose| self.was_absent(whose)),
            3..36 => places.retain(|whose| self.may_retest(whose)),
            _ => return None,
        }
        (!places.is_empty()).then(|| random.pick(&places))
    }

    /// Was there a test of the zone and product, without the seller?
    fn was_absent(&self, whose: &Place) -> bool {
        let (_, zone, product) = *whose;
        self.months.contains_key(&(zone, product)) && !self.outcomes.contains_key(whose)
    }

    /// Has at most a quarter failed, with no retest so far? Exactly a quarter is too much.
    fn may_retest(&self, whose: &Place) -> bool {
        let outcome = self.outcomes.get(whose);
        let failed = outcome.is_some_and(|o| (1..=o.tested_kw / 4).contains(&o.failed_kw));
        failed && !self.retested.contains(whose)
    }

    /// A month to test in, mostly not before the test's.
    fn month(&self, random: &mut Random, z: u8, zone: u8, product: Product) -> u8 {
        let tested = self.months.get(&(zone, product)).copied();
        let first = tested.filter(|_| random.chance(70)).unwrap_or(1);
        random.month(|month| {
            first <= month && month_has_begun(month, z) && may_be_tested(product, month)
        })
    }

    /// What failed, now and then one less or one more; at least one.
    fn listed(
        &self,
        random: &mut Random,
        whose: Place,
        registrations: &[Registration],
    ) -> Vec<Registration> {
        let own = registrations.iter().filter(|r| place(r) == whose);
        let own: Vec<u8> = own.map(|r| r.id).collect();
        let [own, any] = [random.pick(&own), random.pick(registrations).id];
        let outcome = self.outcomes.get(&whose);
        let mut ids = outcome.map_or(BTreeSet::new(), |outcome| outcome.failed.clone());
        match random.below(12) {
            0 => drop(ids.pop_last()),
            1 => drop(ids.insert(own)),
            2 => drop(ids.insert(any)),
            _ => {}
        }
        if ids.is_empty() {
            ids.insert(own);
        }
        let listed = registrations.iter().filter(|r| ids.contains(&r.id));
        listed.copied().collect()
    }
}
