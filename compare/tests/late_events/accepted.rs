//! What decides an event, told once more from the documents: the records accepted before it.

use std::collections::{BTreeMap, BTreeSet};

use settlement::cases::record::{deficits, listed};

/// The period of an event; kind 8 spans both.
fn period(event: &[u64]) -> u64 {
    match event[0] {
        8 => 3,
        _ => event[3],
    }
}

/// The months in which a product may be called in a period.
pub fn callable(product: u64, period: u64) -> &'static [u64] {
    match (product, period) {
        (0, 2) => &[],
        (0, _) => &[1, 2, 3, 4],
        (1, _) => &[1, 2, 3, 4, 5, 12],
        _ => &[1, 2, 3, 4, 5, 6, 7, 8, 9, 10, 11, 12],
    }
}

struct Registration {
    seller: u64,
    area: u64,
    product: u64,
}

#[derive(Default)]
pub struct Accepted {
    has_opening: bool,
    has_lse: bool,
    registrations: BTreeMap<u64, Registration>,
    events: u64,
    called: BTreeSet<u64>,
    /// How many on-peak events list a registration.
    on_peak_events: BTreeMap<u64, u64>,
    tested: BTreeSet<u64>,
    retested: BTreeSet<u64>,
    closed: u64,
}

impl Accepted {
    pub fn add(&mut self, numbers: &[u64]) {
        match *numbers {
            [1, ..] => self.has_opening = true,
            [2, id, seller, area, _, product, ..] => {
                let registration = Registration {
                    seller,
                    area,
                    product,
                };
                self.registrations.insert(id, registration);
            }
            [3, ..] => self.has_lse = true,
            [4 | 8, ..] => {
                self.events += 1;
                self.called.extend(listed(numbers));
                for id in listed(numbers).filter(|_| period(numbers) != 2) {
                    *self.on_peak_events.entry(id).or_default() += 1;
                }
            }
            [5, ..] => self.tested.extend(listed(numbers)),
            [6, month] => self.closed = month,
            [9, ..] => self.retested.extend(listed(numbers)),
            _ => {}
        }
    }

    /// Does an event come late? Document 01 takes none of its month any more.
    pub fn is_late(&self, event: &[u64]) -> bool {
        self.closed >= u64::max(5, event[2] + 3)
    }

    /// The number that an event gets past question 5, and why.
    pub fn answer(&self, event: &[u64]) -> (u64, &'static str) {
        let month = event[2];
        let can_be_called = |id: u64| {
            let product = self.registrations[&id].product;
            callable(product, period(event)).contains(&month)
        };
        if !self.has_opening {
            (6, "no year")
        } else if self.closed == 15 {
            (6, "after month 15")
        } else if self.registrations.is_empty() || !self.has_lse {
            (8, "no parties")
        } else if !self.belongs(event) {
            (10, "does not belong")
        } else if month > self.closed + 1 {
            (11, "month to come")
        } else if !listed(event).all(can_be_called) {
            (11, "product not to be called")
        } else {
            match (self.events, self.is_late(event)) {
                (16.., false) => (12, "in time"),
                (16.., true) => (12, "late"),
                (_, false) => (0, "in time"),
                (_, true) => (0, "late"),
            }
        }
    }

    /// Is what the event lists known and in its area, and has each deficit's seller an entry?
    fn belongs(&self, event: &[u64]) -> bool {
        let known = || listed(event).map(|id| self.registrations.get(&id));
        let is_in_area = |r: &Registration| r.area == event[1];
        let has_entry = |seller| known().flatten().any(|r| r.seller == seller);
        let mut deficits = deficits(event);
        known().all(|r| r.is_some_and(is_in_area)) && deficits.all(|[seller, _]| has_entry(*seller))
    }

    /// The number by document 01, whose question 11 refuses a late event.
    pub fn number_of_01(&self, event: &[u64]) -> u64 {
        match self.answer(event).0 {
            0 | 12 if self.is_late(event) => 11,
            number => number,
        }
    }

    /// What is remarkable about an event that is accepted next.
    pub fn remarks(&self, event: &[u64]) -> Vec<&'static str> {
        // With a third on-peak event the two before it cost less.
        let is_repriced = |id| self.on_peak_events.get(&id).is_some_and(|n| *n >= 2);
        let is_first_of = |ids: &BTreeSet<u64>| {
            let mut uncalled = listed(event).filter(|id| !self.called.contains(id));
            uncalled.any(|id| ids.contains(&id))
        };
        let remarks = [
            (
                "reprices",
                period(event) != 2 && listed(event).any(is_repriced),
            ),
            ("first to call a tested one", is_first_of(&self.tested)),
            ("first to call a retested one", is_first_of(&self.retested)),
        ];
        let holding = remarks.into_iter().filter(|(_, holds)| *holds);
        holding.map(|(remark, _)| remark).collect()
    }
}
