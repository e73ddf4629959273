//! What decides a retest, told once more from the documents: the records accepted before it.

use std::collections::{BTreeMap, BTreeSet};

use settlement::cases::record::{self, listed, Numbers};

/// Registrations and their reductions.
pub type Entries = BTreeMap<u64, u64>;

/// Those of a test or a retest.
pub fn entries(numbers: &[u64]) -> Entries {
    let entries = record::entries(numbers);
    entries.map(|entry| (entry[0], entry[1])).collect()
}

struct Registration {
    seller: u64,
    zone: u64,
    product: u64,
    committed: u64,
}

#[derive(Default)]
pub struct Accepted {
    registrations: BTreeMap<u64, Registration>,
    called: BTreeSet<u64>,
    /// The tests by zone and product.
    tests: BTreeMap<(u64, u64), Numbers>,
    /// The retests by seller, zone and product.
    retests: BTreeMap<(u64, u64, u64), Numbers>,
    closed: u64,
}

impl Accepted {
    pub fn add(&mut self, numbers: &[u64]) {
        match *numbers {
            [2, id, seller, _, zone, product, committed, _] => {
                let registration = Registration {
                    seller,
                    zone,
                    product,
                    committed,
                };
                self.registrations.insert(id, registration);
            }
            [4 | 8, ..] => self.called.extend(listed(numbers)),
            [5, zone, product, ..] => {
                self.tests.insert((zone, product), numbers.to_vec());
            }
            [6, month] => self.closed = month,
            [9, seller, zone, product, ..] => {
                let place = (seller, zone, product);
                self.retests.insert(place, numbers.to_vec());
            }
            _ => {}
        }
    }

    /// The number that a retest gets past question 8, and why.
    pub fn answer(&self, retest: &[u64]) -> (u64, &'static str) {
        let [_, seller, zone, product, month, ..] = *retest else {
            panic!("no retest: {retest:?}");
        };
        let listed = entries(retest);
        for id in listed.keys() {
            match self.registrations.get(id) {
                None => return (10, "unknown"),
                Some(r) if (r.zone, r.product) != (zone, product) => return (10, "other place"),
                Some(r) if r.seller != seller => return (10, "other seller"),
                Some(_) => {}
            }
        }
        let months: &[u64] = match product {
            0 => &[1, 2, 3, 4],
            _ => &[1, 2, 3, 4, 5, 12],
        };
        let test = self.tests.get(&(zone, product));
        if month > self.closed + 1 {
            (11, "month to come")
        } else if !months.contains(&month) {
            (11, "no month to test")
        } else if test.is_some_and(|test| month < test[3]) {
            (11, "before the test")
        } else if self.retests.contains_key(&(seller, zone, product)) {
            (20, "second")
        } else {
            test.map_or((20, "no test"), |test| {
                self.answer_by_test(test, seller, &listed)
            })
        }
    }

    fn answer_by_test(&self, test: &[u64], seller: u64, listed: &Entries) -> (u64, &'static str) {
        let tested = self.tested(test, seller);
        let failed = self.failed(test, seller);
        let four_times_failed = 4 * self.kw(&failed);
        let all = self.kw(&tested);
        if tested.is_empty() {
            (20, "not in the test")
        } else if failed.is_empty() {
            (20, "nothing failed")
        } else if four_times_failed > all {
            (20, "more than a quarter")
        } else if four_times_failed == all {
            (20, "a quarter")
        } else if failed.keys().any(|id| !listed.contains_key(id)) {
            (21, "too few")
        } else if listed.len() > failed.len() {
            (21, "too many")
        } else if four_times_failed == all - 1 {
            (0, "just below a quarter")
        } else {
            (0, "below a quarter")
        }
    }

    /// A seller's entries in a test.
    fn tested(&self, test: &[u64], seller: u64) -> Entries {
        let mut entries = entries(test);
        entries.retain(|id, _| self.registrations[id].seller == seller);
        entries
    }

    /// Those of them that failed.
    fn failed(&self, test: &[u64], seller: u64) -> Entries {
        let mut entries = self.tested(test, seller);
        entries.retain(|id, reduction| *reduction < self.registrations[id].committed);
        entries
    }

    fn kw(&self, entries: &Entries) -> u64 {
        let committed = entries.keys().map(|id| self.registrations[id].committed);
        committed.sum()
    }

    /// What is remarkable about a record that is accepted next.
    pub fn remarks(&self, numbers: &[u64]) -> Vec<&'static str> {
        let remarks = match numbers[0] {
            4 | 8 => vec![("calls a retested one", self.calls_a_retested_one(numbers))],
            9 => self.remarks_on_retest(numbers),
            _ => Vec::new(),
        };
        let holding = remarks.into_iter().filter(|(_, holds)| *holds);
        holding.map(|(remark, _)| remark).collect()
    }

    fn calls_a_retested_one(&self, event: &[u64]) -> bool {
        let mut retested = self.retests.values().flat_map(|retest| listed(retest));
        retested.any(|retested| listed(event).any(|id| id == retested))
    }

    fn remarks_on_retest(&self, retest: &[u64]) -> Vec<(&'static str, bool)> {
        let test = &self.tests[&(retest[2], retest[3])];
        let failed = self.failed(test, retest[1]);
        let results = || entries(retest).into_values().zip(failed.values());
        let is_called = |id| self.called.contains(id);
        vec![
            ("better", results().any(|(now, first)| now > *first)),
            ("worse", results().any(|(now, first)| now < *first)),
            ("several", failed.len() > 1),
            ("in a later month", retest[4] > test[3]),
            ("after closes", self.closed > test[3]),
            ("of a called one", failed.keys().any(is_called)),
        ]
    }
}
