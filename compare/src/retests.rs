//! What decides a seller's retest: its first result, that of the test.

use crate::records::{Entry, Test};
use crate::year::Year;

/// A seller's result in a test as it was recorded, whatever events list since and retests give.
#[derive(Default)]
pub struct FirstResult {
    tested_kw: u32,
    failed_kw: u32,
    /// The registrations that failed, in rising id.
    failed: Vec<u8>,
}

impl FirstResult {
    pub fn new(year: &Year, test: &Test, seller: u8) -> Self {
        let mut result = FirstResult::default();
        for entry in test.lists.entries() {
            let registration = year.registration(entry);
            if registration.seller == seller {
                result.tested_kw += registration.committed;
                if entry.reduction < registration.committed {
                    result.failed_kw += registration.committed;
                    result.failed.push(entry.registration);
                }
            }
        }
        result
    }

    /// Has something failed, and less than a quarter?
    pub fn allows_retest(&self) -> bool {
        (1..self.tested_kw).contains(&(4 * self.failed_kw))
    }

    /// Do these entries list exactly those that failed?
    pub fn failed_are(&self, entries: &[Entry]) -> bool {
        let failed = self.failed.iter();
        failed.eq(entries.iter().map(|entry| &entry.registration))
    }
}
