//! A delivery year: the records accepted, and what they came to at the last close.

use crate::clearings::Clearings;
use crate::fields::{LSES, REGISTRATIONS};
use crate::owed::{cap, days, Owed};
use crate::rates::{self, Rates};
use crate::records::{Clearing, Entry, Event, Lse, Opening, Product, Registration, Retest, Test};

pub const MOST_EVENTS: usize = 16;

/// One test for each of 8 zones and 3 products.
const MOST_TESTS: usize = 24;

/// The closes of a year.
pub const CLOSES: usize = 15;

pub struct Year {
    pub opening: Opening,
    pub registrations: [Option<Registration>; REGISTRATIONS],
    pub clearings: [Clearings; REGISTRATIONS],
    /// The rates in force, from the first close on.
    pub rates: Rates,
    pub lses: [Option<Lse>; LSES],
    pub events: Vec<Event>,
    /// The tests as they were recorded, whatever retests gave.
    pub tests: Vec<Test>,
    /// The reduction that a registration's retest gave. A registration has one zone and product, so it
    /// has one retest at most.
    pub retested: [Option<u32>; REGISTRATIONS],
    /// The sellers that had a retest, and of which zone and product.
    pub retests: Vec<(u8, u8, Product)>,
    /// Months closed.
    pub closed: u8,
    /// The amounts to date at the last close.
    pub owed: Owed,
    /// Whether an accepted event lists a registration.
    pub is_called: [bool; REGISTRATIONS],
    /// n: how many accepted events that are not off-peak alone list a registration.
    pub on_peak_events: [u8; REGISTRATIONS],
}

impl Year {
    pub fn new(opening: Opening) -> Self {
        Year {
            opening,
            registrations: [None; REGISTRATIONS],
            clearings: [Clearings::default(); REGISTRATIONS],
            rates: [0; REGISTRATIONS],
            lses: [None; LSES],
            events: Vec::with_capacity(MOST_EVENTS),
            tests: Vec::with_capacity(MOST_TESTS),
            retested: [None; REGISTRATIONS],
            retests: Vec::new(),
            closed: 0,
            owed: Owed::default(),
            is_called: [false; REGISTRATIONS],
            on_peak_events: [0; REGISTRATIONS],
        }
    }

    /// The registration of an accepted entry.
    pub fn registration(&self, entry: &Entry) -> &Registration {
        let registration = &self.registrations[usize::from(entry.registration)];
        registration.as_ref().expect("question 10 asks for it")
    }

    /// The test of a zone and product, if there was one.
    pub fn test_of(&self, zone: u8, product: Product) -> Option<&Test> {
        let mut tests = self.tests.iter();
        tests.find(|test| (test.zone, test.product) == (zone, product))
    }

    pub fn add_clearing(&mut self, clearing: &Clearing) {
        self.clearings[usize::from(clearing.registration)].add(clearing);
    }

    pub fn add_event(&mut self, event: Event) {
        for entry in event.lists.entries() {
            let id = usize::from(entry.registration);
            self.is_called[id] = true;
            self.on_peak_events[id] += u8::from(!event.is_off_peak());
        }
        self.events.push(event);
    }

    pub fn add_retest(&mut self, retest: &Retest) {
        self.retests
            .push((retest.seller, retest.zone, retest.product));
        for entry in retest.lists.entries() {
            self.retested[usize::from(entry.registration)] = Some(entry.reduction);
        }
    }

    /// Fixes the rates in force at the first close: by then every lender is there, since question 7
    /// lets no registration and no clearing come after it.
    pub fn fix_rates(&mut self) {
        if self.closed == 0 {
            self.rates = rates::in_force(self);
        }
    }

    /// The most that a registration is charged a day, by its rate in force.
    pub fn cap(&self, registration: &Registration) -> i64 {
        let rate = self.rates[usize::from(registration.id)];
        cap(&self.opening, registration.committed.into(), rate)
    }

    /// Revenue to date of a seller, in thousandths of a cent.
    pub fn revenue(&self, seller: usize, month: u8) -> i64 {
        let registrations = self.registrations.iter().flatten();
        let own = registrations.filter(|r| usize::from(r.seller) == seller);
        let caps: i64 = own.map(|r| self.cap(r)).sum();
        caps * days(self.opening.leap, month)
    }
}
