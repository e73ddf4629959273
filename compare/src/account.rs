//! What is owed: all amounts to date at a month, from the records of a year.

use std::array;

use crate::average::Average;
use crate::fields::{LSES, REGISTRATIONS, SELLERS};
use crate::owed::{
    convert, days, due_month, off_peak_amount, on_peak_amount, Allotment, Amounts, Owed,
};
use crate::records::{Event, Lists, Measured, Opening, Product, Registration, Test};
use crate::year::Year;

/// All amounts to date at this month.
pub fn to_date(year: &Year, month: u8) -> Owed {
    to_date_and_divisions(year, month).0
}

/// All amounts to date at this month, and the divisions that their allotments tell, together.
pub fn to_date_and_divisions(year: &Year, month: u8) -> (Owed, usize) {
    let mut account = Account::new(year, month);
    for event in &year.events {
        account.add_event(event);
    }
    for test in &year.tests {
        account.add_test(test);
    }
    let mut sellers = [None; SELLERS];
    for registration in year.registrations.iter().flatten() {
        let seller = usize::from(registration.seller);
        sellers[seller] = Some(account.sellers[seller]);
    }
    let lses = account.lse_credits();
    (Owed { sellers, lses }, account.divisions)
}

/// An entry beside its registration: c committed, v reduction, q rate in force.
struct Listed<'a> {
    registration: &'a Registration,
    c: i64,
    v: i64,
    q: i64,
}

impl Listed<'_> {
    fn id(&self) -> usize {
        self.registration.id.into()
    }

    fn seller(&self) -> usize {
        self.registration.seller.into()
    }

    fn short(&self) -> i64 {
        (self.c - self.v).max(0)
    }

    fn over(&self) -> i64 {
        (self.v - self.c).max(0)
    }

    /// With the retest's reduction for the first one, where there was a retest.
    fn retested(self, year: &Year) -> Self {
        let v = year.retested[self.id()].map_or(self.v, i64::from);
        Listed { v, ..self }
    }

    /// With the off-peak reduction for the on-peak one; none if it is Limited, which is left out of
    /// what is measured off-peak.
    fn off_peak(self, reduction: u32) -> Option<Self> {
        let v = reduction.into();
        (self.registration.product != Product::Limited).then_some(Listed { v, ..self })
    }
}

fn listed<'a>(year: &'a Year, lists: &'a Lists) -> impl Iterator<Item = Listed<'a>> {
    lists.entries().iter().map(|entry| {
        let registration = year.registration(entry);
        Listed {
            registration,
            c: registration.committed.into(),
            v: entry.reduction.into(),
            q: year.rates[usize::from(entry.registration)],
        }
    })
}

/// What a seller's entries are below and above their commitments, summed.
#[derive(Clone, Copy, Default)]
struct Tally {
    short: i64,
    over: i64,
}

impl Tally {
    fn add(&mut self, l: &Listed) {
        self.short += l.short();
        self.over += l.over();
    }

    /// The unforced shortfall, the deficit taken off after the conversion.
    fn shortfall(&self, opening: &Opening, deficit: u32) -> i64 {
        let net = (self.short - self.over).max(0);
        (convert(opening, net) - i64::from(deficit)).max(0)
    }

    fn excess(&self) -> i64 {
        (self.over - self.short).max(0)
    }
}

/// What the entries of each seller are below and above.
fn tallies<'a>(listed: impl Iterator<Item = Listed<'a>>) -> [Tally; SELLERS] {
    let mut tallies = [Tally::default(); SELLERS];
    for l in listed {
        tallies[l.seller()].add(&l);
    }
    tallies
}

/// The rate of a seller's shortfall in a test; none if it has no entry.
fn test_rate(rates: &Average) -> Option<i64> {
    let base = rates.rounded()?;
    Some(base + (base / 5).max(2_000))
}

/// Amounts in the making: at one month, record after record.
struct Account<'a> {
    year: &'a Year,
    month: u8,
    days: i64,
    sellers: [Amounts; SELLERS],
    /// What is left of each registration's cap.
    rests: [i64; REGISTRATIONS],
    /// The divisions of the allotments so far.
    divisions: usize,
}

impl<'a> Account<'a> {
    fn new(year: &'a Year, month: u8) -> Self {
        let rest = |r: &Option<Registration>| r.map_or(0, |r| year.cap(&r));
        Account {
            year,
            month,
            days: days(year.opening.leap, month),
            sellers: [Amounts::default(); SELLERS],
            rests: year.registrations.each_ref().map(rest),
            divisions: 0,
        }
    }

    /// Adds an event's charges and credits to date.
    fn add_event(&mut self, event: &Event) {
        let year = self.year;
        let on_peak = |u, l: &Listed| on_peak_amount(u, l.q, year.on_peak_events[l.id()].into());
        match &event.measured {
            Measured::OnPeak => self.add_by(event, on_peak),
            Measured::OffPeak => self.add_by(event, |u, l| off_peak_amount(u, l.q)),
            Measured::Apart(reductions) => {
                let off_peak = self.off_peak_amounts(event, reductions);
                self.add_by(event, |u, l| on_peak(u, l).max(off_peak[l.id()]));
            }
        }
    }

    /// Adds an event whose daily charges before the cap follow in this way from each entry's u.
    fn add_by(&mut self, event: &Event, uncapped: impl Fn(i64, &Listed) -> i64) {
        let listed = || listed(self.year, &event.lists);
        let tallies = tallies(listed());
        let mut shortfalls = self.shortfalls(&tallies, &event.lists);
        let mut excesses = tallies.map(|tally| Allotment::new(tally.excess(), tally.over));
        let mut entry_excesses = [0; REGISTRATIONS];
        let mut charges = 0;
        for (l, excess) in listed().zip(&mut entry_excesses) {
            let u = shortfalls[l.seller()].share(l.short());
            let charge = self.charge(event, &l, uncapped(u, &l));
            self.sellers[l.seller()].compliance += charge;
            charges += charge;
            *excess = excesses[l.seller()].share(l.over());
        }
        let mut shares = Allotment::new(charges, entry_excesses.iter().sum());
        for (l, e) in listed().zip(entry_excesses) {
            let most = e * l.q / 5 * self.days / 1_000;
            self.sellers[l.seller()].credit += shares.share(e).min(most);
        }
        self.count_divisions(&shortfalls);
        self.count_divisions(&excesses);
        self.count_divisions(&[shares]);
    }

    /// The off-peak amounts by id, from these off-peak reductions of an event's entries; 0 where none is
    /// measured.
    fn off_peak_amounts(&mut self, event: &Event, reductions: &[u32]) -> [i64; REGISTRATIONS] {
        let measured = || {
            let listed = listed(self.year, &event.lists).zip(reductions);
            listed.filter_map(|(l, reduction)| l.off_peak(*reduction))
        };
        let mut shortfalls = self.shortfalls(&tallies(measured()), &event.lists);
        let mut amounts = [0; REGISTRATIONS];
        for l in measured() {
            let u = shortfalls[l.seller()].share(l.short());
            amounts[l.id()] = off_peak_amount(u, l.q);
        }
        self.count_divisions(&shortfalls);
        amounts
    }

    /// Each seller's unforced shortfall, allotted by what its entries are below.
    fn shortfalls(&self, tallies: &[Tally; SELLERS], lists: &Lists) -> [Allotment; SELLERS] {
        array::from_fn(|seller| {
            let tally = &tallies[seller];
            let shortfall = tally.shortfall(&self.year.opening, lists.deficits[seller]);
            Allotment::new(shortfall, tally.short)
        })
    }

    fn count_divisions(&mut self, allotments: &[Allotment]) {
        self.divisions += allotments.iter().map(Allotment::divisions).sum::<usize>();
    }

    /// An entry's charge to date; takes its daily charge off the rest of the cap.
    fn charge(&mut self, event: &Event, l: &Listed, uncapped: i64) -> i64 {
        let rest = &mut self.rests[l.id()];
        let daily = uncapped.min(*rest);
        *rest -= daily;
        if self.month >= due_month(l.registration.product, event.month) {
            daily * self.days / 1_000
        } else {
            0
        }
    }

    /// Adds a test's charges to date, of the registrations that no event lists.
    fn add_test(&mut self, test: &Test) {
        let mut tallies = [Tally::default(); SELLERS];
        let mut rates = [Average::default(); SELLERS];
        let listed = listed(self.year, &test.lists).map(|l| l.retested(self.year));
        for l in listed.filter(|l| !self.year.is_called[l.id()]) {
            tallies[l.seller()].add(&l);
            rates[l.seller()].add(l.c, l.q);
        }
        for (seller, rates) in rates.iter().enumerate() {
            if let Some(rate) = test_rate(rates) {
                let deficit = test.lists.deficits[seller];
                let shortfall = tallies[seller].shortfall(&self.year.opening, deficit);
                self.sellers[seller].test += shortfall * rate * self.days / 1_000;
            }
        }
    }

    /// Charges less excess credits, allotted to the LSEs by obligation.
    fn lse_credits(&mut self) -> [Option<i64>; LSES] {
        let amounts = self.sellers.iter();
        let left = amounts.map(|a| a.compliance + a.test - a.credit).sum();
        let obligations = self
            .year
            .lses
            .map(|lse| lse.map(|lse| lse.obligation.into()));
        let mut credits = Allotment::new(left, obligations.iter().flatten().sum());
        let lses = obligations.map(|obligation| obligation.map(|weight| credits.share(weight)));
        self.count_divisions(&[credits]);
        lses
    }
}
