//! What events owe, told once more from the documents, and what wrong answers to C-17 make of it.

use std::collections::{BTreeMap, BTreeSet};

use settlement::cases::record::{deficits, entries, listed, Numbers};

use crate::year::LIMITED;

/// C-17 as decided, or with one thing otherwise.
#[derive(Clone, Copy, PartialEq, Eq, PartialOrd, Ord, Debug)]
pub enum Answer {
    AsDecided,
    SumOfBoth,
    HigherOfSeller,
    LimitedInOffPeakSums,
    LimitedByTheHigher,
    DeficitOffOnPeakAlone,
    DeficitOffOffPeakAlone,
    ExcessFromOffPeak,
    NotInN,
}

pub const WRONG: [Answer; 8] = [
    Answer::SumOfBoth,
    Answer::HigherOfSeller,
    Answer::LimitedInOffPeakSums,
    Answer::LimitedByTheHigher,
    Answer::DeficitOffOnPeakAlone,
    Answer::DeficitOffOffPeakAlone,
    Answer::ExcessFromOffPeak,
    Answer::NotInN,
];

/// The places of the reductions in an entry.
const ON_PEAK: usize = 1;
const OFF_PEAK: usize = 2;

/// An entry's on-peak and its off-peak amount a day, and the daily charge.
pub struct Daily {
    pub id: u64,
    pub on_peak: i64,
    pub off_peak: i64,
    pub uncapped: i64,
    pub charge: i64,
}

/// The records accepted so far.
#[derive(Default)]
pub struct Accepted {
    opening: Numbers,
    registrations: BTreeMap<u64, Numbers>,
    pub events: Vec<Numbers>,
}

impl Accepted {
    pub fn add(&mut self, numbers: &[u64]) {
        match numbers[0] {
            1 => self.opening = numbers.to_vec(),
            2 => drop(self.registrations.insert(numbers[1], numbers.to_vec())),
            4 | 8 => self.events.push(numbers.to_vec()),
            _ => {}
        }
    }

    pub fn seller(&self, id: u64) -> u64 {
        self.registrations[&id][2]
    }

    pub fn is_limited(&self, id: u64) -> bool {
        self.registrations[&id][5] == LIMITED
    }

    fn committed(&self, id: u64) -> i64 {
        signed(self.registrations[&id][6])
    }

    fn convert(&self, kw: i64) -> i64 {
        kw * signed(self.opening[2]) * signed(self.opening[3]) / 100_000_000
    }

    /// How many events on-peak or of both periods list each registration.
    pub fn n(&self, answer: Answer) -> BTreeMap<u64, i64> {
        let counts = |event: &&Numbers| match event[0] {
            8 => answer != Answer::NotInN,
            _ => event[3] != 2,
        };
        let mut n: BTreeMap<u64, i64> = self.registrations.keys().map(|id| (*id, 0)).collect();
        for id in self.events.iter().filter(counts).flat_map(|e| listed(e)) {
            *n.entry(id).or_default() += 1;
        }
        n
    }

    /// What an event measures by the reductions at this place of its entries, of these registrations:
    /// each seller's shortfall or excess, as `owes` has it, allotted to its entries.
    fn allotted(
        &self,
        event: &[u64],
        place: usize,
        is_measured: impl Fn(u64) -> bool,
        owes: impl Fn(u64, i64) -> i64,
        weigh: impl Fn(i64) -> i64,
    ) -> BTreeMap<u64, i64> {
        let short = |entry: &[u64]| self.committed(entry[0]) - signed(entry[place]);
        let sellers: BTreeSet<u64> = listed(event).map(|id| self.seller(id)).collect();
        let mut shares = BTreeMap::new();
        for seller in sellers {
            let own: Vec<&[u64]> = entries(event)
                .filter(|entry| self.seller(entry[0]) == seller && is_measured(entry[0]))
                .collect();
            let amount = owes(seller, own.iter().map(|entry| short(entry)).sum());
            let weights: Vec<i64> = own.iter().map(|entry| weigh(short(entry))).collect();
            let ids = own.iter().map(|entry| entry[0]);
            shares.extend(ids.zip(allot(amount, &weights)));
        }
        shares
    }

    /// Each entry's unforced shortfall.
    fn unforced(
        &self,
        event: &[u64],
        place: usize,
        is_measured: impl Fn(u64) -> bool,
        takes_deficit_off: bool,
    ) -> BTreeMap<u64, i64> {
        let deficit = |seller: u64| {
            let mut deficits = deficits(event).filter(|_| takes_deficit_off);
            let own = deficits.find(|[whose, _]| *whose == seller);
            own.map_or(0, |[_, kw]| signed(*kw))
        };
        let shortfall = |seller, net: i64| (self.convert(net.max(0)) - deficit(seller)).max(0);
        self.allotted(event, place, is_measured, shortfall, |short| short.max(0))
    }

    fn excess(&self, event: &[u64], answer: Answer) -> BTreeMap<u64, i64> {
        let place = match (event[0], answer) {
            (8, Answer::ExcessFromOffPeak) => OFF_PEAK,
            _ => ON_PEAK,
        };
        let excess = |_, net: i64| (-net).max(0);
        self.allotted(event, place, |_| true, excess, |short| (-short).max(0))
    }

    /// Each entry's on-peak amount and, where there is one, its off-peak amount.
    fn on_and_off_peak(
        &self,
        event: &[u64],
        n: &BTreeMap<u64, i64>,
        rates: &[i64],
        answer: Answer,
    ) -> Vec<Daily> {
        let is_apart = event[0] == 8;
        let on_peak = self.unforced(
            event,
            ON_PEAK,
            |_| true,
            answer != Answer::DeficitOffOffPeakAlone || !is_apart,
        );
        let limited_count = matches!(
            answer,
            Answer::LimitedInOffPeakSums | Answer::LimitedByTheHigher
        );
        let off_peak = match is_apart {
            true => self.unforced(
                event,
                OFF_PEAK,
                |id| limited_count || !self.is_limited(id),
                answer != Answer::DeficitOffOnPeakAlone,
            ),
            false => BTreeMap::new(),
        };
        let daily = |(id, u): (&u64, &i64)| {
            let by_rate = |u: &i64| u * rate(rates, *id);
            let in_both = answer == Answer::LimitedByTheHigher || !self.is_limited(*id);
            let off_peak = off_peak.get(id).filter(|_| in_both);
            let [on_peak, off_peak] = match event[..] {
                [4, _, _, 2, ..] => [0, by_rate(u) / 52],
                _ => [by_rate(u) / n[id].max(2), off_peak.map_or(0, by_rate) / 52],
            };
            Daily {
                id: *id,
                on_peak,
                off_peak,
                uncapped: 0,
                charge: 0,
            }
        };
        on_peak.iter().map(daily).collect()
    }

    /// Each entry's daily charge in each event, in the order of acceptance, by these rates in force.
    pub fn daily(&self, rates: &[i64], answer: Answer) -> Vec<Vec<Daily>> {
        let cap = |id: &u64| self.convert(self.committed(*id)) * rate(rates, *id);
        let ids = self.registrations.keys();
        let mut rests: BTreeMap<u64, i64> = ids.map(|id| (*id, cap(id))).collect();
        let n = self.n(answer);
        let mut charged = |event: &Numbers| {
            let mut entries = self.on_and_off_peak(event, &n, rates, answer);
            let mut sums = BTreeMap::<u64, [i64; 2]>::new();
            for daily in &entries {
                let [on_peak, off_peak] = sums.entry(self.seller(daily.id)).or_default();
                *on_peak += daily.on_peak;
                *off_peak += daily.off_peak;
            }
            for daily in &mut entries {
                let [on_peak, off_peak] = sums[&self.seller(daily.id)];
                daily.uncapped = match answer {
                    Answer::SumOfBoth => daily.on_peak + daily.off_peak,
                    Answer::HigherOfSeller if on_peak >= off_peak => daily.on_peak,
                    Answer::HigherOfSeller => daily.off_peak,
                    _ => daily.on_peak.max(daily.off_peak),
                };
                let rest = rests.get_mut(&daily.id).expect("a registration");
                daily.charge = daily.uncapped.min(*rest);
                *rest -= daily.charge;
            }
            entries
        };
        self.events.iter().map(&mut charged).collect()
    }

    /// Each seller's compliance and credit to date at a month, by these rates in force.
    pub fn to_date(&self, month: u64, rates: &[i64], answer: Answer) -> BTreeMap<u64, [i64; 2]> {
        let days = days(self.opening[1], month);
        let sellers = self.registrations.values().map(|numbers| numbers[2]);
        let mut amounts: BTreeMap<u64, [i64; 2]> = sellers.map(|seller| (seller, [0; 2])).collect();
        for (event, entries) in self.events.iter().zip(self.daily(rates, answer)) {
            let mut charges = 0;
            for daily in entries {
                let first = if self.is_limited(daily.id) { 5 } else { 13 };
                if month >= first.max(event[2] + 3) {
                    let charge = daily.charge * days / 1_000;
                    amounts.get_mut(&self.seller(daily.id)).expect("a seller")[0] += charge;
                    charges += charge;
                }
            }
            let excess = self.excess(event, answer);
            let weights: Vec<i64> = excess.values().copied().collect();
            for ((id, e), share) in excess.iter().zip(allot(charges, &weights)) {
                let most = e * rate(rates, *id) / 5 * days / 1_000;
                amounts.get_mut(&self.seller(*id)).expect("a seller")[1] += share.min(most);
            }
        }
        amounts
    }
}

fn signed(number: u64) -> i64 {
    i64::try_from(number).expect("a number of a record")
}

fn rate(rates: &[i64], id: u64) -> i64 {
    rates[usize::try_from(id).expect("an id")]
}

fn days(leap: u64, month: u64) -> i64 {
    let months = [30, 31, 31, 30, 31, 30, 31, 31, 28, 31, 30, 31];
    let last = usize::try_from(month.min(12)).expect("a month");
    months[..last].iter().sum::<i64>() + i64::from(leap == 1 && last >= 9)
}

fn allot(amount: i64, weights: &[i64]) -> Vec<i64> {
    let whole: i64 = weights.iter().sum();
    let up_to = |count: usize| match whole {
        0 => 0,
        _ => amount * weights[..count].iter().sum::<i64>() / whole,
    };
    (0..weights.len())
        .map(|at| up_to(at + 1) - up_to(at))
        .collect()
}
