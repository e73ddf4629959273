//! Demand 3 over generated lists: at every close balance, yearly limit and what is owed, and what stays
//! as it was when one seller's reductions are replaced.

use std::collections::{BTreeMap, BTreeSet};

use settlement::account::to_date;
use settlement::cases::plan::year;
use settlement::cases::random::Random;
use settlement::cases::record::{encode, entries, entries_mut, listed, Numbers};
use settlement::cases::{take_calls, Call};
use settlement::layout::MOST_NUMBERS;
use settlement::owed::{Amounts, Owed};
use settlement::{read, statement, Book, Taken};

const SEEDS: u64 = 300;

/// Adds a statement's amounts to the sums so far.
fn add(so_far: &mut Owed, amounts: &Owed) {
    for (sums, amounts) in so_far.sellers.iter_mut().zip(amounts.sellers) {
        if let Some(amounts) = amounts {
            let sums = sums.get_or_insert_default();
            sums.compliance += amounts.compliance;
            sums.test += amounts.test;
            sums.credit += amounts.credit;
        }
    }
    for (sum, credit) in so_far.lses.iter_mut().zip(amounts.lses) {
        if let Some(credit) = credit {
            *sum.get_or_insert_default() += credit;
        }
    }
}

fn assert_balance(amounts: &Owed) {
    let sellers = amounts.sellers.iter().flatten();
    let left: i64 = sellers.map(|a| a.compliance + a.test - a.credit).sum();
    assert_eq!(left, amounts.lses.iter().flatten().sum());
}

fn assert_yearly_limit(book: &Book, so_far: &Owed, month: u8) {
    let year = book.year().expect("a close needs a year");
    for (seller, sums) in so_far.sellers.iter().enumerate() {
        let compliance = sums.map_or(0, |sums| sums.compliance);
        assert!(compliance * 1_000 <= year.revenue(seller, month));
    }
}

/// A call with its answer and the statement that it left; the numbers of its record, none if it cannot
/// be read.
struct Answered {
    call: Call,
    numbers: Numbers,
    taken: Taken,
    statement: Option<Owed>,
}

impl Answered {
    fn is_accepted(&self) -> bool {
        self.taken.number == 0
    }
}

/// Answers a list of calls; at every close balance and limit hold, and the sums are what is owed.
fn answer(calls: Vec<Call>) -> Vec<Answered> {
    let mut book = Book::new();
    let mut so_far = Owed::default();
    let answer = |call: Call| {
        let mut buffer = vec![0; call.room];
        let taken = book.take(&call.bytes, &mut buffer);
        let statement = (taken.written > 0).then(|| {
            let (month, amounts) = statement::decode(&buffer[..taken.written]);
            add(&mut so_far, &amounts);
            assert_balance(&amounts);
            assert_yearly_limit(&book, &so_far, month);
            assert_eq!(so_far, to_date(book.year().expect("a year"), month));
            amounts
        });
        let mut numbers = vec![0; MOST_NUMBERS];
        let count = read(&call.bytes, &mut numbers).count;
        numbers.truncate(count);
        Answered {
            call,
            numbers,
            taken,
            statement,
        }
    };
    calls.into_iter().map(answer).collect()
}

/// The sellers of a list, and the registrations of each.
fn sellers(h: &[Answered]) -> BTreeMap<u64, BTreeSet<u64>> {
    let mut sellers = BTreeMap::<u64, BTreeSet<u64>>::new();
    for answered in h.iter().filter(|answered| answered.is_accepted()) {
        if let [2, id, seller, ..] = answered.numbers[..] {
            sellers.entry(seller).or_default().insert(id);
        }
    }
    sellers
}

/// The registrations that a seller's retests list, accepted or not.
fn retested(h: &[Answered], seller: u64) -> BTreeSet<u64> {
    let records = h.iter().map(|answered| &answered.numbers);
    let own = records.filter(|numbers| is_retest_of(seller, numbers));
    own.flat_map(|numbers| listed(numbers)).collect()
}

fn is_retest_of(seller: u64, numbers: &[u64]) -> bool {
    matches!(*numbers, [9, whose, ..] if whose == seller)
}

/// The calls with a new reduction, by id and first one, for every one of the records accepted; of two
/// in an entry each is chosen on its own.
fn with_reductions(h: &[Answered], mut new: impl FnMut(u64, u64) -> u64) -> Vec<Call> {
    let replace = |answered: &Answered| {
        let Call { mut bytes, room } = answered.call.clone();
        if answered.is_accepted() {
            let mut numbers = answered.numbers.clone();
            for entry in entries_mut(&mut numbers) {
                let id = entry[0];
                for reduction in &mut entry[1..] {
                    *reduction = new(id, *reduction);
                }
            }
            bytes.splice(..answered.taken.consumed, encode(&numbers));
        }
        Call { bytes, room }
    };
    h.iter().map(replace).collect()
}

/// G: any reductions in some entries of the seller's registrations; or such in all that what its
/// retests list fails and the rest performs, so that some of these may be accepted now.
fn g(random: &mut Random, h: &[Answered], seller: u64, registrations: &BTreeSet<u64>) -> Vec<Call> {
    let percent = random.pick(&[5, 30, 100]);
    let failing = random.chance(50).then(|| retested(h, seller));
    with_reductions(h, |id, reduction| match &failing {
        _ if !registrations.contains(&id) => reduction,
        Some(failing) if failing.contains(&id) => 0,
        Some(_) => 100_000,
        None if random.chance(percent) => random.value(0, 100_000),
        None => reduction,
    })
}

/// Of the entries with two reductions in a record of H, in how many G has another on-peak one alone,
/// another off-peak one alone, and both.
fn replaced(in_h: &[u64], in_g: &[u64]) -> [usize; 3] {
    let mut counts = [0; 3];
    if in_h.first() == Some(&8) {
        for (h, g) in entries(in_h).zip(entries(in_g)) {
            match [h[1] != g[1], h[2] != g[2]] {
                [true, false] => counts[0] += 1,
                [false, true] => counts[1] += 1,
                [true, true] => counts[2] += 1,
                [false, false] => {}
            }
        }
    }
    counts
}

fn assert_same_charges(h: &Owed, g: &Owed, but_of: u64) {
    for (seller, (in_h, in_g)) in (0..).zip(h.sellers.iter().zip(g.sellers)) {
        if seller != but_of {
            let charges = |amounts: Amounts| (amounts.compliance, amounts.test);
            assert_eq!(in_g.map(charges), in_h.map(charges));
        }
    }
}

#[test]
fn demand_3() {
    let [mut no_longer, mut newly] = [0; 2];
    let mut figures = [0; 3];
    let mut compare = |seller: u64, in_h: &Answered, in_g: &Answered| {
        if is_retest_of(seller, &in_h.numbers) {
            // A seller's own figures decide its retest.
            no_longer += usize::from(in_h.is_accepted() && !in_g.is_accepted());
            newly += usize::from(!in_h.is_accepted() && in_g.is_accepted());
        } else {
            assert_eq!(in_g.taken, in_h.taken);
        }
        for (sum, count) in figures
            .iter_mut()
            .zip(replaced(&in_h.numbers, &in_g.numbers))
        {
            *sum += count;
        }
        if let (Some(in_h), Some(in_g)) = (&in_h.statement, &in_g.statement) {
            assert_same_charges(in_h, in_g, seller);
        }
    };
    for seed in 0..SEEDS {
        let plausible = year(&mut Random::new(seed))
            .into_iter()
            .map(|numbers| Call {
                bytes: encode(&numbers),
                room: statement::MOST_BYTES,
            });
        let random = &mut Random::new(seed);
        for h in [take_calls(seed), plausible.collect()].map(answer) {
            for (seller, registrations) in sellers(&h) {
                let g = answer(g(random, &h, seller, &registrations));
                for (in_h, in_g) in h.iter().zip(&g) {
                    compare(seller, in_h, in_g);
                }
            }
        }
    }
    eprintln!("of a seller's retests {no_longer} no longer accepted, {newly} newly");
    assert!(no_longer > 100 && newly > 10);
    eprintln!("on-peak, off-peak and both reductions of an entry replaced: {figures:?}");
    assert!(figures.iter().all(|entries| *entries > 1_000));
}
