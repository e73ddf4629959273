//! Rates of 0, which borrow their area's: figures by hand, and what generated cases reach.

mod common;

use std::array;
use std::collections::BTreeSet;

use common::each_record;
use settlement::cases::plausible_file;
use settlement::cases::record::{encode, file, Numbers};
use settlement::rates::{own, Rates};
use settlement::statement::MOST_BYTES;
use settlement::{bill_file, take_each, Book};

const SEEDS: u64 = 600;

const OPENING: &[u64] = &[1, 0, 9_500, 10_800];
const LSES: [&[u64]; 2] = [&[3, 0, 3_000], &[3, 1, 1_000]];

/// Year A's registrations at these rates.
fn year_a(rates: [u64; 2]) -> [Numbers; 2] {
    [
        vec![2, 0, 0, 1, 1, 0, 1_000, rates[0]],
        vec![2, 1, 1, 1, 1, 0, 2_000, rates[1]],
    ]
}

/// The file of a year: these registrations and clearings, events and tests, and so many closes.
fn year(parties: &[&[u64]], calls: &[&[u64]], closes: u64) -> Vec<u8> {
    let records = [&[OPENING], parties, &LSES, calls].concat();
    let mut records: Vec<Numbers> = records.into_iter().map(<[u64]>::to_vec).collect();
    records.extend((1..=closes).map(|month| vec![6, month]));
    file(&records)
}

/// The book at a file's end.
fn book(file: &[u8]) -> Book {
    let mut book = Book::new();
    each_record(file, |numbers, _| {
        book.take(&encode(numbers), &mut [0; MOST_BYTES]);
    });
    book
}

/// The rates in force of these registrations, with clearings among them.
fn rates(parties: &[&[u64]]) -> Vec<i64> {
    let file = year(parties, &[], 1);
    each_record(&file, |_, number| assert_eq!(number, 0));
    let book = book(&file);
    let year = book.year().expect("a year");
    let registrations = year.registrations.iter().flatten();
    let rates = registrations.map(|r| year.rates[usize::from(r.id)]);
    rates.collect()
}

#[test]
fn two_lend_to_a_third() {
    // (1,000 × 10,000 + 2,000 × 15,000) / 3,000 = 40,000,000 / 3,000 = 13,333.
    let [a, b] = year_a([10_000, 15_000]);
    let third = |kw| rates(&[&a, &b, &[2, 2, 0, 1, 1, 0, kw, 0]]);
    assert_eq!(third(1), [10_000, 15_000, 13_333]);
    // Its own kW are no part of the divisor.
    assert_eq!(third(100_000), [10_000, 15_000, 13_333]);
}

#[test]
fn nobody_lends() {
    assert_eq!(rates(&[&[2, 0, 0, 1, 1, 0, 1_000, 0]]), [0]);
    let [a, b] = year_a([0, 0]);
    assert_eq!(rates(&[&a, &b]), [0, 0]);
}

#[test]
fn the_area_alone_decides_who_lends() {
    let lent = |lender: &[u64]| rates(&[lender, &[2, 9, 0, 1, 2, 0, 1_000, 0]])[1];
    assert_eq!(lent(&[2, 0, 0, 1, 2, 0, 7, 500]), 500);
    assert_eq!(lent(&[2, 0, 1, 1, 2, 0, 7, 500]), 500, "another seller's");
    assert_eq!(lent(&[2, 0, 0, 1, 3, 0, 7, 500]), 500, "another zone's");
    assert_eq!(lent(&[2, 0, 0, 1, 2, 2, 7, 500]), 500, "another product's");
    assert_eq!(lent(&[2, 0, 0, 2, 2, 0, 7, 500]), 0, "another area's");
}

#[test]
fn each_area_lends_its_own() {
    let registrations: [&[u64]; 5] = [
        &[2, 0, 0, 1, 1, 0, 1_000, 0],
        &[2, 1, 0, 2, 1, 0, 1_000, 0],
        &[2, 2, 0, 1, 1, 0, 1, 1],
        &[2, 3, 0, 1, 1, 0, 1, 2],
        &[2, 4, 0, 2, 1, 0, 1, 100_000],
    ];
    // (1 + 2) / 2 = 1.
    assert_eq!(rates(&registrations), [1, 100_000, 1, 2, 100_000]);
}

#[test]
fn borrowed_rates_are_not_lent_on() {
    let [a, b] = year_a([10_000, 15_000]);
    let borrowers: [&[u64]; 2] = [&[2, 2, 0, 1, 1, 0, 9_000, 0], &[2, 3, 0, 1, 1, 0, 9_000, 0]];
    // Each borrows of the lenders alone, whether they come before it or after it.
    let expected = [10_000, 15_000, 13_333, 13_333];
    assert_eq!(rates(&[&[&a[..], &b], &borrowers[..]].concat()), expected);
    assert_eq!(rates(&[&borrowers[..], &[&a, &b]].concat()), expected);
}

#[test]
fn clearings_make_borrowers_and_lenders() {
    let [a, b] = year_a([10_000, 15_000]);
    let free: &[u64] = &[7, 0, 0, 1];
    assert_eq!(rates(&[&a, free, &b]), [15_000, 15_000]);
    // (0 × 1 + 1 × 1) / 2 = 0, rounded before it is asked whether the rate is 0.
    assert_eq!(rates(&[&a, free, &b, &[7, 0, 1, 1]]), [15_000, 15_000]);
    // (0 × 1 + 801 × 1) / 2 = 400: a lender again.
    let paid: &[u64] = &[7, 0, 801, 1];
    assert_eq!(rates(&[&a, free, &b, paid]), [400, 15_000]);
    assert_eq!(rates(&[&a, free, &b, &[7, 1, 0, 1], paid]), [400, 400]);
    // (1,000 × 300 + 2,000 × 15,000) / 3,000 = 10,100, whatever kW were cleared at 300.
    let [a, b] = year_a([0, 15_000]);
    let third: &[u64] = &[2, 2, 0, 1, 1, 0, 1, 0];
    for kw in [1, 100_000] {
        let cleared: &[u64] = &[7, 0, 300, kw];
        let expected = [300, 15_000, 10_100];
        assert_eq!(rates(&[third, &a, &b, cleared]), expected);
    }
}

/// The last bill of Year A's registrations at these rates, after a record and so many closes.
fn bill(rates: [u64; 2], record: &[u64], closes: u64) -> String {
    let [a, b] = year_a(rates);
    let file = year(&[&a, &b], &[record], closes);
    let text = String::from_utf8(bill_file(&file)).expect("text");
    text[text.rfind('M').expect("a close")..].to_string()
}

#[test]
fn a_test_by_a_borrowed_rate() {
    let test: &[u64] = &[5, 1, 0, 1, 0, 2, 0, 600, 1, 2_100];
    // 410 × (15,000 + 3,000) × 30 / 1,000 = 221,400.
    let text = "M 1\nS 0 0 221400 0\nS 1 0 0 0\nL 0 166050\nL 1 55350\n";
    assert_eq!(bill([0, 15_000], test, 1), text);
    // Where nobody lends: 410 × (0 + 2,000) × 30 / 1,000 = 24,600.
    let text = "M 1\nS 0 0 24600 0\nS 1 0 0 0\nL 0 18450\nL 1 6150\n";
    assert_eq!(bill([0, 0], test, 1), text);
}

#[test]
fn charge_and_credit_by_borrowed_rates() {
    let event: &[u64] = &[4, 1, 1, 1, 0, 2, 0, 600, 1, 2_100];
    // 410 × 15,000 / 2 × 153 / 1,000 = 470,475, and 100 × 15,000 / 5 × 153 / 1,000 = 45,900.
    let text = "M 5\nS 0 470475 0 0\nS 1 0 0 45900\nL 0 318431\nL 1 106144\n";
    assert_eq!(bill([0, 15_000], event, 5), text);
    // 410 × 10,000 / 2 × 153 / 1,000 = 313,650, and 100 × 10,000 / 5 × 153 / 1,000 = 30,600.
    let text = "M 5\nS 0 313650 0 0\nS 1 0 0 30600\nL 0 212287\nL 1 70763\n";
    assert_eq!(bill([10_000, 0], event, 5), text);
    // Where nobody lends, failing is free.
    let text = "M 5\nS 0 0 0 0\nS 1 0 0 0\nL 0 0\nL 1 0\n";
    assert_eq!(bill([0, 0], event, 5), text);
}

#[test]
fn cap_and_revenue_by_a_borrowed_rate() {
    // An Annual twin of registration 0 fails two on-peak events, which use up its cap, and one
    // off-peak, which then costs nothing: 1,026 × 15,000 × 365 / 1,000 = 5,617,350.
    let [_, lender] = year_a([0, 15_000]);
    let twin: &[u64] = &[2, 0, 0, 1, 1, 2, 1_000, 0];
    let [on_peak, off_peak]: [&[u64]; 2] = [&[4, 1, 1, 1, 0, 1, 0, 0], &[4, 1, 1, 2, 0, 1, 0, 0]];
    let file = year(&[twin, &lender], &[on_peak, on_peak, off_peak], 13);
    let text = "M 13\nS 0 5617350 0 0\nS 1 0 0 0\nL 0 4213012\nL 1 1404338\n";
    assert!(bill_file(&file).ends_with(text.as_bytes()));
    let book = book(&file);
    let revenue = book.year().expect("a year").revenue(0, 13);
    assert_eq!(revenue, 5_617_350_000);
}

/// The file without clearings, its registrations' fields at these rates.
fn at_rates(file: &[u8], rates: &Rates) -> Vec<u8> {
    let mut records = Vec::new();
    each_record(file, |numbers, _| match numbers {
        [2, id, ..] => {
            let rate = rates[usize::try_from(*id).expect("an id")];
            let rate = u64::try_from(rate).expect("a rate of at least 0");
            records.extend(encode(&[&numbers[..7], &[rate]].concat()));
        }
        [7, ..] => {}
        _ => records.extend(encode(numbers)),
    });
    records
}

fn statements(file: &[u8]) -> Vec<u8> {
    let mut statements = Vec::new();
    take_each(file, |_, statement| statements.extend(statement));
    statements
}

#[test]
fn fields_at_the_rates_in_force_bill_the_same() {
    let mut billed_otherwise = 0;
    for seed in 0..SEEDS {
        let file = plausible_file(seed);
        let book = book(&file);
        let year = book.year().expect("a year");
        let billed = statements(&file);
        assert_eq!(statements(&at_rates(&file, &year.rates)), billed);
        // A rate of 1, which borrows nothing, in place of each that is borrowed.
        let own = own(year);
        let unborrowed = array::from_fn(|id| match own[id] {
            0 => year.rates[id].min(1),
            rate => rate,
        });
        billed_otherwise += u64::from(statements(&at_rates(&file, &unborrowed)) != billed);
    }
    eprintln!("{billed_otherwise} of {SEEDS} files billed otherwise by 1 for a borrowed rate");
    assert!(3 * billed_otherwise > SEEDS);
}

/// The registrations with an accepted clearing above 0.
fn paid(file: &[u8]) -> BTreeSet<u64> {
    let mut ids = BTreeSet::new();
    each_record(file, |numbers, number| match (numbers, number) {
        ([7, id, price, _], 0) if *price > 0 => {
            ids.insert(*id);
        }
        _ => {}
    });
    ids
}

#[test]
fn generated_cases_borrow_of_none_one_and_several() {
    let [mut rates, mut of_none, mut of_one, mut of_several, mut rounded] = [0; 5];
    for seed in 0..SEEDS {
        let file = plausible_file(seed);
        let paid = paid(&file);
        let book = book(&file);
        let year = book.year().expect("a year");
        let own = own(year);
        let registrations = || year.registrations.iter().flatten();
        for r in registrations() {
            let id = usize::from(r.id);
            rates += 1;
            if own[id] > 0 {
                assert_eq!(year.rates[id], own[id]);
                continue;
            }
            let lenders = registrations().filter(|l| l.area == r.area);
            let lent = lenders.map(|l| (i64::from(l.committed), own[usize::from(l.id)]));
            let lent: Vec<(i64, i64)> = lent.filter(|(_, rate)| *rate > 0).collect();
            let kw: i64 = lent.iter().map(|(kw, _)| kw).sum();
            let by_kw: i64 = lent.iter().map(|(kw, rate)| kw * rate).sum();
            assert_eq!(year.rates[id], by_kw / kw.max(1));
            match lent.len() {
                0 => of_none += 1,
                1 => of_one += 1,
                _ => of_several += 1,
            }
            rounded += u32::from(paid.contains(&r.id.into()));
        }
    }
    eprintln!("of {rates} rates 0 with no lender {of_none}, one {of_one}, more {of_several}");
    eprintln!("{rounded} of these are of clearings whose average rounds to 0");
    assert!(of_none > 100 && of_one > 100 && rounded > 100);
    assert!(5 * of_several > rates);
}
