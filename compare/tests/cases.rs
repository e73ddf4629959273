//! Generated cases: what they reach.

use std::collections::{BTreeMap, BTreeSet};

use settlement::cases::{damaged_file, full_file, plausible_file, take_calls, Form, FORMS};
use settlement::owed::{Amounts, Owed};
use settlement::{bill_file, statement, take_each, Book};

const SEEDS: u64 = 300;

/// A file's numbers and its statements.
fn take_all(file: &[u8]) -> (Vec<u64>, Vec<Owed>) {
    let mut numbers = Vec::new();
    let mut statements = Vec::new();
    take_each(file, |taken, statement| {
        numbers.push(taken.number);
        if !statement.is_empty() {
            statements.push(statement::decode(statement).1);
        }
    });
    (numbers, statements)
}

fn sellers(owed: &Owed) -> impl Iterator<Item = &Amounts> {
    owed.sellers.iter().flatten()
}

fn each_amount(owed: &Owed) -> Vec<i64> {
    let of_sellers = sellers(owed).flat_map(|a| [a.compliance, a.test, a.credit]);
    of_sellers.chain(owed.lses.into_iter().flatten()).collect()
}

#[test]
fn every_number_comes_up() {
    let mut calls = BTreeMap::<u64, usize>::new();
    let mut files = BTreeMap::<u64, usize>::new();
    for seed in 0..SEEDS {
        let mut book = Book::new();
        for call in take_calls(seed) {
            let number = book.take(&call.bytes, &mut vec![0; call.room]).number;
            *calls.entry(number).or_default() += 1;
        }
        for number in take_all(&damaged_file(seed)).0 {
            *files.entry(number).or_default() += 1;
        }
    }
    eprintln!("calls {calls:?}\nfiles {files:?}");
    let of_calls: BTreeSet<u64> = calls.into_keys().collect();
    let of_files: BTreeSet<u64> = files.into_keys().collect();
    // 18 and 19 are of samples. Files are billed with buffers that are large enough.
    assert_eq!(of_calls, (0..=17).chain([20, 21]).collect());
    assert_eq!(of_files, (0..=15).chain([17, 20, 21]).collect());
}

#[test]
fn plausible_years_are_accepted_and_reach_every_amount() {
    let mut accepted = 0;
    let mut records = 0;
    let mut amounts = Vec::new();
    for seed in 0..SEEDS {
        let (numbers, statements) = take_all(&plausible_file(seed));
        records += numbers.len();
        accepted += numbers.iter().filter(|number| **number == 0).count();
        amounts.extend(statements.iter().flat_map(each_amount));
    }
    let negative = amounts.iter().filter(|amount| **amount < 0).count();
    let positive = amounts.iter().filter(|amount| **amount > 0).count();
    eprintln!("{accepted} of {records} accepted");
    eprintln!(
        "{positive} positive, {negative} negative of {}",
        amounts.len()
    );
    assert!(10 * accepted > 9 * records);
    assert!(10 * positive > amounts.len());
    assert!(negative > 0);
}

#[test]
fn full_years_are_accepted_whole() {
    const RECORDS: usize = 1 + 64 + 4 * 64 + 16 + 24 + 16 + 15;
    for seed in 0..SEEDS {
        assert_eq!(take_all(&full_file(seed)).0, [0; RECORDS], "seed {seed}");
    }
}

#[test]
fn a_seed_gives_one_file() {
    for Form { file, .. } in FORMS {
        assert_eq!(file(1), file(1));
        assert_ne!(file(1), file(2));
        assert!(!bill_file(&file(1)).is_empty());
    }
}
