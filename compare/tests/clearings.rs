//! The clearings of generated cases: the numbers that they get, and what they change.

use std::collections::BTreeMap;

use settlement::cases::{damaged_file, plausible_file};
use settlement::rates::own;
use settlement::statement::MOST_BYTES;
use settlement::{take_each, Book};

const SEEDS: u64 = 300;

/// Hands on the bytes from each record of a file on, its length and its number.
fn each_record(file: &[u8], mut receive: impl FnMut(&[u8], usize, u64)) {
    let mut start = 0;
    take_each(file, |taken, _| {
        receive(&file[start..], taken.consumed, taken.number);
        start += taken.consumed;
    });
}

fn is_clearing(bytes: &[u8]) -> bool {
    bytes[0] >> 4 == 7
}

fn without_clearings(file: &[u8]) -> Vec<u8> {
    let mut others = Vec::new();
    each_record(file, |bytes, length, _| {
        if !is_clearing(bytes) {
            others.extend(&bytes[..length]);
        }
    });
    others
}

/// The own rates at a file's end, and its statements.
fn rates_and_statements(file: &[u8]) -> (Vec<i64>, Vec<u8>) {
    let mut book = Book::new();
    let mut statements = Vec::new();
    each_record(file, |bytes, _, _| {
        let mut buffer = [0; MOST_BYTES];
        let taken = book.take(bytes, &mut buffer);
        statements.extend(&buffer[..taken.written]);
    });
    let year = book.year().expect("a year");
    let own = own(year);
    let registrations = year.registrations.iter().flatten();
    let rates = registrations.map(|r| own[usize::from(r.id)]).collect();
    (rates, statements)
}

#[test]
fn clearings_get_each_of_their_numbers() {
    let mut numbers = BTreeMap::<u64, usize>::new();
    for seed in 0..SEEDS {
        each_record(&damaged_file(seed), |bytes, _, number| {
            if is_clearing(bytes) {
                *numbers.entry(number).or_default() += 1;
            }
        });
    }
    eprintln!("{numbers:?}");
    for number in [0, 3, 4, 6, 7, 10, 17] {
        assert!(numbers.contains_key(&number), "{number}");
    }
}

#[test]
fn clearings_change_rates_and_statements() {
    let [mut files, mut without, mut billed_otherwise] = [0; 3];
    let [mut rates, mut changed, mut to_0] = [0; 3];
    for seed in 0..SEEDS {
        let file = plausible_file(seed);
        let others = without_clearings(&file);
        let (cleared, statements) = rates_and_statements(&file);
        let (fields, statements_by_fields) = rates_and_statements(&others);
        files += 1;
        without += usize::from(others == file);
        billed_otherwise += usize::from(statements != statements_by_fields);
        rates += cleared.len();
        for (rate, field) in cleared.into_iter().zip(fields) {
            changed += usize::from(rate != field);
            to_0 += usize::from(rate == 0 && field != 0);
        }
    }
    eprintln!("of {files} files {without} without clearings, {billed_otherwise} billed otherwise");
    eprintln!("of {rates} rates {changed} changed, {to_0} to 0");
    assert!(without > 0 && to_0 > 0);
    assert!(10 * changed > rates);
    assert!(4 * billed_otherwise > files);
}
