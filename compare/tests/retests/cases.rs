//! The retests of generated cases: each answer for each of its reasons, and what they change.

use std::collections::BTreeMap;

use settlement::cases::record::{encode, entries_mut};
use settlement::cases::{damaged_file, plausible_file};
use settlement::{statement, take_each};

use crate::accepted::{entries, Accepted, Entries};
use crate::common::each_record;

const SEEDS: u64 = 600;

#[test]
fn every_reason_comes_up() {
    let mut answers = BTreeMap::<(u64, &str), usize>::new();
    let mut remarks = BTreeMap::<&str, usize>::new();
    for file in (0..SEEDS).flat_map(|seed| [plausible_file(seed), damaged_file(seed)]) {
        let mut accepted = Accepted::default();
        each_record(&file, |numbers, number| {
            if let ([9, ..], 0 | 9..) = (numbers, number) {
                let answer = accepted.answer(numbers);
                assert_eq!(number, answer.0, "{numbers:?}: {}", answer.1);
                *answers.entry(answer).or_default() += 1;
            }
            if number == 0 {
                for remark in accepted.remarks(numbers) {
                    *remarks.entry(remark).or_default() += 1;
                }
                accepted.add(numbers);
            }
        });
    }
    eprintln!("{answers:?}\n{remarks:?}");
    assert_eq!(answers.len(), 16);
    assert!(answers.values().all(|count| *count > 3));
    assert!(answers[&(0, "below a quarter")] > 400);
    assert_eq!(remarks.len(), 7);
    assert!(remarks.values().all(|count| *count > 100));
}

/// The file without retests, its tests with these reductions.
fn without_retests(file: &[u8], reduced: &Entries) -> Vec<u8> {
    let mut records = Vec::new();
    each_record(file, |numbers, number| {
        let mut numbers = numbers.to_vec();
        match (numbers[0], number) {
            (9, _) => return,
            (5, 0) => {
                for entry in entries_mut(&mut numbers) {
                    entry[1] = reduced.get(&entry[0]).copied().unwrap_or(entry[1]);
                }
            }
            _ => {}
        }
        records.extend(encode(&numbers));
    });
    records
}

/// The sum of each seller's test amounts in all statements.
fn test_amounts(file: &[u8]) -> [i64; 16] {
    let mut sums = [0; 16];
    take_each(file, |_, statement| {
        if !statement.is_empty() {
            let owed = statement::decode(statement).1;
            for (sum, amounts) in sums.iter_mut().zip(owed.sellers) {
                *sum += amounts.map_or(0, |amounts| amounts.test);
            }
        }
    });
    sums
}

#[test]
fn retested_reductions_stand_for_the_first_ones() {
    let [mut closes, mut cheaper, mut dearer] = [0; 3];
    for seed in 0..SEEDS {
        let mut so_far = Vec::new();
        let mut retested = Entries::new();
        each_record(&plausible_file(seed), |numbers, number| {
            so_far.extend(encode(numbers));
            match (numbers, number) {
                ([9, ..], 0) => retested.extend(entries(numbers)),
                ([6, _], 0) if !retested.is_empty() => {
                    // All is owed as though the tests had given it at once.
                    let amounts = test_amounts(&so_far);
                    assert_eq!(test_amounts(&without_retests(&so_far, &retested)), amounts);
                    let first = test_amounts(&without_retests(&so_far, &Entries::new()));
                    let mut changes = amounts.iter().zip(&first);
                    closes += 1;
                    cheaper += usize::from(changes.clone().any(|(now, first)| now < first));
                    dearer += usize::from(changes.any(|(now, first)| now > first));
                }
                _ => {}
            }
        });
    }
    eprintln!("of {closes} closes after a retest {cheaper} cheaper for a seller, {dearer} dearer");
    assert!(closes > 1_000 && cheaper > 300 && dearer > 100);
}
