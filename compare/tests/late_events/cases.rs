//! The events of generated cases: each answer for each of its reasons, and years without late events.

use std::collections::BTreeMap;

use settlement::cases::record::encode;
use settlement::cases::{damaged_file, plausible_file};

use crate::accepted::Accepted;
use crate::common::each_record;

const SEEDS: u64 = 300;

/// Hands on the numbers of each record, none where it cannot be read, the records accepted before it,
/// and the number that it got.
fn each_with_accepted(file: &[u8], mut receive: impl FnMut(&[u64], &Accepted, u64)) {
    let mut accepted = Accepted::default();
    each_record(file, |numbers, number| {
        receive(numbers, &accepted, number);
        if number == 0 {
            accepted.add(numbers);
        }
    });
}

/// Hands on each event that can be read, in the same way.
fn each_event(file: &[u8], mut receive: impl FnMut(&[u64], &Accepted, u64)) {
    each_with_accepted(file, |numbers, accepted, number| {
        if let [4 | 8, ..] = numbers {
            receive(numbers, accepted, number);
        }
    });
}

#[test]
fn every_reason_comes_up() {
    let mut answers = BTreeMap::<(u64, &str), usize>::new();
    let mut remarks = BTreeMap::<&str, usize>::new();
    for file in (0..SEEDS).flat_map(|seed| [plausible_file(seed), damaged_file(seed)]) {
        each_event(&file, |event, accepted, number| {
            let answer = accepted.answer(event);
            assert_eq!(number, answer.0, "{event:?}: {}", answer.1);
            *answers.entry(answer).or_default() += 1;
            if answer == (0, "late") {
                for remark in accepted.remarks(event) {
                    *remarks.entry(remark).or_default() += 1;
                }
            }
        });
    }
    eprintln!("{answers:?}\nof the late ones accepted {remarks:?}");
    let reasons = [
        (6, "after month 15"),
        (10, "does not belong"),
        (11, "month to come"),
        (11, "product not to be called"),
        (12, "in time"),
        (12, "late"),
    ];
    assert!(reasons.iter().all(|reason| answers[reason] > 30));
    assert!(answers[&(0, "in time")] > 2_000);
    assert!(answers[&(0, "late")] > 500);
    assert_eq!(remarks.len(), 3);
    assert!(remarks.values().all(|count| *count > 50));
}

/// The file without the events that come late.
fn without_late_events(file: &[u8]) -> Vec<u8> {
    let mut others = Vec::new();
    each_with_accepted(file, |numbers, accepted, _| {
        if !matches!(numbers, [4 | 8, ..] if accepted.is_late(numbers)) {
            others.extend(encode(numbers));
        }
    });
    others
}

#[test]
fn years_without_late_events_are_taken_as_by_document_01() {
    let [mut events, mut files, mut with_late] = [0; 3];
    for seed in 0..SEEDS {
        let file = plausible_file(seed);
        let others = without_late_events(&file);
        each_event(&others, |event, accepted, number| {
            assert_eq!(number, accepted.number_of_01(event), "{event:?}");
            events += 1;
        });
        files += 1;
        with_late += usize::from(others != file);
    }
    eprintln!("{events} events in time, in {files} files, of which {with_late} had late ones too");
    assert!(events > 1_000 && 3 * with_late > files);
}
