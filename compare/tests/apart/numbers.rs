//! The numbers that these events get past their bytes: 6, 8, 10, 11 and 12; and what they make of 7,
//! 13 and 14.

use settlement::bill_file;
use settlement::cases::record::{encode, file, Numbers};

use crate::common::each_record;
use crate::year::{
    apart, closes, four, in_month, one, registration, single, year, ANNUAL, EXTENDED_SUMMER,
    LIMITED,
};

/// The last record's number; all before it are accepted.
fn last(registrations: &[Numbers], records: &[Numbers]) -> u64 {
    let mut answers = Vec::new();
    each_record(&year(registrations, records), |_, number| {
        answers.push(number)
    });
    let last = answers.pop().expect("a record");
    assert!(answers.iter().all(|number| *number == 0));
    last
}

/// An event that lists registration 0.
fn event() -> Numbers {
    apart(&[], &[[0, 600, 700]])
}

#[test]
fn number_6() {
    assert_eq!(bill_file(&encode(&event())), b"N 1 6\n");
    let after = |z| last(&one(ANNUAL), &[closes(1..=z), vec![event()]].concat());
    assert_eq!([0, 14, 15].map(after), [0, 0, 6]);
}

#[test]
fn number_8() {
    let answer = |party: Numbers| bill_file(&file(&[vec![1, 0, 1, 1], party, event()]));
    assert_eq!(answer(registration(0, 0, ANNUAL, 1, 1)), b"N 3 8\n");
    assert_eq!(answer(vec![3, 0, 3_000]), b"N 3 8\n");
}

#[test]
fn number_10() {
    let elsewhere = vec![2, 4, 0, 2, 1, ANNUAL, 1_000, 10_000];
    let registrations = [four(), vec![elsewhere]].concat();
    let answer = |event: Numbers| last(&registrations, &[event]);
    let entries = [[0, 600, 0], [2, 600, 0]];
    assert_eq!(answer(apart(&[], &entries)), 0);
    assert_eq!(answer(apart(&[], &[[0, 600, 0], [4, 0, 0]])), 10, "area 2");
    assert_eq!(answer(apart(&[], &[[0, 600, 0], [5, 0, 0]])), 10, "unknown");
    assert_eq!(answer(apart(&[[0, 1]], &entries)), 0);
    assert_eq!(answer(apart(&[[1, 1]], &entries)), 10, "no entry");
    assert_eq!(answer(apart(&[[0, 1], [9, 1]], &entries)), 10, "no seller");
    // A deficit's seller may have Limited ones alone.
    assert_eq!(answer(apart(&[[0, 1]], &[[0, 600, 0]])), 0);
    let july = in_month(2, apart(&[], &[[5, 0, 0]]));
    assert_eq!(answer(july), 10, "before 11");
}

/// The months in which a product may be called when both periods are spanned.
fn callable(product: u64) -> &'static [u64] {
    match product {
        LIMITED => &[1, 2, 3, 4],
        EXTENDED_SUMMER => &[1, 2, 3, 4, 5, 12],
        _ => &[1, 2, 3, 4, 5, 6, 7, 8, 9, 10, 11, 12],
    }
}

#[test]
fn number_11_as_period_3() {
    for z in 0..=15 {
        for month in 1..=12 {
            for product in [LIMITED, EXTENDED_SUMMER, ANNUAL] {
                let answer = |event: Numbers| {
                    let event = in_month(month, event);
                    last(&one(product), &[closes(1..=z), vec![event]].concat())
                };
                let expected = if z == 15 {
                    6
                } else if month <= z + 1 && callable(product).contains(&month) {
                    0
                } else {
                    11
                };
                let what = format!("month {month}, product {product}, z {z}");
                assert_eq!(answer(event()), expected, "{what}");
                assert_eq!(answer(single(3, 600)), expected, "{what}");
            }
        }
    }
}

#[test]
fn one_that_cannot_be_called_is_enough_for_11() {
    let october = |entries| {
        let event = in_month(5, apart(&[], entries));
        last(&four(), &[closes(1..=4), vec![event]].concat())
    };
    assert_eq!(october(&[[1, 0, 0], [2, 0, 0]]), 0);
    assert_eq!(october(&[[0, 0, 0], [1, 0, 0], [2, 0, 0]]), 11, "Limited");
}

#[test]
fn number_12() {
    let mixed = |count: usize| {
        let events = [event(), single(1, 600), single(2, 600), single(3, 600)];
        events.into_iter().cycle().take(count)
    };
    let answer = |count, last_event: Numbers| {
        let records: Vec<Numbers> = mixed(count).chain([last_event]).collect();
        last(&one(ANNUAL), &records)
    };
    assert_eq!([15, 16].map(|count| answer(count, event())), [0, 12]);
    let of_one_kind = vec![event(); 16];
    let with = |record: Numbers| last(&one(ANNUAL), &[of_one_kind.clone(), vec![record]].concat());
    assert_eq!(with(event()), 12);
    assert_eq!(with(single(1, 600)), 12);
    assert_eq!(with(single(2, 600)), 12);
    assert_eq!(with(in_month(2, event())), 11, "before 12");
}

#[test]
fn no_party_comes_after_one() {
    let after = |record: &[u64]| last(&one(ANNUAL), &[event(), record.to_vec()]);
    assert_eq!(after(&registration(1, 0, ANNUAL, 1, 1)), 7);
    assert_eq!(after(&[3, 2, 1]), 7);
    assert_eq!(after(&[7, 0, 100, 1]), 7);
}

#[test]
fn a_test_passes_over_what_they_list() {
    let annual = |ids: &[u64]| {
        let count = u64::try_from(ids.len()).expect("few");
        let entries: Vec<u64> = ids.iter().flat_map(|id| [*id, 0]).collect();
        [&[5, 1, ANNUAL, 1, 0, count], &entries[..]].concat()
    };
    let called = apart(&[], &[[2, 1_000, 1_000]]);
    let answer = |ids: &[u64]| last(&four(), &[called.clone(), annual(ids)]);
    assert_eq!(answer(&[1, 3]), 0);
    assert_eq!(answer(&[1, 2, 3]), 14);
    assert_eq!(answer(&[1]), 14);
    assert_eq!(last(&four(), &[annual(&[1, 2, 3])]), 0);
    let twice = [called.clone(), annual(&[1, 3]), annual(&[1, 3])];
    assert_eq!(last(&four(), &twice), 13);
}
