//! The divisions of allotments: by hand, and at the closes of generated cases.

use std::collections::BTreeMap;

use settlement::account::to_date_and_divisions;
use settlement::cases::record::file;
use settlement::cases::{full_file, plausible_file};
use settlement::owed::Allotment;
use settlement::records::{Event, Measured, Product};
use settlement::statement::MOST_BYTES;
use settlement::{take_each, Book};

const SEEDS: u64 = 300;

fn divisions<const N: usize>(amount: i64, weights: [i64; N]) -> usize {
    let mut allotment = Allotment::new(amount, weights.iter().sum());
    for weight in weights {
        allotment.share(weight);
    }
    allotment.divisions()
}

#[test]
fn one_a_party() {
    assert_eq!(divisions(10, [1, 0, 2]), 3);
    assert_eq!(divisions(0, [1, 1]), 2, "an amount of 0");
    assert_eq!(divisions(10, [0, 0, 0]), 0, "a whole of 0");
    assert_eq!(divisions(10, []), 0, "no party");
}

/// Takes a file record by record, and hands on the book after each close.
fn each_close(file: &[u8], mut receive: impl FnMut(&Book)) {
    let mut book = Book::new();
    let mut start = 0;
    take_each(file, |taken, statement| {
        book.take(&file[start..], &mut [0; MOST_BYTES]);
        start += taken.consumed;
        if !statement.is_empty() {
            receive(&book);
        }
    });
}

/// The divisions that the last close's allotments tell.
fn told(book: &Book) -> usize {
    let year = book.year().expect("a year");
    to_date_and_divisions(year, year.closed).1
}

#[test]
fn an_event_by_hand() {
    let year = [
        vec![1, 0, 9_500, 10_800],
        vec![2, 0, 0, 1, 1, 0, 1_000, 10_000],
        vec![2, 1, 1, 1, 1, 0, 2_000, 15_000],
        vec![2, 2, 1, 1, 1, 0, 500, 15_000],
        vec![2, 3, 1, 1, 1, 0, 500, 15_000],
        vec![3, 0, 3_000],
        vec![3, 1, 1_000],
        vec![4, 1, 1, 1, 0, 3, 0, 600, 1, 2_100, 2, 500],
        vec![6, 1],
    ];
    // Seller 0 is short: 1 for its entry's u. Seller 1 is over: 2 for its entries' e, one of them of
    // weight 0, and none for registration 3, which is not listed. Then 3 entries share the charges,
    // still 0, and 2 LSEs what is left of them.
    let mut at_closes = Vec::new();
    each_close(&file(&year), |book| at_closes.push(told(book)));
    assert_eq!(at_closes, [1 + 2 + 3 + 2]);
}

#[test]
fn an_event_measured_apart_by_hand() {
    let year = [
        vec![1, 0, 9_500, 10_800],
        vec![2, 0, 0, 1, 1, 0, 1_000, 10_000],
        vec![2, 1, 0, 1, 1, 2, 2_000, 15_000],
        vec![2, 2, 0, 1, 1, 2, 1_000, 20_000],
        vec![2, 3, 1, 1, 1, 2, 2_000, 15_000],
        vec![3, 0, 3_000],
        vec![3, 1, 1_000],
        [
            vec![8, 1, 1, 0, 4],
            vec![0, 600, 0, 1, 1_600, 1_900, 2, 1_000, 0, 3, 2_100, 2_400],
        ]
        .concat(),
        vec![6, 1],
    ];
    // Seller 0 is short on-peak: 3 for its entries' u. Off-peak 2 more, since its Limited one is left
    // out, and none for seller 1, which is not short. Seller 1 is over: 1 for e. Then 4 entries share
    // the charges, and 2 LSEs what is left of them.
    let mut at_closes = Vec::new();
    each_close(&file(&year), |book| at_closes.push(told(book)));
    assert_eq!(at_closes, [3 + 2 + 1 + 4 + 2]);
}

/// The parties of an event's allotments, of each whose weights are not all 0: u, e and credits.
fn parties(book: &Book, event: &Event) -> usize {
    let year = book.year().expect("a year");
    let mut sellers = BTreeMap::<u8, (usize, i64, i64)>::new();
    for entry in event.lists.entries() {
        let registration = year.registration(entry);
        let above = i64::from(entry.reduction) - i64::from(registration.committed);
        let (entries, short, over) = sellers.entry(registration.seller).or_default();
        *entries += 1;
        *short += (-above).max(0);
        *over += above.max(0);
    }
    let in_excess = sellers.values().any(|(_, short, over)| over > short);
    let of_seller = |(entries, short, over): &(usize, i64, i64)| {
        let allotments = [*short > 0, *over > 0, in_excess];
        entries * allotments.into_iter().filter(|weighs| *weighs).count()
    };
    sellers.values().map(of_seller).sum()
}

/// The parties of the off-peak allotments, where both periods are measured apart: no Limited one.
fn parties_off_peak(book: &Book, event: &Event) -> usize {
    let year = book.year().expect("a year");
    let Measured::Apart(reductions) = &event.measured else {
        return 0;
    };
    let mut sellers = BTreeMap::<u8, (usize, bool)>::new();
    for (entry, reduction) in event.lists.entries().iter().zip(reductions) {
        let registration = year.registration(entry);
        if registration.product != Product::Limited {
            let (entries, is_short) = sellers.entry(registration.seller).or_default();
            *entries += 1;
            *is_short |= *reduction < registration.committed;
        }
    }
    let short = sellers.values().filter(|(_, is_short)| *is_short);
    short.map(|(entries, _)| entries).sum()
}

#[test]
fn one_a_party_at_every_close() {
    let mut off_peak = 0;
    let mut check = |book: &Book| {
        let year = book.year().expect("a year");
        let events = || year.events.iter();
        let of_events: usize = events().map(|event| parties(book, event)).sum();
        let apart: usize = events().map(|event| parties_off_peak(book, event)).sum();
        let lses = year.lses.iter().flatten().count();
        assert_eq!(told(book), of_events + apart + lses);
        off_peak += apart;
    };
    for seed in 0..SEEDS {
        each_close(&plausible_file(seed), &mut check);
        each_close(&full_file(seed), &mut check);
    }
    eprintln!("{off_peak} parties off-peak");
    assert!(off_peak > 100_000);
}
