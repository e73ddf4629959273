//! The numbers that events get for the time at which they come, and for the sixteen.

use settlement::cases::record::Numbers;

use crate::accepted::callable;
use crate::common::each_record;
use crate::year::{closes, event, year, ANNUAL, LIMITED};

/// The numbers that the events get; all other records are accepted.
fn answers(product: u64, records: &[Numbers]) -> Vec<u64> {
    let mut answers = Vec::new();
    each_record(&year(product, records), |numbers, number| {
        match numbers[0] {
            4 => answers.push(number),
            _ => assert_eq!(number, 0),
        }
    });
    answers
}

#[test]
fn every_month_with_every_count_of_closes() {
    for z in 0..=15 {
        // June has begun with the year, and each close begins the month after it.
        let begun = 1..=z + 1;
        for (month, product, period) in every_month_product_and_period() {
            let expected = if z == 15 {
                6
            } else if begun.contains(&month) && callable(product, period).contains(&month) {
                0
            } else {
                11
            };
            let mut event = event(month, 600);
            event[3] = period;
            let records = [closes(1..=z), vec![event]].concat();
            let what = format!("month {month}, product {product}, period {period}, z {z}");
            assert_eq!(answers(product, &records), [expected], "{what}");
        }
    }
}

fn every_month_product_and_period() -> impl Iterator<Item = (u64, u64, u64)> {
    let products = |month| (0..3).map(move |product| (month, product));
    let periods = |(month, product)| (1..=3).map(move |period| (month, product, period));
    (1..=12).flat_map(products).flat_map(periods)
}

#[test]
fn an_annual_one_until_month_15_is_closed() {
    let answer = |month, z| answers(ANNUAL, &[closes(1..=z), vec![event(month, 600)]].concat())[0];
    assert_eq!([0, 4, 5, 14, 15].map(|z| answer(1, z)), [0, 0, 0, 0, 6]);
    assert_eq!([10, 11, 14, 15].map(|z| answer(12, z)), [11, 0, 0, 6]);
}

#[test]
fn a_late_seventeenth() {
    let of_june = |count| vec![event(1, 600); count];
    let answers = |in_time, late| {
        let records = [of_june(in_time), closes(1..=5), late].concat();
        answers(LIMITED, &records).split_off(in_time)
    };
    assert_eq!(answers(16, of_june(1)), [12]);
    assert_eq!(answers(15, of_june(2)), [0, 12]);
    // In October a Limited one is not called, and December is to come.
    let october_and_december = vec![event(5, 600), event(7, 600)];
    assert_eq!(answers(16, october_and_december), [11, 11], "before 12");
}
