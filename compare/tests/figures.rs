//! The figures of Year A and its edges, and those of clearings in it.

use settlement::layout::MOST_BYTES;
use settlement::owed::{cap, convert, due_month, off_peak_amount, on_peak_amount, Allotment};
use settlement::records::{Opening, Product};
use settlement::{bill_file, statement, Book};

const YEAR_A: Opening = Opening {
    leap: false,
    dr_factor: 9_500,
    forecast_pool_requirement: 10_800,
};

fn record(numbers: &[u64]) -> Vec<u8> {
    let mut buffer = [0; MOST_BYTES];
    let written = settlement::write(numbers, &mut buffer);
    assert_eq!(written.number, 0, "{numbers:?}");
    buffer[..written.used].to_vec()
}

fn file(records: &[&[u64]]) -> Vec<u8> {
    records.iter().flat_map(|numbers| record(numbers)).collect()
}

fn bill(records: &[&[u64]]) -> String {
    let parties: [&[u64]; 5] = [
        &[1, 0, 9_500, 10_800],
        &[2, 0, 0, 1, 1, 0, 1_000, 10_000],
        &[2, 1, 1, 1, 1, 0, 2_000, 15_000],
        &[3, 0, 3_000],
        &[3, 1, 1_000],
    ];
    let year = [&parties, records].concat();
    String::from_utf8(bill_file(&file(&year))).expect("text")
}

const JUNE_TEST: &[u64] = &[5, 1, 0, 1, 0, 2, 0, 600, 1, 2_100];
const JUNE_EVENT: &[u64] = &[4, 1, 1, 1, 0, 2, 0, 600, 1, 2_100];
const SEPTEMBER_EVENT: &[u64] = &[4, 1, 4, 1, 0, 1, 0, 600];

fn allot<const N: usize>(amount: i64, weights: [i64; N]) -> [i64; N] {
    let mut allotment = Allotment::new(amount, weights.iter().sum());
    weights.map(|weight| allotment.share(weight))
}

#[test]
fn definitions() {
    assert_eq!(convert(&YEAR_A, 400), 410);
    assert_eq!(allot(10, [1, 1, 1]), [3, 3, 4]);
    assert_eq!(allot(10, [0, 5]), [0, 10]);
    assert_eq!(allot(10, [0]), [0]);
    assert_eq!(on_peak_amount(410, 10_000, 1), 2_050_000);
    assert_eq!(on_peak_amount(410, 10_000, 2), 2_050_000);
    assert_eq!(on_peak_amount(410, 10_000, 3), 1_366_666);
    assert_eq!(off_peak_amount(410, 10_000), 78_846);
    let cap = cap(&YEAR_A, 1_000, 10_000);
    assert_eq!(cap, 10_260_000);
    assert_eq!(2 * on_peak_amount(1_026, 10_000, 2), cap);
    assert_eq!(due_month(Product::Limited, 1), 5);
    assert_eq!(due_month(Product::Limited, 4), 7);
    assert_eq!(due_month(Product::Annual, 12), 15);
}

#[test]
fn test_of_june() {
    let text = "M 1\nS 0 0 147600 0\nS 1 0 0 0\nL 0 110700\nL 1 36900\nN 8 15\n";
    assert_eq!(bill(&[JUNE_TEST, &[6, 1], &[6, 1]]), text);
}

#[test]
fn event_of_june_repriced_by_september() {
    let text = bill(&[
        JUNE_EVENT,
        &[6, 1],
        &[6, 2],
        &[6, 3],
        &[6, 4],
        &[6, 5],
        SEPTEMBER_EVENT,
        SEPTEMBER_EVENT,
        &[6, 6],
    ]);
    assert!(text.ends_with(
        "M 5\nS 0 313650 0 0\nS 1 0 0 45900\nL 0 200812\nL 1 66938\n\
         M 6\nS 0 -63551 0 0\nS 1 0 0 9000\nL 0 -54413\nL 1 -18138\n"
    ));
}

#[test]
fn event_of_june_in_time_and_late() {
    let closes: [&[u64]; 6] = [&[6, 1], &[6, 2], &[6, 3], &[6, 4], &[6, 5], &[6, 6]];
    let with = |z: usize| bill(&[&closes[..z], &[JUNE_EVENT], &closes[z..]].concat());
    assert!(with(4).ends_with(
        "M 5\nS 0 313650 0 0\nS 1 0 0 45900\nL 0 200812\nL 1 66938\n\
         M 6\nS 0 61500 0 0\nS 1 0 0 9000\nL 0 39375\nL 1 13125\n"
    ));
    // Close 6 has the whole to date: 2,050,000 × 183 / 1,000 = 375,150 charged, of which
    // 100 × 15,000 / 5 × 183 / 1,000 = 54,900 credited to seller 1, and 320,250 left to the LSEs.
    assert!(with(5).ends_with(
        "M 5\nS 0 0 0 0\nS 1 0 0 0\nL 0 0\nL 1 0\n\
         M 6\nS 0 375150 0 0\nS 1 0 0 54900\nL 0 240187\nL 1 80063\n"
    ));
}

#[test]
fn edges_of_a_record() {
    let most = record(&[2, 0, 0, 1, 1, 0, 100_000, 0]);
    let mut above = most.clone();
    above[4] |= 0x04;
    let mut book = Book::new();
    let mut number = |bytes: &[u8]| book.take(bytes, &mut []).number;
    assert_eq!(number(&[0x14, 0xA3, 0x95, 0x18, 0x01]), 4);
    assert_eq!(number(&[0x14, 0xA3, 0x95, 0x18, 0x00]), 0);
    assert_eq!(number(&most), 0);
    assert_eq!(number(&above), 3);
}

/// The rate of Year A's registration 0, alone and after these clearings, and its seller's revenue in
/// June.
fn rate_and_revenue(clearings: &[&[u64]]) -> (i64, i64) {
    let mut book = Book::new();
    let parties: [&[u64]; 3] = [
        &[1, 0, 9_500, 10_800],
        &[2, 0, 0, 1, 1, 0, 1_000, 10_000],
        &[3, 0, 3_000],
    ];
    for numbers in [&parties, clearings, &[&[6, 1]]].concat() {
        let mut buffer = [0; statement::MOST_BYTES];
        assert_eq!(book.take(&record(numbers), &mut buffer).number, 0);
    }
    let year = book.year().expect("a year");
    (year.rates[0], year.revenue(0, 1))
}

#[test]
fn two_clearings() {
    // (1 × 100 + 3 × 201) / 4 = 703 / 4 = 175, and 1,026 × 175 × 30 = 5,386,500.
    let [one, other]: [&[u64]; 2] = [&[7, 0, 100, 1], &[7, 0, 201, 3]];
    assert_eq!(rate_and_revenue(&[one, other]), (175, 5_386_500));
    // 410 × (175 + 2,000) × 30 / 1,000 = 26,752.
    let text = "M 1\nS 0 0 26752 0\nS 1 0 0 0\nL 0 20064\nL 1 6688\n";
    assert_eq!(bill(&[one, other, JUNE_TEST, &[6, 1]]), text);
}

#[test]
fn a_clearing_at_price_0() {
    let clearing: &[u64] = &[7, 0, 0, 1];
    assert_eq!(rate_and_revenue(&[]), (10_000, 307_800_000));
    assert_eq!(rate_and_revenue(&[clearing]), (0, 0));
    // With registration 1 in the area: 410 × (15,000 + 3,000) × 30 / 1,000 = 221,400.
    let text = "M 1\nS 0 0 221400 0\nS 1 0 0 0\nL 0 166050\nL 1 55350\n";
    assert_eq!(bill(&[clearing, JUNE_TEST, &[6, 1]]), text);
}

#[test]
fn clearings_refused() {
    let clearing: &[u64] = &[7, 0, 100, 1];
    assert_eq!(bill(&[&[7, 2, 100, 1]]), "N 6 10\n");
    assert_eq!(bill(&[clearing; 5]), "N 10 17\n");
    assert_eq!(bill(&[JUNE_TEST, clearing]), "N 7 7\n");
    assert_eq!(bill_file(&record(clearing)), b"N 1 6\n");
    assert_eq!(bill_file(&[0xA0]), b"N 1 1\n");
}
