//! What a late event changes, by hand: 400 kW short are 410 converted, and 410 × 10,000 / 2 = 2,050,000
//! a day.

use settlement::bill_file;
use settlement::cases::record::Numbers;
use settlement::owed::Amounts;
use settlement::{statement, take_each};

use crate::year::{closes, event, year, ANNUAL, LIMITED};

/// Seller 0's amounts, a statement each; all records are accepted.
fn amounts(product: u64, records: &[Numbers]) -> Vec<Amounts> {
    let mut amounts = Vec::new();
    take_each(&year(product, records), |taken, statement| {
        assert_eq!(taken.number, 0);
        if !statement.is_empty() {
            let seller = statement::decode(statement).1.sellers[0];
            amounts.push(seller.expect("seller 0"));
        }
    });
    amounts
}

/// Seller 0's compliance at each close, with an event of June that comes with z months closed.
fn compliance(product: u64, z: u64) -> Vec<i64> {
    let records = [closes(1..=z), vec![event(1, 600)], closes(z + 1..=15)].concat();
    let amounts = amounts(product, &records);
    amounts.iter().map(|amounts| amounts.compliance).collect()
}

#[test]
fn the_whole_to_date_at_the_next_close_that_is_due() {
    // A Limited one's is due from close 5 on: 2,050,000 × 273 / 1,000 = 559,650 at close 9, and
    // 2,050,000 × 304 / 1,000 = 623,200 at close 10.
    let at_9 = compliance(LIMITED, 8);
    assert_eq!(at_9[..8], [0; 8]);
    assert_eq!(at_9[8..10], [559_650, 623_200 - 559_650]);
    // An Annual one's from close 13 on: 2,050,000 × 365 / 1,000 = 748,250.
    let whole = 748_250;
    assert_eq!(compliance(ANNUAL, 8)[11..], [0, whole, 0, 0]);
    assert_eq!(compliance(ANNUAL, 13)[11..], [0, 0, whole, 0]);
    for product in [LIMITED, ANNUAL] {
        let at_15 = compliance(product, 14);
        assert_eq!(at_15[..14], [0; 14]);
        assert_eq!(at_15[14], whole);
    }
}

#[test]
fn a_tests_charge_is_given_back() {
    let test = vec![5, 1, LIMITED, 1, 0, 1, 0, 600];
    let records = [
        vec![test],
        closes(1..=9),
        vec![event(1, 600)],
        closes(10..=10),
    ]
    .concat();
    let text = bill_file(&year(LIMITED, &records));
    // Until close 9 410 × 12,000 × 273 / 1,000 = 1,343,160, and in place of it at close 10
    // 2,050,000 × 304 / 1,000 = 623,200. LSE 0 has 467,400 for 1,007,370, LSE 1 155,800 for 335,790.
    let text_of_10 = "M 10\nS 0 623200 -1343160 0\nL 0 -539970\nL 1 -179990\n";
    assert!(text.ends_with(text_of_10.as_bytes()));
}

#[test]
fn two_events_repriced_by_a_third() {
    let june = event(1, 600);
    let with_third = |reduction| {
        let third = event(1, reduction);
        let records = [
            vec![june.clone(); 2],
            closes(1..=7),
            vec![third],
            closes(8..=8),
        ];
        amounts(LIMITED, &records.concat())[7].compliance
    };
    // Until close 7 2 × 2,050,000 × 214 / 1,000 = 877,400. Then 410 × 10,000 / 3 = 1,366,666 a day, and
    // 1,366,666 × 245 / 1,000 = 334,833 for each of two events or, if the third fails too, of three.
    assert_eq!(with_third(1_000), 2 * 334_833 - 877_400);
    assert_eq!(with_third(600), 3 * 334_833 - 877_400);
}
