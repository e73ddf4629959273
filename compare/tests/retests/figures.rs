//! What is owed after a retest, by hand.

use settlement::cases::record::Numbers;
use settlement::{bill_file, statement, take_each};

use crate::year::{
    answers, close, closes, event, in_month, retest, test, three, year, KW, MORE_KW, RESULTS,
    TWO_FAIL,
};

/// Seller 0's test amounts, a statement each; all records are accepted.
fn amounts(committed: [u64; 3], records: &[Numbers]) -> Vec<i64> {
    let mut amounts = Vec::new();
    take_each(&year(&three(committed), records), |taken, statement| {
        assert_eq!(taken.number, 0);
        if !statement.is_empty() {
            let seller = statement::decode(statement).1.sellers[0];
            amounts.push(seller.expect("seller 0").test);
        }
    });
    amounts
}

#[test]
fn a_retest_replaces_the_first_result() {
    // 4,001 − (400 + 2,100 + 1,001) = 500 kW short, 513 converted. At 10,000 + 2,000 for 30 days,
    // 513 × 12,000 × 30 / 1,000 = 184,680.
    assert_eq!(amounts(KW, &[test(RESULTS), close(1)]), [184_680]);
    let with = |result| amounts(KW, &[test(RESULTS), retest(&[[0, result]]), close(1)]);
    // 4,001 − (900 + 2,100 + 1,001) = 0.
    assert_eq!(with(900), [0]);
    // 4,001 − (0 + 2,100 + 1,001) = 900, 923.4 converted: 923 × 12,000 × 30 / 1,000 = 332,280.
    assert_eq!(with(0), [332_280]);
    assert_eq!(with(400), [184_680], "the same again");
}

#[test]
fn from_the_next_close_on() {
    let bill = |result| {
        let records = [test(RESULTS), close(1), retest(&[[0, result]]), close(2)];
        String::from_utf8(bill_file(&year(&three(KW), &records))).expect("text")
    };
    // LSE 0 gets 184,680 × 3,000 / 4,000 = 138,510.
    let close_1 = "M 1\nS 0 0 184680 0\nL 0 138510\nL 1 46170\n";
    let paid_back = "M 2\nS 0 0 -184680 0\nL 0 -138510\nL 1 -46170\n";
    assert_eq!(bill(900), [close_1, paid_back].concat());
    // 923 × 12,000 × 61 / 1,000 = 675,636 to date, to the LSEs 506,727 and 168,909. Less what close 1
    // has: 490,956, 368,217 and 122,739.
    let raised = "M 2\nS 0 0 490956 0\nL 0 368217\nL 1 122739\n";
    assert_eq!(bill(0), [close_1, raised].concat());
}

#[test]
fn long_after_the_test() {
    let all_met = retest(&[[0, 900]]);
    // In August, after two closes: 513 × 12,000 × 61 / 1,000 = 375,516 so far.
    let august = in_month(3, all_met.clone());
    let records = [
        test(RESULTS),
        close(1),
        close(2),
        august,
        close(3),
        close(4),
    ];
    let expected = [184_680, 375_516 - 184_680, -375_516, 0];
    assert_eq!(amounts(KW, &records), expected);
    // Before the last close: 513 × 12,000 × 365 / 1,000 = 2,246,940 so far.
    let records = [vec![test(RESULTS)], closes(14), vec![all_met, close(15)]].concat();
    let amounts = amounts(KW, &records);
    assert_eq!(amounts[..14].iter().sum::<i64>(), 2_246_940);
    assert_eq!(amounts[14], -2_246_940);
}

#[test]
fn deficits_as_before() {
    let with_deficit = vec![5, 1, 0, 1, 1, 3, 0, 100, 0, 400, 1, 2_100, 2, 1_001];
    // (513 − 100) × 12,000 × 30 / 1,000 = 148,680.
    assert_eq!(amounts(KW, &[with_deficit.clone(), close(1)]), [148_680]);
    // (923 − 100) × 12,000 × 30 / 1,000 = 296,280.
    let records = [with_deficit, retest(&[[0, 0]]), close(1)];
    assert_eq!(amounts(KW, &records), [296_280]);
}

#[test]
fn two_failed_entries() {
    // 600 + 300 = 900 short: 923 × 12,000 × 30 / 1,000 = 332,280.
    assert_eq!(amounts(MORE_KW, &[test(TWO_FAIL), close(1)]), [332_280]);
    let with = |a, b| {
        let retest = retest(&[[0, a], [2, b]]);
        amounts(MORE_KW, &[test(TWO_FAIL), retest, close(1)])
    };
    // 100 + 100 = 200 short, 205.2 converted: 205 × 12,000 × 30 / 1,000 = 73,800.
    assert_eq!(with(900, 700), [73_800]);
    // 300 short less 200 over, 102.6 converted: 102 × 12,000 × 30 / 1,000 = 36,720.
    assert_eq!(with(1_200, 500), [36_720]);
}

#[test]
fn an_event_that_lists_a_retested_registration() {
    let both = retest(&[[0, 900], [2, 700]]);
    let event = event(0, 1_000);
    // Registration 0 falls away: 9,800 − (9,000 + 700) = 100 short, 102 converted, and
    // 102 × 12,000 × 61 / 1,000 = 74,664.
    let records = [
        test(TWO_FAIL),
        both.clone(),
        close(1),
        event.clone(),
        close(2),
    ];
    assert_eq!(amounts(MORE_KW, &records), [73_800, 74_664 - 73_800]);
    // Before the retest, which still lists it: 800 − 500 = 300 short, 307.8 converted, and
    // 307 × 12,000 × 30 / 1,000 = 110,520.
    let records = [
        test(TWO_FAIL),
        event.clone(),
        close(1),
        both.clone(),
        close(2),
    ];
    assert_eq!(amounts(MORE_KW, &records), [110_520, 74_664 - 110_520]);
    let records = [test(TWO_FAIL), event, retest(&[[2, 700]]), both];
    assert_eq!(answers(&three(MORE_KW), &records), [21, 0]);
}
