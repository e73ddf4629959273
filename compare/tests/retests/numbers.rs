//! The numbers that retests get: 6, 8, 10, 11, 20 and 21, each with its cases.

use settlement::bill_file;
use settlement::cases::record::{encode, file, Numbers};

use crate::year::{
    answers, close, closes, event, in_month, registration, retest, test, three, KW, MORE_KW,
    RESULTS, TWO_FAIL,
};

#[test]
fn number_6() {
    let retest = retest(&[[0, 900]]);
    assert_eq!(bill_file(&encode(&retest)), b"N 1 6\n");
    let records = [vec![test(RESULTS)], closes(15), vec![retest]].concat();
    assert_eq!(answers(&three(KW), &records), [6]);
}

#[test]
fn number_8() {
    let answer = |party: Numbers| bill_file(&file(&[vec![1, 0, 1, 1], party, retest(&[[0, 900]])]));
    assert_eq!(answer(registration(0, 0, 1, 0, 1_000)), b"N 3 8\n");
    assert_eq!(answer(vec![3, 0, 3_000]), b"N 3 8\n");
}

#[test]
fn number_10() {
    let others = vec![
        registration(3, 1, 1, 0, 500),
        registration(4, 0, 2, 0, 500),
        registration(5, 0, 1, 2, 500),
    ];
    let registrations = [three(KW), others].concat();
    let test = vec![5, 1, 0, 1, 0, 4, 0, 400, 1, 2_100, 2, 1_001, 3, 500];
    let answer = |retest: Numbers| answers(&registrations, &[test.clone(), retest])[0];
    assert_eq!(answer(retest(&[[0, 900], [3, 500]])), 10, "seller 1's");
    assert_eq!(answer(retest(&[[0, 900], [4, 500]])), 10, "of zone 2");
    assert_eq!(answer(retest(&[[0, 900], [5, 500]])), 10, "Annual");
    assert_eq!(answer(retest(&[[0, 900], [6, 500]])), 10, "unknown");
    assert_eq!(answer(vec![9, 1, 1, 0, 1, 1, 0, 900]), 10, "not seller 1's");
    assert_eq!(answer(vec![9, 0, 2, 0, 1, 1, 0, 900]), 10, "not of zone 2");
    assert_eq!(answer(vec![9, 0, 1, 2, 1, 1, 0, 900]), 10, "not Annual");
    assert_eq!(answer(vec![9, 1, 1, 0, 2, 1, 0, 900]), 10, "before 11");
    assert_eq!(answer(retest(&[[0, 900]])), 0);
}

#[test]
fn number_11() {
    let of = |month| in_month(month, retest(&[[0, 900]]));
    let answer = |records: &[Numbers]| answers(&three(KW), records)[0];
    assert_eq!(answer(&[test(RESULTS), of(2)]), 11, "July is to come");
    assert_eq!(answer(&[test(RESULTS), close(1), of(2)]), 0);
    assert_eq!(answer(&[of(2)]), 11, "before 20");
    let october = [vec![test(RESULTS)], closes(4), vec![of(5)]].concat();
    assert_eq!(answer(&october), 11, "a Limited one");

    let mut test_of_july = test(RESULTS);
    test_of_july[3] = 2;
    let after_july = |month| answer(&[close(1), test_of_july.clone(), of(month)]);
    assert_eq!([1, 2].map(after_july), [11, 0]);
    assert_eq!(answer(&[close(1), of(1)]), 20, "no test to precede");

    let annual = [
        registration(0, 0, 1, 2, 1_000),
        registration(1, 0, 1, 2, 9_000),
    ];
    let answer = |month| {
        let test = vec![5, 1, 2, 1, 0, 2, 0, 400, 1, 9_000];
        let retest = vec![9, 0, 1, 2, month, 1, 0, 900];
        answers(&annual, &[vec![test], closes(11), vec![retest]].concat())[0]
    };
    assert_eq!([4, 5, 6, 11, 12].map(answer), [0, 0, 11, 11, 0]);
}

#[test]
fn number_20() {
    let one = retest(&[[0, 900]]);
    let answer = |records: &[Numbers]| answers(&three(KW), records);
    let no_test = [one.clone(), test(RESULTS), one.clone()];
    assert_eq!(answer(&no_test), [20, 0]);
    let second = [test(RESULTS), one.clone(), one.clone()];
    assert_eq!(answer(&second), [0, 20]);
    let second_of_another = [test(RESULTS), one.clone(), retest(&[[1, 900]])];
    assert_eq!(answer(&second_of_another), [0, 20], "before 21");
    let nothing_failed = [test([1_000, 2_100, 1_001]), one.clone()];
    assert_eq!(answer(&nothing_failed), [20]);
    let two_failed = [test([400, 2_100, 1_000]), retest(&[[0, 900], [2, 900]])];
    assert_eq!(answer(&two_failed), [20], "2,001 of 4,001 kW");

    // Four times 1,000 kW: not below 4,000, but below 4,001.
    let answer = |kw| answers(&three([1_000, 2_000, kw]), &[test(RESULTS), one.clone()])[0];
    assert_eq!([1_000, 1_001].map(answer), [20, 0]);
}

#[test]
fn each_seller_zone_and_product_has_its_retest() {
    // Sellers 0 and 1 in zone 1, Limited; seller 0 also in zone 2 and Annual.
    let places = [(0, 1, 0), (1, 1, 0), (0, 2, 0), (0, 1, 2)];
    let two = |(at, (seller, zone, product)): (u64, (u64, u64, u64))| {
        [(2 * at, 1_000), (2 * at + 1, 9_000)]
            .map(|(id, committed)| registration(id, seller, zone, product, committed))
    };
    let registrations: Vec<Numbers> = (0..).zip(places).flat_map(two).collect();
    let tests = [
        vec![5, 1, 0, 1, 0, 4, 0, 400, 1, 9_000, 2, 400, 3, 9_000],
        vec![5, 2, 0, 1, 0, 2, 4, 400, 5, 9_000],
        vec![5, 1, 2, 1, 0, 2, 6, 400, 7, 9_000],
    ];
    let retests = (0..).zip(places).map(|(at, (seller, zone, product))| {
        let failed: u64 = 2 * at;
        vec![9, seller, zone, product, 1, 1, failed, 900]
    });
    let retests: Vec<Numbers> = retests.collect();
    let records = [tests.to_vec(), retests.clone(), retests].concat();
    let expected = [0, 0, 0, 0, 20, 20, 20, 20];
    assert_eq!(answers(&registrations, &records), expected);
}

#[test]
fn registrations_called_before_the_test() {
    // Seller 1 has none in the test, so nothing was tested.
    let with = |seller| [three(MORE_KW), vec![registration(3, seller, 1, 0, 500)]].concat();
    let after = |retest| [event(3, 0), test(TWO_FAIL), retest];
    let of_seller_1 = vec![9, 1, 1, 0, 1, 1, 3, 500];
    assert_eq!(answers(&with(1), &after(of_seller_1)), [20]);
    // Seller 0 has others in it; this one did not fail.
    let with_called = retest(&[[0, 900], [2, 700], [3, 500]]);
    assert_eq!(answers(&with(0), &after(with_called)), [21]);
}

#[test]
fn number_21() {
    let answer = |entries: &[[u64; 2]]| {
        let records = [test(TWO_FAIL), retest(entries)];
        answers(&three(MORE_KW), &records)[0]
    };
    assert_eq!(answer(&[[0, 900]]), 21, "2 is missing");
    assert_eq!(answer(&[[2, 700]]), 21, "0 is missing");
    assert_eq!(answer(&[[0, 900], [1, 9_000]]), 21, "1 for 2");
    assert_eq!(answer(&[[0, 900], [1, 9_000], [2, 700]]), 21, "1 was met");
    assert_eq!(answer(&[[0, 900], [2, 700]]), 0);
}
