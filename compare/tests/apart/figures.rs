//! What these events owe, by hand. 1 kW converts to 1.026, and until close 13 there are 365 days.

use std::collections::BTreeMap;

use settlement::cases::record::Numbers;
use settlement::owed::Amounts;
use settlement::{bill_file, statement, take_each};

use crate::common::each_record;
use crate::model::{Accepted, Answer};
use crate::year::{
    apart, closes, four, in_month, one, single, year, ANNUAL, EXTENDED_SUMMER, LIMITED,
};

/// Each seller's amounts to date at this month, with these events of June; all records are accepted.
fn to_date(registrations: &[Numbers], events: &[Numbers], month: u64) -> BTreeMap<u64, Amounts> {
    let records = [events, &closes(1..=month)].concat();
    let mut sums = BTreeMap::<u64, Amounts>::new();
    take_each(&year(registrations, &records), |taken, statement| {
        assert_eq!(taken.number, 0);
        if !statement.is_empty() {
            let sellers = statement::decode(statement).1.sellers;
            for (seller, amounts) in (0..).zip(sellers) {
                if let Some(amounts) = amounts {
                    let sum = sums.entry(seller).or_default();
                    sum.compliance += amounts.compliance;
                    sum.test += amounts.test;
                    sum.credit += amounts.credit;
                }
            }
        }
    });
    sums
}

/// Seller 0's compliance to date at close 13.
fn compliance(registrations: &[Numbers], events: &[Numbers]) -> i64 {
    to_date(registrations, events, 13)[&0].compliance
}

/// What an answer makes of compliance and credit to date at close 13.
fn by(answer: Answer, registrations: &[Numbers], events: &[Numbers]) -> BTreeMap<u64, [i64; 2]> {
    let mut accepted = Accepted::default();
    each_record(&year(registrations, events), |numbers, _| {
        accepted.add(numbers)
    });
    let rate = |numbers: &Numbers| i64::try_from(numbers[7]).expect("a rate");
    let rates: Vec<i64> = registrations.iter().map(rate).collect();
    accepted.to_date(13, &rates, answer)
}

/// Seller 0 has a deficit of 100.
fn event() -> Numbers {
    let entries = [
        [0, 600, 1_500],
        [1, 1_600, 1_900],
        [2, 1_000, 0],
        [3, 2_100, 2_400],
    ];
    apart(&[[0, 100]], &entries)
}

#[test]
fn the_higher_of_each_entry() {
    // On-peak seller 0 is 4,000 − 3,200 = 800 short, 820 converted, 720 less the deficit; by 400, 400 and
    // 0 that is 360, 360 and 0. The amounts are 360 × 10,000 / 2 = 1,800,000, 360 × 15,000 / 2 =
    // 2,700,000 and 0.
    // Off-peak, without the Limited one, it is 3,000 − 1,900 = 1,100 short, 1,128 converted, 1,028 less
    // the deficit; by 100 and 1,000 that is 93 and 935. The amounts are 93 × 15,000 / 52 = 26,826 and
    // 935 × 20,000 / 52 = 359,615.
    // So a day costs 1,800,000 and 2,700,000 on-peak, and 359,615 off-peak.
    let records = [vec![event()], closes(1..=13)].concat();
    let text = String::from_utf8(bill_file(&year(&four(), &records))).expect("text");
    // At close 5 the Limited one's is due: 1,800,000 × 153 / 1,000 = 275,400. Seller 1 is 100 over
    // on-peak: 100 × 15,000 / 5 × 153 / 1,000 = 45,900. Of the rest, 229,500, LSE 0 gets three quarters.
    assert!(text.contains("M 5\nS 0 275400 0 0\nS 1 0 0 45900\nL 0 172125\nL 1 57375\n"));
    // At close 12 it is 657,000, the credit 109,500, and the LSEs have 410,625 and 136,875. At close 13
    // 2,700,000 × 365 / 1,000 = 985,500 and 359,615 × 365 / 1,000 = 131,259 are added, 1,116,759
    // together. Of 1,773,759 − 109,500 = 1,664,259 the LSEs have 1,248,194 and 416,065.
    assert!(text.ends_with("M 13\nS 0 1116759 0 0\nS 1 0 0 0\nL 0 837569\nL 1 279190\n"));
    let amounts = to_date(&four(), &[event()], 13);
    let decided = [amounts[&0].compliance, amounts[&1].credit];
    assert_eq!(decided, [657_000 + 985_500 + 131_259, 109_500]);
}

#[test]
fn wrong_answers_give_other_figures() {
    let by = |answer| {
        let amounts = by(answer, &four(), &[event()]);
        assert_eq!([amounts[&0][1], amounts[&1][0]], [0; 2]);
        [amounts[&0][0], amounts[&1][1]]
    };
    assert_eq!(by(Answer::AsDecided), [1_773_759, 109_500]);
    // 2,726,826 × 365 / 1,000 = 995,291.
    let sum = [657_000 + 995_291 + 131_259, 109_500];
    assert_eq!(by(Answer::SumOfBoth), sum);
    // Seller 0's on-peak amounts are more than its off-peak ones.
    let of_seller = [657_000 + 985_500, 109_500];
    assert_eq!(by(Answer::HigherOfSeller), of_seller);
    // 4,000 − 3,400 = 600 short off-peak, 615 − 100 = 515; by 0, 100 and 1,000 that is 0, 46 and 469.
    // 469 × 20,000 / 52 = 180,384, and 180,384 × 365 / 1,000 = 65,840.
    let with_limited = [657_000 + 985_500 + 65_840, 109_500];
    assert_eq!(by(Answer::LimitedInOffPeakSums), with_limited);
    // 1,128 by 100 and 1,000 is 102 and 1,026, and 1,026 × 20,000 / 52 × 365 / 1,000 = 144,034.
    let once = [657_000 + 985_500 + 144_034, 109_500];
    assert_eq!(by(Answer::DeficitOffOnPeakAlone), once);
    // 820 by 400, 400 and 0 is 410, 410 and 0: 2,050,000 and 3,075,000 a day.
    let once = [748_250 + 1_122_375 + 131_259, 109_500];
    assert_eq!(by(Answer::DeficitOffOffPeakAlone), once);
    // 400 × 15,000 / 5 × 365 / 1,000 = 438,000.
    let off_peak = [1_773_759, 438_000];
    assert_eq!(by(Answer::ExcessFromOffPeak), off_peak);
}

#[test]
fn they_count_in_n() {
    let apart = apart(&[], &[[0, 600, 1_000]]);
    let events = [single(1, 600), single(3, 600), apart.clone()];
    // 410 × 10,000 / 3 = 1,366,666, and 1,366,666 × 365 / 1,000 = 498,833 for each of the three.
    assert_eq!(compliance(&one(ANNUAL), &events), 3 * 498_833);
    // By two alone 2,050,000 × 365 / 1,000 = 748,250.
    let wrong = by(Answer::NotInN, &one(ANNUAL), &events)[&0][0];
    assert_eq!(wrong, 3 * 748_250);
    for (count, each) in [(1, 748_250), (2, 748_250), (3, 498_833), (4, 374_125)] {
        let events = vec![apart.clone(); usize::try_from(count).expect("few")];
        assert_eq!(compliance(&one(ANNUAL), &events), count * each);
    }
}

#[test]
fn n_decides_which_is_the_higher() {
    // 10 short on-peak, 10 converted; 195 short off-peak, 200 converted. 10 × 10,000 / 2 = 50,000 is more
    // than 200 × 10,000 / 52 = 38,461, and that is more than 10 × 10,000 / 3 = 33,333.
    let apart = apart(&[], &[[0, 990, 805]]);
    let with = |count| compliance(&one(ANNUAL), &vec![apart.clone(); count]);
    // 50,000 × 365 / 1,000 = 18,250, and 38,461 × 365 / 1,000 = 14,038.
    assert_eq!([1, 2, 3].map(with), [18_250, 2 * 18_250, 3 * 14_038]);
}

#[test]
fn limited_by_the_first_alone() {
    let with = |entry| to_date(&one(LIMITED), &[apart(&[], &[entry])], 5)[&0].compliance;
    assert_eq!(with([0, 1_000, 0]), 0);
    // 10 × 10,000 / 2 × 153 / 1,000 = 7,650, though 1,026 × 10,000 / 52 = 197,307 is more than 50,000.
    assert_eq!(with([0, 990, 0]), 7_650);
    let wrong = by(
        Answer::LimitedByTheHigher,
        &one(LIMITED),
        &[apart(&[], &[[0, 990, 0]])],
    );
    // 197,307 × 365 / 1,000 = 72,017.
    assert_eq!(wrong[&0][0], 72_017);
    // The other products are measured by both.
    for product in [EXTENDED_SUMMER, ANNUAL] {
        let met_on_peak = apart(&[], &[[0, 1_000, 0]]);
        assert_eq!(compliance(&one(product), &[met_on_peak]), 72_017);
    }
}

#[test]
fn limited_neither_helps_nor_harms_off_peak() {
    // Registrations 1 and 2 are 1,100 short off-peak, as above but for the deficit: by 100 and 1,000,
    // 1,128 is 102 and 1,026. On-peak all is met, or more by the Limited one.
    let with = |on_peak, off_peak| {
        let entries = [[0, on_peak, off_peak], [1, 2_000, 1_900], [2, 1_000, 0]];
        compliance(&four(), &[apart(&[], &entries)])
    };
    // 102 × 15,000 / 52 = 29,423 and 1,026 × 20,000 / 52 = 394,615; × 365 / 1,000, 10,739 and 144,034.
    for off_peak in [0, 1_000, 100_000] {
        assert_eq!(with(1_000, off_peak), 10_739 + 144_034);
        assert_eq!(with(1_500, off_peak), 10_739 + 144_034);
    }
    // A Limited one's excess still helps on-peak: 2 is met by it.
    let entries = [[0, 1_500, 0], [1, 2_000, 2_000], [2, 500, 1_000]];
    assert_eq!(compliance(&four(), &[apart(&[], &entries)]), 0);
}

#[test]
fn the_whole_deficit_off_both() {
    // 410 short on-peak and 1,026 off-peak, converted.
    let with = |deficit| compliance(&one(ANNUAL), &[apart(&[[0, deficit]], &[[0, 600, 0]])]);
    // On-peak 1 is left, 5,000 a day; off-peak 617, and 617 × 10,000 / 52 × 365 / 1,000 = 43,308.
    assert_eq!(with(409), 43_308);
    // Nothing on-peak; 526 × 10,000 / 52 = 101,153, and × 365 / 1,000 that is 36,920. What is left of
    // the deficit after 410 would leave 936.
    assert_eq!(with(500), 36_920);
    // 26 × 10,000 / 52 = 5,000.
    assert_eq!(with(1_000), 1_825);
    assert_eq!([1_026, 1_000_000].map(with), [0, 0]);
}

#[test]
fn excess_from_the_first() {
    // Seller 1 is over on-peak and short off-peak: 2,052 × 15,000 / 52 = 591,923, and × 365 / 1,000 that
    // is 216,051; of it, 100 × 15,000 / 5 × 365 / 1,000 = 109,500 comes back to it.
    let amounts = to_date(&four(), &[apart(&[], &[[3, 2_100, 0]])], 13)[&1];
    assert_eq!([amounts.compliance, amounts.credit], [216_051, 109_500]);
    // Over off-peak alone, beside a seller that pays.
    let entries = [[2, 0, 0], [3, 2_000, 2_400]];
    let amounts = to_date(&four(), &[apart(&[], &entries)], 13);
    assert!(amounts[&0].compliance > 0);
    assert_eq!(amounts[&1].credit, 0);
    // A Limited one has excess as any: 200 × 10,000 / 5 × 365 / 1,000 = 146,000.
    let entries = [[0, 1_200, 0], [3, 1_000, 2_000]];
    let amounts = to_date(&four(), &[apart(&[], &entries)], 13);
    assert_eq!([amounts[&0].compliance, amounts[&0].credit], [0, 146_000]);
    // 1,026 × 15,000 / 2 × 365 / 1,000 = 2,808,675.
    assert_eq!(amounts[&1].compliance, 2_808_675);
}

#[test]
fn the_cap_cuts_the_higher() {
    // 1,026 × 10,000 / 52 = 197,307 and 1,026 × 10,000 / 2 = 5,130,000 leave 4,932,693 of 10,260,000.
    let nothing = apart(&[], &[[0, 0, 0]]);
    let events = [single(2, 0), nothing.clone(), nothing];
    let amounts = [72_017, 1_872_450, 1_800_432];
    assert_eq!(compliance(&one(ANNUAL), &events), amounts.iter().sum());
    // With n = 12, four times 197,307 and eleven times 855,000 leave 65,772 of an off-peak amount.
    let met_on_peak = apart(&[], &[[0, 1_000, 0]]);
    let events = [
        vec![single(2, 0); 4],
        vec![single(1, 0); 11],
        vec![met_on_peak],
    ];
    let amounts = 4 * 72_017 + 11 * 312_075 + 24_006;
    assert_eq!(compliance(&one(ANNUAL), &events.concat()), amounts);
}

#[test]
fn equal_figures_are_as_period_3() {
    for reduction in [0, 600, 1_000, 1_200] {
        let apart = apart(&[], &[[0, reduction, reduction]]);
        let bill = |event: Numbers| {
            let records = [vec![event], closes(1..=15)].concat();
            bill_file(&year(&one(ANNUAL), &records))
        };
        assert_eq!(bill(apart), bill(single(3, reduction)));
    }
}

#[test]
fn late_and_after_a_test() {
    let event = apart(&[], &[[0, 600, 0]]);
    let test = vec![5, 1, LIMITED, 1, 0, 1, 0, 600];
    let records = [
        vec![test],
        closes(1..=8),
        vec![event.clone()],
        closes(9..=9),
    ];
    let text = bill_file(&year(&one(LIMITED), &records.concat()));
    // Until close 8 410 × 12,000 × 245 / 1,000 = 1,205,400, and in place of it at close 9
    // 2,050,000 × 273 / 1,000 = 559,650. LSE 0 has 419,737 for 904,050, LSE 1 139,913 for 301,350.
    let text_of_9 = "M 9\nS 0 559650 -1205400 0\nL 0 -484313\nL 1 -161437\n";
    assert!(text.ends_with(text_of_9.as_bytes()));
    // Of August an Annual one's is due from close 13 on, and of May from close 15 on.
    let due = |month| {
        let records = [
            closes(1..=11),
            vec![in_month(month, event.clone())],
            closes(12..=15),
        ];
        let mut first = 0;
        take_each(&year(&one(ANNUAL), &records.concat()), |_, statement| {
            if !statement.is_empty() {
                let (month, owed) = statement::decode(statement);
                let compliance = owed.sellers[0].expect("seller 0").compliance;
                first = if first == 0 && compliance != 0 {
                    month
                } else {
                    first
                };
            }
        });
        first
    };
    assert_eq!([3, 10, 11, 12].map(due), [13, 13, 14, 15]);
}
