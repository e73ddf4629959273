//! These events in generated cases: what they owe at every close, how often each wrong answer owes
//! something else, what comes up, and years that differ in them alone.

use std::collections::{BTreeMap, BTreeSet};

use settlement::cases::record::{deficits, encode, entries, entries_mut, listed, Numbers};
use settlement::cases::{damaged_file, full_file, plausible_file};
use settlement::{statement, take_each, Book};

use crate::common::each_record;
use crate::model::{Accepted, Answer, Daily, WRONG};
use crate::year::LIMITED;

const SEEDS: u64 = 600;

/// As many files of a form are compared at every close, which takes its time.
const FILES: u64 = 200;

/// A book beside the records that it accepted, and the sums of its statements.
#[derive(Default)]
struct Course {
    book: Book,
    accepted: Accepted,
    sums: BTreeMap<u64, [i64; 2]>,
    closed: u64,
}

impl Course {
    fn take(&mut self, numbers: &[u64]) {
        let mut buffer = [0; statement::MOST_BYTES];
        let taken = self.book.take(&encode(numbers), &mut buffer);
        if taken.number == 0 {
            self.accepted.add(numbers);
        }
        if taken.written > 0 {
            self.closed += 1;
            let owed = statement::decode(&buffer[..taken.written]).1;
            for (seller, amounts) in (0..).zip(owed.sellers) {
                if let Some(amounts) = amounts {
                    let [compliance, credit] = self.sums.entry(seller).or_default();
                    *compliance += amounts.compliance;
                    *credit += amounts.credit;
                }
            }
            assert_eq!(self.sums, self.by(Answer::AsDecided));
        }
    }

    /// Each seller's compliance and credit to date by an answer.
    fn by(&self, answer: Answer) -> BTreeMap<u64, [i64; 2]> {
        self.accepted.to_date(self.closed, self.rates(), answer)
    }

    fn rates(&self) -> &[i64] {
        &self.book.year().expect("a year").rates
    }
}

/// A file's course to its end; at every close the sums are what is owed.
fn course(file: &[u8]) -> Course {
    let mut course = Course::default();
    each_record(file, |numbers, _| course.take(numbers));
    course
}

#[test]
fn wrong_answers_owe_something_else() {
    let [plausible, full] = [plausible_file, full_file].map(|file| {
        let mut otherwise = BTreeMap::<Answer, u64>::new();
        for course in (0..FILES).map(|seed| course(&file(seed))) {
            for answer in WRONG {
                let differs = course.by(answer) != course.sums;
                *otherwise.entry(answer).or_default() += u64::from(differs);
            }
        }
        otherwise
    });
    eprintln!("of {FILES} plausible files otherwise {plausible:?}\nof as many full {full:?}");
    assert_eq!([plausible.len(), full.len()], [WRONG.len(); 2]);
    assert!(plausible.values().all(|files| 20 * files > FILES));
    assert!(full.values().all(|files| 2 * files > FILES));
}

/// What is remarkable about an entry.
fn of_entry(daily: &Daily, n: i64) -> [(&'static str, bool); 9] {
    let Daily {
        on_peak, off_peak, ..
    } = *daily;
    [
        (
            "on-peak higher, off-peak above 0",
            on_peak > off_peak && off_peak > 0,
        ),
        (
            "off-peak higher, on-peak above 0",
            off_peak > on_peak && on_peak > 0,
        ),
        ("off-peak alone", off_peak > 0 && on_peak == 0),
        ("n 1", n == 1),
        ("n 2", n == 2),
        ("n 3", n == 3),
        ("n more", n > 3),
        (
            "cut by the cap",
            daily.charge < daily.uncapped && daily.charge > 0,
        ),
        (
            "after the cap",
            daily.charge < daily.uncapped && daily.charge == 0,
        ),
    ]
}

/// What is remarkable about a seller in an event.
fn of_seller(accepted: &Accepted, event: &[u64], own: &[&Daily]) -> [(&'static str, bool); 4] {
    let seller = accepted.seller(own[0].id);
    let is_limited = |daily: &&Daily| accepted.is_limited(daily.id);
    let on_peak = own.iter().any(|daily| daily.on_peak > daily.off_peak);
    let off_peak = own.iter().any(|daily| daily.off_peak > daily.on_peak);
    let has_limited = own.iter().any(is_limited);
    let has_deficit = deficits(event).any(|[whose, _]| *whose == seller);
    [
        ("each higher for a seller", on_peak && off_peak),
        (
            "each for a seller with Limited",
            on_peak && off_peak && has_limited,
        ),
        (
            "Limited beside others",
            has_limited && !own.iter().all(is_limited),
        ),
        (
            "short in both with a deficit",
            has_deficit && own.iter().any(|d| d.on_peak > 0) && own.iter().any(|d| d.off_peak > 0),
        ),
    ]
}

#[test]
fn what_comes_up() {
    let mut counts = BTreeMap::<&str, u64>::new();
    for file in (0..SEEDS).map(plausible_file) {
        let Course { accepted, book, .. } = &course(&file);
        let rates = book.year().expect("a year").rates;
        let n = accepted.n(Answer::AsDecided);
        let dailies = accepted.daily(&rates, Answer::AsDecided);
        for (event, dailies) in accepted.events.iter().zip(&dailies) {
            *counts.entry("events").or_default() += 1;
            if event[0] != 8 {
                continue;
            }
            *counts.entry("apart").or_default() += 1;
            let sellers: BTreeSet<u64> = listed(event).map(|id| accepted.seller(id)).collect();
            let of_sellers = sellers.into_iter().flat_map(|seller| {
                let own = dailies.iter().filter(|d| accepted.seller(d.id) == seller);
                of_seller(accepted, event, &own.collect::<Vec<&Daily>>())
            });
            let of_entries = dailies
                .iter()
                .flat_map(|daily| of_entry(daily, n[&daily.id]));
            for (remark, holds) in of_sellers.chain(of_entries) {
                *counts.entry(remark).or_default() += u64::from(holds);
            }
        }
    }
    eprintln!("{counts:?}");
    assert_eq!(counts.len(), 2 + 9 + 4);
    assert!(3 * counts["apart"] > counts["events"]);
    assert!(counts.values().all(|count| *count > 100));
}

#[test]
fn they_get_each_of_their_numbers() {
    let mut numbers = BTreeMap::<u64, u64>::new();
    for file in (0..SEEDS).map(damaged_file) {
        let mut start = 0;
        take_each(&file, |taken, _| {
            if file[start] >> 4 == 8 {
                *numbers.entry(taken.number).or_default() += 1;
            }
            start += taken.consumed;
        });
    }
    eprintln!("{numbers:?}");
    for number in [0, 3, 4, 5, 6, 10, 11, 12] {
        assert!(numbers[&number] > 20, "{number}");
    }
}

/// The file with each record changed.
fn changed(file: &[u8], change: impl Fn(&[u64]) -> Numbers) -> Vec<u8> {
    let mut records = Vec::new();
    each_record(file, |numbers, _| records.extend(encode(&change(numbers))));
    records
}

/// The numbers of a file's records, and its statements.
fn answers(file: &[u8]) -> (Vec<u64>, Vec<u8>) {
    let mut answers = (Vec::new(), Vec::new());
    take_each(file, |taken, statement| {
        answers.0.push(taken.number);
        answers.1.extend(statement);
    });
    answers
}

/// For such an event one of period 3 by the on-peak reductions alone.
fn by_on_peak(numbers: &[u64]) -> Numbers {
    let [8, area, month, short, count, ..] = *numbers else {
        return numbers.to_vec();
    };
    let mut event = vec![4, area, month, 3, short, count];
    event.extend(deficits(numbers).flatten());
    event.extend(entries(numbers).flat_map(|entry| &entry[..2]));
    event
}

/// With every off-peak reduction at its most.
fn met_off_peak(numbers: &[u64]) -> Numbers {
    let mut numbers = numbers.to_vec();
    if numbers[0] == 8 {
        entries_mut(&mut numbers).for_each(|entry| entry[2] = 100_000);
    }
    numbers
}

#[test]
fn with_nothing_short_off_peak_as_period_3() {
    let mut billed_otherwise = 0;
    for seed in 0..SEEDS {
        let file = plausible_file(seed);
        let (numbers, statements) = answers(&file);
        let by_on_peak = answers(&changed(&file, by_on_peak));
        assert_eq!(by_on_peak.0, numbers);
        assert_eq!(answers(&changed(&file, met_off_peak)), by_on_peak);
        billed_otherwise += u64::from(by_on_peak.1 != statements);
    }
    eprintln!("{billed_otherwise} of {SEEDS} files billed otherwise by on-peak reductions alone");
    assert!(3 * billed_otherwise > SEEDS);
}

/// For an event of period 3 without Limited registrations one with its reductions for both periods.
fn with_equal_figures(numbers: &[u64], limited: &BTreeSet<u64>) -> Numbers {
    let [4, area, month, 3, short, count, ..] = *numbers else {
        return numbers.to_vec();
    };
    if listed(numbers).any(|id| limited.contains(&id)) {
        return numbers.to_vec();
    }
    let mut event = vec![8, area, month, short, count];
    event.extend(deficits(numbers).flatten());
    let twice = |entry: &[u64]| [entry[0], entry[1], entry[1]];
    event.extend(entries(numbers).flat_map(twice));
    event
}

#[test]
fn equal_figures_are_as_period_3() {
    let mut files = 0;
    for file in (0..SEEDS).map(plausible_file) {
        let mut limited = BTreeSet::new();
        each_record(&file, |numbers, _| {
            if let [2, id, _, _, _, LIMITED, ..] = *numbers {
                limited.insert(id);
            }
        });
        let equal = changed(&file, |numbers| with_equal_figures(numbers, &limited));
        assert_eq!(answers(&equal), answers(&file));
        files += u64::from(equal != file);
    }
    eprintln!("{files} of {SEEDS} files had such events");
    assert!(4 * files > SEEDS);
}
