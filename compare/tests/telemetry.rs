//! Reductions from telemetry: figures by hand, every number of eighths, and records made from samples.

use std::collections::BTreeMap;

use settlement::cases::plan::{full_year, year};
use settlement::cases::random::Random;
use settlement::cases::record::{entries, entries_mut, file, Numbers};
use settlement::cases::samples::{eighths, sample_of, samples};
use settlement::layout::MOST_BYTES;
use settlement::telemetry::{reduction, Reduction, Sample};
use settlement::{bill_file, lines};

const SEEDS: u64 = 300;

/// The first number of eighths that does not count, and the first of more than 100,000 kW.
const LIMIT: u64 = 8 * 131_072;
const ABOVE: u64 = 8 * 100_001;

fn direct(value: f32) -> (u64, u64) {
    let Reduction { number, kw } = reduction(Sample::Direct(value));
    (number, kw)
}

fn pair(expected: f32, metered: f32) -> (u64, u64) {
    let Reduction { number, kw } = reduction(Sample::Pair { expected, metered });
    (number, kw)
}

#[test]
fn values_that_count() {
    assert_eq!(direct(0.0), (0, 0));
    assert_eq!(direct(-0.0), (0, 0), "minus zero is zero");
    assert_eq!(direct(0.125), (0, 0), "one eighth, dropped");
    assert_eq!(direct(0.875), (0, 0), "seven eighths, dropped");
    assert_eq!(direct(1.0), (0, 1));
    assert_eq!(direct(8.75), (0, 8));
    assert_eq!(direct(100_000.0), (0, 100_000));
}

#[test]
fn values_that_do_not_count() {
    assert_eq!(direct(0.0625), (18, 0), "half an eighth");
    assert_eq!(direct(1.187_5), (18, 0), "an eighth and a half");
    assert_eq!(direct(131_072.0), (18, 0), "not below 131,072");
    assert_eq!(direct(f32::MAX), (18, 0));
    for kw in [0.125, 1.0, 100_000.0, 131_072.0] {
        assert_eq!(direct(-kw), (18, 0), "eighths below 0");
    }
    for bits in [0x0000_0001, 0x007F_FFFF] {
        let subnormal = f32::from_bits(bits);
        assert_eq!(direct(subnormal), (18, 0), "less than an eighth");
        assert_eq!(direct(-subnormal), (18, 0), "not minus zero");
    }
    assert_eq!(direct(f32::INFINITY), (18, 0));
    assert_eq!(direct(f32::NEG_INFINITY), (18, 0));
    // Quiet and signalling, with either sign.
    for bits in [0x7FC0_0000, 0x7FFF_FFFF, 0x7F80_0001, 0x7FBF_FFFF] {
        assert_eq!(direct(f32::from_bits(bits)), (18, 0), "{bits:08x}");
        assert_eq!(
            direct(f32::from_bits(bits | 1 << 31)),
            (18, 0),
            "{bits:08x}"
        );
    }
}

#[test]
fn more_than_100_000_kw() {
    assert_eq!(
        direct(100_000.875),
        (0, 100_000),
        "dropped before it is asked"
    );
    assert_eq!(direct(100_001.0), (19, 0));
    assert_eq!(direct(131_071.875), (19, 0), "the last that counts");
    assert_eq!(direct(131_071.875_f32.next_up()), (18, 0), "18 is first");
}

#[test]
fn expected_less_metered() {
    // 9.5 − 0.75 = 8.75: the difference loses its eighths, not each load, which would give 9.
    assert_eq!(pair(9.5, 0.75), (0, 8));
    assert_eq!(pair(9.5, 9.5), (0, 0));
    assert_eq!(pair(0.75, 9.5), (0, 0), "metered is larger");
    assert_eq!(pair(9.5, 10.625), (0, 0), "by more than 1");
    assert_eq!(pair(0.0, 131_071.875), (0, 0));
    for zero in [0.0, -0.0] {
        assert_eq!(pair(zero, 0.0), (0, 0));
        assert_eq!(pair(zero, -0.0), (0, 0));
        assert_eq!(pair(zero, 9.5), (0, 0));
        assert_eq!(pair(9.5, zero), (0, 9));
    }
}

#[test]
fn both_loads_must_count() {
    assert_eq!(pair(9.5, 0.0625), (18, 0));
    assert_eq!(pair(0.0625, 9.5), (18, 0), "though metered is larger");
    assert_eq!(pair(0.75, 9.562_5), (18, 0), "though it is larger");
    assert_eq!(pair(0.75, 131_072.0), (18, 0), "though it is larger");
    assert_eq!(pair(0.75, f32::INFINITY), (18, 0));
    assert_eq!(pair(f32::NAN, 0.75), (18, 0));
    assert_eq!(pair(9.5, -1.0), (18, 0));
    assert_eq!(
        pair(131_072.0, 131_072.0),
        (18, 0),
        "though they differ by 0"
    );
    assert_eq!(pair(131_072.0, 0.0), (18, 0), "18 comes before 19");
}

#[test]
fn the_difference_alone_may_be_too_much() {
    // 131,071.875 − 31,071 = 100,000.875.
    assert_eq!(pair(131_071.875, 31_071.0), (0, 100_000));
    // 131,071.875 − 31,070.875 = 100,001.
    assert_eq!(pair(131_071.875, 31_070.875), (19, 0));
    assert_eq!(pair(131_071.875, 131_071.875), (0, 0), "each above 100,000");
    assert_eq!(pair(0.0, 131_071.875), (0, 0), "metered above 100,000");
    assert_eq!(pair(131_071.875, 0.0), (19, 0));
}

#[test]
fn every_number_of_eighths_counts_and_no_neighbour() {
    for count in 0..LIMIT {
        let value = eighths(count);
        let answer = match count {
            ..ABOVE => (0, count / 8),
            ABOVE.. => (19, 0),
        };
        assert_eq!(direct(value), answer, "{value}");
        assert_eq!(pair(value, 0.0), answer, "{value}");
        assert_eq!(direct(value.next_up()), (18, 0), "{value}");
        assert_eq!(direct(value.next_down()), (18, 0), "{value}");
    }
}

#[test]
fn generated_samples_get_every_number() {
    let mut direct = BTreeMap::<u64, usize>::new();
    let mut pairs = BTreeMap::<u64, usize>::new();
    for sample in (0..SEEDS).flat_map(samples) {
        let Reduction { number, kw } = reduction(sample);
        assert_eq!(
            lines::telemetry(&sample.to_string()),
            format!("{number} {kw}\n")
        );
        let numbers = match sample {
            Sample::Direct(_) => &mut direct,
            Sample::Pair { .. } => &mut pairs,
        };
        *numbers.entry(number).or_default() += 1;
    }
    eprintln!("direct {direct:?}\npairs {pairs:?}");
    for numbers in [direct, pairs] {
        assert!(numbers.keys().eq(&[0, 18, 19]));
        assert!(numbers.values().all(|count| *count > 10_000));
    }
}

#[test]
fn differences_are_exact_in_binary32() {
    for sample in (0..SEEDS).flat_map(samples) {
        let answer = reduction(sample);
        let (Sample::Pair { expected, metered }, 0 | 19) = (sample, answer.number) else {
            continue;
        };
        let difference = expected - metered;
        let exact = f64::from(expected) - f64::from(metered);
        assert_eq!(f64::from(difference), exact, "{sample}");
        // So the document's sentences may also be followed in binary32.
        let kw = difference.max(0.0).trunc();
        match answer.number {
            0 => assert_eq!(eighths(8 * answer.kw), kw, "{sample}"),
            _ => assert!(kw > 100_000.0, "{sample}"),
        }
    }
}

fn write(numbers: &[u64]) -> Vec<u8> {
    let mut buffer = [0; MOST_BYTES];
    let written = settlement::write(numbers, &mut buffer);
    assert_eq!(written.number, 0, "{numbers:?}");
    buffer[..written.used].to_vec()
}

#[test]
fn year_a_by_samples() {
    // 1,400.5 − 800.25 = 600.25, and a switch tells 2,100.875.
    let [(0, first), (0, second)] = [pair(1_400.5, 800.25), direct(2_100.875)] else {
        panic!("both count");
    };
    let test = [5, 1, 0, 1, 0, 2, 0, first, 1, second];
    assert_eq!(test, [5, 1, 0, 1, 0, 2, 0, 600, 1, 2_100]);
    let bytes = [0x52, 0x08, 0x01, 0x00, 0x02, 0x58, 0x04, 0x10, 0x68];
    assert_eq!(write(&test), bytes);

    let event = [4, 1, 1, 1, 0, 2, 0, first, 1, second];
    assert_eq!(write(&event), write(&[4, 1, 1, 1, 0, 2, 0, 600, 1, 2_100]));
    let apart = [8, 1, 1, 0, 1, 0, first, second];
    assert_eq!(write(&apart), write(&[8, 1, 1, 0, 1, 0, 600, 2_100]));
}

/// The record with each reduction made from a sample, one that is answered with its kW.
fn by_samples(random: &mut Random, numbers: &[u64]) -> Numbers {
    let mut made = numbers.to_vec();
    for kw in entries_mut(&mut made).flat_map(|entry| &mut entry[1..]) {
        let answer = reduction(sample_of(random, *kw));
        assert_eq!(answer.number, 0);
        *kw = answer.kw;
    }
    made
}

#[test]
fn generated_years_by_samples() {
    let [mut single, mut apart] = [0; 2];
    for seed in 0..SEEDS {
        let random = &mut Random::new(seed);
        for typed in [year(random), full_year(random, 50)] {
            let made = typed.iter().map(|numbers| by_samples(random, numbers));
            let made: Vec<Numbers> = made.collect();
            assert_eq!(made, typed);
            let written: Vec<u8> = made.iter().flat_map(|numbers| write(numbers)).collect();
            assert_eq!(written, file(&typed));
            assert_eq!(bill_file(&written), bill_file(&file(&typed)));
            for entry in typed.iter().flat_map(|numbers| entries(numbers)) {
                match entry {
                    [_, _] => single += 1,
                    _ => apart += 1,
                }
            }
        }
    }
    eprintln!("{single} entries of one reduction, {apart} of two");
    assert!(single > 100_000 && apart > 100_000);
}
