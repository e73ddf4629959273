//! Samples of telemetry from chance: values of every sort, and samples of a given reduction.

use super::random::Random;
use crate::exact::{narrow, widen};
use crate::telemetry::Sample;

/// The eighths of 131,072 kW, which no value that counts has, and of 100,000 kW.
const LIMIT: u64 = 8 * 131_072;
const MOST: u64 = 8 * 100_000;

/// Values about the edges of what counts, and those of the format. Each is used with either sign.
const EDGES: [f32; 27] = [
    0.0,
    0.0625,
    0.125,
    0.875,
    1.0,
    99_999.875,
    100_000.0,
    100_000.875,
    100_001.0,
    131_071.0,
    131_071.875,
    131_072.0,
    131_072.5,
    // 2^20, 2^24, 2^31, 2^32, 2^63 and 2^64, past which some integer or other ends.
    1_048_576.0,
    16_777_216.0,
    2_147_483_648.0,
    4_294_967_296.0,
    9_223_372_036_854_775_808.0,
    18_446_744_073_709_551_616.0,
    f32::MAX,
    f32::INFINITY,
    f32::MIN_POSITIVE,
    // The last below 131,072, the largest and the smallest subnormal, a quiet and a signalling NaN.
    f32::from_bits(0x47FF_FFFF),
    f32::from_bits(0x007F_FFFF),
    f32::from_bits(0x0000_0001),
    f32::from_bits(0x7FC0_0000),
    f32::from_bits(0x7F80_0001),
];

/// Some thousands of samples: every edge alone and on either side of a pair, then any.
pub fn samples(seed: u64) -> Vec<Sample> {
    let random = &mut Random::new(seed);
    let mut samples = Vec::new();
    for edge in EDGES.into_iter().flat_map(|edge| [edge, -edge]) {
        samples.push(Sample::Direct(edge));
        samples.push(pair(edge, value(random)));
        samples.push(pair(value(random), edge));
    }
    samples.extend((0..3_000).map(|_| sample(random)));
    samples
}

fn pair(expected: f32, metered: f32) -> Sample {
    Sample::Pair { expected, metered }
}

fn sample(random: &mut Random) -> Sample {
    match random.below(6) {
        0 | 1 => Sample::Direct(value(random)),
        2 | 3 => pair(value(random), value(random)),
        4 => {
            let load = value(random);
            let beside = beside(random, load);
            pair(load, random.pick(&[load, -load, beside]))
        }
        // About 100,000 kW apart, in some with expected about 131,072.
        _ => {
            let [any, high] = [below(random, LIMIT - MOST), about(random, LIMIT - MOST)];
            let metered = random.pick(&[any, any, high]);
            pair(eighths(metered + about(random, MOST)), eighths(metered))
        }
    }
}

/// A value of any sort.
fn value(random: &mut Random) -> f32 {
    match random.below(10) {
        0 => f32::from_bits(random.bits()),
        1 => random.pick(&EDGES),
        2 => -random.pick(&EDGES),
        3 => subnormal_or_not_finite(random),
        4 => eighths(about(random, MOST)),
        5 => eighths(about(random, LIMIT)),
        6 => {
            let value = counting(random);
            beside(random, value)
        }
        _ => counting(random),
    }
}

/// A value that counts, in any magnitude.
fn counting(random: &mut Random) -> f32 {
    let limit = random.pick(&[8, 800, 80_000, LIMIT]);
    eighths(below(random, limit))
}

/// A neighbour in the last bit, or one with any bit flipped.
fn beside(random: &mut Random, value: f32) -> f32 {
    let bits = value.to_bits();
    let flipped = bits ^ 1 << random.below(32);
    f32::from_bits(random.pick(&[bits.wrapping_sub(1), bits.wrapping_add(1), flipped]))
}

/// With no bit or every bit of the exponent set.
fn subnormal_or_not_finite(random: &mut Random) -> f32 {
    let bits = random.bits();
    f32::from_bits(random.pick(&[bits & 0x807F_FFFF, bits | 0x7F80_0000]))
}

/// A number of eighths at most two kW from this one.
fn about(random: &mut Random, count: u64) -> u64 {
    count - 16 + below(random, 33)
}

fn below(random: &mut Random, limit: u64) -> u64 {
    widen(random.below(narrow(limit)))
}

/// So many eighths, below 2^24, which binary32 holds.
pub fn eighths(count: u64) -> f32 {
    let half = |bits: u64| f32::from(narrow::<u16>(bits));
    (65_536.0 * half(count >> 16) + half(count & 0xFFFF)) / 8.0
}

/// A sample that is answered with this kW, at most 100,000.
pub fn sample_of(random: &mut Random, kw: u64) -> Sample {
    let reduced = 8 * kw + below(random, 8);
    match random.below(3) {
        0 => Sample::Direct(eighths(reduced)),
        1 if kw == 0 => {
            let loads = [counting(random), counting(random)];
            let more_metered = pair(loads[0].min(loads[1]), loads[0].max(loads[1]));
            random.pick(&[more_metered, Sample::Direct(-0.0)])
        }
        _ => {
            let metered = below(random, LIMIT - reduced);
            pair(eighths(metered + reduced), eighths(metered))
        }
    }
}
