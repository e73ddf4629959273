//! Samples of telemetry, and the entries made from them.

use settlement::cases::random::Random;
use settlement::cases::record::{entries_mut, layout};
use settlement::cases::samples::{sample_of, samples};
use settlement::layout::MOST_NUMBERS;

use crate::both::{Both, Compared};
use crate::variants::records_of;

/// Answers the samples of a seed.
pub fn compare_samples(both: &mut Both, seed: u64) -> Compared {
    for sample in samples(seed) {
        both.sample(sample)?;
    }
    Ok(())
}

/// Makes the reductions of a file's events, tests and retests anew, each from a sample that gives the
/// same kW, and writes these records.
pub fn compare_made(both: &mut Both, file: &[u8], seed: u64) -> Compared {
    let mut random = Random::new(seed);
    for (start, length) in records_of(file) {
        let record = &file[start..start + length];
        let Some(mut numbers) = both.read(record, MOST_NUMBERS)? else {
            continue;
        };
        for entry in entries_mut(&mut numbers) {
            for kw in &mut entry[1..] {
                *kw = both.sample(sample_of(&mut random, *kw))?.kw;
            }
        }
        if layout(&numbers).head.has_entries() {
            both.write_made(&numbers, record)?;
        }
    }
    Ok(())
}
