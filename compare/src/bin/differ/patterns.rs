//! Every pattern of 32 bits as the value of a sample, through both, on all cores.

use std::num::NonZero;
use std::thread;

use settlement::telemetry::Sample;

use crate::both::{reduction, Compared};

/// The other load of each pair: with it some differences are above 100,000 kW, and some below 0.
const BESIDE: f32 = 31_000.125;

/// The patterns that count: of so many numbers of eighths, and of minus zero.
const COUNTING: u64 = 8 * 131_072 + 1;

/// The blocks of patterns that the cores share out, and the patterns in each.
const BLOCKS: u32 = 1 << 8;
const IN_BLOCK: u32 = 1 << 24;

/// How many patterns counted as a direct reduction, as expected and as metered load.
type Counted = [u64; 3];

/// Answers three samples of each pattern; gives what is to be printed.
pub fn compare_patterns() -> Compared<String> {
    let cores = thread::available_parallelism().map_or(1, NonZero::get);
    let counted = thread::scope(|scope| {
        let spawn = |first| scope.spawn(move || sweep((first..BLOCKS).step_by(cores)));
        let sweeps: Vec<_> = (0..).take(cores).map(spawn).collect();
        let mut counted = Counted::default();
        for sweep in sweeps {
            add(&mut counted, sweep.join().expect("a sweep ends")?);
        }
        Compared::Ok(counted)
    })?;
    match counted {
        [COUNTING, COUNTING, COUNTING] => Ok(format!(
            "every pattern as a direct reduction, and as expected and as metered load beside {BESIDE}: \
             no difference\n{COUNTING} patterns counted"
        )),
        _ => Err(format!("{counted:?} patterns counted, and not {COUNTING}")),
    }
}

fn sweep(blocks: impl Iterator<Item = u32>) -> Compared<Counted> {
    let mut counted = Counted::default();
    for block in blocks {
        for rest in 0..IN_BLOCK {
            add(&mut counted, compare_pattern(block * IN_BLOCK + rest)?);
        }
    }
    Ok(counted)
}

fn compare_pattern(pattern: u32) -> Compared<Counted> {
    let value = f32::from_bits(pattern);
    let pair = |expected, metered| Sample::Pair { expected, metered };
    let samples = [
        Sample::Direct(value),
        pair(value, BESIDE),
        pair(BESIDE, value),
    ];
    let mut counted = Counted::default();
    for (counted, sample) in counted.iter_mut().zip(samples) {
        *counted = u64::from(reduction(sample)?.number != 18);
    }
    Ok(counted)
}

fn add(sums: &mut Counted, counted: Counted) {
    for (sum, counted) in sums.iter_mut().zip(counted) {
        *sum += counted;
    }
}
