//! Reductions from telemetry: what a gateway delivers in binary32 kilowatts, and the kW of an entry.

use crate::exact::whole;
use crate::fields::REDUCTION;

/// The kilowatts that a value must stay below to count.
const LIMIT: f64 = 131_072.0;

/// What a gateway delivers for an entry.
#[derive(Clone, Copy, Debug)]
pub enum Sample {
    /// Expected load and metered load.
    Pair { expected: f32, metered: f32 },
    /// A reduction from a control switch.
    Direct(f32),
}

/// The answer to a sample: 0 and the kW for an entry, or a refusal's number and no kW.
#[derive(Clone, Copy, Debug, PartialEq, Eq)]
pub struct Reduction {
    pub number: u64,
    pub kw: u64,
}

pub fn reduction(sample: Sample) -> Reduction {
    match kw(sample) {
        Ok(kw) => Reduction { number: 0, kw },
        Err(number) => Reduction { number, kw: 0 },
    }
}

fn kw(sample: Sample) -> Result<u64, u64> {
    let reduced = match sample {
        // Both must count, also where metered is larger and the reduction 0.
        Sample::Pair { expected, metered } => {
            let [expected, metered] = [eighths(expected)?, eighths(metered)?];
            expected.saturating_sub(metered)
        }
        Sample::Direct(reduction) => eighths(reduction)?,
    };
    let kw = reduced / 8;
    if REDUCTION.permits(kw) {
        Ok(kw)
    } else {
        Err(19)
    }
}

/// A value as a number of eighths, if it counts.
fn eighths(value: f32) -> Result<u64, u64> {
    // Eight times any binary32 is exact in binary64. NaN lies in no range, and minus zero is zero.
    let eighths = 8.0 * f64::from(value);
    if (0.0..8.0 * LIMIT).contains(&eighths) && eighths.fract() == 0.0 {
        Ok(whole(eighths))
    } else {
        Err(18)
    }
}
