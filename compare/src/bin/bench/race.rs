//! Timing the two sides against each other.
//!
//! A lap calls one side on one input as often as fills about half a millisecond, between two readings
//! of the clock. A round has a lap of each input and side, so that all meet the same machine, and the
//! fastest of the rounds counts: what else runs on the machine only adds time. Ratios within one run
//! are what to look at; the times themselves depend on the machine.

use std::array;
use std::fmt::Debug;
use std::hint::black_box;
use std::iter::Sum;
use std::time::{Duration, Instant};

const LAP: Duration = Duration::from_micros(500);
const ROUNDS: usize = 60;

/// Nanoseconds of each side, in the order in which they race.
#[derive(Clone, Copy)]
pub struct Times {
    pub sides: [f64; 2],
}

impl Times {
    /// Before anything is timed.
    pub fn slowest() -> Self {
        Times {
            sides: [f64::INFINITY; 2],
        }
    }

    /// The second side's time as a multiple of the first's.
    pub fn ratio(self) -> f64 {
        self.sides[1] / self.sides[0]
    }

    /// For each of so many.
    pub fn per(self, count: usize) -> Self {
        Times {
            sides: self.sides.map(|time| each(time, count)),
        }
    }

    pub fn less(self, other: Times) -> Self {
        Times {
            sides: array::from_fn(|side| self.sides[side] - other.sides[side]),
        }
    }
}

impl Sum for Times {
    fn sum<I: Iterator<Item = Times>>(times: I) -> Self {
        let sides = times.fold([0.0; 2], |sums, times| {
            array::from_fn(|side| sums[side] + times.sides[side])
        });
        Times { sides }
    }
}

/// A time for each of so many, which are few enough to count exactly.
fn each(time: f64, count: usize) -> f64 {
    time / f64::from(u32::try_from(count).expect("fewer than 2^32"))
}

/// The time of one call with each side's function, of each input. Every call must give the answer that
/// stands beside its input.
pub fn race<I, F: Copy, A: Debug + PartialEq>(
    inputs: &[(I, A)],
    mut call: impl FnMut(F, &I) -> A,
    sides: [F; 2],
) -> Vec<Times> {
    let mut check = |side: F, (input, expected): &(I, A)| {
        assert_eq!(black_box(&call(side, input)), expected);
    };
    let mut calls_of_a_lap = |input| sides.map(|side| calls_of_a_lap(|| check(side, input)));
    let laps: Vec<[usize; 2]> = inputs.iter().map(&mut calls_of_a_lap).collect();
    let mut best = vec![Times::slowest(); inputs.len()];
    for _ in 0..ROUNDS {
        for ((input, laps), best) in inputs.iter().zip(&laps).zip(&mut best) {
            for ((side, lap), best) in sides.into_iter().zip(laps).zip(&mut best.sides) {
                *best = best.min(time(|| check(side, input), *lap));
            }
        }
    }
    best
}

fn calls_of_a_lap(mut call: impl FnMut()) -> usize {
    let start = Instant::now();
    let mut calls = 0;
    while start.elapsed() < LAP {
        call();
        calls += 1;
    }
    calls
}

/// Nanoseconds of a call, over so many calls.
fn time(mut call: impl FnMut(), calls: usize) -> f64 {
    let start = Instant::now();
    for _ in 0..calls {
        call();
    }
    each(start.elapsed().as_secs_f64() * 1e9, calls)
}
