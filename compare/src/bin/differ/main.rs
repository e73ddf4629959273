//! Compares the proved engine with this implementation, call by call, on generated record files and
//! samples: `differ` by default, `differ FIRST LAST` of these seeds, `differ --records COUNT` of the
//! seeds from 1 on until so many records are billed; `differ --patterns` on every pattern as a value of
//! a sample. A difference is printed with its seed, form and bytes.

mod both;
mod patterns;
mod samples;
mod variants;

use std::ops::RangeInclusive;
use std::process::ExitCode;

use settlement::cases::{Form, FORMS};

use both::{Both, Compared};
use patterns::compare_patterns;
use samples::{compare_made, compare_samples};
use variants::{compare_file, compare_spoilt};

enum Plan {
    /// The seeds to go through, up to the last or until enough records are billed.
    Seeds(RangeInclusive<u64>, u64),
    Patterns,
}

fn main() -> ExitCode {
    let compared = match plan() {
        Some(Plan::Seeds(seeds, records)) => compare_seeds(seeds, records),
        Some(Plan::Patterns) => compare_patterns(),
        None => {
            eprintln!("usage: differ [FIRST LAST | --records COUNT | --patterns]");
            return ExitCode::from(2);
        }
    };
    match compared {
        Ok(report) => {
            println!("{report}");
            ExitCode::SUCCESS
        }
        Err(difference) => {
            println!("differs: {difference}");
            ExitCode::FAILURE
        }
    }
}

fn plan() -> Option<Plan> {
    let arguments: Vec<String> = std::env::args().skip(1).collect();
    let words: Vec<&str> = arguments.iter().map(String::as_str).collect();
    let (first, last, records) = match words.as_slice() {
        [] => (1, 150, u64::MAX),
        ["--patterns"] => return Some(Plan::Patterns),
        ["--records", count] => (1, u64::MAX, count.parse().ok()?),
        [first, last] => (first.parse().ok()?, last.parse().ok()?, u64::MAX),
        _ => return None,
    };
    let seeds = first..=last;
    (!seeds.is_empty()).then_some(Plan::Seeds(seeds, records))
}

/// Compares the cases of the seeds until so many records are billed; gives what is to be printed.
fn compare_seeds(seeds: RangeInclusive<u64>, records: u64) -> Compared<String> {
    let mut both = Both::default();
    let first = *seeds.start();
    let mut last = first;
    for seed in seeds {
        compare_seed(&mut both, seed).map_err(|difference| format!("seed {seed}, {difference}"))?;
        last = seed;
        if both.records() >= records {
            break;
        }
    }
    Ok(format!("seeds {first} to {last}: no difference\n{both}"))
}

fn compare_seed(both: &mut Both, seed: u64) -> Compared {
    for Form { name, file } in FORMS {
        let file = file(seed);
        let mut compare = || {
            compare_file(both, &file)?;
            compare_made(both, &file, seed)?;
            match name {
                "short" => compare_spoilt(both, &file, seed),
                _ => Ok(()),
            }
        };
        compare().map_err(|difference| format!("form {name}, {difference}"))?;
    }
    compare_samples(both, seed)
}
