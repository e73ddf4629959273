//! Record files, calls and samples from a seed: plausible years, and damaged variants of them.

mod clearings;
pub mod damage;
pub mod late;
mod parties;
mod performance;
pub mod plan;
pub mod random;
pub mod record;
mod retests;
pub mod samples;

use crate::layout::MOST_NUMBERS;
use crate::statement::MOST_BYTES;
use damage::{
    all_counts, all_edges, broken_bytes, misfit, with_bytes_after, with_edge, with_edge_counts,
    with_ids_out_of_order, with_wrong_number,
};
use plan::{full_year, short_year, year};
use random::Random;
use record::{encode, file, Numbers};

/// A form of record files: its name, and the file of a seed.
pub struct Form {
    pub name: &'static str,
    pub file: fn(u64) -> Vec<u8>,
}

const fn form(name: &'static str, file: fn(u64) -> Vec<u8>) -> Form {
    Form { name, file }
}

pub const FORMS: [Form; 6] = [
    form("plausible", plausible_file),
    form("damaged", damaged_file),
    form("full", full_file),
    form("short", short_file),
    form("edges", file_of_edges),
    form("counts", file_of_counts),
];

/// One call that takes or reads: the bytes, and the length of the lent buffer.
#[derive(Clone)]
pub struct Call {
    pub bytes: Vec<u8>,
    pub room: usize,
}

/// A plausible year, most of whose records are accepted.
pub fn plausible_file(seed: u64) -> Vec<u8> {
    file(&year(&mut Random::new(seed)))
}

/// A full year, all of whose records are accepted.
pub fn full_file(seed: u64) -> Vec<u8> {
    file(&full_year(&mut Random::new(seed), 50))
}

/// A plausible year of few parties.
pub fn short_file(seed: u64) -> Vec<u8> {
    file(&short_year(&mut Random::new(seed)))
}

/// A short year; before each record come its variants with a field at an edge or past it. In every
/// second file the parties have none: with a registration more, a test does not list what it must.
fn file_of_edges(seed: u64) -> Vec<u8> {
    let year = short_year(&mut Random::new(seed));
    let edges = |numbers: &Numbers| match is_party(numbers) && seed % 2 == 1 {
        true => Vec::new(),
        false => all_edges(numbers),
    };
    let with_edges = |numbers: &Numbers| [edges(numbers), vec![numbers.clone()]].concat();
    let records: Vec<Numbers> = year.iter().flat_map(with_edges).collect();
    file(&records)
}

/// A plausible year; before its first event of either kind, test and retest come lists of every length.
fn file_of_counts(seed: u64) -> Vec<u8> {
    let mut year = year(&mut Random::new(seed));
    for kind in [4, 5, 8, 9] {
        if let Some(at) = year.iter().position(|numbers| numbers[0] == kind) {
            let counts = all_counts(&year[at]);
            year.splice(at..at, counts);
        }
    }
    file(&year)
}

/// A year with misfits among its records; in half the files one loses its bounds.
pub fn damaged_file(seed: u64) -> Vec<u8> {
    let random = &mut Random::new(seed);
    let year = year(random);
    let broken = random.below(2 * year.len());
    let mut file = Vec::new();
    for (at, numbers) in year.iter().enumerate() {
        if random.chance(percent_of_misfits(numbers)) {
            file.extend(misfit(random, &year, numbers));
        }
        if at == broken {
            file.extend(broken_bytes(random, numbers));
        }
        file.extend(encode(numbers));
    }
    file
}

/// Calls of one list, with misfits, broken bytes and small buffers among them.
pub fn take_calls(seed: u64) -> Vec<Call> {
    let random = &mut Random::new(seed);
    let year = year(random);
    let mut calls = Vec::new();
    for numbers in &year {
        if random.chance(percent_of_misfits(numbers)) {
            calls.push(call(misfit(random, &year, numbers), MOST_BYTES));
        }
        if random.chance(20) {
            calls.push(call(broken_bytes(random, numbers), 1_000));
        }
        if is_close(numbers) && random.chance(50) {
            calls.push(call(encode(numbers), random.pick(&[0, 1, MOST_BYTES - 1])));
        }
        let room = if is_close(numbers) { MOST_BYTES } else { 0 };
        let bytes = with_bytes_after(random, encode(numbers));
        calls.push(call(bytes, room + random.pick(&[0, 1, 1_000])));
    }
    calls
}

fn call(bytes: Vec<u8>, room: usize) -> Call {
    Call { bytes, room }
}

/// The parties' records are many, so fewer of them get one.
fn percent_of_misfits(numbers: &[u64]) -> usize {
    match is_party(numbers) {
        true => 20,
        false => 60,
    }
}

/// Registrations, LSEs and clearings.
fn is_party(numbers: &[u64]) -> bool {
    matches!(numbers[0], 2 | 3 | 7)
}

fn is_close(numbers: &[u64]) -> bool {
    numbers[0] == 6
}

/// Calls that read alone, into buffers about as long as reading asks for, now and before C-17.
pub fn read_calls(seed: u64) -> Vec<Call> {
    let mut calls = take_calls(seed);
    let random = &mut Random::new(seed);
    for call in &mut calls {
        let least = MOST_NUMBERS;
        let too_small = random.pick(&[0, 165, 166, 167, least - 1, least - 1]);
        call.room = random.pick(&[too_small, least, least, least + 1, 300]);
    }
    calls
}

/// Calls that write: the length of the lent buffer, and the numbers.
pub fn write_calls(seed: u64) -> Vec<(usize, Vec<u64>)> {
    let random = &mut Random::new(seed);
    let year = year(random);
    let call = |numbers: &Numbers| {
        let length = encode(numbers).len();
        let room = random.pick(&[0, length - 1, length, length, length + 1, 1_000]);
        let numbers = match random.below(6) {
            0 => with_edge(random, numbers),
            1 => with_ids_out_of_order(random, numbers),
            2 => with_wrong_number(random, numbers),
            3 => with_edge_counts(random, numbers),
            _ => numbers.clone(),
        };
        (room, numbers)
    };
    year.iter().map(call).collect()
}
