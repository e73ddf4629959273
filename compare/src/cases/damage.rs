//! Records changed in one way each: fields, counts and ids that are not permitted, bits and bytes.

use std::iter::repeat_n;

use super::random::Random;
use super::record::{encode, layout, Numbers};
use crate::exact::widen;

/// A record of the right length that may not belong here.
pub fn misfit(random: &mut Random, year: &[Numbers], numbers: &[u64]) -> Vec<u8> {
    match random.below(12) {
        0 => encode(&year[random.below(year.len())]),
        1 => with_filling(encode(numbers)),
        2 | 3 => encode(&with_ids_out_of_order(random, numbers)),
        4 => encode(&with_edge_counts(random, numbers)),
        5 | 6 => encode(&with_other_month(random, numbers)),
        7 => encode(&without_last_entry(numbers)),
        // Then the record that belongs here comes a second time.
        8 => encode(numbers),
        _ => encode(&with_edge(random, numbers)),
    }
}

/// Bytes whose length need not be a record's.
pub fn broken_bytes(random: &mut Random, numbers: &[u64]) -> Vec<u8> {
    let mut bytes = encode(numbers);
    match random.below(4) {
        0 => bytes.truncate(random.below(bytes.len())),
        1 => bytes.iter_mut().for_each(|byte| *byte = random.byte()),
        _ => {
            let end = random.pick(&[bytes.len(), bytes.len().min(4)]);
            let at = random.below(end);
            bytes[at] ^= 1 << random.below(8);
        }
    }
    bytes
}

pub fn with_bytes_after(random: &mut Random, record: Vec<u8>) -> Vec<u8> {
    let after = (0..random.below(3)).map(|_| random.byte());
    let after = after.collect::<Vec<u8>>();
    [record, after].concat()
}

/// Sets the last bit, which in most records is a filling bit.
fn with_filling(mut record: Vec<u8>) -> Vec<u8> {
    if let Some(byte) = record.last_mut() {
        *byte |= 1;
    }
    record
}

/// The places whose number may change without changing the record's length.
fn free_places(numbers: &[u64]) -> Vec<usize> {
    let counts = layout(numbers).head.counts();
    let gives_length = |at: &usize| *at == 0 || counts.contains(at);
    (0..numbers.len()).filter(|at| !gives_length(at)).collect()
}

/// Puts an edge, or a neighbour of its value, into one field; the length stays.
pub fn with_edge(random: &mut Random, numbers: &[u64]) -> Numbers {
    let mut free = free_places(numbers);
    if random.chance(50) {
        free.truncate(6);
    }
    let at = random.pick(&free);
    let high = layout(numbers).field(at).high;
    let near = numbers[at];
    let mut numbers = numbers.to_vec();
    numbers[at] = random.pick(&[0, 1, high, high + 1, near.saturating_sub(1), near + 1]);
    numbers
}

/// Every field in turn at its lowest and highest and one past each; the length stays.
pub fn all_edges(numbers: &[u64]) -> Vec<Numbers> {
    let layout = layout(numbers);
    let with = |(at, number)| {
        let mut numbers = numbers.to_vec();
        numbers[at] = number;
        numbers
    };
    let edges = free_places(numbers).into_iter().flat_map(|at| {
        let field = layout.field(at);
        let below = field.low.wrapping_sub(1);
        [below, field.low, field.high, field.high + 1].map(|number| (at, number))
    });
    edges.map(with).collect()
}

/// Repeats or swaps two ids of a list, if there are two.
pub fn with_ids_out_of_order(random: &mut Random, numbers: &[u64]) -> Numbers {
    let layout = layout(numbers);
    let neighbours = |first: usize, count: usize, length: usize| {
        (1..count).map(move |at| [first + (at - 1) * length, first + at * length])
    };
    let sellers = neighbours(layout.head.fields.len(), layout.deficits, 2);
    let registrations = neighbours(
        layout.first_entry(),
        layout.entries,
        layout.head.entry.len(),
    );
    let places: Vec<[usize; 2]> = sellers.chain(registrations).collect();
    let mut numbers = numbers.to_vec();
    if !places.is_empty() {
        let [one, next] = random.pick(&places);
        numbers.swap(one, next);
        if random.chance(50) {
            numbers[one] = numbers[next];
        }
    }
    numbers
}

/// Takes the last entry off an event, a test or a retest that has more.
fn without_last_entry(numbers: &[u64]) -> Numbers {
    let layout = layout(numbers);
    let mut numbers = numbers.to_vec();
    if layout.entries > 1 {
        numbers[layout.head.fields.len() - 1] -= 1;
        numbers.truncate(numbers.len() - layout.head.entry.len());
    }
    numbers
}

/// Moves an event, a test or a retest to any month.
fn with_other_month(random: &mut Random, numbers: &[u64]) -> Numbers {
    let mut numbers = numbers.to_vec();
    let month = 1 + widen(random.below(12));
    match numbers[0] {
        4 | 8 => numbers[2] = month,
        5 => numbers[3] = month,
        9 => numbers[4] = month,
        _ => {}
    }
    numbers
}

/// Gives an event, a test or a retest new lists, of an edge's length.
pub fn with_edge_counts(random: &mut Random, numbers: &[u64]) -> Numbers {
    let (deficits, entries) = random.pick(&[(0, 0), (16, 64), (17, 64), (16, 65), (31, 127)]);
    with_counts(numbers, deficits, entries)
}

/// An event, a test or a retest with lists of every length that a count can give; none of another
/// record.
pub fn all_counts(numbers: &[u64]) -> Vec<Numbers> {
    let head = layout(numbers).head;
    let mut records = Vec::new();
    if head.has_deficits {
        records.extend((0..32).map(|deficits| with_counts(numbers, deficits, 2)));
    }
    if head.has_entries() {
        records.extend((0..128).map(|entries| with_counts(numbers, 1, entries)));
    }
    records
}

/// Gives an event, a test or a retest new lists of these lengths; other records stay.
fn with_counts(numbers: &[u64], deficits: u64, entries: u64) -> Numbers {
    let head = layout(numbers).head;
    if !head.has_entries() {
        return numbers.to_vec();
    }
    let mut numbers = numbers[..head.counts().start].to_vec();
    let deficits = head.has_deficits.then_some(deficits);
    numbers.extend(deficits);
    numbers.push(entries);
    numbers.extend((0..deficits.unwrap_or(0)).flat_map(|seller| [seller % 16, 1]));
    for registration in 0..entries {
        numbers.push(registration % 64);
        numbers.extend(repeat_n(0, head.entry.len() - 1));
    }
    numbers
}

/// Adds or drops a number, or puts one that is no field's.
pub fn with_wrong_number(random: &mut Random, numbers: &[u64]) -> Numbers {
    let mut numbers = numbers.to_vec();
    let at = random.below(numbers.len().min(8));
    match random.below(4) {
        0 => numbers.push(0),
        1 => numbers.truncate(at),
        2 => numbers[at] = random.pick(&[0, 7, 8, 9, 10, 17, 65, 1 << 32, u64::MAX]),
        _ => numbers[at] += 1 << 32,
    }
    numbers
}
