//! A record as its numbers, permitted or not, and its bytes.

use std::slice::{ChunksExact, ChunksExactMut};

use crate::layout::{head, Layout};
use crate::numbers::place;

/// A record as its numbers in layout order.
pub type Numbers = Vec<u64>;

/// The layout by the counts among the numbers.
pub fn layout(numbers: &[u64]) -> Layout {
    let head = head(numbers[0]).expect("a record begins with its kind");
    Layout::of_numbers(head, numbers)
}

/// The record's bytes, each number cut to its field's width.
pub fn encode(numbers: &[u64]) -> Vec<u8> {
    let layout = layout(numbers);
    let mut bytes = vec![0; layout.bytes()];
    place(&layout, numbers, &mut bytes);
    bytes
}

/// Each deficit of an event or a test: its seller, then its kW; none of another record.
pub fn deficits(numbers: &[u64]) -> impl Iterator<Item = &[u64; 2]> {
    let layout = layout(numbers);
    let deficits = &numbers[layout.head.fields.len()..layout.first_entry()];
    deficits.as_chunks().0.iter()
}

/// Each entry of an event, a test or a retest: its registration, then its reductions; none of another
/// record.
pub fn entries(numbers: &[u64]) -> ChunksExact<'_, u64> {
    let layout = layout(numbers);
    numbers[layout.first_entry()..].chunks_exact(layout.head.entry.len().max(1))
}

/// The same entries, to be changed.
pub fn entries_mut(numbers: &mut [u64]) -> ChunksExactMut<'_, u64> {
    let layout = layout(numbers);
    numbers[layout.first_entry()..].chunks_exact_mut(layout.head.entry.len().max(1))
}

/// The registrations that an event, a test or a retest lists.
pub fn listed(numbers: &[u64]) -> impl Iterator<Item = u64> + '_ {
    entries(numbers).map(|entry| entry[0])
}

/// The file of these records.
pub fn file(records: &[Numbers]) -> Vec<u8> {
    records.iter().flat_map(|numbers| encode(numbers)).collect()
}
