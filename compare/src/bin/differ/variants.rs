//! The calls that one generated file gives: the file, its records, and what is near them.

use settlement::cases::damage::all_counts;
use settlement::cases::random::Random;
use settlement::cases::record::layout;
use settlement::layout::{MOST_BYTES, MOST_NUMBERS};
use settlement::{statement, take_each, MOST_STATEMENTS};

use crate::both::{Both, Compared};

/// As many records of each kind in a file are changed in every way.
const CHANGED: usize = 2;

/// Bills the file, also with buffers of other lengths; reads and writes each of its records.
pub fn compare_file(both: &mut Both, file: &[u8]) -> Compared {
    let billed = both.bill_file(file)?;
    let (records, written) = (billed.records, billed.written);
    for numbers in [0, 1, records / 2, records.saturating_sub(1), records] {
        both.bill(file, numbers, MOST_STATEMENTS)?;
    }
    let one = statement::MOST_BYTES;
    for statements in [0, 1, one - 1, one, one + 1, 2 * one - 1, 2 * one, 3 * one] {
        both.bill(file, records + 1, statements)?;
    }
    for statements in [written, written + one - 1] {
        both.bill(file, records + 1, statements)?;
    }
    let mut of_kind = [0; 16];
    for (start, length) in records_of(file) {
        let bytes = &file[start..];
        let kind = usize::from(bytes[0] >> 4);
        of_kind[kind] += 1;
        compare_record(both, bytes, length, of_kind[kind] <= CHANGED)?;
    }
    Ok(())
}

/// Where each record of a file starts, and its length; 0 for one without bounds.
pub fn records_of(file: &[u8]) -> Vec<(usize, usize)> {
    let mut records = Vec::new();
    let mut start = 0;
    take_each(file, |taken, _| {
        records.push((start, taken.consumed));
        start += taken.consumed;
    });
    records
}

/// Bills a file cut at every place, with a bit of each byte flipped, and with bytes after it.
pub fn compare_spoilt(both: &mut Both, file: &[u8], seed: u64) -> Compared {
    for end in 0..file.len() {
        both.bill_file(&file[..end])?;
    }
    let mut random = Random::new(seed);
    for byte in 0..file.len() {
        both.bill_file(&flipped(file, 8 * byte + random.below(8)))?;
    }
    let mut longer = file.to_vec();
    for _ in 0..16 {
        longer.push(random.byte());
        both.bill_file(&longer)?;
    }
    Ok(())
}

fn flipped(bytes: &[u8], bit: usize) -> Vec<u8> {
    let mut bytes = bytes.to_vec();
    bytes[bit / 8] ^= 0x80 >> (bit % 8);
    bytes
}

/// Reads the record of this length at the front of the bytes, whole and cut, and writes it again;
/// changed, also with each bit flipped and each number replaced.
fn compare_record(both: &mut Both, bytes: &[u8], length: usize, changed: bool) -> Compared {
    let record = &bytes[..length];
    // Before C-17 reading asked for 166.
    for room in [0, 165, 166, MOST_NUMBERS - 1, MOST_NUMBERS + 1] {
        both.read(bytes, room)?;
    }
    for end in 0..=length {
        both.read(&record[..end], MOST_NUMBERS)?;
    }
    if changed {
        for bit in 0..8 * length {
            both.read(&flipped(record, bit), MOST_NUMBERS)?;
        }
    }
    if let Some(numbers) = both.read(bytes, MOST_NUMBERS)? {
        compare_writes(both, &numbers, length)?;
        if changed {
            compare_changed_writes(both, &numbers, length)?;
        }
    }
    Ok(())
}

/// Writes the numbers into buffers about as long, and with a number more or fewer.
fn compare_writes(both: &mut Both, numbers: &[u64], length: usize) -> Compared {
    for room in [0, length - 1, length, length + 1, MOST_BYTES] {
        both.write(numbers, room)?;
    }
    both.write(&[numbers, &[0]].concat(), length + 1)?;
    both.write(&numbers[..numbers.len() - 1], length)
}

/// Writes the numbers with each of them replaced, and with lists of every length.
fn compare_changed_writes(both: &mut Both, numbers: &[u64], length: usize) -> Compared {
    for at in 0..numbers.len() {
        let mut changed = numbers.to_vec();
        for number in others(numbers, at) {
            changed[at] = number;
            both.write(&changed, length)?;
        }
        both.write(&numbers[..at], length)?;
    }
    for numbers in all_counts(numbers) {
        both.write(&numbers, MOST_BYTES)?;
    }
    Ok(())
}

/// Numbers to put at this place: the edges of its field, its neighbours, the id before it in a list,
/// which stands two places before or three, and numbers that no field holds.
fn others(numbers: &[u64], at: usize) -> [u64; 10] {
    let field = layout(numbers).field(at);
    let number = numbers[at];
    [
        field.low.wrapping_sub(1),
        field.low,
        field.high,
        field.high + 1,
        number.wrapping_sub(1),
        number + 1,
        numbers[at.saturating_sub(2)],
        numbers[at.saturating_sub(3)],
        number + (1 << 32),
        u64::MAX,
    ]
}
