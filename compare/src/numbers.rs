//! A record as numbers: reading it from bytes and writing it.

use crate::bits::BitWriter;
use crate::layout::{self, Layout, MOST_NUMBERS};
use crate::lists::{Deficits, Entries, Findings, List, OneReduction, TwoReductions};
use crate::packed::Packed;

/// What reading reports.
#[derive(Clone, Copy, Debug, Default, PartialEq, Eq)]
pub struct Read {
    pub number: u64,
    pub count: usize,
    pub used: usize,
}

/// Reads one record into the lent numbers.
pub fn read(bytes: &[u8], buffer: &mut [u64]) -> Read {
    let refused = |number| Read {
        number,
        ..Read::default()
    };
    let packed = match Packed::parse(bytes) {
        Err(refusal) => return refused(refusal.number),
        Ok(_) if buffer.len() < MOST_NUMBERS => return refused(16),
        Ok(packed) => packed,
    };
    let layout = &packed.layout;
    let (head, lists) = buffer.split_at_mut(layout.head.fields.len());
    for (slot, number) in head.iter_mut().zip(packed.head) {
        *slot = number;
    }
    if layout.head.has_entries() {
        fill(lists, packed.deficits());
        let entries = &mut buffer[layout.first_entry()..];
        match packed.entries() {
            Entries::One(items) => fill(entries, items),
            Entries::Two(items) => fill(entries, items),
        }
    }
    Read {
        number: 0,
        count: layout.count(),
        used: layout.bytes(),
    }
}

/// Puts a list's items one after another into the lent numbers.
fn fill<const N: usize>(numbers: &mut [u64], items: impl Iterator<Item = [u64; N]>) {
    for (slot, item) in numbers.as_chunks_mut().0.iter_mut().zip(items) {
        *slot = item;
    }
}

/// What writing reports.
#[derive(Clone, Copy, Debug, Default, PartialEq, Eq)]
pub struct Written {
    pub number: u64,
    pub used: usize,
}

/// Writes one record, given as numbers, into the lent bytes.
pub fn write(numbers: &[u64], buffer: &mut [u8]) -> Written {
    match layout_to_write(numbers, buffer.len()) {
        Err(number) => Written { number, used: 0 },
        Ok(layout) => Written {
            number: 0,
            used: place(&layout, numbers, buffer),
        },
    }
}

/// Puts questions 1, 3, 5 and 16 to the numbers.
fn layout_to_write(numbers: &[u64], room: usize) -> Result<Layout, u64> {
    let head = numbers.first().and_then(|kind| layout::head(*kind));
    let head = head.ok_or(1_u64)?;
    // The head comes first, so that its counts are within limits when the layout is made.
    if numbers.len() < head.fields.len() || !head.permits(numbers) {
        return Err(3);
    }
    let layout = Layout::of_numbers(head, numbers);
    if numbers.len() != layout.count() {
        return Err(3);
    }
    let lists = match head.has_entries() {
        true => findings(&layout, numbers),
        false => Findings::default(),
    };
    if !lists.permitted {
        Err(3)
    } else if !lists.ids_rise {
        Err(5)
    } else if room < layout.bytes() {
        Err(16)
    } else {
        Ok(layout)
    }
}

fn findings(layout: &Layout, numbers: &[u64]) -> Findings {
    let (deficits, entries) = lists(layout, numbers);
    let entries = match entries {
        Entries::One(items) => Entries::One(items.iter().copied()),
        Entries::Two(items) => Entries::Two(items.iter().copied()),
    };
    Findings::new(deficits.iter().copied(), entries)
}

/// Packs the numbers of a layout into bytes, each cut to its field's width; gives the length.
pub fn place(layout: &Layout, numbers: &[u64], bytes: &mut [u8]) -> usize {
    let mut writer = BitWriter::new(bytes);
    for (number, field) in numbers.iter().zip(layout.head.fields) {
        writer.put(*number, field.width);
    }
    if layout.head.has_entries() {
        let (deficits, entries) = lists(layout, numbers);
        put::<2, Deficits>(&mut writer, deficits);
        match entries {
            Entries::One(items) => put::<2, OneReduction>(&mut writer, items),
            Entries::Two(items) => put::<3, TwoReductions>(&mut writer, items),
        }
    }
    writer.finish()
}

fn put<const N: usize, L: List<N>>(writer: &mut BitWriter, items: &[[u64; N]]) {
    for item in items {
        for (number, field) in item.iter().zip(L::FIELDS) {
            writer.put(*number, field.width);
        }
    }
}

type Lists<'a> = (&'a [[u64; 2]], Entries<&'a [[u64; 2]], &'a [[u64; 3]]>);

/// The deficits and the entries among a record's numbers.
fn lists<'a>(layout: &Layout, numbers: &'a [u64]) -> Lists<'a> {
    let (before, entries) = numbers.split_at(layout.first_entry());
    let deficits = &before[layout.head.fields.len()..];
    let entries = match layout.head.has_two_reductions() {
        true => Entries::Two(entries.as_chunks().0),
        false => Entries::One(entries.as_chunks().0),
    };
    (deficits.as_chunks().0, entries)
}
