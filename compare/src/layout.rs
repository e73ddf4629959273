//! The layouts of the nine kinds of record.

use std::ops::Range;

use crate::exact::narrow;
use crate::fields::{
    bits, kind, Field, AREA, CLEARED, CLOSED_MONTH, COMMITTED, DEFICITS, ENTRIES, FACTOR, LEAP,
    LSE_ID, MONTH, OBLIGATION, PERIOD, PRICE, PRODUCT, RATE, REGISTRATIONS, REGISTRATION_ID,
    SELLERS, SELLER_ID, ZONE,
};
use crate::lists::{Deficits, List, OneReduction, TwoReductions};

/// The numbers of the longest permitted record.
pub const MOST_NUMBERS: usize = longest(&HEADS)[0];

/// The bytes of the longest permitted record.
pub const MOST_BYTES: usize = longest(&HEADS)[1];

/// The most fields before the lists.
pub const MOST_HEAD: usize = 8;

/// The fields before the lists, which fit a word, and what lists follow.
pub struct Head {
    pub fields: &'static [Field],
    pub bits: usize,
    /// Do deficits follow? Their count stands before that of the entries.
    pub has_deficits: bool,
    /// The fields of an entry, none where no entries follow. Their count ends the head.
    pub entry: &'static [Field],
    entry_bits: usize,
}

impl Head {
    /// The numbers of a record that begins with this word, then zeros.
    pub fn unpack(&self, mut word: u64) -> [u64; MOST_HEAD] {
        let mut numbers = [0; MOST_HEAD];
        for (number, field) in numbers.iter_mut().zip(self.fields) {
            *number = word >> (64 - field.width);
            word <<= field.width;
        }
        numbers
    }

    pub fn permits(&self, numbers: &[u64]) -> bool {
        let mut numbers = self.fields.iter().zip(numbers);
        numbers.all(|(field, number)| field.permits(*number))
    }

    pub fn has_entries(&self) -> bool {
        !self.entry.is_empty()
    }

    /// The places of the counts, which end the head.
    pub fn counts(&self) -> Range<usize> {
        let end = self.fields.len();
        end - usize::from(self.has_deficits) - usize::from(self.has_entries())..end
    }

    pub fn has_two_reductions(&self) -> bool {
        self.entry.len() == TwoReductions::FIELDS.len()
    }
}

const fn alone(fields: &'static [Field]) -> Head {
    with_entries(fields, &[])
}

const fn with_entries(fields: &'static [Field], entry: &'static [Field]) -> Head {
    Head {
        fields,
        bits: bits(fields),
        has_deficits: false,
        entry,
        entry_bits: bits(entry),
    }
}

const fn with_deficits(fields: &'static [Field], entry: &'static [Field]) -> Head {
    Head {
        has_deficits: true,
        ..with_entries(fields, entry)
    }
}

/// The heads in the order of their kinds, from 1 on.
static HEADS: [Head; 9] = [
    alone(&[kind(1), LEAP, FACTOR, FACTOR]),
    alone(&[
        kind(2),
        REGISTRATION_ID,
        SELLER_ID,
        AREA,
        ZONE,
        PRODUCT,
        COMMITTED,
        RATE,
    ]),
    alone(&[kind(3), LSE_ID, OBLIGATION]),
    with_deficits(
        &[kind(4), AREA, MONTH, PERIOD, DEFICITS, ENTRIES],
        &OneReduction::FIELDS,
    ),
    with_deficits(
        &[kind(5), ZONE, PRODUCT, MONTH, DEFICITS, ENTRIES],
        &OneReduction::FIELDS,
    ),
    alone(&[kind(6), CLOSED_MONTH]),
    alone(&[kind(7), REGISTRATION_ID, PRICE, CLEARED]),
    with_deficits(
        &[kind(8), AREA, MONTH, DEFICITS, ENTRIES],
        &TwoReductions::FIELDS,
    ),
    with_entries(
        &[kind(9), SELLER_ID, ZONE, PRODUCT, MONTH, ENTRIES],
        &OneReduction::FIELDS,
    ),
];

/// The head of a kind, if there is such a kind.
pub fn head(kind: u64) -> Option<&'static Head> {
    let at = usize::try_from(kind).ok()?.checked_sub(1)?;
    HEADS.get(at)
}

/// The most numbers and the most bytes of a permitted record: lists are longest with every seller and
/// every registration.
const fn longest(heads: &'static [Head]) -> [usize; 2] {
    let [head, rest @ ..] = heads else {
        return [0; 2];
    };
    let longest_of_kind = Layout {
        head,
        deficits: if head.has_deficits { SELLERS } else { 0 },
        entries: REGISTRATIONS,
    };
    let [numbers, bytes] = longest(rest);
    [
        larger(longest_of_kind.count(), numbers),
        larger(longest_of_kind.bytes(), bytes),
    ]
}

const fn larger(a: usize, b: usize) -> usize {
    if a > b {
        a
    } else {
        b
    }
}

/// A record's layout: its head, and how many deficits and entries follow.
#[derive(Clone, Copy)]
pub struct Layout {
    pub head: &'static Head,
    pub deficits: usize,
    pub entries: usize,
}

impl Layout {
    /// The layout of a record that begins with this word. The counts come from the word and not from the
    /// numbers unpacked from it, since the place where they stand among these varies, which is slow.
    pub fn of_word(head: &'static Head, word: u64) -> Self {
        let packed = word >> (64 - head.bits);
        let deficits = DEFICITS.cut(packed >> ENTRIES.width);
        Layout::new(head, deficits, ENTRIES.cut(packed))
    }

    /// The layout of a record given as its numbers.
    pub fn of_numbers(head: &'static Head, numbers: &[u64]) -> Self {
        match numbers[head.counts()] {
            [deficits, entries] => Layout::new(head, deficits, entries),
            [entries] => Layout::new(head, 0, entries),
            _ => Layout::new(head, 0, 0),
        }
    }

    /// A count of lists that do not follow says nothing.
    fn new(head: &'static Head, deficits: u64, entries: u64) -> Self {
        let counted = |follow, count| if follow { narrow(count) } else { 0 };
        Layout {
            head,
            deficits: counted(head.has_deficits, deficits),
            entries: counted(head.has_entries(), entries),
        }
    }

    /// How many numbers the record has.
    pub const fn count(&self) -> usize {
        self.first_entry() + self.entries * self.head.entry.len()
    }

    /// The place of the first entry's first number.
    pub const fn first_entry(&self) -> usize {
        self.head.fields.len() + self.deficits * Deficits::FIELDS.len()
    }

    /// The field of the number at this place.
    pub fn field(&self, at: usize) -> Field {
        let head = self.head.fields.len();
        if at < head {
            self.head.fields[at]
        } else if at < self.first_entry() {
            Deficits::FIELDS[(at - head) % Deficits::FIELDS.len()]
        } else {
            self.head.entry[(at - self.first_entry()) % self.head.entry.len()]
        }
    }

    /// The bit that the deficits start at.
    pub const fn deficits_start(&self) -> usize {
        self.head.bits
    }

    /// The bit that the entries start at.
    pub const fn entries_start(&self) -> usize {
        self.deficits_start() + self.deficits * Deficits::WIDTH
    }

    pub const fn bits(&self) -> usize {
        self.entries_start() + self.entries * self.head.entry_bits
    }

    pub const fn bytes(&self) -> usize {
        self.bits().div_ceil(8)
    }
}
