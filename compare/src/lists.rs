//! The lists of events, tests and retests: items of an id and kilowatts.

use crate::bits::bits_at;
use crate::fields::{bits, Field, DEFICIT_KW, REDUCTION, REGISTRATION_ID, SELLER_ID};

/// The fields of a list's items, known when its loops are compiled; the first is the id.
pub trait List<const N: usize> {
    const FIELDS: [Field; N];
    const WIDTH: usize = bits(&Self::FIELDS);

    /// So many items from a bit on.
    fn unpack(bytes: &[u8], start: usize, count: usize) -> impl Iterator<Item = [u64; N]> + '_ {
        (0..count).map(move |at| {
            let item = bits_at(bytes, start + at * Self::WIDTH, Self::WIDTH);
            let mut after = Self::WIDTH;
            Self::FIELDS.map(|field| {
                after -= field.width;
                field.cut(item >> after)
            })
        })
    }
}

pub enum Deficits {}

impl List<2> for Deficits {
    const FIELDS: [Field; 2] = [SELLER_ID, DEFICIT_KW];
}

pub enum OneReduction {}

impl List<2> for OneReduction {
    const FIELDS: [Field; 2] = [REGISTRATION_ID, REDUCTION];
}

/// The on-peak reduction, then the off-peak one.
pub enum TwoReductions {}

impl List<3> for TwoReductions {
    const FIELDS: [Field; 3] = [REGISTRATION_ID, REDUCTION, REDUCTION];
}

/// A record's entries, of one reduction each or of two.
pub enum Entries<One, Two> {
    One(One),
    Two(Two),
}

/// What questions 3 and 5 find in the lists.
pub struct Findings {
    pub permitted: bool,
    pub ids_rise: bool,
}

impl Default for Findings {
    /// Nothing to object to.
    fn default() -> Self {
        Findings {
            permitted: true,
            ids_rise: true,
        }
    }
}

impl Findings {
    pub fn new(
        deficits: impl Iterator<Item = [u64; 2]>,
        entries: Entries<impl Iterator<Item = [u64; 2]>, impl Iterator<Item = [u64; 3]>>,
    ) -> Self {
        let mut findings = Findings::default();
        findings.add::<2, Deficits>(deficits);
        match entries {
            Entries::One(entries) => findings.add::<2, OneReduction>(entries),
            Entries::Two(entries) => findings.add::<3, TwoReductions>(entries),
        }
        findings
    }

    fn add<const N: usize, L: List<N>>(&mut self, items: impl Iterator<Item = [u64; N]>) {
        let mut lowest = 0;
        for item in items {
            for (field, number) in L::FIELDS.iter().zip(item) {
                self.permitted &= field.permits(number);
            }
            self.ids_rise &= item[0] >= lowest;
            lowest = item[0].saturating_add(1);
        }
    }
}
