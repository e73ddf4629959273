//! What the nine kinds of record say; two kinds are events.

use crate::exact::narrow;
use crate::fields::{REGISTRATIONS, SELLERS};
use crate::lists::Entries;
use crate::packed::Packed;

#[derive(Clone, Copy, PartialEq, Eq, PartialOrd, Ord, Debug)]
pub enum Product {
    Limited,
    ExtendedSummer,
    Annual,
}

impl Product {
    pub fn new(number: u64) -> Self {
        match number {
            0 => Product::Limited,
            1 => Product::ExtendedSummer,
            _ => Product::Annual,
        }
    }

    pub fn number(self) -> u64 {
        match self {
            Product::Limited => 0,
            Product::ExtendedSummer => 1,
            Product::Annual => 2,
        }
    }
}

#[derive(Clone, Copy)]
pub struct Opening {
    pub leap: bool,
    pub dr_factor: u16,
    pub forecast_pool_requirement: u16,
}

#[derive(Clone, Copy)]
pub struct Registration {
    pub id: u8,
    pub seller: u8,
    pub area: u8,
    pub zone: u8,
    pub product: Product,
    pub committed: u32,
    /// The rate that the record gives, which clearings or an area's lenders replace.
    pub field_rate: u32,
}

#[derive(Clone, Copy)]
pub struct Lse {
    pub id: u8,
    pub obligation: u32,
}

#[derive(Clone, Copy)]
pub struct Clearing {
    pub registration: u8,
    pub price: u32,
    pub kw: u32,
}

#[derive(Clone, Copy, Default)]
pub struct Entry {
    pub registration: u8,
    /// Where there are two, the on-peak one.
    pub reduction: u32,
}

/// The lists of an event, a test or a retest, which has no deficits.
#[derive(Clone)]
pub struct Lists {
    /// Deficit kilowatts by seller, 0 for a seller without one.
    pub deficits: [u32; SELLERS],
    entries: [Entry; REGISTRATIONS],
    count: usize,
}

impl Lists {
    pub fn entries(&self) -> &[Entry] {
        &self.entries[..self.count]
    }

    fn fill(&mut self, entries: impl Iterator<Item = [u64; 2]>) {
        for (slot, [registration, reduction]) in self.entries.iter_mut().zip(entries) {
            *slot = Entry {
                registration: narrow(registration),
                reduction: narrow(reduction),
            };
        }
    }
}

/// By what an event measures shortfalls.
#[derive(Clone)]
pub enum Measured {
    /// By on-peak reductions, or by one figure for both periods.
    OnPeak,
    OffPeak,
    /// By on-peak reductions, which the entries have, and apart from them by these off-peak ones.
    Apart(Vec<u32>),
}

#[derive(Clone)]
pub struct Event {
    pub area: u8,
    pub month: u8,
    pub measured: Measured,
    pub lists: Lists,
}

impl Event {
    /// Is it off-peak alone? Then it does not count in n, and no Limited registration may be called.
    pub fn is_off_peak(&self) -> bool {
        matches!(self.measured, Measured::OffPeak)
    }
}

#[derive(Clone)]
pub struct Test {
    pub zone: u8,
    pub product: Product,
    pub month: u8,
    pub lists: Lists,
}

pub struct Retest {
    pub seller: u8,
    pub zone: u8,
    pub product: Product,
    pub month: u8,
    pub lists: Lists,
}

pub enum Record {
    Opening(Opening),
    Registration(Registration),
    Lse(Lse),
    Event(Event),
    Test(Test),
    Close { month: u8 },
    Clearing(Clearing),
    Retest(Retest),
}

impl From<&Packed<'_>> for Record {
    fn from(packed: &Packed) -> Self {
        let head = &packed.head;
        match head[0] {
            1 => Record::Opening(Opening {
                leap: head[1] == 1,
                dr_factor: narrow(head[2]),
                forecast_pool_requirement: narrow(head[3]),
            }),
            2 => Record::Registration(registration(head)),
            3 => Record::Lse(Lse {
                id: narrow(head[1]),
                obligation: narrow(head[2]),
            }),
            4 | 8 => Record::Event(Event {
                area: narrow(head[1]),
                month: narrow(head[2]),
                measured: measured(packed),
                lists: lists(packed),
            }),
            5 => Record::Test(Test {
                zone: narrow(head[1]),
                product: Product::new(head[2]),
                month: narrow(head[3]),
                lists: lists(packed),
            }),
            6 => Record::Close {
                month: narrow(head[1]),
            },
            7 => Record::Clearing(Clearing {
                registration: narrow(head[1]),
                price: narrow(head[2]),
                kw: narrow(head[3]),
            }),
            _ => Record::Retest(Retest {
                seller: narrow(head[1]),
                zone: narrow(head[2]),
                product: Product::new(head[3]),
                month: narrow(head[4]),
                lists: lists(packed),
            }),
        }
    }
}

/// The registration that these numbers, in layout order, give.
pub fn registration(numbers: &[u64; 8]) -> Registration {
    Registration {
        id: narrow(numbers[1]),
        seller: narrow(numbers[2]),
        area: narrow(numbers[3]),
        zone: narrow(numbers[4]),
        product: Product::new(numbers[5]),
        committed: narrow(numbers[6]),
        field_rate: narrow(numbers[7]),
    }
}

fn measured(packed: &Packed) -> Measured {
    match packed.entries() {
        Entries::Two(entries) => {
            Measured::Apart(entries.map(|[_, _, off_peak]| narrow(off_peak)).collect())
        }
        Entries::One(_) if packed.head[3] == 2 => Measured::OffPeak,
        Entries::One(_) => Measured::OnPeak,
    }
}

fn lists(packed: &Packed) -> Lists {
    let mut lists = Lists {
        deficits: [0; SELLERS],
        entries: [Entry::default(); REGISTRATIONS],
        count: packed.layout.entries,
    };
    for [seller, kw] in packed.deficits() {
        lists.deficits[narrow::<usize>(seller)] = narrow(kw);
    }
    match packed.entries() {
        Entries::One(entries) => lists.fill(entries),
        Entries::Two(entries) => lists.fill(entries.map(|[id, on_peak, _]| [id, on_peak])),
    }
    lists
}
