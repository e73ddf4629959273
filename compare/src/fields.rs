//! The fields of the records: their widths and permitted values.

/// One field: its width in bits and its permitted values.
#[derive(Clone, Copy)]
pub struct Field {
    pub width: usize,
    pub low: u64,
    pub high: u64,
}

impl Field {
    pub fn permits(&self, number: u64) -> bool {
        (self.low..=self.high).contains(&number)
    }

    /// The lowest bits of a number, as many as the field has.
    pub fn cut(&self, number: u64) -> u64 {
        number & ((1 << self.width) - 1)
    }
}

pub const fn field(width: usize, low: u64, high: u64) -> Field {
    Field { width, low, high }
}

/// The bits that these fields take together.
pub const fn bits(fields: &[Field]) -> usize {
    match fields {
        [] => 0,
        [first, rest @ ..] => first.width + bits(rest),
    }
}

pub const fn kind(kind: u64) -> Field {
    field(4, kind, kind)
}

const fn id(width: usize) -> Field {
    field(width, 0, (1 << width) - 1)
}

pub const REGISTRATION_ID: Field = id(6);
pub const SELLER_ID: Field = id(4);
pub const LSE_ID: Field = id(4);
pub const AREA: Field = id(3);
pub const ZONE: Field = id(3);
pub const LEAP: Field = field(1, 0, 1);
pub const FACTOR: Field = field(14, 1, 12_000);
pub const PRODUCT: Field = field(2, 0, 2);
pub const PERIOD: Field = field(2, 1, 3);
pub const MONTH: Field = field(4, 1, 12);
pub const CLOSED_MONTH: Field = field(4, 1, 15);
pub const DEFICITS: Field = field(5, 0, 16);
pub const ENTRIES: Field = field(7, 1, 64);
pub const COMMITTED: Field = field(17, 1, 100_000);
pub const RATE: Field = field(17, 0, 100_000);
pub const PRICE: Field = field(17, 0, 100_000);
pub const CLEARED: Field = field(17, 1, 100_000);
pub const REDUCTION: Field = field(17, 0, 100_000);
pub const OBLIGATION: Field = field(20, 1, 1_000_000);
pub const DEFICIT_KW: Field = field(20, 1, 1_000_000);

/// Ids use their whole field.
pub const REGISTRATIONS: usize = 1 << REGISTRATION_ID.width;
pub const SELLERS: usize = 1 << SELLER_ID.width;
pub const LSES: usize = 1 << LSE_ID.width;
pub const AREAS: usize = 1 << AREA.width;
