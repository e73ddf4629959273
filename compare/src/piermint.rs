//! The proved engine through its C interface (piermint.h), as safe functions.

use crate::bill::Billed;
use crate::book::Taken;
use crate::numbers::{Read, Written};
use crate::telemetry::{Reduction, Sample};

extern "C" {
    fn piermint_read(
        bytes: *const u8,
        bytes_len: usize,
        numbers: *mut u64,
        numbers_len: usize,
        count: *mut usize,
        used: *mut usize,
    ) -> u64;

    fn piermint_write(
        numbers: *const u64,
        numbers_len: usize,
        bytes: *mut u8,
        bytes_len: usize,
        used: *mut usize,
    ) -> u64;

    fn piermint_new(cells: *mut u64);

    fn piermint_post(
        cells: *mut u64,
        bytes: *const u8,
        bytes_len: usize,
        buffer: *mut u8,
        buffer_len: usize,
        used: *mut usize,
        written: *mut usize,
    ) -> u64;

    fn piermint_reduction(expected: u32, metered: u32, kw: *mut u64) -> u64;

    fn piermint_direct_reduction(reduction: u32, kw: *mut u64) -> u64;
}

// SAFETY, of each call below: what piermint.h asks of pointers, Rust's slices and references have
// (not null, aligned, initialised, no overlap with what is mutable), and every slice comes with its
// own length. The library keeps no pointer. Its 256 KB of stack are within any thread's default. A
// book's cells are private to it: `piermint_new` makes them, and `piermint_post` alone writes them.

/// Reads one record into the lent numbers.
pub fn read(bytes: &[u8], numbers: &mut [u64]) -> Read {
    let mut read = Read::default();
    read.number = unsafe {
        piermint_read(
            bytes.as_ptr(),
            bytes.len(),
            numbers.as_mut_ptr(),
            numbers.len(),
            &mut read.count,
            &mut read.used,
        )
    };
    read
}

/// Writes one record, given as numbers, into the lent bytes.
pub fn write(numbers: &[u64], bytes: &mut [u8]) -> Written {
    let mut written = Written::default();
    written.number = unsafe {
        piermint_write(
            numbers.as_ptr(),
            numbers.len(),
            bytes.as_mut_ptr(),
            bytes.len(),
            &mut written.used,
        )
    };
    written
}

/// Answers a sample.
pub fn reduction(sample: Sample) -> Reduction {
    // No kW of an answer, so that a call which left it would be seen.
    let mut kw = u64::MAX;
    let number = match sample {
        Sample::Pair { expected, metered } => unsafe {
            piermint_reduction(expected.to_bits(), metered.to_bits(), &mut kw)
        },
        Sample::Direct(reduction) => unsafe {
            piermint_direct_reduction(reduction.to_bits(), &mut kw)
        },
    };
    Reduction { number, kw }
}

/// The cells of a book's year.
const CELLS: usize = 4807;

/// A book whose year lies in cells of its own, which only the library's calls write.
#[derive(Clone, PartialEq, Eq)]
pub struct Book {
    cells: Box<[u64; CELLS]>,
}

impl Book {
    pub fn new() -> Self {
        let mut cells = Box::new([0; CELLS]);
        unsafe { piermint_new(cells.as_mut_ptr()) };
        Book { cells }
    }

    /// Takes the first record of the bytes; an accepted close leaves its statement in the buffer.
    pub fn take(&mut self, bytes: &[u8], buffer: &mut [u8]) -> Taken {
        let [mut consumed, mut written] = [0; 2];
        let number = unsafe {
            piermint_post(
                self.cells.as_mut_ptr(),
                bytes.as_ptr(),
                bytes.len(),
                buffer.as_mut_ptr(),
                buffer.len(),
                &mut consumed,
                &mut written,
            )
        };
        Taken {
            number,
            consumed,
            written,
        }
    }
}

impl Default for Book {
    fn default() -> Self {
        Book::new()
    }
}

/// `bill` by an engine's function of this name.
macro_rules! bill_by {
    ($piermint_bill:ident) => {
        extern "C" {
            fn $piermint_bill(
                records: *const u8,
                records_len: usize,
                numbers: *mut u64,
                numbers_len: usize,
                statements: *mut u8,
                statements_len: usize,
                used: *mut usize,
                written: *mut usize,
            ) -> usize;
        }

        /// Bills a record file from a new book.
        pub fn bill(records: &[u8], numbers: &mut [u64], statements: &mut [u8]) -> Billed {
            let mut billed = Billed::default();
            billed.records = unsafe {
                $piermint_bill(
                    records.as_ptr(),
                    records.len(),
                    numbers.as_mut_ptr(),
                    numbers.len(),
                    statements.as_mut_ptr(),
                    statements.len(),
                    &mut billed.used,
                    &mut billed.written,
                )
            };
            billed
        }
    };
}

bill_by!(piermint_bill);

#[cfg(feature = "before")]
pub(crate) use bill_by;

#[cfg(test)]
mod tests {
    /// tests/piermint.c holds the header to the library.
    #[test]
    fn cells_are_as_many_as_the_header_says() {
        let line = format!("#define PIERMINT_CELLS {}", super::CELLS);
        let header = include_str!("../piermint.h");
        assert!(header.lines().any(|defined| defined == line), "{line}");
    }
}
