//! Billing a record file from a new book: into lent slices, and as the bill program prints it.

use std::fmt::Write;

use crate::book::{Book, Taken};
use crate::statement;
use crate::year::CLOSES;

/// The bytes of the most statements that a file gives.
pub const MOST_STATEMENTS: usize = CLOSES * statement::MOST_BYTES;

/// What billing a file reports: records answered, bytes consumed, bytes of statements written.
#[derive(Clone, Copy, Debug, Default, PartialEq, Eq)]
pub struct Billed {
    pub records: usize,
    pub used: usize,
    pub written: usize,
}

/// Bills up to the file's end, a number 1 or 2, or as many records as there are lent numbers.
/// The statements stand one after another, tightly.
pub fn bill(file: &[u8], numbers: &mut [u64], statements: &mut [u8]) -> Billed {
    let mut book = Book::new();
    let mut billed = Billed::default();
    for number in numbers {
        let rest = &file[billed.used..];
        if rest.is_empty() {
            break;
        }
        let taken = book.take(rest, &mut statements[billed.written..]);
        *number = taken.number;
        billed.records += 1;
        billed.used += taken.consumed;
        billed.written += taken.written;
        if taken.consumed == 0 {
            break;
        }
    }
    billed
}

/// Takes the records of a file up to its end or number 1 or 2; hands on each answer and statement.
pub fn take_each(file: &[u8], mut receive: impl FnMut(Taken, &[u8])) {
    let mut book = Book::new();
    let mut buffer = [0; statement::MOST_BYTES];
    let mut rest = file;
    while !rest.is_empty() {
        let taken = book.take(rest, &mut buffer);
        receive(taken, &buffer[..taken.written]);
        rest = match taken.consumed {
            0 => &[],
            consumed => &rest[consumed..],
        };
    }
}

/// The text that the bill program prints for a record file.
pub fn bill_file(file: &[u8]) -> Vec<u8> {
    let mut text = String::new();
    let mut position = 0;
    take_each(file, |taken, statement| {
        position += 1;
        print(&mut text, position, taken, statement).expect("a string takes all text");
    });
    text.into_bytes()
}

fn print(text: &mut String, position: usize, taken: Taken, statement: &[u8]) -> std::fmt::Result {
    if taken.number != 0 {
        writeln!(text, "N {position} {}", taken.number)
    } else if statement.is_empty() {
        Ok(())
    } else {
        print_statement(text, statement)
    }
}

fn print_statement(text: &mut String, statement: &[u8]) -> std::fmt::Result {
    let (month, owed) = statement::decode(statement);
    writeln!(text, "M {month}")?;
    for (seller, amounts) in owed.sellers.iter().enumerate() {
        if let Some(a) = amounts {
            writeln!(text, "S {seller} {} {} {}", a.compliance, a.test, a.credit)?;
        }
    }
    for (lse, credit) in owed.lses.iter().enumerate() {
        if let Some(credit) = credit {
            writeln!(text, "L {lse} {credit}")?;
        }
    }
    Ok(())
}
