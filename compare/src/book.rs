//! The book: the year it holds, and taking a record into it.

use crate::account;
use crate::counter;
use crate::packed::Packed;
use crate::records::Record;
use crate::statement;
use crate::year::Year;

/// What taking a record reports, and the bytes of the statement it left in the buffer.
#[derive(Clone, Copy, Debug, PartialEq, Eq)]
pub struct Taken {
    pub number: u64,
    pub consumed: usize,
    pub written: usize,
}

#[derive(Default)]
pub struct Book {
    year: Option<Year>,
}

impl Book {
    pub fn new() -> Self {
        Book::default()
    }

    pub fn year(&self) -> Option<&Year> {
        self.year.as_ref()
    }

    /// Takes the first record of the bytes; an accepted close leaves its statement in the buffer.
    pub fn take(&mut self, bytes: &[u8], buffer: &mut [u8]) -> Taken {
        let taken = |number, consumed, written| Taken {
            number,
            consumed,
            written,
        };
        let packed = match Packed::parse(bytes) {
            Ok(packed) => packed,
            Err(refusal) => return taken(refusal.number, refusal.length, 0),
        };
        let length = packed.layout.bytes();
        let record = Record::from(&packed);
        match counter::ask_all(self.year.as_ref(), &record, buffer.len()) {
            Err(number) => taken(number, length, 0),
            Ok(()) => taken(0, length, self.accept(record, buffer)),
        }
    }

    /// Enters an accepted record; gives the length of a close's statement.
    fn accept(&mut self, record: Record, buffer: &mut [u8]) -> usize {
        match (record, &mut self.year) {
            (Record::Opening(opening), year) => *year = Some(Year::new(opening)),
            (Record::Registration(registration), Some(year)) => {
                year.registrations[usize::from(registration.id)] = Some(registration);
            }
            (Record::Lse(lse), Some(year)) => year.lses[usize::from(lse.id)] = Some(lse),
            (Record::Event(event), Some(year)) => year.add_event(event),
            (Record::Test(test), Some(year)) => year.tests.push(test),
            (Record::Close { month }, Some(year)) => return close(year, month, buffer),
            (Record::Clearing(clearing), Some(year)) => year.add_clearing(&clearing),
            (Record::Retest(retest), Some(year)) => year.add_retest(&retest),
            (_, None) => unreachable!("question 6 asks for a year"),
        }
        0
    }
}

/// Closes a month; leaves its statement in the buffer and gives that one's length.
fn close(year: &mut Year, month: u8, buffer: &mut [u8]) -> usize {
    year.fix_rates();
    let to_date = account::to_date(year, month);
    let amounts = to_date.less(&year.owed);
    year.owed = to_date;
    year.closed = month;
    statement::encode(month, &amounts, buffer)
}
