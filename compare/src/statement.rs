//! The bits of a statement.

use crate::bits::{BitReader, BitWriter};
use crate::exact::{narrow, widen};
use crate::owed::{Amounts, Owed};

/// The bytes of the largest statement.
pub const MOST_BYTES: usize = 354;

const MONTH: usize = 4;
const COUNT: usize = 5;
const ID: usize = 4;
const CENTS: usize = 42;

/// Leaves the statement in the buffer and gives its length.
pub fn encode(month: u8, amounts: &Owed, buffer: &mut [u8]) -> usize {
    let mut writer = BitWriter::new(buffer);
    writer.put(month.into(), MONTH);
    writer.put(widen(amounts.sellers.iter().flatten().count()), COUNT);
    writer.put(widen(amounts.lses.iter().flatten().count()), COUNT);
    for (seller, amounts) in (0..).zip(&amounts.sellers) {
        if let Some(amounts) = amounts {
            writer.put(seller, ID);
            put_cents(&mut writer, amounts.compliance);
            put_cents(&mut writer, amounts.test);
            put_cents(&mut writer, amounts.credit);
        }
    }
    for (lse, credit) in (0..).zip(&amounts.lses) {
        if let Some(credit) = credit {
            writer.put(lse, ID);
            put_cents(&mut writer, *credit);
        }
    }
    writer.finish()
}

fn put_cents(writer: &mut BitWriter, cents: i64) {
    let half = 1 << (CENTS - 1);
    assert!(
        (-half..half).contains(&cents),
        "{cents} cents do not fit 42 bits"
    );
    writer.put(cents.cast_unsigned(), CENTS);
}

/// The month and the amounts of a statement.
pub fn decode(statement: &[u8]) -> (u8, Owed) {
    let mut reader = BitReader::new(statement);
    let month = narrow(reader.take(MONTH));
    let sellers = reader.take(COUNT);
    let lses = reader.take(COUNT);
    let mut owed = Owed::default();
    for _ in 0..sellers {
        let seller: usize = narrow(reader.take(ID));
        owed.sellers[seller] = Some(Amounts {
            compliance: reader.take_signed(CENTS),
            test: reader.take_signed(CENTS),
            credit: reader.take_signed(CENTS),
        });
    }
    for _ in 0..lses {
        let lse: usize = narrow(reader.take(ID));
        owed.lses[lse] = Some(reader.take_signed(CENTS));
    }
    (month, owed)
}
