//! The bytes of these events, the limits of their fields, and the room that reading asks for.

use settlement::cases::record::{encode, Numbers};
use settlement::layout::{MOST_BYTES, MOST_NUMBERS};
use settlement::{read, write, Book, Read, Taken};

use crate::year::{apart, in_month};

fn number(bytes: &[u8]) -> u64 {
    read(bytes, &mut [0; MOST_NUMBERS]).number
}

#[test]
fn bytes() {
    // 1000 001 0001 00000 0000001, then 000000 00000001001011000 00000100000110100, then a filling bit.
    let record = [0x82, 0x20, 0x02, 0x00, 0x09, 0x60, 0x10, 0x68];
    assert_eq!(encode(&apart(&[], &[[0, 600, 2_100]])), record);
    // 1000 111 1100 00001 0000001, then 1111 11110100001001000000, then
    // 111111 11000011010100000 11000011010011111, then a filling bit.
    let highest = [8, 7, 12, 1, 1, 15, 1_000_000, 63, 100_000, 99_999];
    let record = [
        0x8F, 0x81, 0x03, 0xFE, 0x84, 0x81, 0xFE, 0x1A, 0x83, 0x0D, 0x3E,
    ];
    assert_eq!(encode(&highest), record);
    let mut numbers = [0; MOST_NUMBERS];
    let accepted = Read {
        number: 0,
        count: 10,
        used: 11,
    };
    assert_eq!(read(&record, &mut numbers), accepted);
    assert_eq!(numbers[..10], highest);
    assert_eq!(number(&record[..10]), 2);
    assert_eq!(number(&record[..2]), 2, "not even the counts");
    let mut filled = record;
    filled[10] |= 1;
    assert_eq!(number(&filled), 4);
    assert_eq!(number(&[0x80]), 2, "a kind");
    assert_eq!(number(&[0xA0]), 1, "no kind");
}

/// So many entries and, for each of these sellers, a deficit.
fn of_counts(deficits: u64, entries: u64) -> Numbers {
    let deficits: Vec<[u64; 2]> = (0..deficits).map(|seller| [seller, 1]).collect();
    let entries: Vec<[u64; 3]> = (0..entries).map(|id| [id, 0, 0]).collect();
    apart(&deficits, &entries)
}

#[test]
fn counts() {
    let answer = |numbers: &[u64]| write(numbers, &mut [0; MOST_BYTES]).number;
    assert_eq!(answer(&of_counts(0, 1)), 0);
    assert_eq!(answer(&of_counts(16, 64)), 0);
    assert_eq!(answer(&of_counts(17, 64)), 3);
    assert_eq!(answer(&of_counts(16, 65)), 3);
    assert_eq!(answer(&of_counts(0, 0)), 3);
    // 5 + 16 × 2 + 64 × 3 = 229 numbers, and 23 + 16 × 24 + 64 × 40 = 2,967 bits.
    let longest = of_counts(16, 64);
    assert_eq!([longest.len(), MOST_NUMBERS], [229; 2]);
    assert_eq!([encode(&longest).len(), MOST_BYTES], [371; 2]);
}

#[test]
fn the_longest_as_written() {
    // 23 + 31 × 24 + 127 × 40 = 5,847 bits.
    let record = encode(&of_counts(31, 127));
    assert_eq!(record.len(), 731);
    let take = |bytes: &[u8]| {
        let Taken {
            number, consumed, ..
        } = Book::new().take(bytes, &mut []);
        (number, consumed)
    };
    assert_eq!(take(&record), (3, 731));
    assert_eq!(take(&record[..730]), (2, 0));
    assert_eq!(take(&[&record[..], &[0x61]].concat()), (3, 731));
}

#[test]
fn limits() {
    let answer = |numbers: &[u64]| write(numbers, &mut [0; MOST_BYTES]).number;
    let event = |entry| apart(&[], &[entry]);
    assert_eq!(answer(&event([63, 100_000, 100_000])), 0);
    assert_eq!(answer(&event([63, 100_001, 0])), 3, "on-peak");
    assert_eq!(answer(&event([63, 0, 100_001])), 3, "off-peak");
    assert_eq!(answer(&event([64, 0, 0])), 3, "registration");
    let of = |month| in_month(month, event([0, 0, 0]));
    assert_eq!([0, 1, 12, 13].map(|month| answer(&of(month))), [3, 0, 0, 3]);
    assert_eq!(answer(&[8, 8, 1, 0, 1, 0, 0, 0]), 3, "area");
    let with = |deficit| apart(&[deficit], &[[0, 0, 0]]);
    assert_eq!(answer(&with([15, 1_000_000])), 0);
    assert_eq!(answer(&with([15, 1_000_001])), 3);
    assert_eq!(answer(&with([15, 0])), 3);
    assert_eq!(answer(&with([16, 1])), 3);
    assert_eq!(answer(&[8, 1, 1, 0, 1, 0, 600]), 3, "a single reduction");
    assert_eq!(answer(&[8, 1, 1, 0, 1, 0, 600, 600, 600]), 3, "a third");
    assert_eq!(answer(&[8, 1, 1, 3, 0, 1, 0, 600]), 3, "with a period");
}

#[test]
fn ids_that_do_not_rise() {
    let both = |numbers: &[u64]| {
        let written = write(numbers, &mut [0; MOST_BYTES]).number;
        [written, number(&encode(numbers))]
    };
    let entries = |ids: [u64; 2]| apart(&[], &ids.map(|id| [id, 5, 9]));
    assert_eq!(both(&entries([1, 2])), [0; 2]);
    assert_eq!(both(&entries([1, 1])), [5; 2]);
    assert_eq!(both(&entries([2, 1])), [5; 2]);
    let deficits = |sellers: [u64; 2]| apart(&sellers.map(|seller| [seller, 1]), &[[0, 5, 9]]);
    assert_eq!(both(&deficits([1, 2])), [0; 2]);
    assert_eq!(both(&deficits([1, 1])), [5; 2]);
    assert_eq!(both(&deficits([2, 1])), [5; 2]);
}

#[test]
fn room_to_read_and_to_write() {
    let records: [&[u64]; 9] = [
        &[1, 0, 9_500, 10_800],
        &[2, 0, 0, 1, 1, 0, 1_000, 10_000],
        &[3, 0, 3_000],
        &[4, 1, 1, 1, 0, 1, 0, 600],
        &[5, 1, 0, 1, 0, 1, 0, 600],
        &[6, 1],
        &[7, 0, 100, 1],
        &[8, 1, 1, 0, 1, 0, 600, 700],
        &[9, 0, 1, 0, 1, 1, 0, 900],
    ];
    for numbers in records {
        let record = encode(numbers);
        for room in [0, numbers.len(), 166, 228] {
            let mut buffer = vec![u64::MAX; room];
            let refused = Read {
                number: 16,
                ..Read::default()
            };
            assert_eq!(read(&record, &mut buffer), refused, "{numbers:?}");
            assert!(buffer.iter().all(|number| *number == u64::MAX));
        }
        for room in [229, 230] {
            let mut buffer = vec![u64::MAX; room];
            assert_eq!(read(&record, &mut buffer).number, 0, "{numbers:?}");
            let (read, rest) = buffer.split_at(numbers.len());
            assert_eq!(read, numbers);
            assert!(rest.iter().all(|number| *number == u64::MAX));
        }
        let written = |room: usize| write(numbers, &mut vec![0; room]).number;
        assert_eq!([record.len() - 1, record.len()].map(written), [16, 0]);
    }
    let repeated = encode(&apart(&[], &[[0, 0, 0], [0, 0, 0]]));
    assert_eq!(read(&repeated, &mut [0; 228]).number, 5, "before 16");
}
