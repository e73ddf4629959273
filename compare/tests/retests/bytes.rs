//! The bytes of retests, and the limits of their fields.

use settlement::cases::record::encode;
use settlement::layout::{MOST_BYTES, MOST_NUMBERS};
use settlement::{read, write};

use crate::year::retest;

#[test]
fn bytes() {
    let number = |bytes: &[u8]| read(bytes, &mut [0; MOST_NUMBERS]).number;
    // 1001 0000 001 00 0001 0000001, then 000000 00000001110000100, then a filling bit.
    let record = [0x90, 0x20, 0x81, 0x00, 0x07, 0x08];
    assert_eq!(encode(&retest(&[[0, 900]])), record);
    // 1001 1111 111 10 1100 0000001, then 111111 11000011010100000, then a filling bit.
    let highest = [9, 15, 7, 2, 12, 1, 63, 100_000];
    let record = [0x9F, 0xF6, 0x01, 0xFF, 0x0D, 0x40];
    assert_eq!(encode(&highest), record);
    let mut numbers = [0; MOST_NUMBERS];
    assert_eq!(read(&record, &mut numbers).used, 6);
    assert_eq!(numbers[..8], highest);
    assert_eq!(number(&record[..5]), 2);
    assert_eq!(number(&[0x9F, 0xF6, 0x01, 0xFF, 0x0D, 0x41]), 4);
    for kind in [10, 11, 12, 13, 14, 15] {
        assert_eq!(number(&[kind << 4, 0x20, 0x81, 0x00, 0x07, 0x08]), 1);
    }
}

#[test]
fn limits() {
    let answer = |numbers: &[u64]| write(numbers, &mut [0; MOST_BYTES]).number;
    let entries: Vec<[u64; 2]> = (0..65).map(|id| [id, 0]).collect();
    assert_eq!(answer(&retest(&entries[..64])), 0);
    // 24 + 64 × 23 = 1,496 bits.
    assert_eq!(encode(&retest(&entries[..64])).len(), 187);
    assert_eq!(answer(&retest(&entries)), 3);
    assert_eq!(answer(&retest(&[])), 3);
    assert_eq!(answer(&[9, 16, 1, 0, 1, 1, 0, 900]), 3, "seller");
    assert_eq!(answer(&[9, 0, 8, 0, 1, 1, 0, 900]), 3, "zone");
    assert_eq!(answer(&[9, 0, 1, 3, 1, 1, 0, 900]), 3, "product");
    assert_eq!(answer(&[9, 0, 1, 0, 0, 1, 0, 900]), 3, "month");
    assert_eq!(answer(&[9, 0, 1, 0, 13, 1, 0, 900]), 3, "month");
    assert_eq!(answer(&retest(&[[0, 100_000]])), 0);
    assert_eq!(answer(&retest(&[[0, 100_001]])), 3);
    assert_eq!(answer(&retest(&[[1, 0], [1, 0]])), 5);
    assert_eq!(answer(&retest(&[[1, 0], [0, 0]])), 5);
}
