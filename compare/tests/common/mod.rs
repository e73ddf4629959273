//! What several tests share.

use settlement::layout::MOST_NUMBERS;
use settlement::{read, take_each};

/// Hands on the numbers of each record of a file, none where it cannot be read, and the number that it
/// got.
pub fn each_record(file: &[u8], mut receive: impl FnMut(&[u64], u64)) {
    let mut start = 0;
    take_each(file, |taken, _| {
        let mut numbers = [0; MOST_NUMBERS];
        let read = read(&file[start..], &mut numbers);
        receive(&numbers[..read.count], taken.number);
        start += taken.consumed;
    });
}
