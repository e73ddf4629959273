//! Calls and answers as lines of text, as the published vectors have them.

use std::fmt::{self, Display, Formatter};

use crate::book::Book;
use crate::exact::widen;
use crate::numbers::{self, Read, Written};
use crate::telemetry::{reduction, Reduction, Sample};

/// Fills lent buffers beforehand, to show what a call leaves untouched.
const UNTOUCHED: u8 = 0xA5;

/// `HEX ROOM` of each record, all into one new book, to `number consumed statement`.
pub fn take(lines: &str) -> String {
    let mut book = Book::new();
    answer_each(lines, |line| take_into(&mut book, line))
}

/// `HEX ROOM` of a record into this book, to `number consumed statement`.
pub fn take_into(book: &mut Book, line: &str) -> String {
    let (bytes, room) = bytes_and_room(line);
    let mut buffer = vec![UNTOUCHED; room];
    let taken = book.take(&bytes, &mut buffer);
    let (statement, rest) = buffer.split_at(taken.written);
    assert!(rest.iter().all(|byte| *byte == UNTOUCHED));
    let statement = to_hex(statement);
    format!("{} {} {statement}", taken.number, taken.consumed)
}

/// `HEX ROOM` to `number count used numbers..`.
pub fn read(lines: &str) -> String {
    answer_each(lines, |line| {
        let (bytes, room) = bytes_and_room(line);
        let mut buffer = vec![u64::MAX; room];
        let Read {
            number,
            count,
            used,
        } = numbers::read(&bytes, &mut buffer);
        let (numbers, rest) = buffer.split_at(count);
        assert!(rest.iter().all(|number| *number == u64::MAX));
        join([number, widen(count), widen(used)].iter().chain(numbers))
    })
}

/// `ROOM numbers..` to `number written HEX`.
pub fn write(lines: &str) -> String {
    answer_each(lines, |line| {
        let mut words = line.split_whitespace();
        let room = words.next().and_then(|word| word.parse().ok());
        let numbers: Vec<u64> = words.map(|word| word.parse().expect("a number")).collect();
        let mut buffer = vec![UNTOUCHED; room.expect("a room")];
        let Written { number, used } = numbers::write(&numbers, &mut buffer);
        let (record, rest) = buffer.split_at(used);
        assert!(rest.iter().all(|byte| *byte == UNTOUCHED));
        format!("{number} {used} {}", to_hex(record))
    })
}

/// `pair BITS BITS` or `direct BITS` to `number kw`.
pub fn telemetry(lines: &str) -> String {
    answer_each(lines, |line| {
        let Reduction { number, kw } = reduction(sample(line));
        format!("{number} {kw}")
    })
}

fn answer_each(lines: &str, answer: impl FnMut(&str) -> String) -> String {
    let answers: Vec<String> = lines.lines().map(answer).collect();
    answers.iter().map(|answer| format!("{answer}\n")).collect()
}

fn bytes_and_room(line: &str) -> (Vec<u8>, usize) {
    let (hex, room) = line.split_once(' ').expect("bytes and a room");
    (from_hex(hex), room.parse().expect("a room"))
}

fn sample(line: &str) -> Sample {
    let words: Vec<&str> = line.split_whitespace().collect();
    match words.as_slice() {
        ["pair", expected, metered] => Sample::Pair {
            expected: from_bits(expected),
            metered: from_bits(metered),
        },
        ["direct", reduction] => Sample::Direct(from_bits(reduction)),
        _ => panic!("no sample: {line}"),
    }
}

fn from_bits(hex: &str) -> f32 {
    f32::from_bits(u32::from_str_radix(hex, 16).expect("32 bits in hexadecimal"))
}

impl Display for Sample {
    /// A sample as its line.
    fn fmt(&self, f: &mut Formatter) -> fmt::Result {
        match self {
            Sample::Pair { expected, metered } => {
                let [expected, metered] = [expected, metered].map(|load| load.to_bits());
                write!(f, "pair {expected:08x} {metered:08x}")
            }
            Sample::Direct(reduction) => write!(f, "direct {:08x}", reduction.to_bits()),
        }
    }
}

/// Numbers with a blank between them.
pub fn join<'a>(numbers: impl Iterator<Item = &'a u64>) -> String {
    let words: Vec<String> = numbers.map(u64::to_string).collect();
    words.join(" ")
}

/// Bytes in hexadecimal, `-` for none.
pub fn to_hex(bytes: &[u8]) -> String {
    if bytes.is_empty() {
        return "-".to_string();
    }
    bytes.iter().map(|byte| format!("{byte:02x}")).collect()
}

fn from_hex(hex: &str) -> Vec<u8> {
    let digits = if hex == "-" { "" } else { hex };
    (0..digits.len())
        .step_by(2)
        .map(|at| u8::from_str_radix(&digits[at..at + 2], 16).expect("hexadecimal"))
        .collect()
}
