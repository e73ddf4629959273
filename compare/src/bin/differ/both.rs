//! One call put to both implementations, each with buffers of its own filled with a pattern.

use std::fmt::{self, Debug, Display, Formatter};

use settlement::cases::late::comes_late;
use settlement::exact::narrow;
use settlement::layout::MOST_NUMBERS;
use settlement::lines::to_hex;
use settlement::telemetry::{self, Reduction, Sample};
use settlement::{piermint, statement, Billed, Taken, Written, MOST_STATEMENTS};

/// Nothing, or what differs, to be printed.
pub type Compared<T = ()> = Result<T, String>;

/// The numbers: 0, of a record's refusal 1 to 17, 20 and 21, and of a sample's 18 and 19.
const NUMBERS: usize = 22;

/// The kinds that four bits give, also those that are no record's.
const KINDS: usize = 16;

/// The kind of events that measure both periods apart.
const APART: usize = 8;

/// How many times each number was given.
#[derive(Clone, Copy, Default)]
struct Seen([u64; NUMBERS]);

impl Seen {
    fn add(&mut self, number: u64) {
        self.0[narrow::<usize>(number)] += 1;
    }

    fn all(&self) -> u64 {
        self.0.iter().sum()
    }

    fn accepted(&self) -> u64 {
        self.0[0]
    }
}

/// How much was compared.
#[derive(Default)]
pub struct Both {
    files: u64,
    /// Of the records billed with ample buffers.
    by_kind: [Seen; KINDS],
    /// Of the events among them that came late.
    late_events: Seen,
    bills: u64,
    of_bills: Seen,
    reads: Seen,
    writes: Seen,
    samples: Seen,
    /// Records whose reductions were made from samples.
    made: u64,
}

impl Both {
    /// Bills a file with room for all numbers and statements, as a whole and record by record.
    pub fn bill_file(&mut self, file: &[u8]) -> Compared<Billed> {
        let (billed, _) = bill(file, file.len() + 1, MOST_STATEMENTS + 1)?;
        self.files += 1;
        let (mut rust, mut rattle) = (settlement::Book::new(), piermint::Book::new());
        let mut rest = file;
        while !rest.is_empty() {
            let is_late = is_late_event(&rust, rest);
            let taken = take(&mut rust, &mut rattle, rest, statement::MOST_BYTES)?;
            self.by_kind[usize::from(rest[0] >> 4)].add(taken.number);
            if is_late {
                self.late_events.add(taken.number);
            }
            rest = match taken.consumed {
                0 => &[],
                consumed => &rest[consumed..],
            };
        }
        Ok(billed)
    }

    /// Bills a file with lent slices of these lengths.
    pub fn bill(&mut self, file: &[u8], numbers: usize, statements: usize) -> Compared {
        let (_, numbers) = bill(file, numbers, statements)?;
        self.bills += 1;
        numbers
            .into_iter()
            .for_each(|number| self.of_bills.add(number));
        Ok(())
    }

    /// Reads a record; gives its numbers if it is accepted.
    pub fn read(&mut self, bytes: &[u8], room: usize) -> Compared<Option<Vec<u64>>> {
        let (read, numbers) = same(
            lend(room, |numbers| settlement::read(bytes, numbers)),
            lend(room, |numbers| piermint::read(bytes, numbers)),
            || format!("read with room for {room}: {}", to_hex(bytes)),
        )?;
        self.reads.add(read.number);
        Ok((read.number == 0).then(|| numbers[PAST..][..read.count].to_vec()))
    }

    /// Writes a record.
    pub fn write(&mut self, numbers: &[u64], room: usize) -> Compared {
        let (written, _) = same(
            lend(room, |bytes| settlement::write(numbers, bytes)),
            lend(room, |bytes| piermint::write(numbers, bytes)),
            || format!("write with room for {room}: {numbers:?}"),
        )?;
        self.writes.add(written.number);
        Ok(())
    }

    /// Answers a sample.
    pub fn sample(&mut self, sample: Sample) -> Compared<Reduction> {
        let reduction = reduction(sample)?;
        self.samples.add(reduction.number);
        Ok(reduction)
    }

    /// Writes a record made from samples with the engine; it must be this one.
    pub fn write_made(&mut self, numbers: &[u64], record: &[u8]) -> Compared {
        let used = record.len();
        let mut bytes = vec![0; used];
        let written = piermint::write(numbers, &mut bytes);
        same(
            (Written { number: 0, used }, record),
            (written, &bytes),
            || format!("write of a record made from samples: {numbers:?}"),
        )?;
        self.made += 1;
        Ok(())
    }

    /// How many records were billed with ample buffers.
    pub fn records(&self) -> u64 {
        self.by_kind.iter().map(Seen::all).sum()
    }
}

/// Bills a file with both; gives the answer and the records' numbers.
fn bill(file: &[u8], numbers: usize, statements: usize) -> Compared<(Billed, Vec<u64>)> {
    type Bill = fn(&[u8], &mut [u64], &mut [u8]) -> Billed;
    let call = |bill: Bill| {
        lend(numbers, |numbers| {
            lend(statements, |statements| bill(file, numbers, statements))
        })
    };
    let ((billed, _), numbers) = same(call(settlement::bill), call(piermint::bill), || {
        let file = to_hex(file);
        format!("bill with room for {numbers} numbers and {statements} bytes: {file}")
    })?;
    Ok((billed, numbers[PAST..][..billed.records].to_vec()))
}

/// Is the record at the front an event that can be read and comes late?
fn is_late_event(book: &settlement::Book, bytes: &[u8]) -> bool {
    let mut numbers = [0; MOST_NUMBERS];
    settlement::read(bytes, &mut numbers);
    let z = book.year().map_or(0, |year| year.closed);
    matches!(numbers, [4 | 8, _, month, ..] if comes_late(narrow(month), z))
}

/// Takes the record at the front with a book of each; one that is refused leaves the cells as they were.
fn take(
    rust: &mut settlement::Book,
    rattle: &mut piermint::Book,
    bytes: &[u8],
    room: usize,
) -> Compared<Taken> {
    let before = rattle.clone();
    let (taken, _) = same(
        lend(room, |buffer| rust.take(bytes, buffer)),
        lend(room, |buffer| rattle.take(bytes, buffer)),
        || format!("take with room for {room} bytes: {}", to_hex(bytes)),
    )?;
    if taken.number != 0 && *rattle != before {
        return Err(format!("a refusal changes cells: {}", to_hex(bytes)));
    }
    Ok(taken)
}

/// Answers a sample with both.
pub fn reduction(sample: Sample) -> Compared<Reduction> {
    same(
        telemetry::reduction(sample),
        piermint::reduction(sample),
        || format!("sample: {sample}"),
    )
}

fn same<T: Debug + PartialEq>(rust: T, rattle: T, call: impl Fn() -> String) -> Compared<T> {
    if rust == rattle {
        Ok(rust)
    } else {
        Err(format!("{}\nRust   {rust:?}\nRattle {rattle:?}", call()))
    }
}

/// The elements before and after a lent slice, which are compared too.
const PAST: usize = 8;

/// Lends a slice of a filled buffer to the call; gives its answer and the whole buffer.
fn lend<T: From<u8>, R>(room: usize, call: impl FnOnce(&mut [T]) -> R) -> (R, Vec<T>) {
    let pattern = |at: usize| T::from(at.to_le_bytes()[0].wrapping_mul(37) ^ 0xA5);
    let mut buffer: Vec<T> = (0..PAST + room + PAST).map(pattern).collect();
    let answer = call(&mut buffer[PAST..PAST + room]);
    (answer, buffer)
}

impl Display for Both {
    fn fmt(&self, f: &mut Formatter) -> fmt::Result {
        let [files, bills, records] = [self.files, self.bills, self.records()];
        let [reads, writes, samples] =
            [self.reads, self.writes, self.samples].map(|seen| seen.all());
        let made = self.made;
        writeln!(f, "{files} files of {records} records, ample buffers")?;
        for (events, what) in [
            (self.late_events, "came late"),
            (self.by_kind[APART], "had two reductions an entry"),
        ] {
            let [all, accepted] = [events.all(), events.accepted()];
            writeln!(f, "{all} events {what}, {accepted} of them accepted")?;
        }
        writeln!(f, "{bills} bills with other buffers")?;
        writeln!(f, "{reads} reads, {writes} writes")?;
        writeln!(f, "{samples} samples, {made} records made from samples\n")?;
        self.print_kinds(f)?;
        self.print_numbers(f)
    }
}

impl Both {
    fn print_kinds(&self, f: &mut Formatter) -> fmt::Result {
        let heads = ["records", "accepted", "refused"];
        print_line(f, "kind", heads)?;
        for (kind, seen) in self.by_kind.iter().enumerate() {
            let [all, accepted] = [seen.all(), seen.accepted()];
            if all > 0 {
                print_line(f, kind, [all, accepted, all - accepted])?;
            }
        }
        writeln!(f)
    }

    fn print_numbers(&self, f: &mut Formatter) -> fmt::Result {
        let heads = ["records", "other bills", "reads", "writes", "samples"];
        print_line(f, "number", heads)?;
        for number in 0..NUMBERS {
            let records = self.by_kind.iter().map(|seen| seen.0[number]).sum();
            let others = [self.of_bills, self.reads, self.writes, self.samples];
            let [bills, reads, writes, samples] = others.map(|seen| seen.0[number]);
            print_line(f, number, [records, bills, reads, writes, samples])?;
        }
        Ok(())
    }
}

fn print_line<T: Display, const N: usize>(
    f: &mut Formatter,
    name: impl Display,
    columns: [T; N],
) -> fmt::Result {
    write!(f, "{name:>6}")?;
    for column in columns {
        write!(f, "{column:>13}")?;
    }
    writeln!(f)
}
