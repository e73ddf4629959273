//! Times the proved engine (Rattle) and this implementation (Rust) on the same inputs. Prints the
//! table of docs/SPEED.md. `bench --before`, with the feature `before`: closes and years
//! of the earlier engine that is linked in and of the present one.

mod flood;
mod inputs;
mod race;
mod table;

use std::hint::black_box;
use std::io;
use std::process::ExitCode;

#[cfg(feature = "before")]
use settlement::before;
use settlement::cases::record::{encode, Numbers};
use settlement::layout::{MOST_BYTES, MOST_NUMBERS};
use settlement::{piermint, Billed, Read, Written, MOST_STATEMENTS};

use flood::FLOODS;
use inputs::{records, Inputs};
use race::{race, Times};
use table::{row, Row};

const OPENING: (u64, usize) = (1, 1);
const REGISTRATIONS: (u64, usize) = (2, 64);
const LSES: (u64, usize) = (3, 16);
const EVENTS: (u64, usize) = (4, 16);
const TESTS: (u64, usize) = (5, 24);
const CLOSES: (u64, usize) = (6, 15);
const CLEARINGS: (u64, usize) = (7, 256);
const EVENTS_APART: (u64, usize) = (8, 16);

/// What the times of Rattle are to be at most, as a multiple of Rust's.
const READ_OR_WRITE: &str = "1.0";
const TAKE: &str = "3.0";
const TAKE_EVENT: &str = "1.5";
const CLOSE: &str = "1.0";
const CLOSE_NONE: &str = "2.0";
const ENTRY: &str = "0.8";
const YEAR: &str = "1.2";
const NO_GOAL: &str = "";

type Bill = fn(&[u8], &mut [u64], &mut [u8]) -> Billed;

fn main() -> io::Result<ExitCode> {
    let arguments: Vec<String> = std::env::args().skip(1).collect();
    let words: Vec<&str> = arguments.iter().map(String::as_str).collect();
    match words.as_slice() {
        [] => rust_and_rattle()?,
        #[cfg(feature = "before")]
        ["--before"] => before_and_now(),
        _ => {
            eprintln!("usage: bench [--before], the latter with the feature `before`");
            return Ok(ExitCode::from(2));
        }
    }
    Ok(ExitCode::SUCCESS)
}

fn rust_and_rattle() -> io::Result<()> {
    println!("| | goal | Rust | Rattle | ratio |");
    println!("|---|---|---|---|---|");
    let print = |rows: &[Row]| rows.iter().for_each(Row::print_with_goal);
    let records = records();
    print(&read(&records));
    print(&write(&records));
    let inputs = Inputs::new(0);
    let sides = [settlement::bill, piermint::bill];
    print(&take_records(sides, &inputs));
    print(&close_months(sides, &inputs));
    print(&bill_years(sides, &inputs));
    print(&measure_apart(sides, &Inputs::new(100)));
    for flood in FLOODS {
        print(&[row(flood.name(), NO_GOAL, flood.race()?)]);
    }
    Ok(())
}

/// What a close and a year cost with an earlier engine and with the present one.
#[cfg(feature = "before")]
fn before_and_now() {
    println!("| | before | now | ratio |");
    println!("|---|---|---|---|");
    let inputs = Inputs::new(0);
    let sides = [before::bill, piermint::bill];
    close_months(sides, &inputs).iter().for_each(Row::print);
    bill_years(sides, &inputs).iter().for_each(Row::print);
}

/// Taking is timed as billing a file less billing it without the records in question.
fn take_records(sides: [Bill; 2], inputs: &Inputs) -> [Row; 6] {
    let sets = [
        inputs.files(&[OPENING]),
        inputs.files(&[OPENING, REGISTRATIONS]),
        inputs.files(&[OPENING, LSES]),
        inputs.files(&[OPENING, REGISTRATIONS, CLEARINGS]),
        inputs.files(&[OPENING, REGISTRATIONS, LSES]),
        inputs.files(&[OPENING, REGISTRATIONS, LSES, EVENTS]),
        inputs.files(&[OPENING, REGISTRATIONS, LSES, TESTS]),
    ];
    let [opening, registrations, lses, clearings, parties, events, tests] = bill(sides, sets);
    let registration = registrations.less(opening).per(REGISTRATIONS.1);
    let clearing = clearings.less(registrations).per(CLEARINGS.1);
    let event = events.less(parties).per(EVENTS.1);
    let test = tests.less(parties).per(TESTS.1);
    [
        row("a new book that takes an opening", NO_GOAL, opening),
        row("taking a registration", TAKE, registration),
        row("taking an LSE", TAKE, lses.less(opening).per(LSES.1)),
        row("taking a clearing", TAKE, clearing),
        row("taking an event of 64 entries", TAKE_EVENT, event),
        row("taking a test of 2 or 3 entries", NO_GOAL, test),
    ]
}

/// Closing is timed as billing 15 closes less billing the file without them, a mean of the 15.
fn close_months(sides: [Bill; 2], inputs: &Inputs) -> [Row; 5] {
    let close = |events| {
        let open = [OPENING, REGISTRATIONS, LSES, (EVENTS.0, events)];
        let closed = [&open[..], &[CLOSES]].concat();
        let [open, closed] = bill(sides, [inputs.files(&open), inputs.files(&closed)]);
        closed.less(open).per(CLOSES.1)
    };
    let [none, one, half, all] = [0, 1, EVENTS.1 / 2, EVENTS.1].map(close);
    let entry = all.less(none).per(64 * EVENTS.1);
    [
        row("closing with 16 events of 64 entries", CLOSE, all),
        row("closing with 8", NO_GOAL, half),
        row("closing with 1", NO_GOAL, one),
        row("closing with none", CLOSE_NONE, none),
        row("each entry more in a close", ENTRY, entry),
    ]
}

fn bill_years(sides: [Bill; 2], inputs: &Inputs) -> [Row; 2] {
    let [year, cleared] = bill(sides, inputs.full_years());
    [
        row("a full year, 136 records", YEAR, year),
        row("a full year with 256 clearings", NO_GOAL, cleared),
    ]
}

/// Taking events that measure both periods apart, and closing with them.
fn measure_apart(sides: [Bill; 2], inputs: &Inputs) -> [Row; 2] {
    let parties = [OPENING, REGISTRATIONS, LSES];
    let events = [&parties[..], &[EVENTS_APART]].concat();
    let closes = [&events[..], &[CLOSES]].concat();
    let sets = [&parties[..], &events, &closes].map(|kinds| inputs.files(kinds));
    let [parties, events, closes] = bill(sides, sets);
    let event = events.less(parties).per(EVENTS_APART.1);
    let close = closes.less(events).per(CLOSES.1);
    [
        row(
            "taking an event of 64 entries of two reductions",
            NO_GOAL,
            event,
        ),
        row("closing with 16 of these", NO_GOAL, close),
    ]
}

/// Reading each of the records, which are accepted.
fn read(records: &[(&str, Numbers)]) -> Vec<Row> {
    type Call = fn(&[u8], &mut [u64]) -> Read;
    let input = |(_, numbers): &(&str, Numbers)| {
        let record = encode(numbers);
        let accepted = Read {
            number: 0,
            count: numbers.len(),
            used: record.len(),
        };
        (record, accepted)
    };
    let inputs: Vec<_> = records.iter().map(input).collect();
    let mut lent = [0; MOST_NUMBERS];
    let call = |call: Call, record: &Vec<u8>| call(black_box(record), black_box(&mut lent));
    let times = race(&inputs, call, [settlement::read, piermint::read]);
    rows_of("reading", records, times)
}

/// Writing each of the records, which are accepted.
fn write(records: &[(&str, Numbers)]) -> Vec<Row> {
    type Call = fn(&[u64], &mut [u8]) -> Written;
    let input = |(_, numbers): &(&str, Numbers)| {
        let used = encode(numbers).len();
        (numbers.clone(), Written { number: 0, used })
    };
    let inputs: Vec<_> = records.iter().map(input).collect();
    let mut lent = [0; MOST_BYTES];
    let call = |call: Call, numbers: &Numbers| call(black_box(numbers), black_box(&mut lent));
    let times = race(&inputs, call, [settlement::write, piermint::write]);
    rows_of("writing", records, times)
}

/// A row for each of the records, by what is done with it.
fn rows_of(doing: &str, records: &[(&str, Numbers)], times: Vec<Times>) -> Vec<Row> {
    let rows = records.iter().zip(times);
    rows.map(|((name, _), times)| row(format!("{doing} {name}"), READ_OR_WRITE, times))
        .collect()
}

/// For each of the sets of files, whose records are all accepted, the mean time of billing one.
fn bill<const N: usize>(sides: [Bill; 2], sets: [Vec<Vec<u8>>; N]) -> [Times; N] {
    let mut numbers = [0; 512];
    let mut statements = [0; MOST_STATEMENTS];
    let mut call = |call: Bill, file: &&Vec<u8>| {
        let (numbers, statements) = (black_box(&mut numbers), black_box(&mut statements));
        let billed = call(black_box(file), numbers, statements);
        let is_refused = |number: &u64| *number != 0;
        (billed, numbers[..billed.records].iter().any(is_refused))
    };
    let input = |file| {
        let (billed, any_refused) = call(settlement::bill, &file);
        assert!(
            billed.used == file.len() && !any_refused,
            "is all accepted?"
        );
        (file, (billed, any_refused))
    };
    let inputs: Vec<_> = sets.iter().flatten().map(input).collect();
    let mut times = race(&inputs, call, sides).into_iter();
    sets.each_ref().map(|set| {
        let of_set: Times = times.by_ref().take(set.len()).sum();
        of_set.per(set.len())
    })
}
