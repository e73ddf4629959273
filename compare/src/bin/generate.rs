//! Writes one case to standard output: `generate FORM SEED` a record file, of a form of the
//! library's list, `generate take|read|write|telemetry SEED` lines of calls.

use std::io::{self, Write};

use settlement::cases::samples::samples;
use settlement::cases::{self, Call};
use settlement::exact::widen;
use settlement::lines::{join, to_hex};
use settlement::telemetry::Sample;

fn main() -> io::Result<()> {
    let arguments: Vec<String> = std::env::args().collect();
    let case = match arguments.as_slice() {
        [_, form, seed] => seed.parse().ok().and_then(|seed| case(form, seed)),
        _ => None,
    };
    let usage = || {
        let forms = cases::FORMS.map(|form| form.name).join("|");
        io::Error::other(format!("generate {forms}|take|read|write|telemetry SEED"))
    };
    io::stdout().write_all(&case.ok_or_else(usage)?)
}

fn case(form: &str, seed: u64) -> Option<Vec<u8>> {
    match form {
        "take" => Some(call_lines(&cases::take_calls(seed))),
        "read" => Some(call_lines(&cases::read_calls(seed))),
        "write" => Some(write_lines(&cases::write_calls(seed))),
        "telemetry" => Some(sample_lines(&samples(seed))),
        _ => {
            let form = cases::FORMS.iter().find(|known| known.name == form)?;
            Some((form.file)(seed))
        }
    }
}

fn call_lines(calls: &[Call]) -> Vec<u8> {
    let line = |call: &Call| format!("{} {}\n", to_hex(&call.bytes), call.room);
    calls.iter().map(line).collect::<String>().into_bytes()
}

fn write_lines(calls: &[(usize, Vec<u64>)]) -> Vec<u8> {
    let line = |(room, numbers): &(usize, Vec<u64>)| {
        let words = join([widen(*room)].iter().chain(numbers));
        format!("{words}\n")
    };
    calls.iter().map(line).collect::<String>().into_bytes()
}

fn sample_lines(samples: &[Sample]) -> Vec<u8> {
    let line = |sample: &Sample| format!("{sample}\n");
    samples.iter().map(line).collect::<String>().into_bytes()
}
