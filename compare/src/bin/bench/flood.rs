//! A million refused records through the two bill programs, as processes that read a file and
//! write one. The seconds of a million are the microseconds of one.

use std::fmt::Write;
use std::fs::{self, File};
use std::io;
use std::path::{Path, PathBuf};
use std::process::{self, Command};
use std::time::Instant;

use settlement::cases::record::{encode, file, Numbers};

use crate::race::Times;

const RECORDS: usize = 1_000_000;
const ROUNDS: usize = 3;

/// A record that is refused behind an opening, a registration and an LSE, however often it comes.
pub struct Flood {
    record: &'static [u64],
    number: u64,
}

pub const FLOODS: [Flood; 3] = [
    Flood {
        record: &[2, 1, 0, 1, 1, 0, 0, 10_000],
        number: 3,
    },
    Flood {
        record: &[1, 0, 9_500, 10_800],
        number: 6,
    },
    Flood {
        record: &[6, 2],
        number: 15,
    },
];

fn parties() -> [Numbers; 3] {
    [
        vec![1, 0, 9_500, 10_800],
        vec![2, 0, 0, 1, 1, 0, 1_000, 10_000],
        vec![3, 0, 3_000],
    ]
}

impl Flood {
    pub fn name(&self) -> String {
        format!("a million records refused with {}, `bill`", self.number)
    }

    /// The programs' times, each the fastest of some runs, which alternate. Every run prints a
    /// refusal for each record.
    pub fn race(&self) -> io::Result<Times> {
        let work = Work::new()?;
        fs::write(work.records(), self.records())?;
        let bill = self.bill();
        let rust = std::env::current_exe()?.with_file_name("bill");
        let rattle = Path::new(env!("CARGO_MANIFEST_DIR")).join("../crates/bill/out/bill");
        let mut best = Times::slowest();
        for _ in 0..ROUNDS {
            for (program, best) in [&rust, &rattle].into_iter().zip(&mut best.sides) {
                *best = best.min(work.time(program, &bill)?);
            }
        }
        Ok(best)
    }

    fn records(&self) -> Vec<u8> {
        [file(&parties()), encode(self.record).repeat(RECORDS)].concat()
    }

    fn bill(&self) -> String {
        let mut bill = String::new();
        for position in (parties().len() + 1..).take(RECORDS) {
            writeln!(bill, "N {position} {}", self.number).expect("a string takes all text");
        }
        bill
    }
}

/// A folder for the record file and the bill, removed at the end.
struct Work(PathBuf);

impl Work {
    fn new() -> io::Result<Self> {
        let folder = std::env::temp_dir().join(format!("flood-{}", process::id()));
        fs::create_dir(&folder)?;
        Ok(Work(folder))
    }

    fn records(&self) -> PathBuf {
        self.0.join("records")
    }

    /// Nanoseconds of a run of the program, which must give this bill.
    fn time(&self, program: &Path, expected: &str) -> io::Result<f64> {
        let bill = self.0.join("bill");
        let mut run = Command::new(program);
        run.stdin(File::open(self.records())?);
        run.stdout(File::create(&bill)?);
        let start = Instant::now();
        let status = run.status()?;
        let time = start.elapsed().as_secs_f64() * 1e9;
        assert!(status.success(), "{}: {status}", program.display());
        assert!(
            fs::read_to_string(bill)? == expected,
            "{} prints another bill",
            program.display()
        );
        Ok(time)
    }
}

impl Drop for Work {
    fn drop(&mut self) {
        // A folder that is left over in the system's temporary one does no harm.
        let _ = fs::remove_dir_all(&self.0);
    }
}
