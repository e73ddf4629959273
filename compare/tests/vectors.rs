//! The vectors of the repository, which the gate runs through the proved programs too: record files
//! with their bills (`crates/bill`), and calls with their answers (`crates/cases`). `rt` lays them out.

use std::collections::BTreeSet;
use std::ffi::OsString;
use std::fs;
use std::path::{Path, PathBuf};

use settlement::{bill_file, lines, Book};

fn path(name: &str) -> PathBuf {
    let package = Path::new(env!("CARGO_MANIFEST_DIR"));
    package.join("../crates").join(name)
}

/// A file that has something in it.
fn text(name: &str) -> String {
    let text = fs::read_to_string(path(name)).expect(name);
    assert!(!text.is_empty(), "{name} is empty");
    text
}

/// The lines of `args` name the files, `-` standard input; `stdout` has their bills one after another.
#[test]
fn bills() {
    let (args, bills) = (text("bill/args"), text("bill/stdout"));
    let mut expected = bills.lines();
    for name in args.lines() {
        let file = match name {
            "-" => path("bill/stdin"),
            _ => path("bill/data").join(name),
        };
        let file = fs::read(file).expect(name);
        let printed = String::from_utf8(bill_file(&file)).expect("text");
        for line in printed.lines() {
            assert_eq!(Some(line), expected.next(), "{name}");
        }
    }
    assert_eq!(expected.next(), None, "behind the last bill");
}

#[test]
fn every_file_is_billed() {
    let args = text("bill/args");
    let named = args.lines().filter(|name| *name != "-");
    let named: BTreeSet<OsString> = named.map(OsString::from).collect();
    let files = fs::read_dir(path("bill/data")).expect("the files");
    let files: BTreeSet<OsString> = files
        .map(|file| file.expect("a file").file_name())
        .collect();
    assert!(!files.is_empty());
    assert_eq!(named, files);
}

/// Each line of `stdin` is a call's name and what it is given, or `new`, which begins another book.
#[test]
fn calls() {
    let (calls, answers) = (text("cases/stdin"), text("cases/stdout"));
    let mut expected = answers.lines();
    let mut book = Book::new();
    for call in calls.lines() {
        let (name, given) = call.split_once(' ').unwrap_or((call, ""));
        let answer = match name {
            "new" => {
                book = Book::new();
                continue;
            }
            "take" => lines::take_into(&mut book, given),
            "read" => lines::read(given),
            "write" => lines::write(given),
            "telemetry" => lines::telemetry(given),
            _ => panic!("no call: {call}"),
        };
        assert_eq!(Some(answer.trim_end()), expected.next(), "{call}");
    }
    assert_eq!(expected.next(), None, "behind the last answer");
}
