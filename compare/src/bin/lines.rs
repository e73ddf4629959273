//! Answers lines of calls from standard input: `lines take|read|write|telemetry`.

use std::io;

fn main() -> io::Result<()> {
    let lines = io::read_to_string(io::stdin())?;
    let answers = match std::env::args().nth(1).as_deref() {
        Some("take") => settlement::lines::take(&lines),
        Some("read") => settlement::lines::read(&lines),
        Some("write") => settlement::lines::write(&lines),
        Some("telemetry") => settlement::lines::telemetry(&lines),
        _ => return Err(io::Error::other("lines take|read|write|telemetry")),
    };
    print!("{answers}");
    Ok(())
}
