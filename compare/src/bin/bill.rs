//! The bill program: a record file from standard input, its lines to standard output.

use std::io::{self, Read, Write};

fn main() -> io::Result<()> {
    let mut file = Vec::new();
    io::stdin().read_to_end(&mut file)?;
    io::stdout().write_all(&settlement::bill_file(&file))
}
