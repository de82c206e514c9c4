//! Reads replay records from standard input and writes what each answers.

use std::io::{self, BufReader, BufWriter, Write};
use std::process::ExitCode;

fn run() -> io::Result<()> {
    let mut input = BufReader::new(io::stdin().lock());
    let mut output = BufWriter::new(io::stdout().lock());
    reference::replay::replay(&mut input, &mut output)?;
    output.flush()
}

fn main() -> ExitCode {
    match run() {
        Ok(()) => ExitCode::SUCCESS,
        Err(error) => {
            eprintln!("replay: {error}");
            ExitCode::FAILURE
        }
    }
}
