//! Makes the calls of replay records, which it reads from standard input, on the linked library, and prints the memory report of the machine
//! that they leave: what /proc/meminfo would show. `tools/meminfo` runs it on a day.

mod played;

use reference::Call;
use std::io::{self, Write};
use std::process;
use szk::Machine;

fn run() -> io::Result<()> {
    let mut held = played::play(|_| ())?;
    held.buffer = vec![0; Machine::REPORT_ENOUGH];
    let answer = held.make(&Call::Report { length: Machine::REPORT_ENOUGH });
    if answer.refusal != 0 {
        return Err(io::Error::other("no machine is booted"));
    }
    io::stdout().write_all(&held.buffer[..answer.first as usize])
}

fn main() {
    if let Err(error) = run() {
        eprintln!("meminfo: {error}");
        process::exit(1);
    }
}
