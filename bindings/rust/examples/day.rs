//! Makes the calls of replay records, which it reads from standard input, on the linked library, and prints how many were made and how many
//! were refused. `tools/benchmark instructions` counts what the library takes.

mod played;

use std::io;

fn main() -> io::Result<()> {
    let (mut made, mut refused) = (0, 0);
    played::play(|answer| {
        made += 1;
        refused += u64::from(answer.refusal != 0);
    })?;
    println!("{made} calls, {refused} refused");
    Ok(())
}
