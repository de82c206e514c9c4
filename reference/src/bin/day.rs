//! Writes the records of a day to standard output: `day SEED CALLS` those of a
//! crowded station, `day areas SEED CALLS` those of one with sixty areas, `day
//! fixed SEED CALLS` the same with the first of them fixed near the lowest frames,
//! `day pins GRANTS` and the same with `dense`, `bits` or `aligned` those of
//! grants that find no run, `day between PUTS` those of puts past areas that stand
//! between ordinary frames, `day moves TIMES` those of pages that go from one area
//! to others among sixty and back.

use std::env;
use std::io::{self, Write};
use std::process::ExitCode;

use reference::{day, searches};

fn records(words: &[&str]) -> Option<Vec<u8>> {
    let (&last, before) = words.split_last()?;
    let number = last.parse().ok()?;
    Some(match before {
        ["pins"] => searches::past_pins(33, number),
        ["dense"] => searches::past_pins(2, number),
        ["bits"] => searches::past_set_bits(2, 0, number),
        ["aligned"] => searches::past_set_bits(4, 2, number),
        ["between"] => searches::past_many_areas(number),
        ["moves"] => searches::moves_between_areas(number),
        ["areas", seed] => day::records_of_many_areas(seed.parse().ok()?, number),
        ["fixed", seed] => day::records_of_a_fixed_area(seed.parse().ok()?, number),
        [seed] => day::records(seed.parse().ok()?, number),
        _ => return None,
    })
}

fn main() -> ExitCode {
    let words: Vec<String> = env::args().skip(1).collect();
    let words: Vec<&str> = words.iter().map(String::as_str).collect();
    let Some(records) = records(&words) else {
        eprintln!("day: say a seed and a number of calls, with `areas` or `fixed` before them or not, or `pins`, `dense`,");
        eprintln!("     `bits` or `aligned` and a number of grants, `between` and one of puts, or `moves` and one of times");
        return ExitCode::FAILURE;
    };
    match io::stdout().write_all(&records) {
        Ok(()) => ExitCode::SUCCESS,
        Err(error) => {
            eprintln!("day: {error}");
            ExitCode::FAILURE
        }
    }
}
