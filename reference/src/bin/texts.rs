//! Reads regions texts from standard input, one a line. Writes for each what reading it gives, what a boot of machine A with it answers, and the
//! areas that the machine then has.

use reference::machine::{Machine, Tables};
use reference::regions;
use reference::replay::BITMAP_WORDS;
use std::io::{self, Read, Write};

fn line_for(text: &[u8]) -> String {
    let mut line = match regions::parse(text) {
        Ok(list) => {
            let each = list.iter().map(|r| format!(" region {} {} {}", r.size, r.start, r.alignment));
            format!("read 0 0 {}{}", list.len(), each.collect::<String>())
        }
        Err((number, place)) => format!("read {number} {place} 0"),
    };
    let (mut marks, mut words, mut bitmap, mut owners) = ([0; 32], [0; 32], [0; BITMAP_WORDS], [0; 32]);
    let mut tables = Tables { marks: &mut marks, words: &mut words, bitmap: &mut bitmap, owners: &mut owners };
    let mut machine = Machine::fresh();
    let answer = machine.boot(&mut tables, 4, 32, 2, text);
    line += &format!(" boot {} {} {}", answer.refusal, answer.first, answer.second);
    for area in machine.used_areas() {
        line += &format!(" area {} {} {}", area.base, area.count, area.order);
    }
    line + "\n"
}

fn main() -> io::Result<()> {
    let mut input = Vec::new();
    io::stdin().read_to_end(&mut input)?;
    let texts = input.strip_suffix(b"\n").unwrap_or(&input);
    let lines: String = texts.split(|byte| *byte == b'\n').map(line_for).collect();
    io::stdout().write_all(lines.as_bytes())
}
