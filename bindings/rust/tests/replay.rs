//! The proved replay program and the reference's write the same bytes.
//!
//! The program is crates/replay/out/replay; SZK_REPLAY names another.

use reference::sample::Rng;
use reference::{day, replay, sample};
use std::env;
use std::fs::{self, File};
use std::path::PathBuf;
use std::process::{Command, Stdio};

fn program() -> PathBuf {
    let built = PathBuf::from(env!("CARGO_MANIFEST_DIR")).join("../../crates/replay/out/replay");
    env::var_os("SZK_REPLAY").map_or(built, PathBuf::from)
}

/// What a command writes. The records come from a file of the test's own name, so that neither side waits for the other.
fn output(command: &mut Command, test: &str, records: &[u8]) -> Vec<u8> {
    let path = PathBuf::from(env!("CARGO_TARGET_TMPDIR")).join(test);
    fs::write(&path, records).expect("the records are written");
    let input = File::open(&path).expect("the records are there");
    let run = command.stdin(Stdio::from(input)).output().expect("crates/replay/out/replay runs");
    assert!(run.status.success(), "{}", String::from_utf8_lossy(&run.stderr));
    run.stdout
}

fn proved(test: &str, records: &[u8]) -> Vec<u8> {
    output(&mut Command::new(program()), test, records)
}

fn plain(records: &[u8]) -> Vec<u8> {
    let mut output = Vec::new();
    replay::replay(&mut &records[..], &mut output).expect("a slice is read and written");
    output
}

/// Both write the same; answers how many lines.
fn compare(test: &str, records: &[u8]) -> usize {
    let (proved, plain) = (proved(test, records), plain(records));
    if proved != plain {
        let pairs = proved.split(|&b| b == b'\n').zip(plain.split(|&b| b == b'\n'));
        let (line, (one, other)) = pairs.enumerate().find(|(_, (one, other))| one != other).expect("a line differs");
        panic!("{test}, line {line}: {} and {}", String::from_utf8_lossy(one), String::from_utf8_lossy(other));
    }
    proved.iter().filter(|&&byte| byte == b'\n').count()
}

#[test]
fn mixed_records() {
    let lines: usize = (0..8).map(|seed| compare("mixed", &sample::records(seed, 40_000))).sum();
    println!("mixed records: {lines} lines are the same");
}

#[test]
fn a_crowded_day() {
    let lines: usize = (0..2).map(|seed| compare("crowded", &day::records(seed, 60_000))).sum();
    println!("crowded days: {lines} lines are the same");
}

#[test]
fn a_day_of_many_areas() {
    let lines: usize = (0..2).map(|seed| compare("areas", &day::records_of_many_areas(seed, 30_000))).sum();
    println!("days of sixty areas: {lines} lines are the same");
}

#[test]
fn nothing_at_all() {
    assert_eq!(compare("nothing", b""), 2);
}

/// A record of each kind stands last and is cut to every length, after a block's worth of records and after none.
#[test]
fn a_cut_last_record() {
    let many = sample::records(21, 9_000);
    for before in [&many[..0], &many[..5], &many[..]] {
        for kind in 0..=12 {
            let length = replay::body_length(kind).expect("a known kind");
            for kept in 0..=length {
                let body = vec![1; kept];
                compare("cut", &[before, &[kind], &body[..]].concat());
            }
        }
    }
}

/// The same records, cut at each place around the end of the program's block of 65,536 bytes.
#[test]
fn a_cut_at_the_end_of_a_block() {
    let records = day::records(22, 20_000);
    for length in (65_536 - 40..65_536 + 40).chain(131_072 - 3..131_072 + 3) {
        compare("block", &records[..length]);
    }
}

#[test]
fn unknown_kinds() {
    let records = sample::records(23, 300);
    let mut rng = Rng::new(24);
    for kind in 13..=255 {
        let at = rng.below(records.len() as u64 + 1) as usize;
        // At most places this stands inside a body, and what follows is read otherwise.
        compare("unknown", &[&records[..at], &[kind], &records[at..]].concat());
        compare("unknown", &[kind]);
    }
}

#[test]
fn any_bytes() {
    let mut rng = Rng::new(25);
    for _ in 0..300 {
        let mut bytes = vec![0; rng.below(200) as usize];
        for byte in &mut bytes {
            let bound = if rng.percent(99) { 13 } else { 256 };
            *byte = rng.below(bound) as u8;
        }
        compare("any", &bytes);
    }
}

/// A million records, 7 MB of them, are answered by a program that is given 4 MiB of memory in all.
#[test]
fn a_million_records_in_constant_memory() {
    let mut limited = Command::new("sh");
    limited.args(["-c", "ulimit -v 4096 && exec \"$0\""]).arg(program());
    let records = day::records(26, 1_000_000);
    assert!(records.len() > 4096 * 1024);
    let output = output(&mut limited, "million", &records);
    assert!(output.ends_with(b"\nend 1000000\n"));
    println!("1000000 records, {} bytes, were answered in 4 MiB", records.len());
}
