//! The numbers of include/szk.h are those of the library's own source, of the wrapper and of the reference.

use reference::machine::{kind, PAGE};
use reference::regions::MAX_TEXT;
use reference::report::ENOUGH;
use reference::Machine;
use std::collections::BTreeMap;
use std::fs;
use std::path::Path;

fn file(path: &str) -> String {
    fs::read_to_string(Path::new(env!("CARGO_MANIFEST_DIR")).join("../..").join(path)).expect(path)
}

/// Each `#define SZK_NAME NUMBER`, without the prefix; a number may stand in UINT64_C(..) or UINT32_C(..).
fn defines() -> BTreeMap<String, u64> {
    let define = |line: &str| {
        let mut words = line.strip_prefix("#define SZK_")?.split_whitespace();
        let (name, number) = (words.next()?, words.next()?);
        let digits = number.split('(').next_back()?.trim_end_matches(')');
        Some((name.to_string(), digits.parse().ok()?))
    };
    file("include/szk.h").lines().filter_map(define).collect()
}

/// Each `pub const NAME: TYPE = NUMBER;`.
fn constants(path: &str, of: &str) -> Vec<(String, u64)> {
    let type_of = format!(": {of} = ");
    let constant = |line: &str| {
        let (name, number) = line.trim_start().strip_prefix("pub const ")?.strip_suffix(';')?.split_once(&type_of)?;
        Some((name.to_string(), number.parse().ok()?))
    };
    file(path).lines().filter_map(constant).collect()
}

/// Each variant `Name = NUMBER,` of an enum, its name spelled as that of a constant.
fn variants(path: &str) -> Vec<(String, u64)> {
    let variant = |line: &str| {
        let (name, number) = line.trim().strip_suffix(',')?.split_once(" = ")?;
        let spelled = |(at, c): (usize, char)| if at > 0 && c.is_uppercase() { format!("_{c}") } else { c.to_uppercase().to_string() };
        Some((name.char_indices().map(spelled).collect(), number.parse().ok()?))
    };
    file(path).lines().filter_map(variant).collect()
}

#[test]
fn refusals_have_the_same_names_and_numbers() {
    let wrapped = constants("bindings/rust/src/refusal.rs", "u64");
    // The library's own calls give a result, which is no number where they are done; the number that stands for that is in C and Rust alone.
    let done = ("DONE".to_string(), 0);
    let library: Vec<_> = std::iter::once(done).chain(variants("crates/answer/src/refusal.rt")).collect();
    assert_eq!(library, wrapped);
    assert_eq!(library.len(), 23);
    let header = defines();
    for (name, number) in library {
        assert_eq!(header.get(&name), Some(&number), "{name}");
    }
}

#[test]
fn limits_are_those_of_the_record() {
    // The limits are associated constants of the record's own type; a constant given by another's name is not read here.
    let limits = constants("crates/rules/src/lib.rt", "u64");
    assert_eq!(limits.len(), 11);
    let header = defines();
    for (name, number) in limits {
        assert_eq!(header.get(&name), Some(&number), "{name}");
    }
    // The number of areas is an area's own, since the scans below the record list them.
    let of_areas = [("NUMBERS", header["AREA_NUMBERS"]), ("MOST", header["MOST_AREAS"])];
    assert_eq!(constants("crates/frames/src/lib.rt", "usize"), of_areas.map(|(name, number)| (name.to_string(), number)));
}

#[test]
fn limits_kinds_and_lengths_are_the_same() {
    let expected = [
        ("PAGE_BYTES", PAGE),
        ("LEAST_FRAMES", 1),
        ("MOST_FRAMES", Machine::MAX_FRAMES),
        ("LEAST_BASE", 1),
        ("MOST_END", Machine::MAX_END),
        ("MOST_BLOCK_ORDER", Machine::MAX_BLOCK_ORDER),
        ("MOST_AREAS", Machine::MAX_AREAS),
        ("LEAST_NAME", 1),
        ("MOST_NAME", Machine::MAX_NAME),
        ("LEAST_DEVICE", 1),
        ("MOST_DEVICE", Machine::MAX_DEVICE),
        ("MOST_ALIGN_ORDER", Machine::MAX_ALIGN_ORDER),
        ("MOST_BYTES", Machine::MAX_AMOUNT),
        ("MOST_TEXT", MAX_TEXT as u64),
        ("FREE", kind::FREE.into()),
        ("MOVABLE", kind::MOVABLE.into()),
        ("PINNED", kind::PINNED.into()),
        ("FIXED", kind::FIXED.into()),
        ("GRANT_FIRST", kind::GRANT_FIRST.into()),
        ("GRANT_LATER", kind::GRANT_LATER.into()),
        ("RECORD_NUMBERS", szk::Machine::NUMBERS as u64),
        ("RECORD_COUNTERS", 4),
        ("RECORD_AREAS", 5),
        ("AREA_NUMBERS", 3),
        ("ANSWER_NUMBERS", 3),
        ("REPORT_ENOUGH", ENOUGH as u64),
    ];
    let header = defines();
    for (name, number) in expected {
        assert_eq!(header.get(name), Some(&number), "{name}");
    }
    assert_eq!(szk::Machine::AREAS as u64, Machine::MAX_AREAS);
    assert_eq!(szk::Machine::REPORT_ENOUGH, ENOUGH);
    assert_eq!(header["RECORD_NUMBERS"], header["RECORD_AREAS"] + header["AREA_NUMBERS"] * header["MOST_AREAS"]);
}
