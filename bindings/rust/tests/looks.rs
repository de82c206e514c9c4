//! A word of a bitmap is read in one function of the search, which counts it. The prover holds the count to the words that are spanned; that
//! nothing else reads a word, and that this function and those on the way to it are called at one place of a step, is no fact about values,
//! and is seen in the source.

use std::fs;
use std::path::Path;

/// Where the search's two steps are.
const STEPS: &str = "crates/bitmap/src/looks.rt";
const ONLY_READ: &str = "self.words[at]";
const KEPT: &str = "let seen = self.look(at, looks); looks = seen.looks;";
const OVER_WORDS: &str = "for at in self.start.saturating_add(from / 64)..self.words.len() {";
/// Where the search is, which has the words only to hand them on.
const SEARCH: &str = "crates/device_calls/src/runs.rt";

fn source(path: &str) -> String {
    fs::read_to_string(Path::new(env!("CARGO_MANIFEST_DIR")).join("../..").join(path)).expect(path)
}

/// The code without comments, imports, contracts and the two attributes, its words one space apart, and none behind an opening parenthesis nor
/// before a dot.
fn code(source: &str) -> String {
    let told = ["//", "use ", "pub use ", "ghost ", "requires ", "ensures "];
    let attributes = ["#[derive(Clone, Copy)]", "#[inline(always)]"];
    let is_told = |line: &&str| attributes.contains(line) || told.iter().any(|word| line.starts_with(word));
    let lines = source.lines().map(str::trim).filter(|line| !is_told(line));
    lines.collect::<Vec<_>>().join(" ").replace("( ", "(").replace(" .", ".")
}

fn is_name(c: char) -> bool {
    c.is_alphanumeric() || c == '_'
}

/// The code without a part, where that is not the end of a longer name, and how often it stood there.
fn without(code: &str, part: &str) -> (String, usize) {
    let begins = |at: &usize| !code[..*at].ends_with(is_name);
    let places: Vec<usize> = code.match_indices(part).map(|(at, _)| at).filter(begins).collect();
    let starts = places.iter().map(|at| at + part.len());
    let pieces = std::iter::once(0).chain(starts).zip(places.iter().copied().chain([code.len()]));
    (pieces.map(|(from, to)| &code[from..to]).collect(), places.len())
}

/// Whether each part stands in the code so often, and the slice, by its names, only in these; whether nothing else is indexed, and each
/// function is written and called so often in all, whatever it is given.
fn is_just(code: &str, slice: &[&str], parts: &[(&str, usize)], functions: &[(&str, usize)]) -> bool {
    let mut left = code.to_string();
    let mut often = true;
    for (part, times) in parts {
        let (rest, found) = without(&left, part);
        often &= found == *times;
        left = rest;
    }
    let others = left.split(|c| !is_name(c)).any(|word| slice.contains(&word));
    let indexed = left.replace("&'a [u32]", "").contains('[');
    often && !others && !indexed && functions.iter().all(|(function, times)| without(code, function).1 == *times)
}

/// Whether the code goes on in one of these ways behind each place that names the value, which has the slice: so it is handed to no other function.
fn goes_on(code: &str, value: &str, ways: &[&str]) -> bool {
    let whole = |at: usize| !code[..at].ends_with(is_name) && !code[at + value.len()..].starts_with(is_name);
    let goes = |rest: &str, way: &str| rest.strip_prefix(way).is_some_and(|more| !way.ends_with(is_name) || !more.starts_with(is_name));
    let places = code.match_indices(value).map(|(at, _)| at).filter(|at| whole(*at));
    places.map(|at| &code[at + value.len()..]).all(|rest| ways.iter().any(|way| goes(rest, way)))
}

/// What could run a read once more than it is written: none stands in the two files but the loops that are counted below.
const AGAIN: [(&str, usize); 3] = [("loop ", 0), ("continue", 0), ("while(", 0)];

/// A word is read at one place, its count is kept at once, and each function on the way there is called at one place of a step. Two loops are
/// written: that over the words, and one that looks at no word. No closure is written, only two words joined.
fn reads_at_one_place(source: &str) -> bool {
    let code = code(source);
    let parts = [("words: &'a [u64],", 1), (OVER_WORDS, 1), (KEPT, 1), ("self.passed(from, count, Sought::", 2), (ONLY_READ, 1)];
    let calls = [("look(", 2), ("passed(", 3), ("|", 2), ("x |= x >> told", 1), ("x | (x >>", 1)];
    let loops = [("for ", 1), ("while ", 1), ("while told <= reach - told", 1)];
    let own = [", w: u64", ", low: usize", ", at: usize", ", from: usize", " {", ".hits(0)", ".start", ".words", ".look(", ".passed("];
    is_just(&code, &["words"], &parts, &[&calls[..], &loops[..], &AGAIN[..]].concat()) && goes_on(&code, "self", &own)
}

/// The search hands its bitmap to each of the two steps at one place, and is itself handed to functions of its own; its one loop is that over the
/// candidates.
fn only_hands_on(source: &str) -> bool {
    let code = code(source);
    let own = [("bitmap: Bitmap<'a>,", 1), ("marks: &[u32], bitmap: &[u64],", 1), ("bitmap: Bitmap { words: bitmap,", 1)];
    let steps = [("self.bitmap.next_open(", 1), ("self.bitmap.clear_bits(", 1)];
    let calls = [("next_open(", 1), ("clear_bits(", 1), ("|", 0), ("for ", 0), ("while ", 1), ("while j <= last", 1)];
    let fields = [".marks", ".base", ".bitmap", ".area", ".bits", ".count", ".last", ".order", ".starts"];
    let methods = [", bit: Bit", ", from: usize", ".clear_up_to(", ".bits_rule_out(", ".frames_rule_out("];
    is_just(&code, &["bitmap", "words"], &[&own[..], &steps[..]].concat(), &[&calls[..], &AGAIN[..]].concat())
        && goes_on(&code, "self", &[&fields[..], &methods[..]].concat())
        && goes_on(&code, "search", &[" = Search {", ".try_run("])
}

#[test]
fn only_look_reads_a_word() {
    let steps = source(STEPS);
    assert!(reads_at_one_place(&steps));
    let look = steps.split("\n    fn look(").nth(1).and_then(|rest| rest.split("\n    }\n").next());
    assert!(look.expect("a function look").contains(ONLY_READ));
    assert!(only_hands_on(&source(SEARCH)));
}

#[test]
fn a_read_beside_it_is_seen() {
    let steps = source(STEPS);
    let edits = [
        ("hits(seen.word)", "hits(self.words[at])"),
        ("let seen = self.look(at, looks);", "let other = self; let seen = other.look(at, looks);"),
        ("let seen = self.look(at, looks);", "let unseen = self.look(at, looks); let seen = self.look(at, looks);"),
        ("let seen = self.look(at, looks);", "let unseen = self.overlook(at, looks); let seen = self.look(at, looks);"),
        ("// The only read of a word in a search.", "fn overlook(self, at: usize) { let unseen = self.look(at, 0); }"),
        ("self.passed(from, count, Sought::Set)", "self.passed(from, count, Sought::Set); self.passed(from, count, Sought::Set)"),
        ("let part = left.min(64 - low);", "let part = (self.words, at).0[at];"),
        ("let mut low = from % 64;", "while again < 2 { again += 1; } let mut low = from % 64;"),
        ("let seen = self.look(at, looks);", "for again in 0..2 { let seen = self.look(at, looks); }"),
        ("let mut low = from % 64;", "let again = |count| count; let mut low = from % 64;"),
        ("looks = seen.looks;", "if again { continue; } looks = seen.looks;"),
        ("while told <= reach - told", "if told <= reach - told"),
        ("// The only read of a word in a search.", "fn peek(table: &[u64], at: usize) -> u64 { table[at] }"),
    ];
    assert!(reads_at_one_place(&steps));
    for (old, new) in edits {
        assert!(steps.contains(old), "{old}");
        assert!(!reads_at_one_place(&steps.replace(old, new)), "{new}");
    }
    let search = source(SEARCH);
    assert!(only_hands_on(&search));
    let edits = [
        ("if clear < end {", "if self.bitmap.words[0] == 0 {"),
        ("let next = set + 1;", "let next = peek(self.bitmap, set);"),
        ("let next = set + 1;", "let next = self.peek(set);"),
        ("let next = set + 1;", "let again = |set| set; let next = set + 1;"),
        ("let next = set + 1;", "while again < 9 { again += 1; } let next = set + 1;"),
    ];
    for (old, new) in edits {
        assert!(search.contains(old), "{old}");
        assert!(!only_hands_on(&search.replace(old, new)), "{new}");
    }
}
