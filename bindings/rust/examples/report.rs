//! Makes one report of a machine with one area of so many frames, whose bits are set as the second word says, and prints how many bytes it has.
//! `tools/benchmark instructions` counts what it takes.

use std::env;
use szk::{refusal, Machine, Request, Tables};

/// A bitmap word for each word of a bitmap, by the name of what they make together.
fn word(bits: &str, at: usize) -> u64 {
    match bits {
        "none" => 0,
        "words" => (at as u64 % 2).wrapping_neg(),
        "random" => (at as u64 + 1).wrapping_mul(0x9e37_79b9_7f4a_7c15).rotate_left(29).wrapping_mul(0xbf58_476d_1ce4_e5b9),
        "odd" => 0xaaaa_aaaa_aaaa_aaaa,
        "even" => 0x5555_5555_5555_5555,
        _ => panic!("bits are none, words, random, odd or even"),
    }
}

fn main() {
    let words: Vec<String> = env::args().skip(1).collect();
    let [frames, bits] = &words[..] else { panic!("FRAMES BITS") };
    let frames: u64 = frames.parse().expect("a number of frames");
    let n = frames as usize;
    let (mut marks, mut content, mut bitmap, mut owners) = (vec![0; n], vec![0; n], vec![0; n.div_ceil(64)], vec![0; n]);
    let mut machine = Machine::fresh();
    let t = &mut Tables { marks: &mut marks, words: &mut content, bitmap: &mut bitmap, owners: &mut owners };
    assert_eq!(machine.boot(t, 1, frames, 0, b"").refusal, refusal::DONE);
    let all = Request { base: 4_096, size: 4_096 * frames, fixed: true, ..Request::default() };
    assert_eq!(machine.declare(t, &all).refusal, refusal::DONE);
    t.bitmap.iter_mut().enumerate().for_each(|(at, w)| *w = word(bits, at));
    let mut buffer = vec![0; Machine::REPORT_ENOUGH];
    println!("{} bytes", machine.report(t, &mut buffer).lines.len());
}
