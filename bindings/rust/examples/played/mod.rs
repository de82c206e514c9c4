//! The calls of replay records from standard input, made on the linked library.

#[path = "../../tests/held/mod.rs"]
#[allow(dead_code)]
mod held;

use held::Held;
use reference::replay::{next_record, Next, BITMAP_WORDS, FRAMES};
use reference::{Call, State};
use std::io::{self, BufReader};
use szk::Answer;

/// Makes the call of each record in turn and tells its answer. Gives the machine that they leave.
pub fn play(mut told: impl FnMut(Answer)) -> io::Result<Held> {
    let mut input = BufReader::new(io::stdin().lock());
    let mut held = Held::of(&State::fresh(0, BITMAP_WORDS));
    let mut offset = 0;
    loop {
        match next_record(&mut input)? {
            Next::End => return Ok(held),
            Next::Bad => return Err(io::Error::other(format!("bad {offset}"))),
            Next::Record { call, length } => {
                told(make(&mut held, &call));
                offset += length;
            }
        }
    }
}

/// A boot is lent tables for as many frames as it asks for, or, as the replay program does, for those that this holds, which are then too
/// few. The machine before it goes on if it is refused.
fn make(held: &mut Held, call: &Call) -> Answer {
    let Call::Boot { frames, .. } = call else {
        return held.make(call);
    };
    let frames = (*frames).min(FRAMES as u64) as usize;
    let mut booted = Held::of(&State::fresh(frames, BITMAP_WORDS));
    let answer = booted.make(call);
    if answer.refusal == 0 {
        *held = booted;
    }
    answer
}
