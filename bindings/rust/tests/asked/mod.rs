//! A call made through the library and through the reference, on a state of the reference's.

use crate::held::Held;
use reference::{Call, State};

/// A machine of frames 4 to 35 and blocks of four, its areas declared by the text; `a=64K@32768` is that of machine A, frames 8 to 23.
pub fn booted(text: &[u8]) -> State {
    let mut state = State::fresh(32, 1);
    let boot = Call::Boot { base: 4, frames: 32, order: 2, text: text.to_vec() };
    assert_eq!(state.apply(&boot).refusal, 0);
    state
}

/// What both answer to a call on a state. They leave the same record, the same tables and the same buffer; a refusal leaves them as they were,
/// but that a refused grant is counted.
pub fn ask(state: &mut State, call: &Call) -> (u64, u64, u64) {
    let before = state.clone();
    let mut held = Held::of(state);
    let expected = state.apply(call);
    let answer = held.make(call);
    assert!(held.agrees(answer, state, expected), "{answer:?}, not {expected:?}: {call:?}");
    let is_kept = answer.refusal == 0 || *state == before.after_refusal(call, answer.refusal);
    assert!(is_kept, "a refusal changes nothing but a grant's counter: {call:?}");
    (answer.refusal, answer.first, answer.second)
}
