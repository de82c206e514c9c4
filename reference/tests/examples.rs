//! Every example of document 01, as document 02 has it: all name device 1.

use reference::machine::{field_of, kind_of};
use reference::replay::{encode, replay};
use reference::{regions, Answer, Area, Call, Request, State};

fn ask(state: &mut State, call: Call) -> (u64, u64, u64) {
    let Answer { refusal, first, second } = state.apply(&call);
    (refusal, first, second)
}

fn boot_a() -> Call {
    Call::Boot { base: 4, frames: 32, order: 2, text: Vec::new() }
}

fn declare_a(order: u64) -> Call {
    Call::Declare(Request { base: 32_768, size: 65_536, order, fixed: true, ..Request::default() })
}

fn no_areas() -> State {
    let mut state = State::fresh(32, 8);
    assert_eq!(ask(&mut state, boot_a()), (0, 0, 0));
    state
}

fn machine_a_with(order: u64) -> State {
    let mut state = no_areas();
    assert_eq!(ask(&mut state, declare_a(order)), (0, 8, 16));
    state
}

fn machine_a() -> State {
    machine_a_with(0)
}

fn grant(state: &mut State, count: u64, align: u64) -> (u64, u64, u64) {
    ask(state, Call::Grant { area: 0, count, align, device: 1 })
}

fn put(state: &mut State, name: u64) -> (u64, u64, u64) {
    ask(state, Call::PutMovable { name })
}

fn mark(state: &State, frame: u64) -> u32 {
    state.marks[(frame - state.machine.base) as usize]
}

fn after_18_puts() -> State {
    let mut state = machine_a();
    let frames: Vec<u64> = (1..=18).map(|name| put(&mut state, name).1).collect();
    let expected: Vec<u64> = (4..8).chain(24..36).chain(8..10).collect();
    assert_eq!(frames, expected);
    state
}

#[test]
fn e1_and_e2() {
    let mut state = machine_a();
    assert_eq!(grant(&mut state, 3, 0), (0, 8, 0));
    assert_eq!([mark(&state, 8), mark(&state, 9), mark(&state, 10)], [28, 5, 5]);
    assert_eq!(mark(&state, 11), 0);
    assert_eq!(state.owners[3..8], [0, 1, 1, 1, 0]);
    assert_eq!(state.bitmap[0], 0b111);
    assert_eq!(grant(&mut state, 2, 2), (0, 12, 0));
}

#[test]
fn e3_and_e4() {
    assert_eq!(grant(&mut machine_a(), 8, 4), (0, 16, 0));
    assert_eq!(grant(&mut machine_a(), 9, 4), (7, 0, 0));
}

#[test]
fn e5() {
    assert_eq!(grant(&mut machine_a(), 16, 0), (0, 8, 0));
    assert_eq!(grant(&mut machine_a(), 17, 0), (7, 0, 0));
}

#[test]
fn e6_and_e7() {
    let mut state = after_18_puts();
    let mut expected = state.clone();
    assert_eq!(grant(&mut state, 1, 0), (8, 0, 0));
    expected.machine.refused = 1;
    assert_eq!(state, expected);
    assert_eq!(mark(&state, 10), 0);
    let word = 77;
    assert_eq!(ask(&mut state, Call::Store { name: 18, word }), (0, 0, 0));
    assert_eq!(ask(&mut state, Call::Pin { name: 17 }), (0, 0, 0));
    assert_eq!(ask(&mut state, Call::Drop { name: 1 }), (0, 0, 0));
    assert_eq!(grant(&mut state, 1, 0), (0, 9, 1));
    assert_eq!(ask(&mut state, Call::Read { name: 18 }), (0, 4, word));
    assert_eq!(ask(&mut state, Call::Read { name: 17 }), (0, 8, 0));
    assert_eq!(ask(&mut state, Call::DeviceRead { frame: 9, device: 1 }), (0, 0, 0));
}

#[test]
fn e8() {
    let mut state = machine_a();
    grant(&mut state, 3, 0);
    let release = |frame, count| Call::Release { area: 0, frame, count, device: 1 };
    assert_eq!(ask(&mut state, release(8, 2)), (9, 0, 0));
    assert_eq!(ask(&mut state, release(9, 1)), (3, 0, 0));
    assert_eq!(ask(&mut state, release(8, 3)), (0, 0, 0));
    let mut expected = machine_a();
    expected.machine.granted = 1;
    assert_eq!(state, expected);
}

#[test]
fn e9() {
    let mut state = machine_a_with(2);
    assert_eq!(grant(&mut state, 5, 0), (0, 8, 0));
    assert!((8..13).all(|frame| kind_of(mark(&state, frame)) >= 4));
    assert_eq!(field_of(mark(&state, 8)), 5);
    assert_eq!((13..16).map(|frame| mark(&state, frame)).max(), Some(0));
    assert_eq!(state.bitmap[0], 0b11);
    assert_eq!(grant(&mut state, 1, 0), (0, 16, 0));
}

#[test]
fn e10() {
    let declare = |limit| Call::Declare(Request { size: 1, limit, ..Request::default() });
    assert_eq!(ask(&mut no_areas(), declare(0)), (0, 32, 4));
    assert_eq!(ask(&mut no_areas(), declare(100_000)), (0, 20, 4));
    assert_eq!(ask(&mut no_areas(), declare(100)), (11, 0, 0));
}

#[test]
fn the_text_of_machine_a() {
    let mut state = State::fresh(32, 8);
    let text = b"a=64K@32768".to_vec();
    assert_eq!(ask(&mut state, Call::Boot { base: 4, frames: 32, order: 2, text }), (0, 0, 0));
    assert_eq!(state, machine_a());
    assert_eq!(state.machine.areas[0], Area { base: 8, count: 16, order: 0 });
}

/// What a boot of machine A answers to a text.
fn boot_text(text: &[u8]) -> (u64, u64, u64) {
    let mut state = State::fresh(32, 8);
    ask(&mut state, Call::Boot { base: 4, frames: 32, order: 2, text: text.to_vec() })
}

#[test]
fn refused_texts() {
    let examples: [(&[u8], u64, u64); 8] = [
        (b"a=0", 21, 2),
        (b";", 20, 0),
        (b"a=1M;a=1M", 22, 5),
        (b"a=08", 21, 2),
        (b"a=1@08", 20, 5),
        (b"a=0x", 20, 4),
        (b"a=8/3", 21, 4),
        (b"a=262145G", 21, 2),
    ];
    for (text, number, place) in examples {
        assert_eq!(boot_text(text), (number, place, 0));
    }
}

#[test]
fn the_largest_amount_reads() {
    let regions = regions::parse(b"a=262144G").expect("reads");
    assert_eq!(regions[0].size, 1 << 48);
    // It reads, and is then too long for the bitmap slice.
    assert_eq!(boot_text(b"a=262144G"), (14, 0, 0));
}

#[test]
fn the_whole_output() {
    let calls = [
        boot_a(),
        declare_a(0),
        Call::Grant { area: 0, count: 3, align: 0, device: 1 },
        Call::PutMovable { name: 7 },
        Call::Read { name: 7 },
    ];
    let input: Vec<u8> = calls.iter().flat_map(encode).collect();
    let mut output = Vec::new();
    replay(&mut &input[..], &mut output).unwrap();
    let expected = "step refusal first second\n0 0 0 0\n1 0 8 16\n2 0 8 0\n3 0 4 0\n4 0 4 0\nend 5\n";
    assert_eq!(String::from_utf8(output).unwrap(), expected);
}

#[test]
fn alignment_is_of_the_physical_frame() {
    // Area from frame 4, order 4: the run starts at 16, not 8.
    let mut state = no_areas();
    let request = Request { base: 16_384, size: 65_536, fixed: true, ..Request::default() };
    assert_eq!(ask(&mut state, Call::Declare(request)), (0, 4, 16));
    assert_eq!(grant(&mut state, 1, 4), (0, 16, 0));
}

#[test]
fn spare_frames_of_the_last_bit() {
    // Ordinary frames full, then pages land in 13 to 15 beside a grant of 5.
    let mut state = machine_a_with(2);
    grant(&mut state, 5, 0);
    (1..=16).for_each(|name| assert_eq!(put(&mut state, name).0, 0));
    assert_eq!(put(&mut state, 17), (0, 13, 0));
    ask(&mut state, Call::Store { name: 17, word: 9 });
    assert_eq!(grant(&mut state, 3, 0), (0, 16, 0));
    let release = Call::Release { area: 0, frame: 8, count: 5, device: 1 };
    assert_eq!(ask(&mut state, release), (0, 0, 0));
    assert_eq!(ask(&mut state, Call::Read { name: 17 }), (0, 13, 9));
}
