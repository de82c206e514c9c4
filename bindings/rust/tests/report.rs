//! The memory report and the counters of grants, which no replay record shows, through the library and the reference.

mod asked;
mod held;

use asked::{ask, booted};
use reference::machine::mark_of;
use reference::report::{since, ENOUGH};
use reference::sample::Rng;
use reference::{Area, Call, Machine, Request, State};

/// A state with a buffer of bytes that no report writes.
fn with_buffer(state: State) -> State {
    State { buffer: vec![b'?'; ENOUGH], ..state }
}

fn machine_a() -> State {
    with_buffer(booted(b"a=64K@32768"))
}

fn grant(area: u64, count: u64) -> Call {
    Call::Grant { area, count, align: 0, device: 1 }
}

/// What both write, which is as long as they answer and just fills a buffer of its length: a byte less is 16, and one more is kept.
fn report(state: &State) -> String {
    let mut after = state.clone();
    let (refusal, length, second) = ask(&mut after, &Call::Report { length: ENOUGH });
    assert_eq!((refusal, second, after.machine), (0, 0, state.machine));
    let needed = length as usize;
    assert!(after.buffer[needed..].iter().all(|&byte| byte == b'?'));
    for length in needed..=needed + 2 {
        let mut exact = state.clone();
        assert_eq!(ask(&mut exact, &Call::Report { length }), (0, needed as u64, 0));
        assert_eq!(exact, after);
    }
    for length in [0, 1, needed - 2, needed - 1] {
        assert_eq!(ask(&mut state.clone(), &Call::Report { length }), (16, 0, 0));
    }
    String::from_utf8(after.buffer[..needed].to_vec()).expect("text")
}

#[test]
fn the_report_of_e1() {
    let mut state = machine_a();
    assert_eq!(ask(&mut state, &grant(0, 3)), (0, 8, 0));
    assert_eq!(report(&state), "CmaTotal: 64 kB\nCmaFree: 52 kB\narea 0 16 3 13\n");
}

#[test]
fn no_areas_and_64() {
    assert_eq!(report(&with_buffer(booted(b""))), "CmaTotal: 0 kB\nCmaFree: 0 kB\n");
    let mut state = with_buffer(State::fresh(80, 64));
    let text: Vec<String> = (0..64).map(|i| format!("r{i}=4096")).collect();
    let boot = Call::Boot { base: 1, frames: 80, order: 0, text: text.join(";").into_bytes() };
    assert_eq!(ask(&mut state, &boot), (0, 0, 0));
    assert_eq!(ask(&mut state, &grant(63, 1)), (0, 17, 0));
    let lines: String = (0..63).map(|i| format!("area {i} 1 0 1\n")).collect();
    assert_eq!(report(&state), format!("CmaTotal: 256 kB\nCmaFree: 252 kB\n{lines}area 63 1 1 0\n"));
    // One more is the wrong shape, which comes before the buffer's length.
    state.machine.declared = 65;
    for length in [0, ENOUGH] {
        assert_eq!(ask(&mut state, &Call::Report { length }), (1, 0, 0));
    }
}

/// All bits of the words are set, or all but the area's own.
#[test]
fn all_bits_set() {
    let mut state = machine_a();
    for (word, maxchunk) in [(u64::MAX, 0), (0xffff, 0), (u64::MAX << 16, 16), (u64::MAX << 15, 15), (u64::MAX >> 48 << 1, 1)] {
        state.bitmap[0] = word;
        assert_eq!(report(&state), format!("CmaTotal: 64 kB\nCmaFree: 64 kB\narea 0 16 0 {maxchunk}\n"), "{word:x}");
    }
}

/// Five frames take two bits of four: the three spare frames are free, and in no stretch of clear bits, also when a page lies there.
#[test]
fn bits_of_four_frames() {
    let mut state = with_buffer(booted(b""));
    let request = Request { base: 32_768, size: 65_536, order: 2, fixed: true, ..Request::default() };
    assert_eq!(ask(&mut state, &Call::Declare(request)), (0, 8, 16));
    assert_eq!(report(&state), "CmaTotal: 64 kB\nCmaFree: 64 kB\narea 0 16 0 16\n");
    assert_eq!(ask(&mut state, &grant(0, 5)), (0, 8, 0));
    let expected = "CmaTotal: 64 kB\nCmaFree: 44 kB\narea 0 16 5 8\n";
    assert_eq!(report(&state), expected);
    for name in 1..=17 {
        assert_eq!(ask(&mut state, &Call::PutMovable { name }).0, 0);
    }
    assert_eq!(ask(&mut state, &Call::Read { name: 17 }), (0, 13, 0));
    assert_eq!(report(&state), expected);
}

/// Every kind by turns, in an area and outside: 4 and 5 are used, and all others free.
#[test]
fn every_kind() {
    for (kind, used) in [(0, 0), (1, 0), (2, 0), (3, 0), (4, 16), (5, 16), (6, 0), (7, 0)] {
        let mut state = machine_a();
        state.marks.fill(mark_of(3, kind));
        let expected = format!("CmaTotal: 64 kB\nCmaFree: {} kB\narea 0 16 {used} 16\n", 64 - 4 * used);
        assert_eq!(report(&state), expected);
    }
    let mut state = machine_a();
    state.marks = (0..32).map(|place| mark_of(u64::from(place), place % 8)).collect();
    assert_eq!(report(&state), "CmaTotal: 64 kB\nCmaFree: 48 kB\narea 0 16 4 16\n");
}

/// One area of all 262,144 frames, without a set bit and then with some, and 64 areas of as many frames.
#[test]
fn the_most_frames() {
    let mut state = with_buffer(State::fresh(262_144, 4_096));
    state.machine = Machine { base: 1, frames: 262_144, declared: 1, ..Machine::fresh() };
    state.machine.areas[0] = Area { base: 1, count: 262_144, order: 0 };
    state.marks.fill(mark_of(0, 5));
    assert_eq!(report(&state), "CmaTotal: 1048576 kB\nCmaFree: 0 kB\narea 0 262144 262144 262144\n");
    state.marks[262_143] = mark_of(0, 6);
    (state.bitmap[0], state.bitmap[4_095]) = (1, 1 << 63);
    assert_eq!(report(&state), "CmaTotal: 1048576 kB\nCmaFree: 4 kB\narea 0 262144 262143 262142\n");
    state.machine.declared = 64;
    for (i, area) in (0..).zip(&mut state.machine.areas) {
        *area = Area { base: 1 + 4_096 * i, count: 4_096, order: 0 };
    }
    state.bitmap[64..4_032].fill(u64::MAX);
    let between: String = (1..63).map(|i| format!("area {i} 4096 4096 0\n")).collect();
    let expected = format!("CmaTotal: 1048576 kB\nCmaFree: 4 kB\narea 0 4096 4096 4095\n{between}area 63 4096 4095 4095\n");
    assert_eq!(report(&state), expected);
}

/// Stretches that begin and end anywhere in the words, in areas of any length with bits of any order.
#[test]
fn stretches_of_clear_bits() {
    let mut rng = Rng::new(1);
    for _ in 0..2_000 {
        let (order, bits) = (rng.below(3), rng.within(1, 300));
        let count = bits << order;
        let mut state = with_buffer(State::fresh(count as usize, bits.div_ceil(64) as usize));
        state.machine = Machine { base: 4, frames: count, order, declared: 1, ..Machine::fresh() };
        state.machine.areas[0] = Area { base: 4, count, order };
        state.bitmap.fill(if rng.percent(50) { 0 } else { u64::MAX });
        for _ in 0..rng.below(5) {
            let (from, to) = (rng.below(bits), rng.within(1, 130));
            (from..bits.min(from + to)).for_each(|bit| state.bitmap[bit as usize / 64] ^= 1 << (bit % 64));
        }
        report(&state);
    }
}

/// Both counters at the wrap, by each number that a grant can be given, and at any number else.
#[test]
fn counters_wrap() {
    let full = |state: &mut State| state.marks.iter_mut().filter(|mark| **mark == 0).for_each(|mark| *mark = mark_of(9, 1));
    for before in [0, 1, 77, u32::MAX - 1, u32::MAX] {
        let mut state = machine_a();
        (state.machine.granted, state.machine.refused) = (before, before);
        let says = |state: &mut State, call: &Call| {
            let number = ask(state, call).0;
            (number, since(state.machine.granted, before), since(state.machine.refused, before))
        };
        assert_eq!(says(&mut state, &grant(0, 1)), (0, 1, 0));
        assert_eq!(says(&mut state, &grant(1, 1)), (2, 1, 1));
        assert_eq!(says(&mut state, &grant(0, 16)), (7, 1, 2));
        full(&mut state);
        assert_eq!(says(&mut state, &grant(0, 1)), (8, 1, 3));
        state.machine.order = 11;
        assert_eq!(says(&mut state, &grant(0, 1)), (1, 1, 3));
    }
}

/// An accepted boot sets both counters to 0; a refused one keeps them, and so does every other call.
#[test]
fn counters_and_other_calls() {
    let mut state = machine_a();
    (state.machine.granted, state.machine.refused) = (u32::MAX, 7);
    let boot = |text: &[u8]| Call::Boot { base: 4, frames: 32, order: 2, text: text.to_vec() };
    let release = Call::Release { area: 0, frame: 8, count: 1, device: 1 };
    for call in [boot(b"a=0"), boot(b"a=129K"), release, Call::PutMovable { name: 1 }, Call::Report { length: ENOUGH }] {
        ask(&mut state, &call);
        assert_eq!((state.machine.granted, state.machine.refused), (u32::MAX, 7), "{call:?}");
    }
    assert_eq!(ask(&mut state, &boot(b"")), (0, 0, 0));
    assert_eq!((state.machine.granted, state.machine.refused), (0, 0));
}

/// The library's difference is the reference's, for readings on both sides of the wrap and any others.
#[test]
fn differences_of_readings() {
    let edges = [0, 1, 2, 1 << 31, (1 << 31) - 1, u32::MAX - 1, u32::MAX];
    for later in edges {
        for earlier in edges {
            assert_eq!(szk::since(later, earlier), since(later, earlier));
        }
    }
    let mut rng = Rng::new(2);
    for _ in 0..10_000 {
        let (earlier, calls) = (rng.next() as u32, rng.next() as u32);
        assert_eq!(szk::since(earlier.wrapping_add(calls), earlier), calls);
    }
}
