//! The memory report and the counters of grant calls, as document 02 has them.

use reference::machine::mark_of;
use reference::report::{since, ENOUGH};
use reference::{Area, Call, Request, State};

/// E1's report.
const E1: &str = "CmaTotal: 64 kB\nCmaFree: 52 kB\narea 0 16 3 13\n";

/// Frames 4 to 35 in blocks of four, a text's areas declared.
fn booted(text: &[u8]) -> State {
    let mut state = State::fresh(32, 8);
    assert_eq!(state.apply(&boot(text)).refusal, 0);
    state.buffer = vec![b'.'; ENOUGH];
    state
}

fn boot(text: &[u8]) -> Call {
    Call::Boot { base: 4, frames: 32, order: 2, text: text.to_vec() }
}

/// Machine A: an area of frames 8 to 23.
fn machine_a() -> State {
    booted(b"a=64K@32768")
}

/// The same area with bits of 2^order frames.
fn machine_a_with(order: u64) -> State {
    let mut state = booted(b"");
    let request = Request { base: 32_768, size: 65_536, order, fixed: true, ..Request::default() };
    assert_eq!(state.apply(&Call::Declare(request)).refusal, 0);
    state
}

fn after_e1() -> State {
    let mut state = machine_a();
    assert_eq!(grant(&mut state, 3), 0);
    state
}

fn grant(state: &mut State, count: u64) -> u64 {
    state.apply(&Call::Grant { area: 0, count, align: 0, device: 1 }).refusal
}

fn counters(state: &State) -> (u32, u32) {
    (state.machine.granted, state.machine.refused)
}

/// What a report answers that is lent so many bytes, and the buffer after it; all else is as it was.
fn report_into(state: &State, length: usize) -> ((u64, u64, u64), Vec<u8>) {
    let mut after = state.clone();
    let answer = after.apply(&Call::Report { length });
    assert_eq!(State { buffer: state.buffer.clone(), ..after.clone() }, *state);
    ((answer.refusal, answer.first, answer.second), after.buffer)
}

/// The lines that a report writes into a buffer that is long enough.
fn report(state: &State) -> String {
    let (answer, buffer) = report_into(state, ENOUGH);
    let length = answer.1 as usize;
    assert_eq!(answer, (0, length as u64, 0));
    assert_eq!(buffer[length..], state.buffer[length..]);
    String::from_utf8(buffer[..length].to_vec()).expect("text")
}

#[test]
fn the_report_of_e1() {
    assert_eq!(report(&after_e1()), E1);
    assert_eq!(report(&machine_a()), "CmaTotal: 64 kB\nCmaFree: 64 kB\narea 0 16 0 16\n");
}

#[test]
fn no_areas() {
    assert_eq!(report(&booted(b"")), "CmaTotal: 0 kB\nCmaFree: 0 kB\n");
}

#[test]
fn buffers_of_every_length() {
    let state = after_e1();
    for length in 0..=ENOUGH {
        let (answer, buffer) = report_into(&state, length);
        if length < E1.len() {
            assert_eq!((answer, buffer), ((16, 0, 0), state.buffer.clone()));
        } else {
            assert_eq!(answer, (0, E1.len() as u64, 0));
            assert_eq!(buffer, [E1.as_bytes(), &state.buffer[E1.len()..]].concat());
        }
    }
}

/// 1 comes before 16, and leaves the buffer too.
#[test]
fn a_wrong_shape() {
    for length in [0, E1.len() - 1, ENOUGH] {
        let fresh = State { buffer: vec![b'.'; ENOUGH], ..State::fresh(32, 8) };
        assert_eq!(report_into(&fresh, length), ((1, 0, 0), fresh.buffer.clone()));
        let mut state = after_e1();
        state.owners.push(0);
        assert_eq!(report_into(&state, length), ((1, 0, 0), state.buffer.clone()));
    }
    // The counters have no part in the shape.
    let mut state = after_e1();
    (state.machine.granted, state.machine.refused) = (u32::MAX, u32::MAX);
    assert_eq!(report(&state), E1);
}

/// Kinds 4 and 5 are used, whatever their fields, and all others free; marks outside areas play no part, nor do words and owners.
#[test]
fn used_is_kinds_4_and_5() {
    for kind in 0..8 {
        let mut state = machine_a();
        state.marks[4..9].fill(mark_of(77, kind));
        let used = if [4, 5].contains(&kind) { 5 } else { 0 };
        let expected = format!("CmaTotal: 64 kB\nCmaFree: {} kB\narea 0 16 {used} 16\n", 64 - 4 * used);
        assert_eq!(report(&state), expected, "{kind}");
        state.words.fill(u64::MAX);
        state.owners.fill(u32::MAX);
        (0..32).filter(|place| !(4..20).contains(place)).for_each(|place| state.marks[place] = mark_of(1, 4));
        assert_eq!(report(&state), expected, "{kind}");
    }
}

/// What maxchunk is for an area of 16 frames whose first bitmap word is so.
fn maxchunk(order: u64, word: u64) -> u64 {
    let mut state = machine_a_with(order);
    state.bitmap.fill(u64::MAX);
    state.bitmap[0] = word;
    let report = report(&state);
    let (before, last) = report.trim_end().rsplit_once(' ').expect("words");
    assert_eq!(before, "CmaTotal: 64 kB\nCmaFree: 64 kB\narea 0 16 0");
    last.parse().expect("a number")
}

#[test]
fn the_longest_stretch_of_clear_bits() {
    let of_one_frame = [
        (u64::MAX, 0),
        (0xffff, 0),
        (0, 16),
        // The bits after the area's own are not looked at.
        (u64::MAX << 16, 16),
        (0x7fff, 1),
        (0xfffe, 1),
        (0b1100_0000_1000_1001, 6),
        (0b0000_0001_1111_0000, 7),
        (0b0000_1111_1110_0000, 5),
    ];
    let of_two = [(0, 16), (0xff, 0), (0b0011_0001, 6)];
    let of_four = [(0, 16), (0xf, 0), (0b1001, 8), (0b1011, 4)];
    for (order, cases) in [(0, &of_one_frame[..]), (1, &of_two), (2, &of_four)] {
        cases.iter().for_each(|&(word, expected)| assert_eq!(maxchunk(order, word), expected, "{word:b}"));
    }
}

/// A stretch goes on from word to word, and ends with its area: the next area's bits begin in a word of their own.
#[test]
fn a_stretch_of_several_words() {
    let mut state = State { buffer: vec![b'.'; ENOUGH], ..State::fresh(400, 6) };
    (state.machine.base, state.machine.frames, state.machine.declared) = (1, 400, 2);
    state.machine.areas[0] = Area { base: 1, count: 200, order: 0 };
    state.machine.areas[1] = Area { base: 301, count: 100, order: 0 };
    let says = |words: [u64; 6]| report(&State { bitmap: words.to_vec(), ..state.clone() });
    let expected = |first, second| format!("CmaTotal: 1200 kB\nCmaFree: 1200 kB\narea 0 200 0 {first}\narea 1 100 0 {second}\n");
    assert_eq!(says([0; 6]), expected(200, 100));
    assert_eq!(says([u64::MAX; 6]), expected(0, 0));
    // 200 bits are three words and eight bits of a fourth.
    assert_eq!(says([1, 0, 0, 0, 0, 0]), expected(199, 100));
    assert_eq!(says([0, 1 << 63, 0, 0, 0, 0]), expected(127, 100));
    assert_eq!(says([u64::MAX >> 1, 0, 0, u64::MAX, 0, u64::MAX]), expected(129, 64));
    assert_eq!(says([u64::MAX, u64::MAX, u64::MAX, 0xff & !1, 1, 1 << 35]), expected(1, 98));
}

/// E9's grant of 5 frames takes two bits of four: three of their frames are not used, and in no clear bit.
#[test]
fn spare_frames_of_the_last_bit_are_free() {
    let mut state = machine_a_with(2);
    assert_eq!(grant(&mut state, 5), 0);
    assert_eq!(report(&state), "CmaTotal: 64 kB\nCmaFree: 44 kB\narea 0 16 5 8\n");
}

/// Lines stand in the areas' order, which need not be that of their frames.
#[test]
fn areas_as_declared() {
    let mut state = booted(b"low=16K@16384;high=16K;middle=32K@65536");
    assert_eq!(state.apply(&Call::Grant { area: 1, count: 2, align: 0, device: 1 }).first, 32);
    assert_eq!(report(&state), "CmaTotal: 64 kB\nCmaFree: 56 kB\narea 0 4 0 4\narea 1 4 2 2\narea 2 8 0 8\n");
}

/// 64 areas of the most frames and the longest numbers: no report is longer than 41 bytes and 29 for each area.
#[test]
fn the_most_areas() {
    let mut state = State { buffer: vec![b'.'; ENOUGH], ..State::fresh(262_144, 64 * 160) };
    (state.machine.base, state.machine.frames, state.machine.declared) = (1, 262_144, 64);
    let mut base = 1;
    for (i, area) in state.machine.areas.iter_mut().enumerate() {
        *area = Area { base, count: if i < 22 { 10_000 } else { 1_000 }, order: 0 };
        base += area.count;
    }
    // All of the frames are used but in the last area, and no bit is set.
    state.marks[..261_000].fill(5);
    let lines: String = (0..64).map(|i| match i {
        0..=21 => format!("area {i} 10000 10000 10000\n"),
        22..=62 => format!("area {i} 1000 1000 1000\n"),
        _ => format!("area {i} 1000 0 1000\n"),
    }).collect();
    assert_eq!(report(&state), format!("CmaTotal: 1048000 kB\nCmaFree: 4000 kB\n{lines}"));
    assert!(report(&state).len() <= 41 + 64 * 29 && 41 + 64 * 29 <= ENOUGH);
}

/// Each number that a grant can be given: 0, 2, 7 and 8 are counted, 1 is not.
#[test]
fn every_number_of_a_grant() {
    let mut state = machine_a();
    assert_eq!(counters(&state), (0, 0));
    assert_eq!((grant(&mut state, 3), counters(&state)), (0, (1, 0)));
    let wrong = [(1, 1, 0, 1), (0, 0, 0, 1), (0, 1, 17, 1), (0, 1, 0, 0), (0, 1, 0, 65_536)];
    for (count_of_refused, (area, count, align, device)) in (1..).zip(wrong) {
        let call = Call::Grant { area, count, align, device };
        assert_eq!((state.apply(&call).refusal, counters(&state)), (2, (1, count_of_refused)));
    }
    assert_eq!((grant(&mut state, 14), counters(&state)), (7, (1, 6)));
    // Every other frame has a movable page, with nowhere to go.
    let free = state.marks.iter_mut().filter(|mark| **mark == 0);
    (100..).zip(free).for_each(|(name, mark)| *mark = mark_of(name, 1));
    assert_eq!((grant(&mut state, 1), counters(&state)), (8, (1, 7)));
    state.words.push(0);
    assert_eq!((grant(&mut state, 1), counters(&state)), (1, (1, 7)));
    state.words.pop();
    state.marks[0] = 0;
    assert_eq!((grant(&mut state, 1), counters(&state)), (0, (2, 7)));
}

/// No other call is counted, done or refused.
#[test]
fn grants_alone_are_counted() {
    let mut state = after_e1();
    let calls = [
        Call::PutMovable { name: 7 },
        Call::PutFixed { name: 7 },
        Call::Pin { name: 7 },
        Call::Drop { name: 7 },
        Call::Release { area: 0, frame: 8, count: 2, device: 1 },
        Call::Release { area: 0, frame: 8, count: 3, device: 1 },
        Call::DeviceRead { frame: 8, device: 1 },
        Call::Declare(Request::default()),
        Call::Report { length: 0 },
        Call::Report { length: ENOUGH },
    ];
    for call in calls {
        state.apply(&call);
        assert_eq!(counters(&state), (1, 0), "{call:?}");
    }
}

#[test]
fn counters_wrap() {
    let mut state = machine_a();
    (state.machine.granted, state.machine.refused) = (u32::MAX - 1, u32::MAX);
    assert_eq!((grant(&mut state, 1), counters(&state)), (0, (u32::MAX, u32::MAX)));
    assert_eq!((grant(&mut state, 1), counters(&state)), (0, (0, u32::MAX)));
    assert_eq!((grant(&mut state, 17), counters(&state)), (7, (0, 0)));
    assert_eq!((grant(&mut state, 17), counters(&state)), (7, (0, 1)));
    assert_eq!((grant(&mut state, 1), counters(&state)), (0, (1, 1)));
}

#[test]
fn the_difference_of_two_readings() {
    assert_eq!(since(7, 3), 4);
    assert_eq!(since(3, 3), 0);
    assert_eq!(since(1, u32::MAX), 2);
    assert_eq!(since(0, 1), u32::MAX);
    assert_eq!(since(u32::MAX, 0), u32::MAX);
    let mut state = machine_a();
    state.machine.refused = u32::MAX - 2;
    let earlier = state.machine.refused;
    (1..=9).for_each(|calls| assert_eq!((grant(&mut state, 17), since(state.machine.refused, earlier)), (7, calls)));
}

/// An accepted boot sets both counters to 0, and a refused one keeps them.
#[test]
fn boots() {
    let mut state = after_e1();
    (state.machine.granted, state.machine.refused) = (5, u32::MAX);
    let before = state.clone();
    let short = Call::Boot { base: 4, frames: 31, order: 2, text: Vec::new() };
    for (call, number) in [(short, 1), (boot(b"a=0"), 21), (boot(b"a=129K"), 13)] {
        assert_eq!((state.apply(&call).refusal, &state), (number, &before));
    }
    assert_eq!((state.apply(&boot(b"")).refusal, counters(&state)), (0, (0, 0)));
}
