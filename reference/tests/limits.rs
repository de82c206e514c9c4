//! Both sides of every limit.

use reference::machine::mark_of;
use reference::regions::parse;
use reference::replay::{body_length, encode, replay, Station};
use reference::{Answer, Area, Call, Machine, Request, State};

const PAGE: u64 = 4096;

fn ask(state: &mut State, call: Call) -> (u64, u64, u64) {
    let Answer { refusal, first, second } = state.apply(&call);
    (refusal, first, second)
}

fn refusal(state: &State, call: Call) -> u64 {
    state.clone().apply(&call).refusal
}

fn boot(base: u64, frames: u64, order: u64) -> Call {
    Call::Boot { base, frames, order, text: Vec::new() }
}

/// P 8, n 32, b 1 with areas 16..24 (k 0) and 32..36 (k 1).
fn two_areas() -> State {
    let mut state = State::fresh(32, 3);
    let machine = &mut state.machine;
    (machine.base, machine.frames, machine.order, machine.declared) = (8, 32, 1, 2);
    machine.areas[0] = Area { base: 16, count: 8, order: 0 };
    machine.areas[1] = Area { base: 32, count: 4, order: 1 };
    state
}

fn shape_after(change: impl Fn(&mut State)) -> u64 {
    let mut state = two_areas();
    change(&mut state);
    state.apply(&Call::Read { name: 0 }).refusal
}

#[test]
fn boot_numbers() {
    let top = 1u64 << 36;
    for (base, frames, order, expected) in [
        (1, 1, 0, 0),
        (0, 1, 0, 1),
        (top - 1, 1, 0, 0),
        (top, 1, 0, 1),
        (u64::MAX, 1, 0, 1),
        (1, 262_144, 10, 0),
        (1, 262_145, 0, 1),
        (top - 262_144, 262_144, 0, 0),
        (top - 262_143, 262_144, 0, 1),
        (1, 0, 0, 1),
        (1, 4, 11, 1),
        (1, 4, u64::MAX, 1),
    ] {
        let mut state = State::fresh(frames as usize, 0);
        assert_eq!(ask(&mut state, boot(base, frames, order)), (expected, 0, 0));
    }
    assert_eq!(refusal(&State::fresh(4, 0), boot(1, u64::MAX, 0)), 1);
}

#[test]
fn boot_lengths() {
    for (marks, words, owners) in [(3, 4, 4), (5, 4, 4), (4, 3, 4), (4, 5, 4), (4, 4, 3), (4, 4, 5), (4, 4, 0), (0, 0, 0)] {
        let mut state = State::fresh(4, 0);
        state.marks.resize(marks, 9);
        state.words.resize(words, 9);
        state.owners.resize(owners, 9);
        assert_eq!(ask(&mut state, boot(1, 4, 0)), (1, 0, 0));
    }
    // The record given is ignored, whatever it holds.
    let mut state = State::fresh(4, 2);
    let (granted, refused) = (5, u32::MAX);
    state.machine = Machine { base: 9, frames: u64::MAX, order: 99, declared: 99, granted, refused, ..two_areas().machine };
    state.bitmap = vec![5, 6];
    state.marks = vec![7; 4];
    state.owners = vec![1, 65_535, 65_536, u32::MAX];
    assert_eq!(ask(&mut state, boot(1, 4, 0)), (0, 0, 0));
    assert_eq!((state.marks, state.bitmap, state.owners), (vec![0; 4], vec![0; 2], vec![0; 4]));
    assert_eq!(state.machine, Machine { base: 1, frames: 4, ..Machine::fresh() });
}

#[test]
fn a_fresh_record_gets_one() {
    for frames in [0, 1, 4] {
        let state = State::fresh(frames, 4);
        assert_eq!(refusal(&state, Call::Read { name: 0 }), 1);
        assert_eq!(refusal(&state, Call::Grant { area: 0, count: 0, align: 0, device: 0 }), 1);
        assert_eq!(refusal(&state, Call::Declare(Request::default())), 1);
        assert_eq!(refusal(&state, Call::DeviceRead { frame: 0, device: 0 }), 1);
    }
}

#[test]
fn shapes_that_are_right() {
    assert_eq!(shape_after(|_| ()), 2);
    assert_eq!(shape_after(|s| s.bitmap.truncate(2)), 2);
    assert_eq!(shape_after(|s| s.machine.areas[0].order = 1), 2);
    assert_eq!(shape_after(|s| s.machine.areas[0] = Area { base: 8, count: 24, order: 0 }), 2);
    assert_eq!(shape_after(|s| s.machine.areas[1] = Area { base: 24, count: 16, order: 0 }), 2);
    assert_eq!(shape_after(|s| s.machine.areas[2].base = u64::MAX), 2);
    assert_eq!(shape_after(|s| s.machine.declared = 0), 2);
}

#[test]
fn shapes_that_are_wrong() {
    assert_eq!(shape_after(|s| s.bitmap.truncate(1)), 1);
    assert_eq!(shape_after(|s| s.machine.base = 0), 1);
    assert_eq!(shape_after(|s| s.machine.frames = 31), 1);
    assert_eq!(shape_after(|s| s.machine.order = 11), 1);
    assert_eq!(shape_after(|s| s.machine.declared = 3), 1);
    assert_eq!(shape_after(|s| s.machine.declared = 65), 1);
    assert_eq!(shape_after(|s| s.machine.declared = u64::MAX), 1);
    assert_eq!(shape_after(|s| s.marks.push(0)), 1);
    assert_eq!(shape_after(|s| s.words.truncate(31)), 1);
    assert_eq!(shape_after(|s| s.owners.truncate(31)), 1);
    assert_eq!(shape_after(|s| s.owners.push(0)), 1);
    assert_eq!(shape_after(|s| s.owners.clear()), 1);
    assert_eq!(shape_after(|s| s.machine.areas[0].count = 0), 1);
    assert_eq!(shape_after(|s| s.machine.areas[0].order = 2), 1);
    assert_eq!(shape_after(|s| s.machine.areas[0].order = u64::MAX), 1);
    assert_eq!(shape_after(|s| s.machine.areas[0].base = 17), 1);
    assert_eq!(shape_after(|s| s.machine.areas[0].count = 7), 1);
    assert_eq!(shape_after(|s| s.machine.areas[0].base = 6), 1);
    assert_eq!(shape_after(|s| s.machine.areas[1].count = 10), 1);
    assert_eq!(shape_after(|s| s.machine.areas[1].count = u64::MAX - 1), 1);
    assert_eq!(shape_after(|s| s.machine.areas[1].base = u64::MAX - 1), 1);
    assert_eq!(shape_after(|s| s.machine.areas[0] = Area { base: 8, count: 26, order: 0 }), 1);
    assert_eq!(shape_after(|s| s.machine.areas[1] = s.machine.areas[0]), 1);
}

#[test]
fn names() {
    let mut state = two_areas();
    let max = Machine::MAX_NAME;
    for (name, expected) in [(0, 2), (1, 0), (1, 4), (max, 0), (max, 4), (max + 1, 2), (1 << 32, 2), (u64::MAX, 2)] {
        assert_eq!(ask(&mut state, Call::PutMovable { name }).0, expected);
    }
    // 2^32 + 1 must not be taken for 1.
    assert_eq!(refusal(&state, Call::Read { name: (1 << 32) + 1 }), 2);
    assert_eq!(refusal(&state, Call::Read { name: 2 }), 3);
    assert_eq!(refusal(&state, Call::Read { name: max }), 0);
}

#[test]
fn a_name_that_stands_twice_is_the_lowest() {
    let mut state = two_areas();
    state.marks[3] = mark_of(5, 1);
    state.marks[2] = mark_of(5, 4);
    state.marks[1] = mark_of(5, 6);
    state.marks[7] = mark_of(5, 2);
    state.words[3] = 30;
    assert_eq!(ask(&mut state, Call::Read { name: 5 }), (0, 11, 30));
    assert_eq!(ask(&mut state, Call::Drop { name: 5 }), (0, 0, 0));
    assert_eq!(ask(&mut state, Call::Read { name: 5 }), (0, 15, 0));
    assert_eq!(refusal(&state, Call::Drop { name: 5 }), 5);
    assert_eq!(refusal(&state, Call::Store { name: 5, word: 1 }), 5);
    assert_eq!(refusal(&state, Call::Pin { name: 5 }), 5);
    assert_eq!(ask(&mut state, Call::Unpin { name: 5 }), (0, 0, 0));
    assert_eq!(state.marks[7], mark_of(5, 1));
}

#[test]
fn puts_to_the_last_frame() {
    let mut state = two_areas();
    // A free mark may carry a field; it is still free and is overwritten.
    state.marks[0] = mark_of(9, 0);
    let ordinary: Vec<u64> = (8..16).chain(24..32).chain(36..40).collect();
    for (i, &frame) in ordinary.iter().enumerate() {
        assert_eq!(ask(&mut state, Call::PutFixed { name: i as u64 + 1 }), (0, frame, 0));
    }
    assert_eq!(ask(&mut state, Call::PutFixed { name: 100 }), (6, 0, 0));
    // Unused kinds and the bitmap do not matter to a put.
    state.marks[8] = 6;
    state.marks[9] = 7;
    state.bitmap.fill(u64::MAX);
    for (name, frame) in (101..).zip((18..24).chain(32..36)) {
        assert_eq!(ask(&mut state, Call::PutMovable { name }), (0, frame, 0));
    }
    assert_eq!(ask(&mut state, Call::PutMovable { name: 200 }), (6, 0, 0));
}

#[test]
fn grant_arguments() {
    let state = two_areas();
    let grant = |area, count, align| refusal(&state, Call::Grant { area, count, align, device: 1 });
    assert_eq!(grant(1, 1, 0), 0);
    assert_eq!(grant(2, 1, 0), 2);
    assert_eq!(grant(u64::MAX, 1, 0), 2);
    assert_eq!(grant(0, 0, 0), 2);
    assert_eq!(grant(0, 1, 16), 7);
    assert_eq!(grant(0, 1, 17), 2);
    assert_eq!(grant(0, 1, u64::MAX), 2);
    assert_eq!(grant(0, 8, 4), 0);
    assert_eq!(grant(0, 9, 0), 7);
    assert_eq!(grant(0, u64::MAX, 0), 7);
    assert_eq!(grant(1, u64::MAX, 0), 7);
    assert_eq!(grant(1, 4, 5), 0);
    assert_eq!(grant(1, 1, 6), 7);
}

#[test]
fn grants_go_past_pages_that_stay() {
    for kind in [2, 3, 4, 5, 6, 7] {
        let mut state = two_areas();
        state.marks[8] = mark_of(3, kind);
        assert_eq!(ask(&mut state, Call::Grant { area: 0, count: 2, align: 0, device: 1 }), (0, 17, 0));
    }
    let mut state = two_areas();
    state.bitmap[0] = 0b1;
    assert_eq!(ask(&mut state, Call::Grant { area: 0, count: 7, align: 0, device: 1 }), (0, 17, 0));
    assert_eq!(state.bitmap[0], 0xff);
}

#[test]
fn a_grant_needs_just_enough_targets() {
    let mut state = two_areas();
    state.marks.fill(mark_of(1, 3));
    (8..11).for_each(|place| state.marks[place] = mark_of(50 + place as u64, 1));
    (8..11).for_each(|place| state.words[place] = place as u64);
    state.marks[30] = 0;
    state.marks[31] = mark_of(77, 0);
    assert_eq!(refusal(&state, Call::Grant { area: 0, count: 3, align: 0, device: 1 }), 8);
    assert_eq!(ask(&mut state, Call::Grant { area: 0, count: 2, align: 0, device: 1 }), (0, 16, 2));
    assert_eq!(state.marks[30..], [mark_of(58, 1), mark_of(59, 1)]);
    assert_eq!(state.words[30..], [8, 9]);
    assert_eq!((state.marks[10], state.words[10]), (mark_of(60, 1), 10));
}

/// Four movable pages in the first places of the area 16..24, and fixed ones everywhere else.
fn four_to_move(mut state: State) -> State {
    state.marks.fill(mark_of(1, 3));
    (8..12).for_each(|place| (state.marks[place], state.words[place]) = (mark_of(50 + place as u64, 1), place as u64));
    state
}

#[test]
fn pages_go_to_ordinary_frames_and_then_to_another_area() {
    let grant = |count| Call::Grant { area: 0, count, align: 0, device: 1 };
    let mut state = four_to_move(two_areas());
    // The other frames of their own area are no room.
    state.marks[12..16].fill(0);
    assert_eq!(refusal(&state, grant(1)), 8);
    // A frame of the area of two frames to a bit, whatever the field of its free mark, and another; and an ordinary one above them.
    (state.marks[25], state.marks[27], state.marks[29]) = (mark_of(9, 0), 0, 0);
    assert_eq!(refusal(&state, grant(4)), 8);
    assert_eq!(ask(&mut state, grant(3)), (0, 16, 3));
    assert_eq!([29, 25, 27].map(|place| (state.marks[place], state.words[place])), [58, 59, 60].map(|name| (mark_of(name, 1), name - 50)));
    assert_eq!(state.bitmap, vec![0b111, 0, 0]);
    assert_eq!((state.marks[11], state.marks[12], state.words[25]), (mark_of(61, 1), 0, 9));
}

#[test]
fn frames_of_other_areas_are_taken_by_frame_and_not_by_area() {
    let mut state = four_to_move(two_areas());
    state.machine.declared = 3;
    state.machine.areas.swap(0, 1);
    state.machine.areas[2] = Area { base: 8, count: 4, order: 0 };
    (state.marks[1], state.marks[24]) = (0, 0);
    assert_eq!(ask(&mut state, Call::Grant { area: 1, count: 2, align: 0, device: 1 }), (0, 16, 2));
    assert_eq!((state.marks[1], state.marks[24]), (mark_of(58, 1), mark_of(59, 1)));
}

#[test]
fn release_checks() {
    let mut state = two_areas();
    assert_eq!(ask(&mut state, Call::Grant { area: 1, count: 3, align: 0, device: 1 }), (0, 32, 0));
    assert_eq!(state.bitmap, vec![0, 0b11, 0]);
    state.bitmap = vec![u64::MAX, u64::MAX, u64::MAX];
    let release = |area, frame, count| Call::Release { area, frame, count, device: 1 };
    let says = |area, frame, count| refusal(&state, release(area, frame, count));
    assert_eq!(says(2, 32, 3), 2);
    assert_eq!(says(1, 32, 0), 2);
    assert_eq!(says(1, 31, 3), 2);
    assert_eq!(says(1, 32, 5), 2);
    assert_eq!(says(1, 36, 1), 2);
    assert_eq!(says(1, 35, u64::MAX), 2);
    assert_eq!(says(1, u64::MAX, 2), 2);
    assert_eq!(says(0, 32, 3), 2);
    assert_eq!(says(1, 33, 1), 3);
    assert_eq!(says(1, 34, 1), 3);
    assert_eq!(says(1, 32, 4), 9);
    assert_eq!(says(1, 32, 2), 9);
    let mut damaged = state.clone();
    damaged.marks[26] = 4;
    assert_eq!(refusal(&damaged, release(1, 32, 3)), 9);
    // A mark of kind 4 at an odd frame is off the boundary of a 2-frame bit.
    damaged.marks[25] = mark_of(1, 4);
    damaged.owners[25] = 1;
    assert_eq!(refusal(&damaged, release(1, 33, 1)), 3);
    assert_eq!(ask(&mut state, release(1, 32, 3)), (0, 0, 0));
    assert_eq!(state.bitmap, vec![u64::MAX, u64::MAX - 3, u64::MAX]);
    assert_eq!(state.marks, vec![0; 32]);
}

#[test]
fn device_words() {
    let mut state = two_areas();
    state.marks[0] = mark_of(1, 4);
    state.marks[31] = mark_of(9, 5);
    (state.owners[0], state.owners[31]) = (1, 1);
    let read = |frame| Call::DeviceRead { frame, device: 1 };
    assert_eq!(refusal(&state, read(7)), 2);
    assert_eq!(refusal(&state, read(40)), 2);
    assert_eq!(refusal(&state, read(u64::MAX)), 2);
    assert_eq!(refusal(&state, read(9)), 3);
    assert_eq!(ask(&mut state, Call::DeviceStore { frame: 8, word: 6, device: 1 }), (0, 0, 0));
    assert_eq!(ask(&mut state, Call::DeviceStore { frame: 39, word: u64::MAX, device: 1 }), (0, 0, 0));
    assert_eq!(ask(&mut state, read(8)), (0, 6, 0));
    assert_eq!(ask(&mut state, read(39)), (0, u64::MAX, 0));
}

fn request(base: u64, size: u64, limit: u64, alignment: u64) -> Request {
    Request { base, size, limit, alignment, order: 0, fixed: false }
}

fn declare(state: &State, request: Request) -> (u64, u64, u64) {
    ask(&mut state.clone(), Call::Declare(request))
}

#[test]
fn declare_amounts() {
    let state = two_areas();
    let top = 1u64 << 48;
    let says = |base, size, limit, alignment| declare(&state, request(base, size, limit, alignment)).0;
    assert_eq!(says(0, 1, 0, 0), 0);
    assert_eq!(says(0, 0, 0, 0), 2);
    assert_eq!(says(top, 1, 0, 0), 13);
    assert_eq!(says(top + 1, 1, 0, 0), 2);
    assert_eq!(says(0, top, 0, 0), 14);
    assert_eq!(says(0, top + 1, 0, 0), 2);
    assert_eq!(says(0, 1, top, 0), 0);
    assert_eq!(says(0, 1, top + 1, 0), 2);
    assert_eq!(says(0, 1, 0, top), 14);
    assert_eq!(says(0, 1, 0, 2 * top), 2);
    assert_eq!(says(0, 1, 0, 3), 2);
    assert_eq!(says(0, 1, 0, 1 << 63), 2);
    assert_eq!(says(u64::MAX, u64::MAX, u64::MAX, u64::MAX), 2);
}

#[test]
fn declare_orders_its_checks() {
    let mut state = two_areas();
    let bad = Request { size: 0, order: 9, ..request(0, 0, 0, 0) };
    assert_eq!(declare(&state, bad).0, 2);
    let high = Request { order: 2, ..request(0, 1 << 48, 0, 0) };
    assert_eq!(declare(&state, high).0, 11);
    assert_eq!(declare(&state, Request { order: u64::MAX, ..high }).0, 11);
    assert_eq!(declare(&state, Request { order: 1, ..request(0, 1, 0, 0) }).0, 0);
    state.bitmap.truncate(2);
    assert_eq!(declare(&state, Request { fixed: true, ..request(PAGE, 1, 0, 0) }).0, 14);
}

#[test]
fn declare_at_64_areas() {
    let mut state = State::fresh(100, 64);
    ask(&mut state, boot(1, 100, 0));
    for area in 0..64 {
        let one = Call::Declare(request(0, 1, 0, 0));
        assert_eq!(ask(&mut state, one), (0, 100 - area, 1));
    }
    assert_eq!(declare(&state, request(0, 0, u64::MAX, 3)).0, 10);
    assert_eq!(declare(&state, request(0, 1, 1, 0)).0, 10);
    // The last area has a bit and a grant of its own.
    assert_eq!(ask(&mut state, Call::Grant { area: 64, count: 1, align: 0, device: 1 }), (2, 0, 0));
    assert_eq!(ask(&mut state, Call::Grant { area: 63, count: 1, align: 0, device: 1 }), (0, 37, 0));
    assert_eq!((state.bitmap[62], state.bitmap[63]), (0, 1));
}

/// 64 areas are the right shape, if they are apart and the bitmap has their words.
#[test]
fn shapes_of_64_areas() {
    let mut state = State::fresh(64, 64);
    (state.machine.base, state.machine.frames, state.machine.declared) = (1, 64, 64);
    for (i, area) in state.machine.areas.iter_mut().enumerate() {
        *area = Area { base: 64 - i as u64, count: 1, order: 0 };
    }
    assert!(state.shape_is_right());
    let says = |change: fn(&mut State)| {
        let mut changed = state.clone();
        change(&mut changed);
        changed.shape_is_right()
    };
    assert!(says(|s| s.bitmap.push(0)));
    assert!(says(|s| s.machine.declared = 63));
    assert!(!says(|s| s.bitmap.truncate(63)));
    assert!(!says(|s| s.machine.declared = 65));
    assert!(!says(|s| s.machine.areas[63].base = 2));
    assert!(!says(|s| s.machine.areas[63].count = 2));
    assert!(!says(|s| s.machine.areas[63].count = 0));
    assert!(!says(|s| s.machine.areas[63].order = 1));
}

/// What a declare of one byte answers, by its limit and its alignment.
fn limited(state: &State, limit: u64, alignment: u64) -> (u64, u64, u64) {
    declare(state, request(0, 1, limit, alignment))
}

#[test]
fn a_small_limit_is_refused() {
    let state = two_areas();
    let refused = (11, 0, 0);
    // A is the block, two pages. Memory starts at frame 8, so a place must end at frame 10 or above.
    assert_eq!(limited(&state, 0, 0), (0, 38, 2));
    for limit in [1, 100, PAGE, 2 * PAGE - 1] {
        assert_eq!(limited(&state, limit, 0), refused);
        assert_eq!(limited(&state, limit, 1), refused);
        assert_eq!(limited(&state, limit, 2 * PAGE), refused);
    }
    for limit in [2 * PAGE, 2 * PAGE + 1, 10 * PAGE - 1] {
        assert_eq!(limited(&state, limit, 0), (13, 0, 0));
    }
    assert_eq!(limited(&state, 10 * PAGE, 0), (0, 8, 2));
    // A is the alignment, eight pages.
    assert_eq!(limited(&state, 0, 8 * PAGE), (0, 24, 8));
    assert_eq!(limited(&state, 2 * PAGE, 8 * PAGE), refused);
    assert_eq!(limited(&state, 8 * PAGE - 1, 8 * PAGE), refused);
    assert_eq!(limited(&state, 8 * PAGE, 8 * PAGE), (13, 0, 0));
    assert_eq!(limited(&state, 8 * PAGE + 1, 8 * PAGE), (13, 0, 0));
    assert_eq!(limited(&state, 16 * PAGE, 8 * PAGE), (0, 8, 8));
    // The largest alignment, and a limit that is then past the end of memory.
    let top = 1 << 48;
    assert_eq!(limited(&state, top - 1, top), refused);
    assert_eq!(limited(&state, top, top), (14, 0, 0));
}

#[test]
fn a_small_limit_is_refused_with_any_base() {
    let state = two_areas();
    for base in [0, 1, 8 * PAGE, 16 * PAGE, 1 << 48] {
        for fixed in [false, true] {
            let says = |limit| declare(&state, Request { fixed, ..request(base, 1, limit, 0) }).0;
            assert_eq!((says(1), says(2 * PAGE - 1)), (11, 11));
            assert_ne!(says(0), 11);
        }
    }
    assert_eq!(declare(&state, Request { fixed: true, ..request(8 * PAGE, 1, 10 * PAGE, 0) }), (0, 8, 2));
}

#[test]
fn a_small_limit_stands_with_a_high_order() {
    let mut state = two_areas();
    let small = request(0, 1, 1, 0);
    assert_eq!(declare(&state, Request { order: 2, ..small }).0, 11);
    assert_eq!(declare(&state, Request { size: 0, ..small }).0, 2);
    assert_eq!(declare(&state, Request { alignment: 3, ..small }).0, 2);
    // The bitmap is too short for a third area.
    state.bitmap.truncate(2);
    assert_eq!(declare(&state, request(0, 1, 0, 0)).0, 14);
    assert_eq!(declare(&state, request(0, 1, 2 * PAGE - 1, 0)).0, 11);
    assert_eq!(declare(&state, request(0, 1, 2 * PAGE, 0)).0, 14);
    state.machine.order = 11;
    assert_eq!(declare(&state, small).0, 1);
}

#[test]
fn declare_at_a_fixed_base() {
    let mut state = two_areas();
    state.bitmap[2] = 99;
    let fixed = |base, size| Request { fixed: true, ..request(base * PAGE, size * PAGE, 0, 0) };
    assert_eq!(declare(&state, fixed(8, 8)), (0, 8, 8));
    assert_eq!(declare(&state, fixed(6, 2)), (13, 0, 0));
    assert_eq!(declare(&state, fixed(38, 2)), (0, 38, 2));
    assert_eq!(declare(&state, fixed(38, 4)), (13, 0, 0));
    assert_eq!(declare(&state, fixed(8, 10)), (12, 0, 0));
    // Base is rounded up to the block.
    assert_eq!(declare(&state, fixed(9, 1)), (0, 10, 2));
    // Base 0 cancels fixed.
    assert_eq!(declare(&state, fixed(0, 1)), (0, 38, 2));
    state.marks[0] = mark_of(3, 0);
    assert_eq!(declare(&state, fixed(8, 2)).0, 0);
    state.marks[0] = 6;
    assert_eq!(declare(&state, fixed(8, 2)).0, 12);
    ask(&mut state, Call::Declare(fixed(10, 2)));
    assert_eq!(state.bitmap[2], 0);
    assert_eq!(state.marks[0], 6);
}

/// What a fixed declare answers; its limit is in pages too.
fn fixed_below(state: &State, base: u64, size: u64, limit: u64) -> (u64, u64, u64) {
    declare(state, Request { fixed: true, ..request(base * PAGE, size * PAGE, limit * PAGE, 0) })
}

/// More pages than any memory has.
const FAR: u64 = 1 << 36;

#[test]
fn a_fixed_range_above_its_limit_is_refused() {
    let state = two_areas();
    assert_eq!(fixed_below(&state, 8, 2, 0), (0, 8, 2));
    assert_eq!(fixed_below(&state, 8, 2, 8), (11, 0, 0));
    assert_eq!(fixed_below(&state, 8, 2, 9), (11, 0, 0));
    assert_eq!(fixed_below(&state, 8, 2, 10), (0, 8, 2));
    assert_eq!(fixed_below(&state, 8, 2, 12), (0, 8, 2));
    assert_eq!(fixed_below(&state, 8, 2, FAR), (0, 8, 2));
    // The limit as given may be any byte.
    let says = |limit| declare(&state, Request { fixed: true, ..request(8 * PAGE, 1, limit, 0) }).0;
    assert_eq!((says(10 * PAGE - 1), says(10 * PAGE), says(10 * PAGE + 1)), (11, 0, 0));
    // A is the alignment, eight pages: the range is frames 24 to 31.
    let says = |limit| declare(&state, Request { fixed: true, ..request(24 * PAGE, 1, limit, 8 * PAGE) });
    assert_eq!(says(24 * PAGE), (11, 0, 0));
    assert_eq!(says(32 * PAGE - 1), (11, 0, 0));
    assert_eq!(says(32 * PAGE), (0, 24, 8));
}

#[test]
fn a_fixed_range_is_rounded_before_the_limit_is_asked() {
    let state = two_areas();
    // Base and size round up, to frames 10 and 11.
    assert_eq!(fixed_below(&state, 9, 1, 10), (11, 0, 0));
    assert_eq!(fixed_below(&state, 9, 1, 11), (11, 0, 0));
    assert_eq!(fixed_below(&state, 9, 1, 12), (0, 10, 2));
    // The size alone rounds up, and the limit rounds down.
    assert_eq!(fixed_below(&state, 8, 3, 11), (11, 0, 0));
    assert_eq!(fixed_below(&state, 8, 3, 12), (0, 8, 4));
}

#[test]
fn a_fixed_range_outside_memory_with_a_limit() {
    let mut state = two_areas();
    assert_eq!(fixed_below(&state, 38, 2, FAR), (0, 38, 2));
    assert_eq!(fixed_below(&state, 38, 4, 0), (13, 0, 0));
    assert_eq!(fixed_below(&state, 38, 4, 40), (11, 0, 0));
    assert_eq!(fixed_below(&state, 38, 4, 42), (11, 0, 0));
    assert_eq!(fixed_below(&state, 40, 2, FAR), (11, 0, 0));
    assert_eq!(fixed_below(&state, FAR, 2, 0), (13, 0, 0));
    assert_eq!(fixed_below(&state, FAR, 2, FAR), (11, 0, 0));
    assert_eq!(fixed_below(&state, 4, 2, 0), (13, 0, 0));
    assert_eq!(fixed_below(&state, 4, 2, 4), (11, 0, 0));
    assert_eq!(fixed_below(&state, 4, 2, 6), (13, 0, 0));
    assert_eq!(fixed_below(&state, 4, 2, FAR), (13, 0, 0));
    // Memory ends within a block, at frame 39, and the limit is cut to there.
    state.machine.frames = 31;
    state.marks.truncate(31);
    state.words.truncate(31);
    state.owners.truncate(31);
    assert_eq!(fixed_below(&state, 36, 2, FAR), (0, 36, 2));
    assert_eq!(fixed_below(&state, 38, 2, 40), (11, 0, 0));
    assert_eq!(fixed_below(&state, 38, 2, 0), (13, 0, 0));
}

#[test]
fn base_0_is_placed_below_the_limit() {
    let state = two_areas();
    assert_eq!(fixed_below(&state, 0, 2, 12), (0, 10, 2));
    assert_eq!(fixed_below(&state, 0, 2, FAR), (0, 38, 2));
    assert_eq!(fixed_below(&state, 0, 4, 2), (13, 0, 0));
}

#[test]
fn the_limit_of_a_fixed_range_is_asked_before_the_bitmap() {
    let mut state = two_areas();
    assert_eq!(fixed_below(&state, 16, 2, 16).0, 11);
    assert_eq!(fixed_below(&state, 16, 2, 18).0, 12);
    state.bitmap.truncate(2);
    assert_eq!(fixed_below(&state, 8, 2, 8).0, 11);
    assert_eq!(fixed_below(&state, 8, 2, 10).0, 14);
    assert_eq!(fixed_below(&state, 38, 4, 42).0, 11);
    assert_eq!(fixed_below(&state, 38, 4, 0).0, 14);
    assert_eq!(fixed_below(&state, 8, 0, 8).0, 2);
}

#[test]
fn declare_goes_down_past_what_is_taken() {
    let mut state = two_areas();
    state.marks[31] = mark_of(1, 1);
    assert_eq!(declare(&state, request(0, 2 * PAGE, 0, 0)), (0, 36, 2));
    assert_eq!(declare(&state, request(0, 4 * PAGE, 0, 0)), (0, 28, 4));
    assert_eq!(declare(&state, request(0, 8 * PAGE, 0, 0)), (0, 24, 8));
    assert_eq!(declare(&state, request(26 * PAGE, 8 * PAGE, 0, 0)), (13, 0, 0));
    assert_eq!(declare(&state, request(8 * PAGE, 8 * PAGE, 31 * PAGE, 0)), (0, 8, 8));
    assert_eq!(declare(&state, request(8 * PAGE + 1, 8 * PAGE, 31 * PAGE, 0)), (13, 0, 0));
    assert_eq!(declare(&state, request(0, 10 * PAGE, 0, 0)), (13, 0, 0));
    assert_eq!(declare(&state, request(0, 2 * PAGE, 8 * PAGE, 0)), (13, 0, 0));
    assert_eq!(declare(&state, request(0, 1, 0, 8 * PAGE)), (0, 24, 8));
}

fn refused(text: &[u8]) -> (u64, u64) {
    parse(text).expect_err("is refused")
}

#[test]
fn text_names() {
    assert!(parse(b"").unwrap().is_empty());
    assert_eq!(parse(b"abcdefgh-JKL_456=1;").unwrap().len(), 1);
    assert_eq!(refused(b"abcdefgh-JKL_4567=1"), (20, 16));
    assert_eq!(refused(b"=1"), (20, 0));
    assert_eq!(refused(b"a"), (20, 1));
    assert_eq!(refused(b"a b=1"), (20, 1));
    assert_eq!(refused(b"\xe9=1"), (20, 0));
    // A repeated name is judged before the byte after it.
    assert_eq!(refused(b"a=1;a"), (22, 4));
    assert_eq!(refused(b"a=1;a!"), (22, 4));
    assert_eq!(refused(b"aaaaaaaaaaaaaaaa=1;aaaaaaaaaaaaaaaaZ=1"), (22, 19));
    assert_eq!(parse(b"a=1;A=1;aa=1").unwrap().len(), 3);
}

#[test]
fn text_numbers() {
    let size = |text: &[u8]| parse(text).unwrap()[0].size;
    assert_eq!(size(b"a=10"), 10);
    assert_eq!(size(b"a=010"), 8);
    assert_eq!(size(b"a=0x1Fk"), 31 << 10);
    assert_eq!(size(b"a=0xfM"), 15 << 20);
    assert_eq!(size(b"a=02g"), 2 << 30);
    assert_eq!(size(b"a=281474976710656"), 1 << 48);
    assert_eq!(size(b"a=0000000000000000000000000000001"), 1);
    assert_eq!(size(b"a=0x000000000000000000000000000001"), 1);
    assert_eq!(refused(b"a=281474976710657"), (21, 2));
    assert_eq!(refused(b"a=99999999999999999999999999999999999999"), (21, 2));
    assert_eq!(refused(b"a=18446744073709551617"), (21, 2));
    assert_eq!(refused(b"a=17179869184G"), (21, 2));
    assert_eq!(refused(b"a=0G"), (21, 2));
    assert_eq!(refused(b"a=1KK"), (20, 4));
    assert_eq!(refused(b"a=0178"), (20, 5));
    assert_eq!(refused(b"a=1a"), (20, 3));
    assert_eq!(refused(b"a=0X1"), (21, 2));
    assert_eq!(refused(b"a=1@0X1"), (20, 5));
    assert_eq!(refused(b"a=0xK"), (20, 4));
    assert_eq!(refused(b"a=1@0x;"), (20, 6));
    assert_eq!(refused(b"a="), (20, 2));
    assert_eq!(refused(b"a=K"), (20, 2));
    assert_eq!(refused(b"a=-1"), (20, 2));
}

#[test]
fn text_parts() {
    let region = parse(b"a=1@2/4:ff").unwrap().remove(0);
    assert_eq!((region.size, region.start, region.alignment), (1, 2, 4));
    assert_eq!(parse(b"a=1:ff").unwrap().len(), 1);
    assert_eq!(parse(b"a=1@0/0").unwrap().len(), 1);
    assert_eq!(parse(b"a=1/256T").map(|_| ()), Err((20, 7)));
    assert_eq!(parse(b"a=1/262144G").unwrap()[0].alignment, 1 << 48);
    assert_eq!(refused(b"a=1/524288G"), (21, 4));
    assert_eq!(refused(b"a=1@262145G"), (21, 4));
    assert_eq!(refused(b"a=1/2@2"), (20, 5));
    assert_eq!(refused(b"a=1:ff/2"), (20, 6));
    assert_eq!(refused(b"a=1@2@2"), (20, 5));
    assert_eq!(refused(b"a=1:"), (20, 4));
    assert_eq!(refused(b"a=1:;"), (20, 4));
    assert_eq!(refused(b"a=1:fg!"), (25, 4));
    assert_eq!(refused(b"a=1:FF"), (25, 4));
    assert_eq!(refused(b"a=1:fff"), (25, 4));
    assert_eq!(refused(b"a=1:ff!"), (20, 6));
    assert_eq!(refused(b"a=1;;"), (20, 4));
    assert_eq!(refused(b"a=1;b"), (20, 5));
}

/// Regions `r10=1`, `r11=1` and so on, with `;` between them.
fn regions(count: usize) -> Vec<u8> {
    let each: Vec<String> = (10..10 + count).map(|i| format!("r{i}=1")).collect();
    each.join(";").into_bytes()
}

#[test]
fn text_regions() {
    let with = |tail: &[u8]| [&regions(64), tail].concat();
    // 64 of five bytes, and a `;` between each two of them.
    assert_eq!(with(b"").len(), 383);
    assert_eq!(parse(&with(b"")).unwrap().len(), 64);
    assert_eq!(parse(&with(b";")).unwrap().len(), 64);
    assert_eq!(refused(&with(b";i=1")), (23, 384));
    assert_eq!(refused(&with(b";r10")), (23, 384));
    assert_eq!(refused(&with(b";;")), (23, 384));
    assert_eq!(refused(&with(b"!")), (20, 383));
    assert_eq!(refused(&regions(65)), (23, 384));
    assert_eq!(refused(&[regions(63), b";r10=1".to_vec()].concat()), (22, 378));
    assert_eq!(refused(&[regions(63), b";;".to_vec()].concat()), (20, 378));
}

#[test]
fn text_lengths() {
    let padded = |length: usize| [b"a=".to_vec(), vec![b'0'; length - 3], b"1".to_vec()].concat();
    assert_eq!(parse(&padded(8192)).unwrap()[0].size, 1);
    assert_eq!(refused(&padded(8193)), (24, 8192));
    assert_eq!(refused(&[b'!'; 8193]), (24, 8192));
    assert_eq!(refused(&[b'!'; 8192]), (20, 0));
    // Too long is judged before too many regions.
    let with = |tail: &[u8], length: usize| [&regions(64), tail, &vec![b'0'; length - 383 - tail.len()]].concat();
    assert_eq!(refused(&with(b";z=1", 8192)), (23, 384));
    assert_eq!(refused(&with(b";z=1", 8193)), (24, 8192));
    // The last region's number may end with the text.
    let filled = [regions(63), b";z=1".to_vec(), vec![b'0'; 8192 - 381]].concat();
    assert_eq!((filled.len(), refused(&filled)), (8192, (21, 380)));
}

#[test]
fn boot_declares_in_turn() {
    let with = |text: &[u8]| {
        let mut state = State::fresh(32, 2);
        state.marks.fill(u32::MAX);
        state.owners.fill(u32::MAX);
        let boot = Call::Boot { base: 4, frames: 32, order: 2, text: text.to_vec() };
        let before = state.clone();
        let answer = ask(&mut state, boot);
        assert!(answer.0 == 0 || state == before);
        answer
    };
    assert_eq!(with(b"a=1;b=1"), (0, 0, 0));
    assert_eq!(with(b"a=1;b=1;c=1"), (14, 2, 0));
    assert_eq!(with(b"a=1;b=1@32768;"), (0, 0, 0));
    assert_eq!(with(b"a=1@32768;b=1@20K"), (12, 1, 0));
    assert_eq!(with(b"a=1@4"), (0, 0, 0));
    assert_eq!(with(b"a=1@144K"), (13, 0, 0));
    assert_eq!(with(b"a=129K"), (13, 0, 0));
    // The text is read to its end before anything is declared.
    assert_eq!(with(b"a=129K;b=0"), (21, 9, 0));
    let mut state = State::fresh(31, 2);
    let boot = Call::Boot { base: 4, frames: 32, order: 2, text: b";".to_vec() };
    assert_eq!(ask(&mut state, boot), (1, 0, 0));
}

#[test]
fn boot_starts_at_zero_are_not_fixed() {
    let mut state = State::fresh(32, 2);
    let text = b"a=1@0".to_vec();
    ask(&mut state, Call::Boot { base: 4, frames: 32, order: 2, text });
    assert_eq!(state.machine.areas[0], Area { base: 32, count: 4, order: 0 });
}

fn output_of(input: &[u8]) -> String {
    let mut output = Vec::new();
    replay(&mut &input[..], &mut output).unwrap();
    String::from_utf8(output).unwrap()
}

fn stream(calls: &[Call]) -> Vec<u8> {
    calls.iter().flat_map(encode).collect()
}

#[test]
fn replay_frames() {
    let calls = [
        Call::PutMovable { name: 0 },
        boot(1, 2049, 0),
        Call::Declare(request(0, 1, 0, 0)),
        boot(1, 2048, 0),
        Call::PutMovable { name: 7 },
        boot(1, 2049, 0),
        Call::Read { name: 7 },
        boot(1, 3, 11),
        Call::Read { name: 7 },
        boot(5, 3, 0),
        Call::Read { name: 7 },
    ];
    let expected = "step refusal first second\n0 1 0 0\n1 1 0 0\n2 1 0 0\n3 0 0 0\n4 0 1 0\n5 1 0 0\n\
                    6 0 1 0\n7 1 0 0\n8 0 1 0\n9 0 0 0\n10 3 0 0\nend 11\n";
    assert_eq!(output_of(&stream(&calls)), expected);
}

#[test]
fn replay_lends_96_bitmap_words() {
    let size = |frames: u64| Call::Declare(Request { fixed: true, ..request(PAGE, frames * PAGE, 0, 0) });
    let text = output_of(&stream(&[boot(1, 2048, 0), size(6145), size(6144), size(2048)]));
    assert!(text.ends_with("1 14 0 0\n2 13 0 0\n3 0 1 2048\nend 4\n"));
}

/// 64 areas of all 2,048 frames that need as many words as can be: 95.
#[test]
fn replay_has_words_for_64_areas() {
    let mut station = Station::new();
    assert_eq!(station.call(&boot(1, 2048, 0)).refusal, 0);
    for _ in 0..63 {
        assert_eq!(station.call(&Call::Declare(request(0, 1, 0, 0))).refusal, 0);
    }
    // 32 words more are 95, and have no room; 33 are 96; 34 are 97.
    let rest = |frames: u64| Call::Declare(request(0, frames * PAGE, 0, 0));
    assert_eq!(station.call(&rest(2048)).refusal, 13);
    assert_eq!(station.call(&rest(33 * 64)).refusal, 13);
    assert_eq!(station.call(&rest(33 * 64 + 1)).refusal, 14);
    assert_eq!(station.call(&rest(1985)), Answer::new(0, 1, 1985));
    assert_eq!(station.view().machine.bitmap_words(), 95);
}

#[test]
fn replay_of_broken_input() {
    assert_eq!(output_of(b""), "step refusal first second\nend 0\n");
    assert_eq!(output_of(b"\x0d"), "step refusal first second\nbad 0\n");
    assert_eq!(output_of(b"\xff"), "step refusal first second\nbad 0\n");
    let mut input = stream(&[boot(1, 4, 0), Call::Read { name: 1 }]);
    input.push(99);
    input.extend(stream(&[Call::Read { name: 1 }]));
    assert_eq!(output_of(&input), "step refusal first second\n0 0 0 0\n1 3 0 0\nbad 19\n");
    for kind in 0..=12u8 {
        let length = body_length(kind).unwrap();
        let cut = [&[7, 0, 0, 0, 0], &vec![kind; length][..]].concat();
        assert_eq!(output_of(&cut), "step refusal first second\n0 1 0 0\nbad 5\n");
    }
}

#[test]
fn replay_record_bytes() {
    let grant = Call::Grant { area: 1, count: 0x0403_0201, align: 2, device: 0x0605 };
    assert_eq!(encode(&grant), [8, 1, 2, 1, 2, 3, 4, 5, 6]);
    let release = Call::Release { area: 3, frame: 9, count: 2, device: 65_535 };
    assert_eq!(encode(&release), [9, 3, 9, 0, 0, 0, 0, 0, 0, 0, 2, 0, 0, 0, 255, 255]);
    let store = Call::DeviceStore { frame: 9, word: 3, device: 258 };
    assert_eq!(encode(&store), [10, 9, 0, 0, 0, 0, 0, 0, 0, 3, 0, 0, 0, 0, 0, 0, 0, 2, 1]);
    assert_eq!(encode(&Call::DeviceRead { frame: 9, device: 1 }), [11, 9, 0, 0, 0, 0, 0, 0, 0, 1, 0]);
    assert_eq!(encode(&boot(258, 3, 4)), [0, 2, 1, 0, 0, 0, 0, 0, 0, 3, 0, 0, 0, 4]);
    let mut input = stream(&[boot(1, 4, 0), Call::Declare(Request { fixed: true, ..request(PAGE, 1, 0, 0) })]);
    // Any nonzero byte means fixed.
    *input.last_mut().unwrap() = 200;
    assert!(output_of(&input).ends_with("1 0 1 1\nend 2\n"));
    *input.last_mut().unwrap() = 0;
    assert!(output_of(&input).ends_with("1 0 4 1\nend 2\n"));
}

#[test]
fn the_largest_machine() {
    let mut state = State::fresh(262_144, 4096);
    let text = b"a=512M:ff;b=512M".to_vec();
    let half = 131_072;
    let base = (1 << 36) - 2 * half;
    assert_eq!(ask(&mut state, Call::Boot { base, frames: 2 * half, order: 10, text }), (0, 0, 0));
    assert_eq!(ask(&mut state, Call::Grant { area: 1, count: half, align: 16, device: 1 }), (0, base, 0));
    assert_eq!(ask(&mut state, Call::Grant { area: 0, count: half, align: 15, device: 2 }), (0, base + half, 0));
    assert_eq!(ask(&mut state, Call::PutMovable { name: 1 }), (6, 0, 0));
    let release = Call::Release { area: 0, frame: base + half, count: half, device: 2 };
    assert_eq!(ask(&mut state, release), (0, 0, 0));
    assert_eq!(ask(&mut state, Call::PutMovable { name: 1 }), (0, base + half, 0));
}

#[test]
fn the_largest_grant() {
    let all = 262_144;
    let base = (1 << 36) - all;
    let mut state = State::fresh(all as usize, 4096);
    assert_eq!(ask(&mut state, Call::Boot { base, frames: all, order: 0, text: b"a=1G".to_vec() }), (0, 0, 0));
    assert_eq!(state.machine.areas[0], Area { base, count: all, order: 0 });
    assert_eq!(refusal(&state, Call::Grant { area: 0, count: all + 1, align: 0, device: 1 }), 7);
    assert_eq!(ask(&mut state, Call::Grant { area: 0, count: all, align: 16, device: 65_535 }), (0, base, 0));
    assert!(state.owners.iter().all(|&owner| owner == 65_535));
    assert_eq!((state.marks[0], state.marks[1], state.bitmap[4095]), (8 * 262_144 + 4, 5, u64::MAX));
    let last = (1 << 36) - 1;
    assert_eq!(ask(&mut state, Call::DeviceStore { frame: last, word: 9, device: 65_535 }), (0, 0, 0));
    assert_eq!(ask(&mut state, Call::DeviceRead { frame: last, device: 65_535 }), (0, 9, 0));
    assert_eq!(ask(&mut state, Call::DeviceRead { frame: last + 1, device: 65_535 }), (2, 0, 0));
    assert_eq!(refusal(&state, Call::Release { area: 0, frame: base, count: all - 1, device: 65_535 }), 9);
    assert_eq!(ask(&mut state, Call::Release { area: 0, frame: base, count: all, device: 65_535 }), (0, 0, 0));
    assert!(state.owners.iter().all(|&owner| owner == 0));
    assert!(state.marks.iter().all(|&mark| mark == 0) && state.bitmap.iter().all(|&word| word == 0));
    assert_eq!(state.words[262_143], 0);
}

// ---- devices and owners ----

/// Two areas; area 0 has a grant of 3 frames from 16 on, device 7's, and one of 2 from 19 on, device 9's.
fn two_devices() -> State {
    let mut state = two_areas();
    assert_eq!(ask(&mut state, Call::Grant { area: 0, count: 3, align: 0, device: 7 }), (0, 16, 0));
    assert_eq!(ask(&mut state, Call::Grant { area: 0, count: 2, align: 0, device: 9 }), (0, 19, 0));
    state
}

/// Each of the four calls, right but for its device, on two_devices().
fn by(device: u64) -> [Call; 4] {
    [
        Call::Grant { area: 0, count: 1, align: 0, device },
        Call::Release { area: 0, frame: 16, count: 3, device },
        Call::DeviceStore { frame: 16, word: 5, device },
        Call::DeviceRead { frame: 18, device },
    ]
}

#[test]
fn device_numbers() {
    let says = |device| by(device).map(|call| refusal(&two_devices(), call));
    assert_eq!(says(0), [2, 2, 2, 2]);
    assert_eq!(says(1), [0, 15, 15, 15]);
    assert_eq!(says(7), [0, 0, 0, 0]);
    assert_eq!(says(65_535), [0, 15, 15, 15]);
    // The low half, or the low quarter, of a number is no device.
    for device in [65_536, 65_536 + 7, (1 << 32) + 7, (1 << 63) + 7, u64::MAX] {
        assert_eq!(says(device), [2, 2, 2, 2]);
    }
}

/// The first and the last device do all four.
#[test]
fn the_first_and_the_last_device() {
    for device in [1, 65_535] {
        let mut state = two_areas();
        assert_eq!(ask(&mut state, Call::Grant { area: 0, count: 3, align: 0, device }), (0, 16, 0));
        assert_eq!(state.owners[7..12], [0, device as u32, device as u32, device as u32, 0]);
        let [_, release, store, read] = by(device);
        assert_eq!(ask(&mut state, store), (0, 0, 0));
        assert_eq!(ask(&mut state, read), (0, 0, 0));
        assert_eq!(ask(&mut state, release), (0, 0, 0));
        let mut expected = two_areas();
        expected.machine.granted = 1;
        assert_eq!(state, expected);
    }
}

#[test]
fn a_device_is_judged_with_the_other_numbers() {
    let mut wrong = two_devices();
    wrong.owners.pop();
    for device in [0, 7, 65_536] {
        assert_eq!(by(device).map(|call| refusal(&wrong, call)), [1, 1, 1, 1]);
    }
    let state = two_devices();
    let release = |frame, count, device| refusal(&state, Call::Release { area: 0, frame, count, device });
    let read = |frame, device| refusal(&state, Call::DeviceRead { frame, device });
    // 2 by the device comes before 7 and 8, 3, and 9.
    assert_eq!(refusal(&state, Call::Grant { area: 0, count: 9, align: 0, device: 7 }), 7);
    assert_eq!(refusal(&state, Call::Grant { area: 0, count: 9, align: 0, device: 0 }), 2);
    let mut full = two_areas();
    full.marks.fill(mark_of(4, 1));
    assert_eq!(refusal(&full, Call::Grant { area: 0, count: 1, align: 0, device: 7 }), 8);
    assert_eq!(refusal(&full, Call::Grant { area: 0, count: 1, align: 0, device: 65_536 }), 2);
    assert_eq!((release(17, 1, 7), release(17, 1, 0)), (3, 2));
    assert_eq!((release(16, 2, 7), release(16, 2, 65_536)), (9, 2));
    assert_eq!((read(8, 7), read(8, 0), read(7, 7), read(7, 0)), (3, 2, 2, 2));
}

#[test]
fn release_asks_who_owns_it_after_3_and_before_9() {
    let state = two_devices();
    let says = |frame, count, device| refusal(&state, Call::Release { area: 0, frame, count, device });
    // 2 outside the area and 3 at no first frame, whoever asks; then 15; then 9 for the owner alone.
    assert_eq!((says(24, 1, 7), says(24, 1, 9)), (2, 2));
    assert_eq!((says(17, 1, 7), says(17, 1, 9)), (3, 3));
    assert_eq!((says(21, 1, 7), says(21, 1, 9)), (3, 3));
    assert_eq!((says(16, 2, 9), says(16, 2, 7)), (15, 9));
    assert_eq!((says(16, 5, 9), says(16, 5, 7)), (15, 9));
    assert_eq!((says(19, 2, 7), says(19, 2, 9)), (15, 0));
    assert_eq!((says(16, 3, 9), says(16, 3, 7)), (15, 0));
    // Off a bit boundary it is 3, although kind 4 and another's.
    let mut odd = two_areas();
    (odd.marks[25], odd.owners[25]) = (mark_of(1, 4), 9);
    let release = |device| Call::Release { area: 1, frame: 33, count: 1, device };
    assert_eq!((refusal(&odd, release(9)), refusal(&odd, release(7))), (3, 3));
}

/// Whose the later frames are plays no part in a release, and they are nobody's after it; the frames around it keep their owners.
#[test]
fn release_asks_its_first_frame_alone() {
    let mut state = two_devices();
    state.owners = (0..32).map(|place| 70_000 + place).collect();
    let release = |device| Call::Release { area: 0, frame: 16, count: 3, device };
    assert_eq!(refusal(&state, release(7)), 15);
    state.owners[8] = 7;
    let before = state.clone();
    assert_eq!(refusal(&state, release(9)), 15);
    assert_eq!(ask(&mut state, release(7)), (0, 0, 0));
    assert_eq!(state.owners[8..11], [0, 0, 0]);
    assert_eq!((&state.owners[..8], &state.owners[11..]), (&before.owners[..8], &before.owners[11..]));
    // A first frame that is another's is refused, although all later ones are the device's.
    let mut state = two_devices();
    state.owners[8] = 9;
    assert_eq!(refusal(&state, release(7)), 15);
    assert_eq!(refusal(&state, release(9)), 0);
}

#[test]
fn device_words_are_the_owner_s() {
    let mut state = two_devices();
    let read = |frame, device| Call::DeviceRead { frame, device };
    let store = |frame, device| Call::DeviceStore { frame, word: 5, device };
    // Outside memory, nothing granted, another's.
    for (frame, expected) in [(7, 2), (40, 2), (8, 3), (21, 3), (19, 15), (20, 15), (16, 0), (18, 0)] {
        assert_eq!((refusal(&state, read(frame, 7)), refusal(&state, store(frame, 7))), (expected, expected), "{frame}");
    }
    // Each frame by its own number: a later frame may be another's, and what no device has is nobody's.
    state.owners[9] = 9;
    assert_eq!((refusal(&state, read(17, 7)), refusal(&state, read(17, 9)), refusal(&state, read(16, 9))), (15, 0, 15));
    for owner in [0, 65_536 + 7, 1 << 31 | 7, u32::MAX] {
        state.owners[9] = owner;
        for device in [1, 7, 9, 65_535] {
            assert_eq!((refusal(&state, read(17, device)), refusal(&state, store(17, device))), (15, 15));
        }
        assert_eq!(refusal(&state, read(17, owner.into())), 2);
    }
    // 3 comes first, whoever is said to own a free frame.
    (state.marks[0], state.owners[0]) = (0, 9);
    assert_eq!((refusal(&state, read(8, 9)), refusal(&state, read(8, 7))), (3, 3));
}

#[test]
fn a_released_frame_is_nobody_s() {
    let mut state = two_devices();
    assert_eq!(ask(&mut state, Call::Release { area: 0, frame: 16, count: 3, device: 7 }), (0, 0, 0));
    assert_eq!(refusal(&state, Call::DeviceStore { frame: 16, word: 1, device: 7 }), 3);
    assert_eq!(ask(&mut state, Call::Grant { area: 0, count: 2, align: 0, device: 9 }), (0, 16, 0));
    assert_eq!(state.owners[8..13], [9, 9, 0, 9, 9]);
    assert_eq!(refusal(&state, Call::DeviceStore { frame: 16, word: 1, device: 7 }), 15);
    assert_eq!(refusal(&state, Call::DeviceStore { frame: 16, word: 1, device: 9 }), 0);
}

/// A grant writes its device on its frames, the spare ones of its last bit not among them; pages that move take no owner along and leave
/// none behind; and what other calls do to a frame leaves its owner.
#[test]
fn owners_stay_but_for_grants_and_releases() {
    let mut state = two_areas();
    state.owners = (0..32).map(|place| 100 + place).collect();
    let mut expected = state.owners.clone();
    for name in 1..=24 {
        assert_eq!(ask(&mut state, Call::PutMovable { name }).0, 0);
    }
    assert_eq!(ask(&mut state, Call::Drop { name: 1 }), (0, 0, 0));
    assert_eq!(ask(&mut state, Call::Drop { name: 5 }), (0, 0, 0));
    assert_eq!(ask(&mut state, Call::Pin { name: 2 }), (0, 0, 0));
    assert_eq!(ask(&mut state, Call::Store { name: 3, word: 1 }), (0, 0, 0));
    assert_eq!(state.owners, expected);
    // Pages 21 and 22, at 16 and 17, go to frames 8 and 12.
    assert_eq!(ask(&mut state, Call::Grant { area: 0, count: 2, align: 0, device: 7 }), (0, 16, 2));
    assert_eq!(ask(&mut state, Call::Read { name: 22 }), (0, 12, 0));
    expected[8..10].fill(7);
    assert_eq!(state.owners, expected);
    // Three frames of two bits of two: the fourth is not the device's.
    assert_eq!(ask(&mut state, Call::Grant { area: 1, count: 3, align: 0, device: 9 }), (0, 32, 0));
    expected[24..27].fill(9);
    assert_eq!(state.owners, expected);
    assert_eq!(ask(&mut state, Call::Release { area: 1, frame: 32, count: 3, device: 9 }), (0, 0, 0));
    expected[24..27].fill(0);
    assert_eq!(state.owners, expected);
}

/// Records of kinds 8 to 11 without their last two bytes, as they were before there were devices, are cut short or read otherwise.
#[test]
fn replay_reads_no_older_records() {
    let head = stream(&[boot(4, 32, 2), Call::Declare(Request { fixed: true, ..request(8 * PAGE, 16 * PAGE, 0, 0) })]);
    for call in by(1) {
        let record = encode(&call);
        let older = [&head[..], &record[..record.len() - 2]].concat();
        assert!(output_of(&older).ends_with(&format!("1 0 8 16\nbad {}\n", head.len())), "{call:?}");
    }
    // Two of them: the second's first two bytes are taken for the first's device, and its third is the kind of a boot that is cut.
    let grant = [8, 0, 0, 3, 0, 0, 0];
    let older = [&head[..], &grant, &grant].concat();
    assert!(output_of(&older).ends_with(&format!("2 0 8 0\nbad {}\n", head.len() + 9)));
}
