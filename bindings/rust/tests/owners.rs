//! Devices on both sides of their limits and the fourth table's length, which replay reaches neither of, through the library and the
//! reference: a record's device is 65,535 at most, and the replay program lends tables of the right length.

mod asked;
mod held;

use asked::{ask, booted};
use reference::machine::mark_of;
use reference::{Call, Request, State};

/// Machine A: frames 4 to 35, and area 0 of frames 8 to 23; frames 8 to 10 are granted to device 7, and 11 and 12 to device 9.
fn machine_a() -> State {
    let mut state = booted(b"a=64K@32768");
    for (count, device) in [(3, 7), (2, 9)] {
        assert_eq!(state.apply(&Call::Grant { area: 0, count, align: 0, device }).refusal, 0);
    }
    state
}

fn refusal(state: &State, call: &Call) -> u64 {
    ask(&mut state.clone(), call).0
}

/// Grant, release, device store and device read, each by a device and else as device 7 may do it on machine A.
fn by(device: u64) -> [Call; 4] {
    [
        Call::Grant { area: 0, count: 2, align: 0, device },
        Call::Release { area: 0, frame: 8, count: 3, device },
        Call::DeviceStore { frame: 10, word: 5, device },
        Call::DeviceRead { frame: 8, device },
    ]
}

/// One of each call, with numbers that would be accepted on machine A or refused for another reason than its shape.
fn every_call() -> Vec<Call> {
    let mut calls = by(7).to_vec();
    let request = Request { size: 1, ..Request::default() };
    calls.extend([Call::PutMovable { name: 1 }, Call::PutFixed { name: 1 }, Call::Drop { name: 1 }, Call::Pin { name: 1 }]);
    calls.extend([Call::Unpin { name: 1 }, Call::Store { name: 1, word: 2 }, Call::Read { name: 1 }, Call::Declare(request)]);
    calls.extend([Call::Boot { base: 4, frames: 32, order: 2, text: Vec::new() }, Call::Report { length: 0 }]);
    calls
}

#[test]
fn devices_from_1_to_65_535() {
    let state = machine_a();
    let says = |device| by(device).map(|call| refusal(&state, &call));
    for device in [1, 9, 65_535] {
        assert_eq!(says(device), [0, 15, 15, 15], "{device}");
    }
    assert_eq!(says(7), [0, 0, 0, 0]);
    for device in [0, 65_536, 65_536 + 7, (1 << 32) + 7, (1 << 48) + 7, (1 << 63) + 7, u64::MAX - 1, u64::MAX] {
        assert_eq!(says(device), [2, 2, 2, 2], "{device}");
    }
}

/// The first and the last device are granted frames, write and read them, and release them.
#[test]
fn the_first_and_the_last_device_own_frames() {
    for device in [1, 65_535] {
        let mut state = machine_a();
        assert_eq!(ask(&mut state, &Call::Grant { area: 0, count: 4, align: 0, device }), (0, 13, 0));
        assert_eq!(state.owners[8..14], [9, device as u32, device as u32, device as u32, device as u32, 0]);
        assert_eq!(ask(&mut state, &Call::DeviceStore { frame: 16, word: 77, device }), (0, 0, 0));
        assert_eq!(ask(&mut state, &Call::DeviceRead { frame: 16, device }), (0, 77, 0));
        for other in [7, 65_536 - device] {
            assert_eq!(ask(&mut state, &Call::DeviceRead { frame: 16, device: other }), (15, 0, 0));
            assert_eq!(ask(&mut state, &Call::Release { area: 0, frame: 13, count: 3, device: other }), (15, 0, 0));
        }
        for none in [0, device + 65_536, u64::MAX] {
            assert_eq!(ask(&mut state, &Call::Release { area: 0, frame: 13, count: 4, device: none }), (2, 0, 0));
        }
        assert_eq!(ask(&mut state, &Call::Release { area: 0, frame: 13, count: 4, device }), (0, 0, 0));
        assert_eq!(ask(&mut state, &Call::DeviceRead { frame: 16, device }), (3, 0, 0));
        let mut expected = machine_a();
        expected.machine.granted += 1;
        assert_eq!(state, expected);
    }
}

/// 2 by the device comes with the other 2, 15 after 3 and before 9.
#[test]
fn the_order_of_the_checks() {
    let state = machine_a();
    let release = |frame, count, device| refusal(&state, &Call::Release { area: 0, frame, count, device });
    for device in [0, 65_536, u64::MAX] {
        assert_eq!((release(24, 1, device), release(9, 1, device), release(8, 2, device)), (2, 2, 2));
        assert_eq!(refusal(&state, &Call::Grant { area: 0, count: 17, align: 0, device }), 2);
        for frame in [3, 7, 13, 36] {
            assert_eq!(refusal(&state, &Call::DeviceRead { frame, device }), 2);
            assert_eq!(refusal(&state, &Call::DeviceStore { frame, word: 1, device }), 2);
        }
    }
    assert_eq!((release(24, 1, 7), release(9, 1, 7), release(8, 2, 7), release(8, 3, 7)), (2, 3, 9, 0));
    assert_eq!((release(24, 1, 9), release(9, 1, 9), release(8, 2, 9), release(8, 3, 9)), (2, 3, 15, 15));
    let words = |frame, device| {
        let read = refusal(&state, &Call::DeviceRead { frame, device });
        assert_eq!(read, refusal(&state, &Call::DeviceStore { frame, word: 1, device }));
        read
    };
    assert_eq!((words(3, 9), words(7, 9), words(10, 9), words(11, 9)), (2, 3, 15, 0));
    assert_eq!((words(36, 7), words(13, 7), words(10, 7), words(11, 7)), (2, 3, 0, 15));
}

/// Owners that no device has, or that are a device's in their low half alone, are nobody's; and a release asks its first frame alone.
#[test]
fn damaged_owners() {
    for owner in [0, 8, 65_536, 65_536 + 7, 1 << 31, 1 << 31 | 7, u32::MAX] {
        let mut state = machine_a();
        state.owners[4] = owner;
        assert_eq!(refusal(&state, &Call::DeviceRead { frame: 8, device: 7 }), 15);
        assert_eq!(refusal(&state, &Call::DeviceStore { frame: 8, word: 1, device: 7 }), 15);
        assert_eq!(refusal(&state, &Call::DeviceRead { frame: 9, device: 7 }), 0);
        assert_eq!(refusal(&state, &Call::Release { area: 0, frame: 8, count: 3, device: 7 }), 15);
        let mut state = machine_a();
        (state.owners[5], state.owners[6]) = (owner, 9);
        assert_eq!(refusal(&state, &Call::DeviceRead { frame: 9, device: 7 }), 15);
        assert_eq!(refusal(&state, &Call::DeviceRead { frame: 10, device: 9 }), 0);
        assert_eq!(ask(&mut state, &Call::Release { area: 0, frame: 8, count: 3, device: 7 }), (0, 0, 0));
        assert_eq!(state.owners[3..10], [0, 0, 0, 0, 9, 9, 0]);
    }
    // An owner on a frame that is not granted plays no part, and a page there leaves it.
    let mut state = machine_a();
    state.owners = (0..32).map(|place| 70_000 + place).collect();
    let mut owners = state.owners.clone();
    assert_eq!(refusal(&state, &Call::DeviceRead { frame: 13, device: 7 }), 3);
    (0..32).filter(|place| !(4..20).contains(place)).for_each(|place| state.marks[place] = mark_of(100 + place as u64, 3));
    assert_eq!(ask(&mut state, &Call::PutMovable { name: 1 }), (0, 13, 0));
    assert_eq!(ask(&mut state, &Call::Drop { name: 128 }), (0, 0, 0));
    assert_eq!(state.owners, owners);
    // The page goes to frame 32, whose owner stays; the grant's own frames become the device's.
    assert_eq!(ask(&mut state, &Call::Grant { area: 0, count: 2, align: 0, device: 65_535 }), (0, 13, 1));
    assert_eq!(ask(&mut state, &Call::Read { name: 1 }), (0, 32, 0));
    owners[9..11].fill(65_535);
    assert_eq!(state.owners, owners);
}

/// A table of owners that is an entry short or long is the wrong shape for every call, whatever its other numbers; boots too.
#[test]
fn the_fourth_table_s_length() {
    for call in every_call() {
        let right = machine_a();
        assert_ne!(refusal(&right, &call), 1, "{call:?}");
        for length in [0, 1, 31, 33, 64] {
            let mut state = right.clone();
            state.owners.resize(length, 7);
            assert_eq!(ask(&mut state, &call), (1, 0, 0), "{call:?} {length}");
        }
    }
    // 1 comes before a device's 2, and before a text's refusals.
    for length in [31, 33] {
        let mut state = machine_a();
        state.owners.resize(length, 7);
        for device in [0, 7, 65_536, u64::MAX] {
            assert_eq!(by(device).map(|call| refusal(&state, &call)), [1, 1, 1, 1]);
        }
        let boot = Call::Boot { base: 4, frames: 32, order: 2, text: b"?".to_vec() };
        assert_eq!(refusal(&state, &boot), 1);
        assert_eq!(refusal(&machine_a(), &boot), 20);
        // The other lengths agree with the boot's frames; this one does too, where it asks for as many.
        let frames = length as u64;
        assert_eq!(refusal(&state, &Call::Boot { base: 4, frames, order: 2, text: Vec::new() }), 1);
        state.marks.resize(length, 3);
        state.words.resize(length, 3);
        assert_eq!(refusal(&state, &Call::Boot { base: 4, frames, order: 2, text: Vec::new() }), 0);
    }
}

/// A boot makes all frames nobody's; a refused one leaves their owners.
#[test]
fn a_boot_zeroes_the_owners() {
    let mut state = machine_a();
    state.owners.fill(u32::MAX);
    assert_eq!(ask(&mut state, &Call::Boot { base: 4, frames: 32, order: 2, text: b"a=0".to_vec() }), (21, 2, 0));
    assert_eq!(state.owners, [u32::MAX; 32]);
    assert_eq!(ask(&mut state, &Call::Boot { base: 4, frames: 32, order: 2, text: b"a=64K".to_vec() }), (0, 0, 0));
    assert_eq!(state.owners, [0; 32]);
}
