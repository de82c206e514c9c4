//! Both sides of the limits that replay does not reach with its 2,048 frames, through the library and the reference.

mod held;

use held::Held;
use reference::{Call, Request, State};
use szk::lent::{self, Lent};
use szk::{refusal, Machine, Tables};

const PAGE: u64 = 4_096;
const MOST_FRAMES: u64 = 262_144;
/// The end of the highest memory.
const TOP: u64 = 1 << 36;

/// The library's machine and the reference's, each with tables of its own.
struct Both {
    held: Held,
    state: State,
}

impl Both {
    fn fresh(frames: u64, bitmap_words: usize) -> Both {
        let mut state = State::fresh(frames as usize, bitmap_words);
        // What is there before a boot plays no part, and stays if it is refused.
        state.marks.fill(9);
        state.words.fill(9);
        state.bitmap.fill(9);
        state.owners.fill(9);
        Both { held: Held::of(&state), state }
    }

    /// A machine of the most frames that ends at the highest end, with blocks of one frame.
    fn largest(text: &[u8]) -> Both {
        let mut both = Both::fresh(MOST_FRAMES, 4_096);
        assert_eq!(both.ask(boot(TOP - MOST_FRAMES, MOST_FRAMES, text)), (0, 0, 0));
        both
    }

    /// What both answer; they leave the same record and the same tables.
    fn ask(&mut self, call: Call) -> (u64, u64, u64) {
        let before = self.state.clone();
        let expected = self.state.apply(&call);
        let answer = self.held.make(&call);
        let what = format!("{call:?}");
        assert!(self.held.agrees(answer, &self.state, expected), "{answer:?}, not {expected:?}: {what:.200}");
        let is_kept = answer.refusal == 0 || self.state == before.after_refusal(&call, answer.refusal);
        assert!(is_kept, "a refusal changes nothing but a grant's counter: {what:.200}");
        (answer.refusal, answer.first, answer.second)
    }
}

fn boot(base: u64, frames: u64, text: &[u8]) -> Call {
    Call::Boot { base, frames, order: 0, text: text.to_vec() }
}

/// A declare of so many frames, wherever they have a place.
fn declare(frames: u64) -> Call {
    Call::Declare(Request { size: frames * PAGE, ..Request::default() })
}

/// A declare of so many frames from a frame on.
fn declare_at(frame: u64, frames: u64) -> Call {
    Call::Declare(Request { base: frame * PAGE, size: frames * PAGE, fixed: true, ..Request::default() })
}

fn grant(area: u64, count: u64) -> Call {
    Call::Grant { area, count, align: 0, device: 1 }
}

fn release(area: u64, frame: u64, count: u64) -> Call {
    Call::Release { area, frame, count, device: 1 }
}

fn device_read(frame: u64) -> Call {
    Call::DeviceRead { frame, device: 1 }
}

/// So many regions of so many frames each, as `r10=4096;r11=4096`.
fn regions(count: usize, frames: u64) -> Vec<u8> {
    let each: Vec<String> = (10..10 + count).map(|i| format!("r{i}={}", frames * PAGE)).collect();
    each.join(";").into_bytes()
}

#[test]
fn the_most_frames() {
    let first_above = MOST_FRAMES + 1;
    assert_eq!(Both::fresh(MOST_FRAMES, 0).ask(boot(1, MOST_FRAMES, b"")), (0, 0, 0));
    assert_eq!(Both::fresh(first_above, 0).ask(boot(1, first_above, b"")), (1, 0, 0));
    assert_eq!(Both::fresh(MOST_FRAMES, 0).ask(boot(1, first_above, b"")), (1, 0, 0));
    assert_eq!(Both::fresh(MOST_FRAMES, 0).ask(boot(TOP - MOST_FRAMES, MOST_FRAMES, b"")), (0, 0, 0));
    assert_eq!(Both::fresh(MOST_FRAMES, 0).ask(boot(TOP - MOST_FRAMES + 1, MOST_FRAMES, b"")), (1, 0, 0));
}

/// The other calls ask the same of a record that they are given.
#[test]
fn the_most_frames_of_a_record() {
    for (frames, expected) in [(MOST_FRAMES, (0, 1, 0)), (MOST_FRAMES + 1, (1, 0, 0))] {
        let mut state = State::fresh(frames as usize, 0);
        (state.machine.base, state.machine.frames) = (1, frames);
        let mut both = Both { held: Held::of(&state), state };
        assert_eq!(both.ask(Call::PutMovable { name: 7 }), expected);
    }
}

#[test]
fn the_longest_text() {
    // A number with zeros before it.
    let padded = |length: usize| [b"a=", &vec![b'0'; length - 3][..], b"1"].concat();
    let mut both = Both::fresh(32, 1);
    assert_eq!(both.ask(boot(4, 32, &padded(8_193))), (24, 8_192, 0));
    assert_eq!(both.ask(boot(4, 32, &[b'?'; 8_193])), (24, 8_192, 0));
    assert_eq!(both.ask(boot(4, 32, &[b'?'; 8_192])), (20, 0, 0));
    assert_eq!(both.ask(boot(4, 32, &padded(8_192))), (0, 0, 0));
    assert_eq!(both.state.machine.declared, 1);
    // 64 regions of 128 bytes, the `;` after each among them; a byte more is too long before it is too much.
    let text: Vec<u8> = (10..74).flat_map(|i| format!("longest_name--{i}={:0>110};", 1).into_bytes()).collect();
    let mut both = Both::fresh(64, 64);
    assert_eq!(text.len(), 8_192);
    assert_eq!(both.ask(boot(1, 64, &[&text[..], b";"].concat())), (24, 8_192, 0));
    assert_eq!(both.ask(boot(1, 64, &text)), (0, 0, 0));
    assert_eq!(both.state.machine.declared, 64);
}

#[test]
fn the_most_areas_by_text() {
    let text = regions(64, 1);
    let with = |tail: &[u8]| [&text[..], tail].concat();
    // A region has eight bytes, and a `;` stands between each two.
    let after_last = 64 * 9;
    for tail in [&b";z=1"[..], b";r10", b";;", b"; "] {
        assert_eq!(Both::fresh(80, 80).ask(boot(1, 80, &with(tail))), (23, after_last, 0));
    }
    assert_eq!(Both::fresh(80, 80).ask(boot(1, 80, &regions(65, 1))), (23, after_last, 0));
    assert_eq!(Both::fresh(80, 80).ask(boot(1, 80, &with(b"!"))), (20, after_last - 1, 0));
    assert_eq!(Both::fresh(80, 63).ask(boot(1, 80, &text)), (14, 63, 0));
    assert_eq!(Both::fresh(63, 64).ask(boot(1, 63, &text)), (13, 63, 0));
    for tail in [&b""[..], b";"] {
        let mut both = Both::fresh(80, 64);
        assert_eq!(both.ask(boot(1, 80, &with(tail))), (0, 0, 0));
        assert_eq!(both.state.machine.declared, 64);
        assert_eq!(both.held.machine.areas()[63].base, 17);
        assert_eq!(both.ask(declare(1)), (10, 0, 0));
    }
}

#[test]
fn the_most_areas_by_declare() {
    let mut both = Both::fresh(80, 65);
    assert_eq!(both.ask(boot(1, 80, b"")), (0, 0, 0));
    for area in 0..64 {
        assert_eq!(both.ask(grant(area, 1)), (2, 0, 0));
        assert_eq!(both.ask(declare(1)), (0, 80 - area, 1));
    }
    assert_eq!(both.ask(declare(1)), (10, 0, 0));
    assert_eq!(both.ask(declare(0)), (10, 0, 0));
    assert_eq!(both.ask(grant(64, 1)), (2, 0, 0));
    assert_eq!(both.ask(grant(63, 1)), (0, 17, 0));
    assert_eq!(both.ask(grant(63, 1)), (7, 0, 0));
    assert_eq!(both.held.bitmap[62..], [0, 1, 0]);
    assert_eq!(both.ask(release(63, 17, 1)), (0, 0, 0));
}

/// A page leaves the last area for the lowest frame of the other 63, since the first 16 frames, the ordinary ones, are used; then for one of those.
/// Where all frames are used it has nowhere to go.
#[test]
fn pages_in_the_last_of_64_areas() {
    let mut both = Both::fresh(80, 64);
    assert_eq!(both.ask(boot(1, 80, &regions(64, 1))), (0, 0, 0));
    for name in 1..=17 {
        assert_eq!(both.ask(Call::PutMovable { name }), (0, name, 0));
    }
    assert_eq!(both.ask(Call::Store { name: 17, word: 99 }), (0, 0, 0));
    assert_eq!(both.ask(grant(63, 1)), (0, 17, 1));
    assert_eq!(both.ask(Call::Read { name: 17 }), (0, 18, 99));
    assert_eq!(both.ask(Call::Drop { name: 3 }), (0, 0, 0));
    assert_eq!(both.ask(grant(62, 1)), (0, 18, 1));
    assert_eq!(both.ask(Call::Read { name: 17 }), (0, 3, 99));
    assert_eq!(both.ask(release(63, 17, 1)), (0, 0, 0));
    for name in 18..=80 {
        let frame = if name == 18 { 17 } else { name };
        assert_eq!(both.ask(Call::PutMovable { name }), (0, frame, 0));
    }
    assert_eq!(both.ask(grant(63, 1)), (8, 0, 0));
    assert_eq!(both.ask(Call::Read { name: 18 }), (0, 17, 0));
}

#[test]
fn one_area_of_all_frames() {
    let base = TOP - MOST_FRAMES;
    let last = TOP - 1;
    let mut both = Both::largest(b"all=1G");
    assert_eq!(both.ask(grant(0, MOST_FRAMES + 1)), (7, 0, 0));
    assert_eq!(both.ask(Call::PutFixed { name: 1 }), (6, 0, 0));
    assert_eq!(both.ask(Call::Grant { area: 0, count: MOST_FRAMES, align: 16, device: 1 }), (0, base, 0));
    assert_eq!(both.held.marks[0], 8 * 262_144 + 4);
    assert_eq!(both.ask(grant(0, 1)), (7, 0, 0));
    assert_eq!(both.ask(Call::PutMovable { name: 1 }), (6, 0, 0));
    assert_eq!(both.ask(Call::DeviceStore { frame: last, word: u64::MAX, device: 1 }), (0, 0, 0));
    assert_eq!(both.ask(device_read(last)), (0, u64::MAX, 0));
    assert_eq!(both.ask(device_read(last + 1)), (2, 0, 0));
    assert_eq!(both.ask(release(0, base, MOST_FRAMES + 1)), (2, 0, 0));
    assert_eq!(both.ask(release(0, base, MOST_FRAMES - 1)), (9, 0, 0));
    assert_eq!(both.ask(release(0, base, MOST_FRAMES)), (0, 0, 0));
    assert_eq!(both.ask(device_read(last)), (3, 0, 0));
    assert_eq!(both.ask(grant(0, MOST_FRAMES)), (0, base, 0));
    assert_eq!(both.ask(device_read(last)), (0, 0, 0));
}

/// The last of the areas has the last words of the bitmap, and the lowest frames.
#[test]
fn the_most_areas_in_the_most_frames() {
    let base = TOP - MOST_FRAMES;
    let each = MOST_FRAMES / 64;
    // The reference is slow to find a place below the areas that are there, so each begins where it must.
    let places = (0..64).map(|i| format!("r{i}={}@{}", each * PAGE, (TOP - (i + 1) * each) * PAGE));
    let mut both = Both::largest(places.collect::<Vec<_>>().join(";").as_bytes());
    assert_eq!(both.ask(grant(63, each + 1)), (7, 0, 0));
    assert_eq!(both.ask(grant(63, each)), (0, base, 0));
    assert_eq!(both.ask(grant(0, each)), (0, TOP - each, 0));
    let set: Vec<usize> = (0..4_096).filter(|&word| both.held.bitmap[word] != 0).collect();
    assert_eq!(set, (0..64).chain(4_032..4_096).collect::<Vec<_>>());
    assert_eq!(both.ask(release(63, TOP - each, each)), (2, 0, 0));
    assert_eq!(both.ask(release(63, base, each)), (0, 0, 0));
    assert_eq!(both.ask(Call::PutMovable { name: 5 }), (0, base, 0));
    assert_eq!(both.ask(declare(1)), (10, 0, 0));
}

#[test]
fn an_area_at_the_end_of_the_highest_memory() {
    let mut both = Both::largest(b"");
    assert_eq!(both.ask(declare_at(TOP, 1)), (13, 0, 0));
    assert_eq!(both.ask(declare_at(TOP - 1, 2)), (13, 0, 0));
    assert_eq!(both.ask(declare_at(TOP - 1, 1)), (0, TOP - 1, 1));
    assert_eq!(both.ask(declare_at(TOP - 1, 1)), (12, 0, 0));
    assert_eq!(both.ask(declare(2)), (0, TOP - 3, 2));
    assert_eq!(both.ask(grant(0, 2)), (7, 0, 0));
    assert_eq!(both.ask(grant(0, 1)), (0, TOP - 1, 0));
    assert_eq!(both.ask(Call::DeviceStore { frame: TOP - 1, word: 5, device: 1 }), (0, 0, 0));
    assert_eq!(both.ask(device_read(TOP - 1)), (0, 5, 0));
    assert_eq!(both.ask(device_read(TOP)), (2, 0, 0));
    assert_eq!(both.ask(release(0, TOP - 1, 1)), (0, 0, 0));
    // A text with such an area, and with one past it: 2^48 bytes less a page, and 2^48 bytes.
    assert_eq!(both.ask(boot(TOP - MOST_FRAMES, MOST_FRAMES, b"a=1@281474976710656")), (13, 0, 0));
    assert_eq!(both.ask(boot(TOP - MOST_FRAMES, MOST_FRAMES, b"a=1@281474976706560")), (0, 0, 0));
    assert_eq!(both.held.machine.areas()[0].base, TOP - 1);
}

/// A record of the length that eight areas took is refused, by a boot too, and so is one without counters.
#[test]
fn a_record_of_28_or_of_196_numbers_is_refused() {
    for length in [28, 196] {
        let mut machine = Machine::fresh();
        let (mut marks, mut words, mut bitmap, mut owners) = ([0; 8], [0; 8], [0; 1], [0; 8]);
        let mut t = Tables { marks: &mut marks, words: &mut words, bitmap: &mut bitmap, owners: &mut owners };
        machine.boot(&mut t, 1, 8, 0, b"a=4096");
        assert_eq!(machine.declared(), 1);
        let calls: [fn(Lent); 5] = [
            |lent| lent::boot(lent, 1, 8, 0, b""),
            |lent| lent::declare(lent, 0, 1, 0, 0, 0, 0),
            |lent| lent::put_movable(lent, 7),
            |lent| lent::grant(lent, 0, 1, 0, 1),
            |lent| {
                let mut buffer = [7; 99];
                lent::report(lent, &mut buffer);
                assert_eq!(buffer, [7; 99]);
            },
        ];
        for call in calls {
            let mut record = machine.numbers[..length].to_vec();
            let mut answer = [5, 6, 7];
            let (marks, words, bitmap, owners) = (&mut *t.marks, &mut *t.words, &mut *t.bitmap, &mut *t.owners);
            call(Lent { record: &mut record, marks, words, bitmap, owners, answer: &mut answer });
            assert_eq!(answer, [refusal::WRONG_SHAPE, 0, 0]);
            assert_eq!(record, machine.numbers[..length]);
            assert_eq!((&*t.marks, &*t.words, &*t.bitmap), (&[0; 8][..], &[0; 8][..], &[0][..]));
            assert_eq!(t.owners, [0; 8]);
        }
    }
}
