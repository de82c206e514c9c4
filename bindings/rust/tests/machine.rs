//! The wrapper as a caller uses it.

use szk::lent::{self, Lent};
use szk::{refusal, since, Answer, Area, Machine, Request, Tables};

fn answer(refusal: u64, first: u64, second: u64) -> Answer {
    Answer { refusal, first, second }
}

/// Calls `on` with a machine of 32 frames from frame 4 and blocks of 4, its areas declared by the text.
fn booted(text: &[u8], on: impl FnOnce(&mut Machine, &mut Tables)) {
    let (mut marks, mut words, mut bitmap, mut owners) = (vec![9; 32], vec![9; 32], [9; 2], vec![9; 32]);
    let mut t = Tables { marks: &mut marks, words: &mut words, bitmap: &mut bitmap, owners: &mut owners };
    let mut machine = Machine::fresh();
    assert_eq!(machine.boot(&mut t, 4, 32, 2, text), answer(0, 0, 0));
    on(&mut machine, &mut t);
}

#[test]
fn a_fresh_record_is_refused() {
    let mut machine = Machine::fresh();
    let mut t = Tables { marks: &mut [], words: &mut [], bitmap: &mut [], owners: &mut [] };
    assert_eq!(machine.read(&mut t, 7), answer(refusal::WRONG_SHAPE, 0, 0));
    assert_eq!(machine.boot(&mut t, 4, 32, 2, b""), answer(refusal::WRONG_SHAPE, 0, 0));
    assert_eq!(machine, Machine::fresh());
}

#[test]
fn a_text_and_a_request_declare_the_same_area() {
    let area = Area { base: 8, count: 16, order_per_bit: 0 };
    booted(b"camera=64K@32768", |machine, t| {
        assert_eq!((machine.base(), machine.frames(), machine.block_order(), machine.declared()), (4, 32, 2, 1));
        assert_eq!(machine.areas()[0], area);
        assert_eq!(t.marks, [0; 32]);
        assert_eq!(t.owners, [0; 32]);
    });
    booted(b"", |machine, t| {
        let request = Request { base: 32_768, size: 65_536, fixed: true, ..Request::default() };
        assert_eq!(machine.declare(t, &request), answer(0, 8, 16));
        assert_eq!(machine.areas()[0], area);
    });
}

#[test]
fn a_refused_text_names_its_place() {
    let (mut marks, mut words, mut owners) = ([1; 32], [1; 32], [1; 32]);
    let mut t = Tables { marks: &mut marks, words: &mut words, bitmap: &mut [], owners: &mut owners };
    let mut machine = Machine::fresh();
    assert_eq!(machine.boot(&mut t, 4, 32, 2, b"a=1M;a=1M"), answer(refusal::NAME_REPEATED, 5, 0));
    assert_eq!(machine.boot(&mut t, 4, 32, 2, b"a=1"), answer(refusal::BITMAP_TOO_SHORT, 0, 0));
    assert_eq!((marks, words, owners), ([1; 32], [1; 32], [1; 32]));
}

#[test]
fn a_grant_moves_pages_out() {
    booted(b"camera=64K@32768", |machine, t| {
        for name in 1..=18 {
            machine.put_movable(t, name);
        }
        assert_eq!(machine.grant(t, 0, 1, 0, 1), answer(refusal::NO_TARGET, 0, 0));
        assert_eq!(machine.pin(t, 17), answer(0, 0, 0));
        assert_eq!(machine.store(t, 18, 99), answer(0, 0, 0));
        assert_eq!(machine.drop_page(t, 1), answer(0, 0, 0));
        assert_eq!(machine.grant(t, 0, 1, 0, 1), answer(0, 9, 1));
        assert_eq!(machine.read(t, 18), answer(0, 4, 99));
        assert_eq!(machine.device_store(t, 9, 5, 1), answer(0, 0, 0));
        assert_eq!(machine.device_read(t, 9, 1), answer(0, 5, 0));
        assert_eq!(machine.release(t, 0, 9, 1, 1), answer(0, 0, 0));
        assert_eq!(machine.unpin(t, 17), answer(0, 0, 0));
        assert_eq!(machine.put_fixed(t, 30), answer(refusal::NO_FRAME, 0, 0));
    });
}

#[test]
fn a_grant_is_its_device_s_own() {
    let (camera, signer) = (1, 2);
    booted(b"camera=64K@32768", |machine, t| {
        assert_eq!(machine.grant(t, 0, 3, 0, camera), answer(0, 8, 0));
        assert_eq!(t.owners[3..8], [0, 1, 1, 1, 0]);
        assert_eq!(machine.device_store(t, 9, 5, camera), answer(0, 0, 0));
        assert_eq!(machine.device_store(t, 9, 6, signer), answer(refusal::NOT_OWNER, 0, 0));
        assert_eq!(machine.device_read(t, 9, signer), answer(refusal::NOT_OWNER, 0, 0));
        assert_eq!(machine.release(t, 0, 8, 2, signer), answer(refusal::NOT_OWNER, 0, 0));
        assert_eq!(machine.release(t, 0, 8, 2, camera), answer(refusal::RELEASE_DISAGREES, 0, 0));
        assert_eq!(machine.device_read(t, 9, camera), answer(0, 5, 0));
        assert_eq!(machine.release(t, 0, 8, 3, camera), answer(0, 0, 0));
        assert_eq!(machine.device_read(t, 9, camera), answer(refusal::NOT_LIVE, 0, 0));
        assert_eq!(t.owners, [0; 32]);
    });
}

#[test]
fn a_report_gives_its_lines() {
    booted(b"camera=64K@32768", |machine, t| {
        assert_eq!(machine.grant(t, 0, 3, 0, 1), answer(0, 8, 0));
        let (before, mut buffer) = (*machine, [b'.'; 50]);
        let report = machine.report(t, &mut buffer);
        assert_eq!(report.answer, answer(0, 46, 0));
        assert_eq!(report.lines, b"CmaTotal: 64 kB\nCmaFree: 52 kB\narea 0 16 3 13\n");
        assert_eq!(buffer[46..], *b"....");
        buffer.fill(b'!');
        let short = machine.report(t, &mut buffer[..45]);
        assert_eq!((short.answer, short.lines), (answer(refusal::BUFFER_TOO_SHORT, 0, 0), &b""[..]));
        assert_eq!((buffer, *machine), ([b'!'; 50], before));
    });
}

#[test]
fn grants_are_counted() {
    booted(b"camera=64K@32768", |machine, t| {
        assert_eq!((machine.granted(), machine.refused()), (0, 0));
        for (count, expected) in [(3, (1, 0)), (17, (1, 1)), (0, (1, 2)), (1, (2, 2))] {
            machine.grant(t, 0, count, 0, 1);
            assert_eq!((machine.granted(), machine.refused()), expected);
        }
        machine.numbers[4] = u64::MAX;
        assert_eq!((machine.granted(), machine.refused()), (u32::MAX, u32::MAX));
        let earlier = *machine;
        machine.grant(t, 0, 1, 0, 1);
        assert_eq!((machine.granted(), machine.refused()), (0, u32::MAX));
        machine.grant(t, 0, 17, 0, 1);
        assert_eq!(machine.numbers[4], 0);
        let between = [since(machine.granted(), earlier.granted()), since(machine.refused(), earlier.refused())];
        assert_eq!(between, [1, 1]);
    });
}

/// Boots a machine of one frame on slices of any length, and tells what its mark, its word and its owner, which were 9, are then.
fn lent_boot(answer: &mut [u64], record: &mut [u64]) -> (u32, u64, u32) {
    let (mut marks, mut words, mut owners) = ([9], [9], [9]);
    let lent = Lent { record, marks: &mut marks, words: &mut words, bitmap: &mut [], owners: &mut owners, answer };
    lent::boot(lent, 4, 1, 0, b"");
    (marks[0], words[0], owners[0])
}

#[test]
fn a_short_answer_is_told_the_refusal_alone() {
    for length in 0..=2 {
        let (mut answer, mut record) = ([0, 0, 7], [0; Machine::NUMBERS]);
        assert_eq!(lent_boot(&mut answer[..length], &mut record), (9, 9, 9));
        assert_eq!(answer, [if length == 0 { 0 } else { refusal::WRONG_SHAPE }, 0, 7]);
        assert_eq!(record, [0; Machine::NUMBERS]);
    }
}

#[test]
fn a_short_record_is_the_wrong_shape() {
    let (mut answer, mut record) = ([0, 5, 6, 7], [3; Machine::NUMBERS]);
    assert_eq!(lent_boot(&mut answer, &mut record[..Machine::NUMBERS - 1]), (9, 9, 9));
    assert_eq!((answer, record), ([refusal::WRONG_SHAPE, 0, 0, 7], [3; Machine::NUMBERS]));
    assert_eq!(lent_boot(&mut answer, &mut record), (0, 0, 0));
    assert_eq!((answer, record[..5].to_vec()), ([0, 0, 0, 7], vec![4, 1, 0, 0, 0]));
}
