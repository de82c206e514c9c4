//! Every call of the library is held against the reference: the answer, the record, all four tables and the buffer of a report.

mod held;

use held::{numbers, Held};
use reference::calls::front;
use reference::machine::{kind, kind_of};
use reference::sample::{boot_start, call_after_boot, large_boot_start, possible_pairs, run, Rng};
use reference::{Answer, Call, State};
use std::collections::{BTreeMap, BTreeSet};
use szk::lent::{self, Lent};
use szk::Machine;

/// How often each kind of call was answered with each number.
type Counts = BTreeMap<(u8, u64), u64>;

const CALLS: [&str; 14] = [
    "boot", "put movable", "put fixed", "drop", "pin", "unpin", "store", "read", "grant", "release", "device store",
    "device read", "declare", "report",
];

fn print_counts(counts: &Counts) {
    for (kind, name) in CALLS.iter().enumerate() {
        let of_kind = counts.iter().filter(|((k, _), _)| usize::from(*k) == kind);
        let each: Vec<String> = of_kind.map(|((_, refusal), times)| format!("{refusal}: {times}")).collect();
        println!("{name:>12}  {}", each.join("  "));
    }
}

/// The first bytes of a buffer, as text.
fn begin(buffer: &[u8]) -> String {
    buffer[..buffer.len().min(200)].escape_ascii().to_string()
}

fn compare(held: &mut Held, before: &State, call: &Call, after: &State, expected: Answer) {
    let answer = held.make(call);
    if !held.agrees(answer, after, expected) {
        panic!(
            "{call:?}\non {:?}, marks {:?}, bitmap {:x?}, owners {:?}\nthe library answers {answer:?} and leaves {:?}\nthe reference {expected:?} and {:?}\nthe buffers then begin {}\nand {}",
            before.machine, before.marks, before.bitmap, before.owners, held.machine, after.machine, begin(&held.buffer), begin(&after.buffer)
        );
    }
}

/// The call by device 1, if it names a device.
fn by_device_1(call: &Call) -> Option<Call> {
    let mut call = call.clone();
    match &mut call {
        Call::Grant { device, .. }
        | Call::Release { device, .. }
        | Call::DeviceStore { device, .. }
        | Call::DeviceRead { device, .. } => *device = 1,
        _ => return None,
    }
    Some(call)
}

/// How many grants moved pages to other areas, to two of them or more, and both there and to ordinary frames; and how many found too few targets
/// though another area had a free frame.
#[derive(Debug, Default)]
struct Moves {
    elsewhere: u64,
    into_two: u64,
    both: u64,
    too_few: u64,
}

impl Moves {
    fn note(&mut self, before: &State, call: &Call, after: &State, refusal: u64) {
        let Call::Grant { area, .. } = call else { return };
        let machine = &before.machine;
        let area_of = |place: usize| machine.used_areas().iter().position(|a| a.holds(machine.base + place as u64));
        let areas_where = |test: &dyn Fn(usize) -> bool| -> BTreeSet<Option<usize>> {
            (0..before.marks.len()).filter(|&p| kind_of(before.marks[p]) == kind::FREE && test(p)).map(area_of).collect()
        };
        match refusal {
            0 => {
                let taken = areas_where(&|p| kind_of(after.marks[p]) == kind::MOVABLE);
                let others = taken.iter().flatten().count();
                self.elsewhere += u64::from(others > 0);
                self.into_two += u64::from(others > 1);
                self.both += u64::from(others > 0 && taken.contains(&None));
            }
            8 => self.too_few += u64::from(areas_where(&|_| true).iter().flatten().any(|&i| i as u64 != *area)),
            _ => {}
        }
    }
}

#[test]
fn calls_on_any_record_and_tables() {
    let (mut counts, mut for_device, mut moves) = (Counts::new(), Counts::new(), Moves::default());
    for seed in 101..=104 {
        run(seed, 500_000, &mut |before, call, after, expected| {
            compare(&mut Held::of(before), before, call, after, expected);
            *counts.entry((call.kind(), expected.refusal)).or_default() += 1;
            moves.note(before, call, after, expected.refusal);
            if expected.refusal == 2 {
                let other = by_device_1(call).map_or(2, |call| before.clone().apply(&call).refusal);
                *for_device.entry((call.kind(), 2)).or_default() += u64::from(other != 2);
            }
        });
    }
    println!("{} calls agree; for each call, how often it gave each number:", counts.values().sum::<u64>());
    print_counts(&counts);
    assert_eq!(counts.keys().copied().collect::<Vec<_>>(), possible_pairs());
    assert_eq!(counts.len(), 77);
    println!("all {} pairs of a call and a number that the rules allow were seen, and no other", counts.len());
    println!("of the grants: {moves:?}");
    assert!(moves.elsewhere > 500 && moves.into_two > 40 && moves.both > 50 && moves.too_few > 100);
    for_device.retain(|_, times| *times > 0);
    println!("of those refused with 2, for their device alone:");
    for_device.iter().for_each(|((kind, _), times)| println!("{:>12}  {times}", CALLS[usize::from(*kind)]));
    assert!(for_device.keys().map(|(kind, _)| *kind).eq(8..=11) && for_device.values().all(|&times| times > 100));
}

fn without_text(boot: &Call) -> Call {
    match boot.clone() {
        Call::Boot { base, frames, order, .. } => Call::Boot { base, frames, order, text: Vec::new() },
        call => call,
    }
}

/// Makes a list of calls from a fresh record on, the boot first, and tells of each accepted one with the areas there are then. The library
/// goes on with its own record and tables, so that a difference would stay.
fn agree_on_list(rng: &mut Rng, start: (State, Call), calls: u64, accepted: &mut dyn FnMut(&Call, u64)) {
    let (mut state, boot) = start;
    let mut held = Held::of(&state);
    for step in 0..calls {
        let call = match state.machine.frames {
            0 if step == 0 => boot.clone(),
            0 => without_text(&boot),
            _ => call_after_boot(rng, &state),
        };
        let expected = state.apply(&call);
        let answer = held.make(&call);
        assert!(held.agrees(answer, &state, expected), "{boot:?}, step {step}: {call:?}");
        if expected.refusal == 0 {
            accepted(&call, state.machine.declared);
        }
    }
}

#[test]
fn long_lists_of_calls() {
    let mut accepted = 0;
    for seed in 0..40 {
        let mut rng = Rng::new(1000 + seed);
        let start = boot_start(&mut rng);
        agree_on_list(&mut rng, start, 5_000, &mut |_, _| accepted += 1);
    }
    println!("40 lists of 5000 calls agree, {accepted} of them accepted");
    assert!(accepted > 40_000);
}

#[test]
fn lists_on_large_machines() {
    let (mut accepted, mut most_frames, mut most_areas, mut longest_grant) = (0, 0, 0, 0);
    for seed in 0..24 {
        let mut rng = Rng::new(2000 + seed);
        let start = large_boot_start(&mut rng);
        agree_on_list(&mut rng, start, 30, &mut |call, areas| {
            accepted += 1;
            most_areas = areas.max(most_areas);
            match call {
                Call::Boot { frames, .. } => most_frames = most_frames.max(*frames),
                Call::Grant { count, .. } => longest_grant = longest_grant.max(*count),
                _ => {}
            }
        });
    }
    println!("24 lists of 30 calls agree on machines of up to {most_frames} frames and {most_areas} areas, {accepted} of them accepted");
    println!("the longest grant in them has {longest_grant} frames");
    assert!(accepted > 200 && most_frames == 262_144 && most_areas == 64 && longest_grant > 65_536);
}

/// Makes a call on slices of any length, beyond what the wrapper lends. The buffer is a report's.
fn lend(call: &Call, lent: Lent, buffer: &mut [u8]) {
    match call {
        Call::Boot { base, frames, order, text } => lent::boot(lent, *base, *frames, *order, text),
        Call::PutMovable { name } => lent::put_movable(lent, *name),
        Call::PutFixed { name } => lent::put_fixed(lent, *name),
        Call::Drop { name } => lent::drop(lent, *name),
        Call::Pin { name } => lent::pin(lent, *name),
        Call::Unpin { name } => lent::unpin(lent, *name),
        Call::Store { name, word } => lent::store(lent, *name, *word),
        Call::Read { name } => lent::read(lent, *name),
        Call::Grant { area, count, align, device } => lent::grant(lent, *area, *count, *align, *device),
        Call::Release { area, frame, count, device } => lent::release(lent, *area, *frame, *count, *device),
        Call::DeviceStore { frame, word, device } => lent::device_store(lent, *frame, *word, *device),
        Call::DeviceRead { frame, device } => lent::device_read(lent, *frame, *device),
        // Any number but 0 means fixed.
        Call::Declare(r) => {
            let fixed = if r.fixed { r.base | 1 << 63 } else { 0 };
            lent::declare(lent, r.base, r.size, r.limit, r.alignment, r.order, fixed)
        }
        Call::Report { length } => lent::report(lent, front(buffer, *length)),
    }
}

/// Numbers cut or lengthened to a length; the reference knows nothing of those added.
fn resized(numbers: &[u64], length: usize) -> Vec<u64> {
    numbers.iter().copied().chain((0..).map(|i| 7_000 + i)).take(length).collect()
}

fn check_lengths(before: &State, call: &Call, after: &State, expected: Answer, lengths: (usize, usize)) {
    let mut record = resized(&numbers(&before.machine), lengths.0);
    let mut answer = resized(&[5, 6, 7], lengths.1);
    let mut tables = before.clone();
    lend(
        call,
        Lent {
            record: &mut record,
            marks: &mut tables.marks,
            words: &mut tables.words,
            bitmap: &mut tables.bitmap,
            owners: &mut tables.owners,
            answer: &mut answer,
        },
        &mut tables.buffer,
    );
    let is_made = lengths.0 >= Machine::NUMBERS && lengths.1 >= 3;
    let state = if is_made { after } else { before };
    assert_eq!(record, resized(&numbers(&state.machine), lengths.0), "{call:?} {lengths:?}");
    let written = match lengths {
        // The refusal alone, where there is no room for three numbers.
        (_, 0..=2) => [1, 6, 7],
        (record, _) if record < Machine::NUMBERS => [1, 0, 0],
        _ => [expected.refusal, expected.first, expected.second],
    };
    assert_eq!(answer, resized(&written, lengths.1), "{call:?} {lengths:?}");
    // The record is compared above, by its numbers.
    assert!(State { machine: state.machine, ..tables } == *state, "{call:?} {lengths:?}");
}

#[test]
fn records_and_answers_of_any_length() {
    let mut counts = Counts::new();
    run(200, 20_000, &mut |before, call, after, expected| {
        let seen = counts.entry((call.kind(), expected.refusal)).or_default();
        *seen += 1;
        if *seen > 3 {
            return;
        }
        // 28 numbers were a record of eight areas, and 196 one without counters.
        for record in (0..=5).chain([27, 28, 29, 100]).chain(Machine::NUMBERS - 3..=Machine::NUMBERS + 3).chain([300]) {
            for answer in 0..=5 {
                check_lengths(before, call, after, expected, (record, answer));
            }
        }
    });
    assert!(counts.len() > 60, "{counts:?}");
}
