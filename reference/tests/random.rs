//! The generated calls: what they reach, and what must hold for all of them.

use reference::machine::{is_granted, kind, kind_of, PAGE};
use reference::report::ENOUGH;
use reference::sample::{break_shape, call, possible_pairs, records, right_state, run, text, Rng, FAULTS};
use reference::{Answer, Call, Request, State};
use std::collections::{BTreeMap, HashMap};

const CALLS: u64 = 1_000_000;

fn check_refusal(before: &State, call: &Call, after: &State, answer: Answer) {
    assert_eq!(*after, before.after_refusal(call, answer.refusal), "{call:?}");
    assert_eq!(answer.second, 0);
    assert!(answer.first == 0 || matches!(call, Call::Boot { .. }));
}

#[test]
fn every_refusal_of_every_call_occurs() {
    let mut seen: BTreeMap<(u8, u64), u64> = BTreeMap::new();
    run(1, CALLS, &mut |before, call, after, answer| {
        *seen.entry((call.kind(), answer.refusal)).or_default() += 1;
        if answer.refusal != 0 {
            check_refusal(before, call, after, answer);
        }
    });
    println!("{seen:?}");
    assert_eq!(seen.values().sum::<u64>(), CALLS);
    assert_eq!(seen.keys().copied().collect::<Vec<_>>(), possible_pairs());
    let (rarest, times) = seen.iter().min_by_key(|(_, &times)| times).unwrap();
    assert!(*times >= 100, "{rarest:?} only {times} times");
}

#[test]
fn an_accepted_call_keeps_the_shape() {
    run(2, 100_000, &mut |before, call, after, answer| {
        assert_eq!(after.marks.len(), before.marks.len());
        assert_eq!(after.owners.len(), before.owners.len());
        if answer.refusal == 0 {
            assert!(after.clone().shape_is_right(), "{call:?}");
        }
    });
}

#[test]
fn every_fault_makes_a_wrong_shape() {
    let mut rng = Rng::new(3);
    for fault in 0..FAULTS {
        let mut applied = 0;
        for _ in 0..2000 {
            let mut state = right_state(&mut rng);
            assert!(state.shape_is_right());
            if break_shape(&mut rng, &mut state, fault) {
                applied += 1;
                assert!(!state.shape_is_right(), "fault {fault}: {:?}", state.machine);
            }
        }
        assert!(applied > 200, "fault {fault} applied {applied} times");
    }
}

#[test]
fn the_tables_are_as_odd_as_they_should_be() {
    let mut rng = Rng::new(4);
    let (mut twice, mut unused_kinds, mut full) = (0, 0, 0);
    let (mut no_device, mut unowned, mut stray) = (0, 0, 0);
    for _ in 0..2000 {
        let state = right_state(&mut rng);
        let mut pages: Vec<u32> =
            state.marks.iter().filter(|&&m| (1..=3).contains(&kind_of(m))).map(|m| m / 8).collect();
        let all = pages.len();
        pages.sort_unstable();
        pages.dedup();
        twice += u32::from(pages.len() < all);
        unused_kinds += u32::from(state.marks.iter().any(|&m| kind_of(m) > kind::GRANT_LATER));
        full += u32::from(state.machine.declared == 64);
        let mut each = state.marks.iter().zip(&state.owners);
        no_device += u32::from(state.owners.iter().any(|&owner| owner > 65_535));
        unowned += u32::from(each.clone().any(|(&mark, &owner)| is_granted(mark) && owner == 0));
        stray += u32::from(each.any(|(&mark, &owner)| !is_granted(mark) && owner != 0));
    }
    assert!(twice > 200 && unused_kinds > 200 && full > 20, "{twice} {unused_kinds} {full}");
    assert!(no_device > 200 && unowned > 200 && stray > 200, "{no_device} {unowned} {stray}");
}

/// Seldom, but not never: the most frames, the most areas, and texts about as long as can be.
#[test]
fn large_and_crowded_machines_occur() {
    let mut seen: BTreeMap<&str, u64> = BTreeMap::new();
    run(13, CALLS, &mut |before, call, after, answer| {
        let is_done = answer.refusal == 0;
        let machine = &before.machine;
        let mut count = |what, holds: bool| *seen.entry(what).or_default() += u64::from(holds);
        count("262,144 frames", before.marks.len() == 262_144 && answer.refusal != 1);
        count("64 areas", machine.declared == 64 && answer.refusal != 1);
        count("more than 8 areas in more than 65,536 frames", machine.frames > 65_536 && machine.declared > 8 && is_done);
        match call {
            Call::Boot { text, .. } => {
                count("a boot of 64 areas", is_done && after.machine.declared == 64);
                count("a boot with a long text", is_done && text.len() > 8_000);
                count("8,192 bytes", text.len() == 8_192 && ![1, 24].contains(&answer.refusal));
                count("8,193 bytes", text.len() == 8_193 && answer.refusal == 24);
            }
            Call::Declare(_) => {
                count("a 64th declared", is_done && after.machine.declared == 64);
                count("a 65th refused", answer.refusal == 10);
            }
            Call::Grant { area, count: frames, .. } => {
                count("a grant in a late area", is_done && *area >= 8);
                count("a grant of more than 2,048 frames", is_done && *frames > 2_048);
            }
            _ => {}
        }
    });
    println!("{seen:?}");
    assert!(seen.len() == 11 && seen.values().all(|&times| times > 0), "{seen:?}");
}

#[test]
fn the_same_seed_gives_the_same_list() {
    let collect = |seed| {
        let mut list = Vec::new();
        run(seed, 500, &mut |_, call, _, answer| list.push((call.clone(), answer)));
        list
    };
    assert_eq!(collect(5), collect(5));
    assert_ne!(collect(5), collect(6));
    assert_eq!(records(5, 200), records(5, 200));
}

/// The device that a call names.
fn device_of(call: &Call) -> Option<u64> {
    match *call {
        Call::Grant { device, .. }
        | Call::Release { device, .. }
        | Call::DeviceStore { device, .. }
        | Call::DeviceRead { device, .. } => Some(device),
        _ => None,
    }
}

/// The owner of the frame that a call names, where there is such a frame.
fn owner_named(state: &State, call: &Call) -> Option<u32> {
    match *call {
        Call::Release { frame, .. } | Call::DeviceStore { frame, .. } | Call::DeviceRead { frame, .. } => {
            let place = usize::try_from(frame.wrapping_sub(state.machine.base)).ok()?;
            state.owners.get(place).copied()
        }
        _ => None,
    }
}

/// Each of the four calls names devices on all sides; those outside 1 to 65,535 get 1 or 2.
#[test]
fn devices_on_all_sides_occur() {
    let mut seen: BTreeMap<(u8, u64, bool), u64> = BTreeMap::new();
    run(14, CALLS, &mut |_, call, _, answer| {
        let Some(device) = device_of(call) else { return };
        let is_device = (1..=65_535).contains(&device);
        assert!(is_device || [1, 2].contains(&answer.refusal), "{call:?}");
        if [0, 1, 2, 65_534, 65_535, 65_536, 65_537, u64::MAX].contains(&device) && answer.refusal != 1 {
            *seen.entry((call.kind(), device, answer.refusal == 0)).or_default() += 1;
        }
    });
    println!("{seen:?}");
    // Eight numbers, four of which can be accepted, for four calls.
    assert!(seen.len() == 4 * (8 + 4) && seen.values().all(|&times| times >= 20), "{seen:?}");
}

/// Every call that is not refused for its shape or its numbers, and whose frame is granted, is the owner's or gets 15; owners above 65,535,
/// and none, occur among those that no device is.
#[test]
fn only_the_owner_is_not_refused() {
    let mut seen: BTreeMap<(u8, &str), u64> = BTreeMap::new();
    run(15, CALLS, &mut |before, call, _, answer| {
        let (Some(owner), Some(device)) = (owner_named(before, call), device_of(call)) else { return };
        if [1, 2, 3].contains(&answer.refusal) {
            return;
        }
        assert_eq!(answer.refusal != 15, u64::from(owner) == device, "{call:?}");
        let whose = match owner {
            _ if answer.refusal != 15 => "the owner's",
            0 => "nobody's",
            1..=65_535 => "another device's",
            _ if u64::from(owner) % 65_536 == device => "no device's, but in its low half",
            _ => "no device's",
        };
        *seen.entry((call.kind(), whose)).or_default() += 1;
    });
    println!("{seen:?}");
    assert!(seen.len() == 3 * 5 && seen.values().all(|&times| times >= 20), "{seen:?}");
}

/// Owners change by accepted grants, releases and boots, there where these are, and by nothing else.
#[test]
fn owners_change_where_frames_are_granted_and_released() {
    let mut changed = BTreeMap::new();
    run(16, CALLS, &mut |before, call, after, answer| {
        let place = |frame: u64| (frame - before.machine.base) as usize;
        let mut expected = before.owners.clone();
        match *call {
            _ if answer.refusal != 0 => {}
            Call::Boot { .. } => expected.fill(0),
            Call::Grant { count, device, .. } => expected[place(answer.first)..][..count as usize].fill(device as u32),
            Call::Release { frame, count, .. } => expected[place(frame)..][..count as usize].fill(0),
            _ => {}
        }
        assert!(after.owners == expected, "{call:?}");
        if answer.refusal == 0 && matches!(call, Call::Grant { .. }) && answer.second > 0 {
            *changed.entry("a grant that moves pages").or_insert(0) += 1;
        }
        if before.owners != after.owners {
            *changed.entry("any").or_insert(0) += 1;
        }
    });
    assert!(changed.len() == 2 && changed.values().all(|&times| times > 300), "{changed:?}");
}

/// What a call leaves of the counters of granted and of refused grants.
fn counters_after(state: &State, call: &Call, refusal: u64) -> (u32, u32) {
    let (granted, refused) = (state.machine.granted, state.machine.refused);
    match (call, refusal) {
        (Call::Boot { .. }, 0) => (0, 0),
        (Call::Grant { .. }, 0) => (granted.wrapping_add(1), refused),
        (Call::Grant { .. }, 2..) => (granted, refused.wrapping_add(1)),
        _ => (granted, refused),
    }
}

/// Grants alone are counted, and boots alone begin again; both counters wrap, at every number that a grant can be counted with.
#[test]
fn counters_count_grants_and_wrap() {
    let mut wrapped: BTreeMap<u64, u64> = BTreeMap::new();
    let mut begun = 0;
    run(17, CALLS, &mut |before, call, after, answer| {
        let counters = (after.machine.granted, after.machine.refused);
        assert_eq!(counters, counters_after(before, call, answer.refusal), "{call:?}");
        let (had, has) = (before.machine, after.machine);
        match call {
            Call::Grant { .. } if has.granted < had.granted || has.refused < had.refused => {
                *wrapped.entry(answer.refusal).or_default() += 1;
            }
            Call::Boot { .. } if answer.refusal == 0 && had.granted != 0 && had.refused != 0 => begun += 1,
            _ => {}
        }
    });
    assert!(wrapped.keys().eq(&[0, 2, 7, 8]) && wrapped.values().all(|&times| times >= 50), "{wrapped:?}");
    assert!(begun > 200, "{begun}");
}

/// A report writes its own bytes alone, into a buffer that need be no longer; its numbers agree with each other.
#[test]
fn reports_keep_what_is_not_theirs() {
    let mut seen: BTreeMap<(&str, bool), u64> = BTreeMap::new();
    run(18, CALLS, &mut |before, call, after, answer| {
        let Call::Report { length } = *call else {
            return assert_eq!(after.buffer, before.buffer, "{call:?}");
        };
        let written = answer.first as usize;
        assert_eq!(after, &State { buffer: after.buffer.clone(), ..before.clone() });
        assert_eq!(after.buffer[written..], before.buffer[written..]);
        if answer.refusal == 1 {
            return;
        }
        let needed = before.clone().apply(&Call::Report { length: ENOUGH }).first as usize;
        assert_eq!((answer.refusal == 16, written), (length < needed, if length < needed { 0 } else { needed }));
        let side = match length.abs_diff(needed) {
            0 => "just enough",
            1 => "a byte more or less",
            _ => "any",
        };
        *seen.entry((side, answer.refusal == 0)).or_default() += 1;
        if answer.refusal == 0 {
            check_lines(before, &after.buffer[..written]);
        }
    });
    assert!(seen.len() == 5 && seen.values().all(|&times| times >= 100), "{seen:?}");
}

/// The totals are those of the lines, and there is a line for each area.
fn check_lines(state: &State, report: &[u8]) {
    let text = std::str::from_utf8(report).expect("text");
    let lines: Vec<&str> = text.strip_suffix('\n').expect("whole lines").split('\n').collect();
    let areas: Vec<Vec<u64>> =
        lines[2..].iter().map(|line| line.split(' ').skip(1).map(|word| word.parse().expect("a number")).collect()).collect();
    assert_eq!(areas.len() as u64, state.machine.declared);
    for (number, numbers) in areas.iter().enumerate() {
        let [place, count, used, maxchunk] = numbers[..] else { panic!("{numbers:?}") };
        assert_eq!((place, count), (number as u64, state.machine.areas[number].count));
        assert!(used <= count && maxchunk <= count && maxchunk % (1 << state.machine.areas[number].order) == 0);
    }
    let sum = |at: usize| 4 * areas.iter().map(|numbers| numbers[at]).sum::<u64>();
    assert_eq!(lines[0], format!("CmaTotal: {} kB", sum(1)));
    assert_eq!(lines[1], format!("CmaFree: {} kB", sum(1) - sum(2)));
}

/// Runs calls, and tells of each declare that is not refused with 1, 10 or 2: the state before, the request, A, the answer.
fn judged_declares(seed: u64, calls: u64, tell: &mut dyn FnMut(&State, &Request, u64, Answer)) {
    run(seed, calls, &mut |before, call, _, answer| match call {
        Call::Declare(request) if ![1, 10, 2].contains(&answer.refusal) => {
            let step = request.alignment.max(PAGE << before.machine.order);
            tell(before, request, step, answer);
        }
        _ => {}
    });
}

/// For A from the block or from the alignment, and fixed or not: a limit of A - 1, A and A + 1.
#[test]
fn limits_on_both_sides_of_the_step_occur() {
    let mut seen: BTreeMap<(bool, bool, u64), u64> = BTreeMap::new();
    judged_declares(10, 400_000, &mut |before, request, step, answer| {
        let small = request.limit != 0 && request.limit < step;
        assert!(!small || answer.refusal == 11, "{request:?}");
        let is_block = step == PAGE << before.machine.order;
        if (step - 1..=step + 1).contains(&request.limit) {
            *seen.entry((is_block, request.fixed, request.limit + 1 - step)).or_default() += 1;
        }
    });
    assert!(seen.len() == 12 && seen.values().all(|&times| times >= 50), "{seen:?}");
}

/// Where a range ends, seen from its limit as given.
fn side_of_limit(end: u64, step: u64, limit: u64) -> &'static str {
    match limit {
        0 => "no limit",
        _ if limit == end => "at the limit",
        _ if limit + step == end => "one step above",
        _ if limit == end + step => "one step below",
        _ if limit < end => "above",
        _ => "below",
    }
}

/// For a range that lies in memory, ends past it or starts below it: its end on every side of the limit.
#[test]
fn fixed_ranges_on_both_sides_of_the_limit_occur() {
    let mut seen: BTreeMap<(&str, &str), u64> = BTreeMap::new();
    judged_declares(12, 1_500_000, &mut |before, request, step, answer| {
        let small = request.limit != 0 && request.limit < step;
        if !request.fixed || request.base == 0 || request.order > before.machine.order || small {
            return;
        }
        let start = request.base.div_ceil(step) * step;
        let end = start + request.size.div_ceil(step) * step;
        let memory = before.machine.end() * PAGE;
        let is_refused = request.limit != 0 && (end > request.limit || end > memory);
        assert_eq!(answer.refusal == 11, is_refused, "{request:?}");
        let is_below = start < before.machine.base * PAGE;
        let place = if end > memory { "past memory" } else if is_below { "below memory" } else { "in memory" };
        *seen.entry((place, side_of_limit(end, step, request.limit))).or_default() += 1;
    });
    assert!(seen.len() == 18 && seen.values().all(|&times| times >= 50), "{seen:?}");
}

#[test]
fn an_area_ends_at_or_below_its_limit() {
    let mut accepted = [0, 0];
    judged_declares(11, 400_000, &mut |_, request, _, answer| {
        if answer.refusal == 0 && request.limit != 0 {
            accepted[usize::from(request.fixed && request.base != 0)] += 1;
            assert!((answer.first + answer.second) * PAGE <= request.limit, "{request:?}");
        }
    });
    assert!(accepted.iter().all(|&times| times > 200), "{accepted:?}");
}

#[test]
fn generated_records_replay_to_their_end() {
    let input = records(7, 20_000);
    let mut output = Vec::new();
    reference::replay::replay(&mut &input[..], &mut output).unwrap();
    let output = String::from_utf8(output).unwrap();
    assert!(output.ends_with("\nend 20000\n"));
    assert!(output.lines().filter(|line| line.split(' ').nth(1) == Some("0")).count() > 5000);
}

// ---- the ledger of demand 3 ----

#[derive(Default)]
struct Page {
    word: u64,
    pinned_at: Option<u64>,
}

/// What the calls alone tell: live pages, live grants and both totals.
#[derive(Default)]
struct Ledger {
    pages: HashMap<u64, Page>,
    grants: HashMap<u64, u64>,
    /// For each granted frame its word and its device.
    device_words: HashMap<u64, (u64, u64)>,
    granted: u64,
    released: u64,
}

impl Ledger {
    fn page(&mut self, name: u64) -> &mut Page {
        self.pages.get_mut(&name).expect("a live page")
    }

    fn feed(&mut self, state: &mut State, call: &Call, answer: Answer) {
        match *call {
            Call::PutMovable { name } | Call::PutFixed { name } => {
                assert!(self.pages.insert(name, Page::default()).is_none());
            }
            Call::Drop { name } => assert!(self.pages.remove(&name).is_some()),
            Call::Pin { name } => {
                self.page(name).pinned_at = Some(state.apply(&Call::Read { name }).first);
            }
            Call::Unpin { name } => self.page(name).pinned_at = None,
            Call::Store { name, word } => self.page(name).word = word,
            Call::Grant { count, device, .. } => self.add_grant(answer.first, count, device),
            Call::Release { frame, count, .. } => self.end_grant(frame, count),
            Call::DeviceStore { frame, word, device } => {
                assert_eq!(self.device_words.insert(frame, (word, device)).map(|before| before.1), Some(device));
            }
            _ => {}
        }
    }

    fn add_grant(&mut self, first: u64, count: u64, device: u64) {
        self.grants.insert(first, count);
        self.granted += count;
        for frame in first..first + count {
            assert!(self.device_words.insert(frame, (0, device)).is_none(), "a frame granted twice");
        }
    }

    fn end_grant(&mut self, first: u64, count: u64) {
        assert_eq!(self.grants.remove(&first), Some(count));
        self.released += count;
        self.device_words.retain(|frame, _| !(first..first + count).contains(frame));
    }

    fn check(&self, state: &mut State) {
        for name in 1..100 {
            let answer = state.apply(&Call::Read { name });
            match self.pages.get(&name) {
                None => assert_eq!(answer.refusal, 3),
                Some(page) => {
                    assert_eq!((answer.refusal, answer.second), (0, page.word));
                    assert!(page.pinned_at.is_none_or(|frame| frame == answer.first));
                }
            }
        }
        let base = state.machine.base;
        for place in 0..state.marks.len() {
            let frame = base + place as u64;
            let mut read_by = |device| state.apply(&Call::DeviceRead { frame, device });
            match self.device_words.get(&frame) {
                None => assert_eq!(read_by(1).refusal, 3),
                Some(&(word, device)) => {
                    let answer = read_by(device);
                    assert_eq!((answer.refusal, answer.first), (0, word));
                    assert_eq!(read_by(1 + device % 65_535).refusal, 15);
                }
            }
            let owner = self.device_words.get(&frame).map_or(0, |&(_, device)| device);
            assert_eq!(u64::from(state.owners[place]), owner);
        }
        assert_eq!(self.device_words.len() as u64, self.granted - self.released);
    }
}

/// A list of calls after an accepted boot; accepted boots are left out.
fn ledger_list(seed: u64, length: u64) -> (u64, u64) {
    let mut rng = Rng::new(seed);
    let mut state = State { buffer: vec![0; ENOUGH], ..State::fresh(rng.within(8, 60) as usize, 8) };
    let frames = state.marks.len() as u64;
    let shape = (rng.within(1, 40), rng.below(3));
    let boot = Call::Boot { base: shape.0, frames, order: shape.1, text: Vec::new() };
    assert_eq!(state.apply(&boot).refusal, 0);
    let mut ledger = Ledger::default();
    for _ in 0..length {
        let next = call(&mut rng, &state);
        let mut trial = state.clone();
        let answer = trial.apply(&next);
        if answer.refusal == 0 && matches!(next, Call::Boot { .. }) {
            continue;
        }
        state = trial;
        if answer.refusal == 0 {
            ledger.feed(&mut state, &next, answer);
        }
    }
    ledger.check(&mut state);
    (ledger.granted, ledger.released)
}

#[test]
fn the_ledger_agrees_after_every_list() {
    let mut totals = (0, 0);
    for seed in 0..600 {
        let (granted, released) = ledger_list(seed, 20 + seed % 200);
        totals = (totals.0 + granted, totals.1 + released);
    }
    assert!(totals.0 > 1000 && totals.1 > 500, "{totals:?}");
}

#[test]
fn stored_words_leave_all_other_answers_alone() {
    for seed in 0..300 {
        let mut rng = Rng::new(seed);
        let (mut one, _) = reference::sample::boot_start(&mut rng);
        let frames = one.marks.len() as u64;
        one.apply(&Call::Boot { base: 3, frames, order: 1, text: Vec::new() });
        let mut two = one.clone();
        for _ in 0..150 {
            let next = call(&mut rng, &one);
            let mut other = next.clone();
            let chosen = |name: u64| name % 2 == 0;
            if let Call::Store { name, word } = &mut other {
                *word ^= if chosen(*name) { 0xffff } else { 0 };
            }
            let (a, b) = (one.apply(&next), two.apply(&other));
            match next {
                Call::Read { name } if chosen(name) => assert_eq!((a.refusal, a.first), (b.refusal, b.first)),
                _ => assert_eq!(a, b),
            }
            // The counters, and the bytes of a report.
            assert_eq!((one.machine, &one.buffer), (two.machine, &two.buffer));
        }
        assert_eq!(one.marks, two.marks);
        assert_eq!(one.owners, two.owners);
    }
}

#[test]
fn most_generated_texts_are_refused_somewhere_else() {
    let mut rng = Rng::new(9);
    let mut places: BTreeMap<(u64, u64), u64> = BTreeMap::new();
    for _ in 0..5000 {
        let state = right_state(&mut rng);
        if let Err(found) = reference::regions::parse(&text(&mut rng, &state)) {
            *places.entry(found).or_default() += 1;
        }
    }
    assert!(places.len() > 60, "{places:?}");
}
