//! Many areas among ordinary frames, declared in any order: where a put goes, and where a grant's pages go, are held against the reference.

mod held;

use held::Held;
use reference::sample::Rng;
use reference::{Area, Call, Machine, State};

/// Areas of up to `longest` frames with gaps of up to as many between them, upwards, downwards or in any order.
fn areas(rng: &mut Rng, machine: &Machine, longest: u64) -> Vec<Area> {
    let mut areas = Vec::new();
    let mut at = machine.base + rng.below(2);
    let most = rng.within(9, Machine::MAX_AREAS) as usize;
    while areas.len() < most {
        let count = rng.within(1, longest);
        if at + count > machine.end() {
            break;
        }
        areas.push(Area { base: at, count, order: 0 });
        at += count + rng.below(longest + 1);
    }
    match rng.below(3) {
        0 => areas.reverse(),
        1 => {
            for i in (1..areas.len()).rev() {
                areas.swap(i, rng.below(i as u64 + 1) as usize);
            }
        }
        _ => {}
    }
    areas
}

/// A machine with pages in most frames: in its areas movable ones, some pinned and three of ten frames free; elsewhere so many free frames in a
/// thousand.
fn crowded(rng: &mut Rng, frames: u64, longest: u64, free: u64) -> State {
    let mut machine = Machine { base: rng.within(1, 100), frames, ..Machine::fresh() };
    let areas = areas(rng, &machine, longest);
    machine.declared = areas.len() as u64;
    machine.areas[..areas.len()].copy_from_slice(&areas);
    let mark = |place: u64| {
        let in_area = areas.iter().any(|a| a.holds(machine.base + place));
        let kind = match rng.below(1000) {
            x if !in_area && x < free => 0,
            x if in_area && x < 300 => 0,
            x if in_area && x < 320 => 2,
            x if !in_area && x % 2 == 0 => 3,
            _ => 1,
        };
        if kind == 0 { 0 } else { (8 * (place + 1) + kind) as u32 }
    };
    let marks: Vec<u32> = (0..frames).map(mark).collect();
    let bitmap = vec![0; machine.bitmap_words() as usize];
    let owners = (0..frames).map(|place| place as u32 % 5).collect();
    State { machine, marks, words: (0..frames).map(|place| 77 * place).collect(), bitmap, owners, buffer: Vec::new() }
}

fn call(rng: &mut Rng, state: &State, name: u64) -> Call {
    let area = rng.below(state.machine.declared);
    match rng.below(10) {
        0..=5 => {
            let count = rng.within(1, state.machine.areas[area as usize].count);
            Call::Grant { area, count, align: rng.below(2), device: rng.within(1, 65_535) }
        }
        6 => Call::PutMovable { name },
        7 => Call::PutFixed { name },
        _ => Call::Drop { name: rng.within(1, state.machine.frames) },
    }
}

/// How many free frames of the other areas than this one hold a page now.
fn taken_elsewhere(area: u64, before: &[u32], state: &State) -> u64 {
    let m = &state.machine;
    let others = m.areas[..m.declared as usize].iter().enumerate().filter(|&(i, _)| i as u64 != area);
    let places = others.flat_map(|(_, a)| a.base - m.base..a.base - m.base + a.count);
    places.filter(|&p| before[p as usize] == 0 && state.marks[p as usize] != 0).count() as u64
}

/// What was seen of the grants: how many moved pages, how many pages they moved, how many of these to other areas, and how many found no target.
#[derive(Debug, Default)]
struct Seen {
    grants: u64,
    moved: u64,
    elsewhere: u64,
    no_target: u64,
}

/// Lists of calls on such machines agree.
fn agree(seed: u64, lists: u64, calls: u64, frames: u64, longest: u64) -> Seen {
    let mut seen = Seen::default();
    for list in 0..lists {
        let mut rng = Rng::new(seed + list);
        let free = rng.pick(&[0, 10, 100, 400]);
        let mut state = crowded(&mut rng, frames, longest, free);
        let mut held = Held::of(&state);
        for step in 0..calls {
            let call = call(&mut rng, &state, frames + 1 + step);
            let before = state.marks.clone();
            let expected = state.apply(&call);
            let answer = held.make(&call);
            assert!(held.agrees(answer, &state, expected), "list {list}, step {step}: {call:?} on {:?}", state.machine);
            if let Call::Grant { area, .. } = call {
                seen.grants += u64::from(expected.second > 0);
                seen.moved += expected.second;
                seen.elsewhere += taken_elsewhere(area, &before, &state);
                seen.no_target += u64::from(expected.refusal == 8);
            }
        }
    }
    seen
}

#[test]
fn pages_move_out_among_many_areas() {
    for (seed, lists, calls, frames, longest) in
        [(1, 300, 40, 150, 1), (1000, 300, 40, 600, 4), (2000, 60, 40, 2048, 15), (3000, 12, 20, 20_000, 100), (4000, 40, 12, 262_144, 3)]
    {
        let seen = agree(seed, lists, calls, frames, longest);
        println!("{frames} frames: {seen:?}");
        assert!(seen.grants > lists, "few grants moved pages");
        assert!(longest == 1 || seen.moved > seen.grants, "no grant moved two pages");
        assert!(seen.elsewhere > 20 && seen.elsewhere < seen.moved, "few pages went to other areas, or all");
        assert!(frames > 2048 || seen.no_target > lists / 2, "few grants found no target");
    }
}
