//! Pseudo-random states, texts and calls from fixed seeds, for comparing two
//! implementations. The same seed always gives the same list.

use crate::calls::{Call, State};
use crate::machine::{field_of, is_granted, kind, kind_of, mark_of, Answer, Area, Machine, PAGE};
use crate::regions::MAX_TEXT;
use crate::replay::{decode, encode, Station, BITMAP_WORDS};
use crate::report::ENOUGH;
use crate::Request;

/// The most areas, and the most regions of a text.
const MAX_AREAS: u64 = Machine::MAX_AREAS;

/// The splitmix64 generator.
pub struct Rng(u64);

impl Rng {
    pub fn new(seed: u64) -> Rng {
        Rng(seed)
    }

    pub fn next(&mut self) -> u64 {
        self.0 = self.0.wrapping_add(0x9E37_79B9_7F4A_7C15);
        let mut z = self.0;
        z = (z ^ (z >> 30)).wrapping_mul(0xBF58_476D_1CE4_E5B9);
        z = (z ^ (z >> 27)).wrapping_mul(0x94D0_49BB_1331_11EB);
        z ^ (z >> 31)
    }

    /// A number below `bound`, which is at least 1.
    pub fn below(&mut self, bound: u64) -> u64 {
        self.next() % bound
    }

    /// A number from `low` to `high`, both included.
    pub fn within(&mut self, low: u64, high: u64) -> u64 {
        low + self.below(high - low + 1)
    }

    /// True this many times in a hundred.
    pub fn percent(&mut self, times: u64) -> bool {
        self.below(100) < times
    }

    pub fn pick<T: Copy>(&mut self, from: &[T]) -> T {
        from[self.below(from.len() as u64) as usize]
    }

    /// Numbers at which careless arithmetic breaks.
    pub fn extreme(&mut self) -> u64 {
        let shift = self.below(64);
        let near = (1u64 << shift).wrapping_add(self.below(3)).wrapping_sub(1);
        self.pick(&[0, 1, u64::MAX, u64::MAX - 1, near, near, near.wrapping_neg()])
    }
}

// ---- states ----

/// How many frames and areas a machine is to have.
#[derive(Clone, Copy)]
enum Size {
    /// A few frames, up to eight areas.
    Small,
    /// Some more frames, and most often as many areas as can be.
    Crowded,
    /// Up to the most frames and the most areas.
    Large,
}

/// From so many frames on a machine is large. The reference is slow on it, so
/// there are few of them, and few calls are made on each.
const LARGE: u64 = 4_000;

fn is_large(state: &State) -> bool {
    state.marks.len() as u64 >= LARGE
}

fn some_size(rng: &mut Rng) -> Size {
    match rng.below(1_000) {
        0 => Size::Large,
        1..=35 => Size::Crowded,
        _ => Size::Small,
    }
}

fn block_order(rng: &mut Rng, size: Size) -> u64 {
    match rng.below(100) {
        0..=84 if matches!(size, Size::Crowded) => 0,
        0..=74 => rng.below(3),
        75..=95 => rng.within(3, 5),
        _ => rng.within(6, 10),
    }
}

fn frame_count(rng: &mut Rng, size: Size) -> u64 {
    match (size, rng.below(100)) {
        (Size::Small, 0..=89) => rng.within(1, 72),
        (Size::Small, 90..=98) => rng.within(60, 300),
        (Size::Small, _) => rng.within(300, 3_000),
        (Size::Crowded, _) => rng.within(90, 200),
        (Size::Large, 0..=49) => Machine::MAX_FRAMES,
        (Size::Large, _) => rng.within(LARGE, Machine::MAX_FRAMES),
    }
}

fn first_frame(rng: &mut Rng, frames: u64) -> u64 {
    let top = Machine::MAX_END - frames;
    match rng.below(10) {
        0 => 1,
        1 => top,
        2 => top - rng.below(64),
        3 => rng.within(1, top),
        4..=6 => 4 << rng.below(6),
        _ => rng.within(1, 70),
    }
}

/// How many areas there are to be, how many of a hundred follow the one before
/// without a gap, and how many blocks the longest has.
fn area_plan(rng: &mut Rng, size: Size, blocks: u64) -> (u64, u64, u64) {
    match size {
        Size::Small => (rng.pick(&[0, 1, 1, 2, 3, 8, 8]), 50, rng.pick(&[1, 2, 4, 16, 80])),
        Size::Crowded => (rng.pick(&[30, MAX_AREAS - 1, MAX_AREAS, MAX_AREAS, MAX_AREAS]), 90, rng.pick(&[1, 1, 2])),
        Size::Large => {
            let wanted = rng.pick(&[1, 2, 8, MAX_AREAS, MAX_AREAS]);
            (wanted, 70, (2 * blocks / wanted).max(1))
        }
    }
}

/// Disjoint areas on whole blocks, in any order.
fn add_areas(rng: &mut Rng, machine: &mut Machine, size: Size) {
    let block = 1 << machine.order;
    let mut next = machine.base.div_ceil(block);
    let last = machine.end() / block;
    let (wanted, close, longest) = area_plan(rng, size, machine.frames / block);
    while machine.declared < wanted {
        next += if rng.percent(close) { 0 } else { rng.below(4) };
        if next >= last {
            break;
        }
        let length = rng.within(1, longest).min(last - next);
        let area = Area { base: next * block, count: length * block, order: rng.within(0, machine.order) };
        machine.areas[machine.declared as usize] = area;
        machine.declared += 1;
        next += length;
    }
    let used = machine.declared;
    for i in 1..used {
        machine.areas.swap(i as usize, rng.below(i + 1) as usize);
    }
}

/// Unused area records may hold anything.
fn fill_unused_areas(rng: &mut Rng, machine: &mut Machine) {
    if rng.percent(50) {
        return;
    }
    for area in machine.areas.iter_mut().skip(machine.declared as usize) {
        *area = Area { base: rng.extreme(), count: rng.extreme(), order: rng.extreme() };
    }
}

/// One mark, in one of several styles of table.
fn some_mark(rng: &mut Rng, style: u64, ordinary: bool) -> u32 {
    let name = rng.within(0, 60);
    match style {
        0 => 0,
        1 => mark_of(name, rng.below(8) as u32),
        2 if rng.percent(70) => mark_of(name * rng.below(2), kind::FREE),
        2 => mark_of(name, rng.below(8) as u32),
        3 => mark_of(rng.within(1, 500), kind::MOVABLE),
        4 => rng.next() as u32,
        5 if ordinary => mark_of(rng.within(1, 500), rng.pick(&[1, 2, 3, 5, 6, 7])),
        5 => mark_of(rng.within(1, 500), rng.pick(&[0, 0, 1, 1, 1, 2])),
        6 if ordinary && rng.percent(85) => mark_of(rng.within(1, 99), rng.pick(&[1, 1, 3])),
        6 => mark_of(rng.within(1, 99), rng.pick(&[0, 1, 1])),
        _ => mark_of(name, rng.pick(&[0, 0, 0, 1, 1, 2, 3])),
    }
}

fn some_bitmap_word(rng: &mut Rng, style: u64) -> u64 {
    match style {
        0..=3 => 0,
        4 => rng.next() & rng.next() & rng.next(),
        5 => rng.next(),
        _ => u64::MAX,
    }
}

/// One owner, in one of several styles of table: none, a few devices where a
/// mark is granted or anywhere, any number, numbers around those of devices.
fn some_owner(rng: &mut Rng, style: u64, mark: u32) -> u32 {
    match style {
        0 => 0,
        1..=3 if is_granted(mark) => rng.pick(&[1, 1, 2, 3]),
        1..=3 => 0,
        4 => rng.within(0, 3) as u32,
        5 => rng.next() as u32,
        _ => rng.pick(&OWNERS),
    }
}

/// Owners that a table may hold: none, the first and the last devices, and
/// numbers that no device has, some of which are a device's in their low half.
const OWNERS: [u32; 9] = [0, 1, 2, 65_534, 65_535, 65_536, 65_537, 1 << 31, u32::MAX];

/// Writes one run that looks granted, sometimes without its bits. Most often
/// all of it is one device's; else a frame of it is another's, or none's.
fn plant_grant(rng: &mut Rng, state: &mut State) {
    let area = state.machine.areas[rng.below(state.machine.declared) as usize];
    let start = rng.below(area.bits()) << area.order;
    let count = rng.within(1, 9).min(area.count - start);
    let first = (area.base + start - state.machine.base) as usize;
    state.marks[first..first + count as usize].fill(kind::GRANT_LATER);
    state.marks[first] = mark_of(count, kind::GRANT_FIRST);
    let owner = if rng.percent(80) { rng.within(1, 3) as u32 } else { rng.pick(&OWNERS) };
    state.owners[first..first + count as usize].fill(owner);
    if rng.percent(20) {
        state.owners[first + rng.below(count) as usize] = rng.pick(&OWNERS);
    }
    let word = rng.below(state.bitmap.len() as u64) as usize;
    state.bitmap[word] |= (1 << rng.below(64)) | 1 << ((start >> area.order) % 64);
}

/// A counter of grant calls: any number, often one that is soon to wrap.
fn some_counter(rng: &mut Rng) -> u32 {
    match rng.below(4) {
        0 => 0,
        1 => u32::MAX - rng.below(3) as u32,
        _ => rng.next() as u32,
    }
}

/// What a buffer holds before a report.
fn some_buffer(rng: &mut Rng) -> Vec<u8> {
    rng.next().to_le_bytes().repeat(ENOUGH / 8)
}

/// A state of right shape with arbitrary tables: names may stand twice, kinds
/// 6 and 7 occur, and neither bits nor owners need agree with marks.
pub fn right_state(rng: &mut Rng) -> State {
    let size = some_size(rng);
    let frames = frame_count(rng, size);
    let base = first_frame(rng, frames);
    let mut machine = Machine { base, frames, order: block_order(rng, size), ..Machine::fresh() };
    (machine.granted, machine.refused) = (some_counter(rng), some_counter(rng));
    add_areas(rng, &mut machine, size);
    fill_unused_areas(rng, &mut machine);
    // Half of the large ones are free, but for planted grants, so that whole areas can be granted.
    let is_free = matches!(size, Size::Large) && rng.percent(50);
    let (style, bitmap_style) = if is_free { (0, 0) } else { (rng.below(8), rng.below(7)) };
    let owner_style = rng.below(8);
    let bitmap_len = machine.bitmap_words() + rng.below(4);
    let marks: Vec<u32> = (base..base + frames).map(|f| some_mark(rng, style, machine.is_ordinary(f))).collect();
    let owners = marks.iter().map(|&mark| some_owner(rng, owner_style, mark)).collect();
    let mut state = State {
        machine,
        marks,
        words: (0..frames).map(|_| rng.next()).collect(),
        bitmap: (0..bitmap_len).map(|_| some_bitmap_word(rng, bitmap_style)).collect(),
        owners,
        buffer: some_buffer(rng),
    };
    for _ in 0..rng.below(4) * machine.declared.min(1) {
        plant_grant(rng, &mut state);
    }
    state
}

/// How many ways `break_shape` knows.
pub const FAULTS: u64 = 23;

/// Makes a right shape wrong in the given way. False if that way needs an
/// area, a second area or a block order that the state lacks.
pub fn break_shape(rng: &mut Rng, state: &mut State, fault: u64) -> bool {
    if fault < 9 || fault == 19 || fault == 22 {
        break_record(rng, state, fault);
        return true;
    }
    state.machine.declared > 0 && break_area(rng, state, fault)
}

fn break_record(rng: &mut Rng, state: &mut State, fault: u64) {
    let m = &mut state.machine;
    match fault {
        0 => m.base = 0,
        1 => m.base = Machine::MAX_END - m.frames + 1 + rng.below(9),
        2 => m.base = u64::MAX - rng.below(m.frames + 2),
        3 => m.frames = 0,
        4 => m.frames = rng.pick(&[Machine::MAX_FRAMES + 1, 1 << 36, 1 << 63, u64::MAX]),
        5 => m.order = rng.pick(&[11, 12, 63, 64, 65, 1 << 32, u64::MAX]),
        6 => m.declared = rng.pick(&[MAX_AREAS + 1, MAX_AREAS + 2, 1 << 32, 1 << 63, u64::MAX]),
        7 => change_length(rng, &mut state.marks),
        8 => change_length(rng, &mut state.words),
        22 => change_length(rng, &mut state.owners),
        _ => m.frames += 1,
    }
}

fn change_length<T: Copy + Default>(rng: &mut Rng, table: &mut Vec<T>) {
    match rng.below(3) {
        0 => table.truncate(table.len() - 1),
        1 => table.push(T::default()),
        _ => table.clear(),
    }
}

fn break_area(rng: &mut Rng, state: &mut State, fault: u64) -> bool {
    let needed = state.machine.bitmap_words() as usize;
    let m = &mut state.machine;
    let block = 1u64 << m.order;
    let (base, frames, order, used) = (m.base, m.frames, m.order, m.declared);
    let last_block = (base + frames) / block * block;
    let index = rng.below(used) as usize;
    let other = m.areas[(index + 1) % used as usize];
    let area = &mut m.areas[index];
    match fault {
        9 => area.count = 0,
        10 => area.order = rng.pick(&[order + 1, 11, 63, 64, 65, 1 << 32, u64::MAX]),
        11 => area.base += rng.within(1, block) % block,
        12 => area.count += rng.within(1, block) % block,
        13 => area.base = (base - 1) / block * block,
        14 => area.count = (frames / block + 1) * block,
        15 => area.base = u64::MAX / block * block,
        16 => area.count = u64::MAX / block * block,
        17 => *area = Area { order: area.order, ..other },
        // The last block of the other area, and an area whose end alone is past memory's.
        20 => *area = Area { base: other.end() - block, count: block, order: area.order },
        21 => area.base = last_block,
        _ => state.bitmap.truncate(needed - 1),
    }
    match fault {
        11 => state.machine.areas[index].base % block != 0,
        12 => state.machine.areas[index].count % block != 0,
        17 | 20 => used > 1,
        _ => true,
    }
}

/// A record of extreme numbers throughout.
fn extreme_machine(rng: &mut Rng) -> Machine {
    Machine {
        base: rng.extreme(),
        frames: rng.extreme(),
        order: rng.extreme(),
        declared: rng.extreme(),
        granted: some_counter(rng),
        refused: some_counter(rng),
        areas: [(); Machine::MAX_AREAS as usize].map(|()| Area { base: rng.extreme(), count: rng.extreme(), order: rng.extreme() }),
    }
}

/// A state of wrong shape, but for the rare record of extreme numbers that fits its tables.
pub fn wrong_state(rng: &mut Rng) -> State {
    let mut state = right_state(rng);
    if rng.percent(5) {
        state.machine = Machine::fresh();
        return state;
    }
    if rng.percent(5) {
        state.machine = extreme_machine(rng);
        return state;
    }
    let fault = rng.below(FAULTS);
    if !break_shape(rng, &mut state, fault) {
        state.machine.frames = 0;
    }
    state
}

// ---- texts ----

fn some_text_number(rng: &mut Rng, value: u64) -> String {
    let (value, suffix) = match rng.below(4) {
        0 if value % 1024 == 0 => (value >> 10, rng.pick(&["K", "k"])),
        1 if value % (1 << 20) == 0 => (value >> 20, rng.pick(&["M", "m"])),
        2 if value % (1 << 30) == 0 => (value >> 30, rng.pick(&["G", "g"])),
        _ => (value, ""),
    };
    match rng.below(5) {
        0 => format!("0{value:o}{suffix}"),
        1 => format!("0x{value:x}{suffix}"),
        2 => format!("0x{value:X}{suffix}"),
        _ => format!("{value}{suffix}"),
    }
}

fn some_region_name(rng: &mut Rng, index: usize) -> String {
    match rng.below(100) {
        0..=79 => format!("r{index}"),
        80..=89 => rng.pick(&["a", "A", "-", "_", "9", "camera-1", "sign_er"]).to_string(),
        90..=93 => "r0".to_string(),
        94..=96 => format!("exactly-16-byte{}", index % 10),
        _ => format!("over-sixteen-byte{index}"),
    }
}

fn some_region(rng: &mut Rng, state: &State, index: usize) -> String {
    let block = block_bytes(state);
    let size = match rng.below(40) {
        0 => rng.extreme(),
        1..=20 => rng.within(1, 2 * block),
        _ => rng.within(1, 6) * block,
    };
    let mut out = some_region_name(rng, index) + "=" + &some_text_number(rng, size);
    if rng.percent(35) {
        let start = match rng.below(20) {
            0 => rng.extreme(),
            1 => 0,
            _ => some_byte_place(rng, state),
        };
        out += &("@".to_string() + &some_text_number(rng, start));
    }
    if rng.percent(25) {
        let alignment = if rng.percent(4) { rng.below(99) } else { 1 << rng.below(18) };
        out += &("/".to_string() + &some_text_number(rng, alignment));
    }
    if rng.percent(25) {
        out += rng.pick(&[":ff", ":ff", ":ff", ":ff", ":ff", ":ff", ":FF", ":f", ":fff", ":best-fit"]);
    }
    out
}

fn some_regions(rng: &mut Rng, state: &State, count: usize) -> Vec<u8> {
    let regions: Vec<String> = (0..count).map(|i| some_region(rng, state, i)).collect();
    let mut text = regions.join(";");
    if rng.percent(30) {
        text.push(';');
    }
    text.into_bytes()
}

/// Changes, takes out or puts in one byte.
fn spoil(rng: &mut Rng, text: &mut Vec<u8>) {
    let at = rng.below(text.len() as u64 + 1) as usize;
    let byte = rng.pick(b"=@/:;0189afgxXKMGkmg-_ .\0\n\xff");
    match rng.below(4) {
        0 => text.insert(at, byte),
        1 if at < text.len() => text[at] = byte,
        2 if at < text.len() => {
            text.remove(at);
        }
        _ => text.truncate(at),
    }
}

/// Any text: right, nearly right, too many regions, too long, or noise.
pub fn text(rng: &mut Rng, state: &State) -> Vec<u8> {
    let count = rng.within(1, 4) as usize;
    match rng.below(20) {
        0..=1 => Vec::new(),
        2..=8 => some_regions(rng, state, count),
        9..=12 => {
            let mut text = some_regions(rng, state, count);
            (0..rng.within(1, 2)).for_each(|_| spoil(rng, &mut text));
            text
        }
        13 => plain_regions(rng),
        14 => near_regions(rng, state),
        15 => long_text(rng),
        16 => (0..rng.below(40)).map(|_| rng.next() as u8).collect(),
        _ => (0..rng.within(1, 12)).map(|_| rng.pick(b"ab=@/:;0178xfFKmg-")).collect(),
    }
}

/// Small regions, most often about as many as can be, and often with a byte
/// too many at the end.
fn plain_regions(rng: &mut Rng) -> Vec<u8> {
    let count = rng.pick(&[9, MAX_AREAS - 2, MAX_AREAS - 1, MAX_AREAS, MAX_AREAS, MAX_AREAS, MAX_AREAS + 1, MAX_AREAS + 2]);
    let regions: Vec<String> = (0..count).map(|i| format!("r{i}=1")).collect();
    let tail = rng.pick(&["", "", ";", ";;", ";!", ";a"]);
    (regions.join(";") + tail).into_bytes()
}

/// A text about as long as can be. Half of them are wrong early; the others
/// are regions, up to one more than can be, filled up with zeros.
fn long_text(rng: &mut Rng) -> Vec<u8> {
    let length = rng.within(MAX_TEXT as u64 - 4, MAX_TEXT as u64 + 4) as usize;
    if rng.percent(50) {
        return b"a=4096".iter().copied().cycle().take(length).collect();
    }
    let count = rng.within(1, MAX_AREAS + 1) as usize;
    let digits = length / count - 8;
    let later: String = (1..count).map(|i| format!(";r{i}={:0>digits$}", 1)).collect();
    format!("r0={:0>width$}{later}", 1, width = length - 3 - later.len()).into_bytes()
}

/// Two or three small fixed regions that lie close together.
fn near_regions(rng: &mut Rng, state: &State) -> Vec<u8> {
    let middle = some_byte_place(rng, state);
    let count = rng.within(2, 3);
    let near = |i| format!("r{i}={}@{}", rng.within(1, 3 * PAGE), middle + rng.below(3) * PAGE);
    let regions: Vec<String> = (0..count).map(near).collect();
    regions.join(";").into_bytes()
}

// ---- arguments ----

/// The nonzero field of some mark, if three tries find one.
fn some_marked_name(rng: &mut Rng, state: &State) -> u64 {
    if state.marks.is_empty() {
        return 1;
    }
    let tries = [(); 3].map(|()| field_of(rng.pick(&state.marks)));
    tries.into_iter().find(|&field| field != 0).unwrap_or(2)
}

fn some_name(rng: &mut Rng, state: &State) -> u64 {
    let edges = [0, 1, Machine::MAX_NAME, Machine::MAX_NAME + 1, u64::from(u32::MAX), u64::MAX];
    match rng.below(100) {
        0..=29 => rng.within(1, 12),
        30..=49 => rng.within(1, 90),
        50..=92 => some_marked_name(rng, state),
        93..=94 => rng.within(1, Machine::MAX_NAME),
        95..=98 => rng.pick(&edges),
        _ => rng.extreme(),
    }
}

/// The frame of some mark of kind 4, if one is found from a random place on.
fn some_grant(rng: &mut Rng, state: &State) -> Option<(u64, u64)> {
    let length = state.marks.len();
    let from = rng.below(length.max(1) as u64) as usize;
    (0..length)
        .map(|i| (from + i) % length)
        .find(|&place| kind_of(state.marks[place]) == kind::GRANT_FIRST)
        .map(|place| (state.machine.base.wrapping_add(place as u64), field_of(state.marks[place])))
}

fn some_frame(rng: &mut Rng, state: &State) -> u64 {
    let base = state.machine.base;
    match rng.below(100) {
        0..=59 => match some_grant(rng, state) {
            Some((frame, count)) => frame.wrapping_add(rng.below(count.clamp(1, 99) + 1)),
            None => base.wrapping_add(rng.below(64)),
        },
        60..=91 => {
            base.wrapping_sub(1).wrapping_add(rng.below(state.marks.len() as u64 + 2))
        }
        92..=94 => rng.below(state.marks.len() as u64 + 1),
        _ => rng.extreme(),
    }
}

/// The device of a call that names no frame, most often one of a few.
fn some_device(rng: &mut Rng) -> u64 {
    match rng.below(100) {
        0..=84 => rng.within(1, 3),
        85..=92 => rng.pick(&[1, 2, Machine::MAX_DEVICE - 1, Machine::MAX_DEVICE]),
        93..=97 => rng.pick(&[0, Machine::MAX_DEVICE + 1, Machine::MAX_DEVICE + 2, (1 << 32) + 1, u64::MAX]),
        _ => rng.extreme(),
    }
}

/// The device of a call on a frame, most often that frame's owner, if it is a
/// device; seldom one that is the owner in its low half alone.
fn some_device_at(rng: &mut Rng, state: &State, frame: u64) -> u64 {
    let place = frame.wrapping_sub(state.machine.base);
    let owner = usize::try_from(place).ok().and_then(|place| state.owners.get(place));
    let owner = owner.map_or(0, |&owner| owner.into());
    let is_device = (1..=Machine::MAX_DEVICE).contains(&owner);
    match rng.below(100) {
        0..=79 if is_device => owner,
        0..=4 => owner,
        5..=34 if owner > Machine::MAX_DEVICE => owner % (1 << 16),
        80..=82 => owner.wrapping_add(rng.pick(&[1 << 16, 1 << 32, 1 << 63])),
        _ => some_device(rng),
    }
}

fn some_area(rng: &mut Rng, state: &State) -> u64 {
    match rng.below(100) {
        0..=93 => rng.below(state.machine.declared.clamp(1, Machine::MAX_AREAS)),
        94..=97 => state.machine.declared,
        _ => rng.extreme(),
    }
}

/// A count that is small, or about that of the area, or any. The reference
/// tries every start of a run anew, so on a large machine it is not any.
fn some_count(rng: &mut Rng, state: &State, area: u64) -> u64 {
    let whole = state.machine.areas.get(area as usize).map_or(0, |area| area.count);
    match rng.below(100) {
        0..=59 if is_large(state) => whole - whole.min(rng.below(3) / 2),
        0..=69 => rng.within(1, 6),
        70..=84 => rng.within(1, 40),
        85..=93 => whole.wrapping_add(rng.below(3)).wrapping_sub(1),
        94 => 0,
        _ if is_large(state) => u64::MAX,
        _ => rng.extreme(),
    }
}

fn some_align(rng: &mut Rng) -> u64 {
    match rng.below(100) {
        0..=84 => rng.below(4),
        85..=94 => rng.within(0, 16),
        95..=97 => 17,
        _ => rng.extreme(),
    }
}

/// A byte place in or near memory, most often on a page.
fn some_byte_place(rng: &mut Rng, state: &State) -> u64 {
    let frame = (state.machine.base % (1 << 40)) + rng.below(state.marks.len() as u64 + 3);
    frame.saturating_sub(1) * PAGE + if rng.percent(80) { 0 } else { rng.below(2 * PAGE) }
}

/// The bytes of a block, in a record of any numbers.
fn block_bytes(state: &State) -> u64 {
    PAGE << state.machine.order.min(Machine::MAX_BLOCK_ORDER)
}

/// A limit that rounds to 0, or one that is just enough not to: around the
/// block, around the alignment and around the larger of them.
fn some_small_limit(rng: &mut Rng, state: &State, request: &Request) -> u64 {
    let block = block_bytes(state);
    let step = request.alignment.max(block);
    let edge = rng.pick(&[step, step, step, block, request.alignment]);
    match rng.below(10) {
        0 => 1,
        1 => rng.within(1, step),
        2 => step.wrapping_mul(2).wrapping_sub(1),
        _ => edge.wrapping_add(rng.below(3)).wrapping_sub(1),
    }
}

/// A limit around the end of the range that a request names, or around the
/// end of memory.
fn some_limit_near_end(rng: &mut Rng, state: &State, request: &Request) -> u64 {
    let top = Machine::MAX_AMOUNT;
    let step = request.alignment.clamp(block_bytes(state), top);
    let rounded = |amount: u64| amount.min(top).div_ceil(step) * step;
    let range = rounded(request.base) + rounded(request.size);
    let memory = ((state.machine.base % (1 << 40)) + state.marks.len() as u64) * PAGE;
    let end = rng.pick(&[range, range, range, memory]);
    match rng.below(9) {
        0..=2 => end,
        3..=4 => end.saturating_sub(step),
        5 => end + step,
        6 => end.saturating_sub(1),
        7 => end + 1,
        _ => request.base.wrapping_add(request.size),
    }
}

/// A limit for a request whose other numbers are chosen.
fn some_limit(rng: &mut Rng, state: &State, request: &Request) -> u64 {
    if request.fixed && rng.percent(40) {
        return some_limit_near_end(rng, state, request);
    }
    match rng.below(100) {
        0..=54 => 0,
        55..=74 => some_byte_place(rng, state),
        75..=88 => some_small_limit(rng, state, request),
        89..=93 => some_limit_near_end(rng, state, request),
        _ => Machine::MAX_AMOUNT + rng.below(2),
    }
}

fn some_alignment(rng: &mut Rng, block: u64) -> u64 {
    match rng.below(100) {
        0..=54 => 0,
        55..=74 => 1 << rng.below(19),
        75..=89 => block << rng.within(1, 4),
        90..=94 => 1 << rng.below(64),
        _ => rng.extreme(),
    }
}

fn some_request(rng: &mut Rng, state: &State) -> Request {
    let order = state.machine.order.min(64);
    let block = block_bytes(state);
    let request = Request {
        base: match rng.below(100) {
            0..=39 => 0,
            40..=91 => some_byte_place(rng, state),
            92..=95 => rng.within(1, state.machine.base.clamp(1, Machine::MAX_END)) * PAGE,
            _ => rng.extreme(),
        },
        size: match rng.below(100) {
            0..=69 => rng.within(1, 3 * block),
            70..=92 => rng.within(1, 24) * block,
            93 => 0,
            // The reference looks at every place anew.
            _ if is_large(state) => rng.pick(&[Machine::MAX_AMOUNT, u64::MAX]),
            _ => rng.extreme(),
        },
        limit: 0,
        alignment: some_alignment(rng, block),
        order: match rng.below(100) {
            0..=89 => rng.within(0, order),
            90..=96 => order + 1,
            _ => rng.extreme(),
        },
        fixed: rng.percent(50),
    };
    Request { limit: some_limit(rng, state, &request), ..request }
}

fn some_grant_call(rng: &mut Rng, state: &State) -> Call {
    let area = some_area(rng, state);
    Call::Grant { area, count: some_count(rng, state, area), align: some_align(rng), device: some_device(rng) }
}

fn some_release(rng: &mut Rng, state: &State) -> Call {
    let (mut frame, mut count) = match some_grant(rng, state) {
        Some(found) => found,
        None => (some_frame(rng, state), some_count(rng, state, 0)),
    };
    match rng.below(20) {
        0 => frame = frame.wrapping_add(1),
        1 => frame = some_frame(rng, state),
        2 => count = count.wrapping_add(1),
        3 => count = count.wrapping_sub(1),
        4 => count = some_count(rng, state, 0),
        _ => {}
    }
    let used = state.machine.declared.min(Machine::MAX_AREAS) as usize;
    let holder = state.machine.areas[..used].iter().position(|a| frame.wrapping_sub(a.base) < a.count);
    let area = match holder {
        Some(index) if rng.percent(92) => index as u64,
        _ => some_area(rng, state),
    };
    Call::Release { area, frame, count, device: some_device_at(rng, state, frame) }
}

fn some_device_word(rng: &mut Rng, state: &State, is_store: bool) -> Call {
    let frame = some_frame(rng, state);
    let device = some_device_at(rng, state, frame);
    match is_store {
        true => Call::DeviceStore { frame, word: rng.next(), device },
        false => Call::DeviceRead { frame, device },
    }
}

fn some_boot(rng: &mut Rng, state: &State) -> Call {
    let n = state.marks.len() as u64;
    let mut base = if rng.percent(60) { state.machine.base } else { first_frame(rng, n) };
    let mut frames = n;
    let mut order = if rng.percent(60) { state.machine.order } else { block_order(rng, Size::Small) };
    match rng.below(40) {
        0 => base = rng.extreme(),
        1 => base = Machine::MAX_END - n + 1,
        2 => frames = frames.wrapping_add(rng.below(3)).wrapping_sub(1),
        3 => frames = rng.extreme(),
        4 => order = 11,
        5 => order = rng.extreme(),
        _ => {}
    }
    Call::Boot { base, frames, order, text: text(rng, state) }
}

/// A report, most often with about as many bytes as it needs.
fn some_report(rng: &mut Rng, state: &State) -> Call {
    let needed = State { buffer: vec![0; ENOUGH], ..state.clone() }.apply(&Call::Report { length: ENOUGH }).first as usize;
    let length = match rng.below(10) {
        0 => 0,
        1 => rng.below(ENOUGH as u64 + 1) as usize,
        2..=4 => needed.saturating_sub(1),
        5..=7 => needed,
        _ => needed + 1,
    };
    Call::Report { length }
}

/// Any call, most often one that means something in this state.
pub fn call(rng: &mut Rng, state: &State) -> Call {
    match rng.below(206) {
        0..=6 => some_boot(rng, state),
        7..=46 => Call::PutMovable { name: some_name(rng, state) },
        47..=56 => Call::PutFixed { name: some_name(rng, state) },
        57..=70 => Call::Drop { name: some_name(rng, state) },
        // A large machine has few calls, and more of them are grants.
        71..=106 if is_large(state) && rng.percent(60) => some_grant_call(rng, state),
        71..=82 => Call::Pin { name: some_name(rng, state) },
        83..=94 => Call::Unpin { name: some_name(rng, state) },
        95..=106 => Call::Store { name: some_name(rng, state), word: rng.next() },
        107..=120 => Call::Read { name: some_name(rng, state) },
        // Without an area most device requests are about getting one first.
        121..=164 if state.machine.declared == 0 && rng.percent(70) => {
            Call::Declare(some_request(rng, state))
        }
        121..=146 => some_grant_call(rng, state),
        147..=164 => some_release(rng, state),
        165..=176 => some_device_word(rng, state, true),
        177..=188 => some_device_word(rng, state, false),
        189..=194 => some_report(rng, state),
        _ => Call::Declare(some_request(rng, state)),
    }
}

/// Any call, where a boot happens only now and then.
pub fn call_after_boot(rng: &mut Rng, state: &State) -> Call {
    loop {
        let call = call(rng, state);
        if !matches!(call, Call::Boot { .. }) || rng.percent(10) {
            return call;
        }
    }
}

/// The same of the calls that have a record: all but a report.
fn recorded_call(rng: &mut Rng, state: &State) -> Call {
    loop {
        let call = call_after_boot(rng, state);
        if !matches!(call, Call::Report { .. }) {
            return call;
        }
    }
}

// ---- lists ----

/// The refusals each kind of call can give, in the order of the kind bytes.
const POSSIBLE: [&[u64]; 14] = [
    &[0, 1, 12, 13, 14, 20, 21, 22, 23, 24, 25],
    &[0, 1, 2, 4, 6],
    &[0, 1, 2, 4, 6],
    &[0, 1, 2, 3, 5],
    &[0, 1, 2, 3, 5],
    &[0, 1, 2, 3, 5],
    &[0, 1, 2, 3, 5],
    &[0, 1, 2, 3],
    &[0, 1, 2, 7, 8],
    &[0, 1, 2, 3, 9, 15],
    &[0, 1, 2, 3, 15],
    &[0, 1, 2, 3, 15],
    &[0, 1, 2, 10, 11, 12, 13, 14],
    &[0, 1, 16],
];

/// Every kind of call with each number it can answer: a list that should occur whole.
pub fn possible_pairs() -> Vec<(u8, u64)> {
    let pairs = |(kind, numbers): (usize, &&[u64])| numbers.iter().map(move |&r| (kind as u8, r)).collect::<Vec<_>>();
    POSSIBLE.iter().enumerate().flat_map(pairs).collect()
}

/// A fresh record with clean tables and a boot that fits them; never a large
/// machine.
pub fn boot_start(rng: &mut Rng) -> (State, Call) {
    let size = if rng.percent(2) { Size::Crowded } else { Size::Small };
    sized_boot_start(rng, size)
}

/// The same of a large machine.
pub fn large_boot_start(rng: &mut Rng) -> (State, Call) {
    sized_boot_start(rng, Size::Large)
}

fn sized_boot_start(rng: &mut Rng, size: Size) -> (State, Call) {
    let frames = frame_count(rng, size);
    let bitmap_len = match size {
        Size::Small => rng.pick(&[0, 1, 8, 40, BITMAP_WORDS]),
        Size::Crowded => rng.pick(&[MAX_AREAS as usize - 1, MAX_AREAS as usize, BITMAP_WORDS]),
        Size::Large => rng.pick(&[BITMAP_WORDS, (frames / 64 + MAX_AREAS) as usize, (frames / 64 + MAX_AREAS) as usize]),
    };
    let mut state = State::fresh(frames as usize, bitmap_len);
    state.marks.iter_mut().for_each(|mark| *mark = rng.next() as u32);
    state.owners.iter_mut().for_each(|owner| *owner = rng.next() as u32);
    state.buffer = some_buffer(rng);
    let base = first_frame(rng, frames);
    let order = block_order(rng, size);
    let shaped = Machine { base, frames, order, ..Machine::fresh() };
    let text = match size {
        Size::Small => text(rng, &State { machine: shaped, ..state.clone() }),
        Size::Crowded => plain_regions(rng),
        Size::Large => large_regions(rng, &shaped),
    };
    (state, Call::Boot { base, frames, order, text })
}

/// Regions that share the frames of a large machine, each where it must begin:
/// the reference would look at every place anew.
fn large_regions(rng: &mut Rng, machine: &Machine) -> Vec<u8> {
    let block = PAGE << machine.order;
    let count = rng.pick(&[1, 2, MAX_AREAS]);
    let first = (machine.base * PAGE).div_ceil(block) * block;
    let size = (machine.frames * PAGE / count / block).max(1) * block;
    let mut number = |value| some_text_number(rng, value);
    let regions: Vec<String> =
        (0..count).map(|i| format!("r{i}={}@{}", number(size), number(first + i * size))).collect();
    regions.join(";").into_bytes()
}

/// Told of each call: the state before, the call, the state after, the answer.
pub type Observer<'a> = dyn FnMut(&State, &Call, &State, Answer) + 'a;

fn step(state: &mut State, call: &Call, observe: &mut Observer) {
    let before = state.clone();
    let answer = state.apply(call);
    observe(&before, call, state, answer);
}

/// Boots, most often again without text if that was refused; answers how
/// many calls it made.
fn open(rng: &mut Rng, state: &mut State, mut boot: Call, left: u64, observe: &mut Observer) -> u64 {
    step(state, &boot, observe);
    if state.machine.frames > 0 || left < 2 || rng.percent(10) {
        return 1;
    }
    if let Call::Boot { text, .. } = &mut boot {
        text.clear();
    }
    step(state, &boot, observe);
    2
}

/// Runs lists of calls, `calls` in all, on wrong shapes, arbitrary tables and
/// booted machines by turns, and tells the observer of each call.
pub fn run(seed: u64, calls: u64, observe: &mut Observer) {
    let mut rng = Rng::new(seed);
    let mut left = calls;
    while left > 0 {
        let turn = rng.below(100);
        let (mut state, opening, longest) = match turn {
            0..=29 => (wrong_state(&mut rng), None, 6),
            30..=84 => (right_state(&mut rng), None, 30),
            _ => {
                let (state, boot) = match rng.below(250) {
                    0 => large_boot_start(&mut rng),
                    _ => boot_start(&mut rng),
                };
                (state, Some(boot), 300)
            }
        };
        let longest = if is_large(&state) { 6 } else { longest };
        if let Some(boot) = opening {
            left -= open(&mut rng, &mut state, boot, left, observe);
        }
        let length = rng.within(1, longest).min(left);
        for _ in 0..length {
            let next = match turn {
                0..=84 => call(&mut rng, &state),
                _ => call_after_boot(&mut rng, &state),
            };
            step(&mut state, &next, observe);
        }
        left -= length;
    }
}

/// A stream of replay records that keeps its station busy.
pub fn records(seed: u64, calls: u64) -> Vec<u8> {
    let mut rng = Rng::new(seed);
    let mut station = Station::new();
    let mut out = Vec::new();
    for _ in 0..calls {
        let view = station.view();
        let call = match view.machine.frames == 0 || rng.percent(1) {
            true if rng.percent(80) => boot_start(&mut rng).1,
            _ => recorded_call(&mut rng, &view),
        };
        let record = encode(&call);
        let read_back = decode(record[0], &record[1..]).expect("an encoded record decodes");
        station.call(&read_back);
        out.extend(record);
    }
    out
}
