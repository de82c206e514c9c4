//! Days that are all search: grants that search an area of 1,024 frames to its end
//! and find no run, since pinned pages stand in the way or set bits do; puts that
//! pass many areas; and grants whose pages all go to other areas.

use crate::calls::Call;
use crate::machine::{Answer, PAGE};
use crate::replay::{encode, Station, FRAMES};
use crate::Request;

const AREA_FRAMES: u64 = 1_024;
/// The one device of these days.
const DEVICE: u64 = 1;

struct Day {
    station: Station,
    out: Vec<u8>,
    /// The area's first frame.
    first: u64,
}

impl Day {
    /// A station with the area declared and nothing else in it.
    fn open() -> Day {
        let mut day = Day { station: Station::new(), out: Vec::new(), first: 0 };
        day.make(Call::Boot { base: 16, frames: FRAMES as u64, order: 0, text: Vec::new() });
        day.first = day.make(Call::Declare(Request { size: AREA_FRAMES * PAGE, ..Request::default() })).first;
        day
    }

    fn make(&mut self, call: Call) -> Answer {
        self.out.extend(encode(&call));
        self.station.call(&call)
    }

    fn grant(&mut self, count: u64, align: u64) -> Answer {
        self.make(Call::Grant { area: 0, count, align, device: DEVICE })
    }

    /// Grants all frames of an area and releases them; answers how many pages moved.
    fn take(&mut self, area: u64, count: u64) -> u64 {
        let granted = self.make(Call::Grant { area, count, align: 0, device: DEVICE });
        let released = self.make(Call::Release { area, frame: granted.first, count, device: DEVICE });
        assert_eq!((granted.refusal, released.refusal), (0, 0));
        granted.second
    }

    /// Every grant of so many frames finds no run.
    fn grants(mut self, count: u64, align: u64, times: u64) -> Vec<u8> {
        for _ in 0..times {
            assert_eq!(self.grant(count, align).refusal, 7);
        }
        self.out
    }
}

/// Of each so many frames of the area (33 at most) the last has a pinned page and
/// the others are free, so that of 33 frames side by side one cannot leave.
pub fn past_pins(each: u64, grants: u64) -> Vec<u8> {
    let mut day = Day::open();
    let frames: Vec<u64> = (1..=FRAMES as u64).map(|name| day.make(Call::PutMovable { name }).first).collect();
    for (name, frame) in (1..).zip(frames) {
        match frame.checked_sub(day.first) {
            Some(at) if at % each == each - 1 => day.make(Call::Pin { name }),
            Some(_) => day.make(Call::Drop { name }),
            None => continue,
        };
    }
    day.grants(33, 0, grants)
}

/// Of each so many frames of the area the second is granted. Two are asked for, at
/// multiples of 2^align; with two of each or such an alignment there are none.
pub fn past_set_bits(each: u64, align: u64, grants: u64) -> Vec<u8> {
    let mut day = Day::open();
    let frames: Vec<u64> = (0..AREA_FRAMES).map(|_| day.grant(1, 0).first).collect();
    for (at, &frame) in (0..).zip(&frames) {
        if at % each != 1 {
            day.make(Call::Release { area: 0, frame, count: 1, device: DEVICE });
        }
    }
    day.grants(2, align, grants)
}

/// Puts past sixty areas of one frame, declared in mixed order, and the single
/// ordinary frames between them, which are used; each page is dropped again.
pub fn past_many_areas(puts: u64) -> Vec<u8> {
    const AREAS: u64 = 60;
    let mut day = Day { station: Station::new(), out: Vec::new(), first: 0 };
    day.make(Call::Boot { base: 1, frames: FRAMES as u64, order: 0, text: Vec::new() });
    for i in 0..AREAS {
        let frame = 2 + 2 * (i * 37 % AREAS);
        let request = Request { base: frame * PAGE, size: PAGE, fixed: true, ..Request::default() };
        assert_eq!(day.make(Call::Declare(request)).first, frame);
    }
    for name in 1..=AREAS {
        assert_eq!(day.make(Call::PutFixed { name }).first, 2 * name - 1);
    }
    for name in (AREAS + 1..).take(puts as usize) {
        assert_eq!(day.make(Call::PutMovable { name }).first, 2 * AREAS + 1);
        day.make(Call::Drop { name });
    }
    day.out
}

/// An area of 1,000 frames is full of movable pages. It is granted: 88 pages go to
/// the ordinary frames and 912 to the lowest of sixty other areas, declared in mixed
/// order. Then these are granted one by one, and their pages go back; and so on, with
/// no ordinary frame free from then on.
pub fn moves_between_areas(times: u64) -> Vec<u8> {
    const AREAS: u64 = 60;
    const LENGTH: u64 = 16;
    const PAGES: u64 = 1_000;
    const BASE: u64 = 16;
    let mut day = Day { station: Station::new(), out: Vec::new(), first: 0 };
    day.make(Call::Boot { base: BASE, frames: FRAMES as u64, order: 0, text: Vec::new() });
    let mut declare = |frame: u64, count: u64| {
        let request = Request { base: frame * PAGE, size: count * PAGE, fixed: true, ..Request::default() };
        assert_eq!(day.make(Call::Declare(request)).first, frame);
    };
    declare(BASE, PAGES);
    (0..AREAS).for_each(|i| declare(BASE + PAGES + LENGTH * (i * 37 % AREAS), LENGTH));
    let ordinary = FRAMES as u64 - PAGES - AREAS * LENGTH;
    for name in 1..=ordinary + PAGES {
        day.make(Call::PutMovable { name });
    }
    for name in 1..=ordinary {
        day.make(Call::Drop { name });
    }
    for time in 0..times {
        assert_eq!(day.take(0, PAGES), if time == 0 { PAGES } else { PAGES - ordinary });
        let back: u64 = (1..=AREAS).map(|area| day.take(area, LENGTH)).sum();
        assert_eq!(back, PAGES - ordinary);
    }
    day.out
}
