//! A crowded station's day: records that keep most frames of the largest
//! station in use while pages come and go and devices ask for room.

use crate::calls::Call;
use crate::machine::{Answer, PAGE};
use crate::replay::{encode, Station, FRAMES};
use crate::sample::Rng;
use crate::Request;

/// The areas of the day: how many frames each has, and k.
const AREAS: [(u64, u64); 3] = [(512, 2), (256, 0), (128, 0)];
/// The first frame of the area that is fixed, where one is.
const FIXED: u64 = 32;
/// The longest grant that is asked for, where the area has so many frames.
const LONGEST: u64 = 24;
/// Pages come until this many frames are in use, then go until so few are.
const FULLEST: u64 = 2_010;
const EMPTIEST: u64 = 1_800;
/// The devices of the day are numbered from 1 to this; each asks in every area.
const DEVICES: u64 = 5;

struct Grant {
    area: u64,
    frame: u64,
    count: u64,
    device: u64,
}

struct Day {
    rng: Rng,
    areas: Vec<Request>,
    station: Station,
    out: Vec<u8>,
    /// Names of the live pages that are not pinned, and of those that are.
    pages: Vec<u64>,
    pinned: Vec<u64>,
    grants: Vec<Grant>,
    last_name: u64,
    /// How many grants were asked for.
    asked: u64,
    filling: bool,
}

impl Day {
    fn make(&mut self, call: Call) -> Answer {
        self.out.extend(encode(&call));
        self.station.call(&call)
    }

    fn is_done(&mut self, call: Call) -> bool {
        self.make(call).refusal == 0
    }

    fn open(&mut self) {
        self.make(Call::Boot { base: 16, frames: FRAMES as u64, order: 4, text: Vec::new() });
        for request in self.areas.clone() {
            self.make(Call::Declare(request));
        }
    }

    fn frames_in_use(&self) -> u64 {
        let granted: u64 = self.grants.iter().map(|grant| grant.count).sum();
        granted + (self.pages.len() + self.pinned.len()) as u64
    }

    fn put(&mut self) {
        self.last_name += 1;
        let name = self.last_name;
        let call = if self.rng.percent(10) { Call::PutFixed { name } } else { Call::PutMovable { name } };
        if self.is_done(call) {
            self.pages.push(name);
        }
    }

    /// Some live page, most often one that is not pinned.
    fn some_page(&mut self) -> u64 {
        if self.rng.percent(5) && !self.pinned.is_empty() {
            return self.rng.pick(&self.pinned);
        }
        self.rng.pick(&self.pages)
    }

    fn drop_page(&mut self) {
        let at = self.rng.below(self.pages.len() as u64) as usize;
        let name = self.pages.swap_remove(at);
        self.make(Call::Drop { name });
    }

    fn put_or_drop(&mut self) {
        let used = self.frames_in_use();
        self.filling = if self.filling { used < FULLEST } else { used < EMPTIEST };
        if self.filling != self.rng.percent(20) {
            self.put();
        } else {
            self.drop_page();
        }
    }

    fn pin_or_unpin(&mut self) {
        if self.pinned.len() < 60 {
            let at = self.rng.below(self.pages.len() as u64) as usize;
            if self.is_done(Call::Pin { name: self.pages[at] }) {
                let name = self.pages.swap_remove(at);
                self.pinned.push(name);
            }
        } else {
            let at = self.rng.below(self.pinned.len() as u64) as usize;
            let name = self.pinned.swap_remove(at);
            self.make(Call::Unpin { name });
            self.pages.push(name);
        }
    }

    /// The devices ask by turns, so that no chance is drawn for them.
    fn next_device(&mut self) -> u64 {
        self.asked += 1;
        1 + self.asked % DEVICES
    }

    fn grant(&mut self) {
        let area = self.rng.below(self.areas.len() as u64);
        let count = self.rng.within(1, LONGEST.min(self.areas[area as usize].size / PAGE));
        let align = self.rng.pick(&[0, 0, 0, 2, 4]);
        let device = self.next_device();
        let answer = self.make(Call::Grant { area, count, align, device });
        if answer.refusal == 0 {
            self.grants.push(Grant { area, frame: answer.first, count, device });
        }
    }

    fn grant_or_release(&mut self) {
        if self.grants.len() < 20 {
            return self.grant();
        }
        let at = self.rng.below(self.grants.len() as u64) as usize;
        let Grant { area, frame, count, device } = self.grants.swap_remove(at);
        self.make(Call::Release { area, frame, count, device });
    }

    fn device_word(&mut self) {
        let Some(grant) = self.grants.last() else {
            return self.grant();
        };
        let device = grant.device;
        let frame = grant.frame + self.rng.below(grant.count);
        let call = match self.rng.percent(50) {
            true => Call::DeviceStore { frame, word: self.rng.next(), device },
            false => Call::DeviceRead { frame, device },
        };
        self.make(call);
    }

    fn next(&mut self) {
        match self.rng.below(100) {
            0..=29 => self.put_or_drop(),
            30..=54 => {
                let name = self.some_page();
                let word = self.rng.next();
                self.make(Call::Store { name, word });
            }
            55..=79 => {
                let name = self.some_page();
                self.make(Call::Read { name });
            }
            80..=87 => self.pin_or_unpin(),
            88..=95 => self.grant_or_release(),
            _ => self.device_word(),
        }
    }
}

/// The records of a day of at least `calls` calls, from a fixed seed: boot,
/// declares and the first puts are among them.
pub fn records(seed: u64, calls: u64) -> Vec<u8> {
    records_with(AREAS.map(area).to_vec(), seed, calls)
}

/// Those of such a day with sixty areas of 16 frames, k 0 and 1 by turns.
pub fn records_of_many_areas(seed: u64, calls: u64) -> Vec<u8> {
    records_with(many_areas(), seed, calls)
}

/// The same with the first area fixed near the lowest frames, while the others
/// go downwards from the highest.
pub fn records_of_a_fixed_area(seed: u64, calls: u64) -> Vec<u8> {
    let mut areas = many_areas();
    areas[0].base = FIXED * PAGE;
    areas[0].fixed = true;
    records_with(areas, seed, calls)
}

fn many_areas() -> Vec<Request> {
    (0..60).map(|i| area((16, i % 2))).collect()
}

fn area((frames, order): (u64, u64)) -> Request {
    Request { size: frames * PAGE, order, ..Request::default() }
}

fn records_with(areas: Vec<Request>, seed: u64, calls: u64) -> Vec<u8> {
    let mut made = 1 + areas.len() as u64;
    let mut day = Day {
        rng: Rng::new(seed),
        areas,
        station: Station::new(),
        out: Vec::new(),
        pages: Vec::new(),
        pinned: Vec::new(),
        grants: Vec::new(),
        last_name: 0,
        asked: 0,
        filling: true,
    };
    day.open();
    while made < calls {
        if made < EMPTIEST {
            day.put();
        } else {
            day.next();
        }
        made += 1;
    }
    day.out
}
