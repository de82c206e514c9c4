//! Device calls: grant, release, device store and device read.

use crate::machine::{answer, field_of, is_granted, kind, kind_of, mark_of, refusal, Outcome};
use crate::machine::{Answer, Machine, Tables};
use std::ops::Range;

fn is_device(device: u64) -> bool {
    (1..=Machine::MAX_DEVICE).contains(&device)
}

/// 15: the frame at a place is another device's, or no device's.
fn check_owner(t: &Tables, place: usize, device: u64) -> Result<(), u64> {
    if u64::from(t.owners[place]) == device {
        Ok(())
    } else {
        Err(refusal::NOT_OWNER)
    }
}

impl Machine {
    /// Grants `count` frames of an area to a device, first frame a multiple of
    /// 2^`align`.
    pub fn grant(&mut self, t: &mut Tables, area: u64, count: u64, align: u64, device: u64) -> Answer {
        let outcome = self.try_grant(t, area, count, align, device);
        match outcome {
            Ok(_) => self.granted = self.granted.wrapping_add(1),
            // Refusals by shape are not counted.
            Err(refusal::SHAPE) => {}
            Err(_) => self.refused = self.refused.wrapping_add(1),
        }
        answer(outcome)
    }

    pub fn release(&self, t: &mut Tables, area: u64, frame: u64, count: u64, device: u64) -> Answer {
        answer(self.try_release(t, area, frame, count, device))
    }

    pub fn device_store(&self, t: &mut Tables, frame: u64, word: u64, device: u64) -> Answer {
        answer(self.owned_place(t, frame, device).map(|place| {
            t.words[place] = word;
            (0, 0)
        }))
    }

    pub fn device_read(&self, t: &mut Tables, frame: u64, device: u64) -> Answer {
        answer(self.owned_place(t, frame, device).map(|place| (t.words[place], 0)))
    }

    /// The checks of both device word calls: 1, 2, 3, 15.
    fn owned_place(&self, t: &Tables, frame: u64, device: u64) -> Result<usize, u64> {
        self.check_shape(t)?;
        if frame < self.base || frame >= self.end() || !is_device(device) {
            return Err(refusal::ARGUMENT);
        }
        let place = self.place(frame);
        if !is_granted(t.marks[place]) {
            return Err(refusal::NOTHING_THERE);
        }
        check_owner(t, place, device)?;
        Ok(place)
    }

    fn try_grant(&self, t: &mut Tables, area: u64, count: u64, align: u64, device: u64) -> Outcome {
        self.check_shape(t)?;
        if area >= self.declared || count == 0 || align > Machine::MAX_ALIGN_ORDER || !is_device(device) {
            return Err(refusal::ARGUMENT);
        }
        let area = area as usize;
        let bit = self.first_run(t, area, count, align).ok_or(refusal::NO_RUN)?;
        let run = self.run_places(area, bit, count);
        let moved = self.move_out(t, area, run.clone())?;
        self.write_grant(t, run.clone(), count, device);
        self.write_bits(t, area, bit, count, true);
        Ok((self.frame(run.start), moved))
    }

    /// The bit at which the lowest grantable candidate starts.
    fn first_run(&self, t: &Tables, area: usize, count: u64, align: u64) -> Option<u64> {
        (0..self.areas[area].bits()).find(|&bit| {
            self.is_candidate(t, area, bit, count, align) && self.is_grantable(t, area, bit, count)
        })
    }

    fn is_candidate(&self, t: &Tables, area: usize, bit: u64, count: u64, align: u64) -> bool {
        let needed = self.bits_for(area, count);
        self.bit_frame(area, bit) % (1 << align) == 0
            && needed <= self.areas[area].bits() - bit
            && (bit..bit + needed).all(|b| !self.bit_is_set(t, area, b))
    }

    fn is_grantable(&self, t: &Tables, area: usize, bit: u64, count: u64) -> bool {
        self.run_places(area, bit, count)
            .all(|place| matches!(kind_of(t.marks[place]), kind::FREE | kind::MOVABLE))
    }

    /// How many bits cover `count` frames.
    fn bits_for(&self, area: usize, count: u64) -> u64 {
        count.div_ceil(1 << self.areas[area].order)
    }

    /// The physical frame at which a bit starts.
    fn bit_frame(&self, area: usize, bit: u64) -> u64 {
        self.areas[area].base + (bit << self.areas[area].order)
    }

    /// Places of a run that fits its area.
    fn run_places(&self, area: usize, bit: u64, count: u64) -> Range<usize> {
        let first = self.place(self.bit_frame(area, bit));
        first..first + count as usize
    }

    /// Places that the pages of an area's run can go to: the free ordinary
    /// frames, ascending, then the free frames of the other areas, ascending.
    fn targets<'m>(&'m self, marks: &'m [u32], area: usize) -> impl Iterator<Item = usize> + 'm {
        let in_others = move |frame: u64| self.used_areas().iter().enumerate().any(|(i, a)| i != area && a.holds(frame));
        let elsewhere = (0..marks.len()).filter(move |&p| kind_of(marks[p]) == kind::FREE && in_others(self.frame(p)));
        self.free_ordinary(marks).chain(elsewhere)
    }

    /// Moves the run's movable pages to the first targets and answers how many
    /// there were; with too few targets nothing changes.
    fn move_out(&self, t: &mut Tables, area: usize, run: Range<usize>) -> Result<u64, u64> {
        let from: Vec<usize> = run.filter(|&p| kind_of(t.marks[p]) == kind::MOVABLE).collect();
        let to: Vec<usize> = self.targets(t.marks, area).take(from.len()).collect();
        if to.len() < from.len() {
            return Err(refusal::NO_TARGET);
        }
        for (&source, &target) in from.iter().zip(&to) {
            t.marks[target] = t.marks[source];
            t.words[target] = t.words[source];
        }
        Ok(from.len() as u64)
    }

    /// The device fits: it is at most 65,535 here.
    fn write_grant(&self, t: &mut Tables, run: Range<usize>, count: u64, device: u64) {
        t.marks[run.clone()].fill(mark_of(0, kind::GRANT_LATER));
        t.marks[run.start] = mark_of(count, kind::GRANT_FIRST);
        t.words[run.clone()].fill(0);
        t.owners[run].fill(device as u32);
    }

    fn write_bits(&self, t: &mut Tables, area: usize, bit: u64, count: u64, set: bool) {
        for b in bit..bit + self.bits_for(area, count) {
            self.write_bit(t, area, b, set);
        }
    }

    fn try_release(&self, t: &mut Tables, area: u64, frame: u64, count: u64, device: u64) -> Outcome {
        self.check_shape(t)?;
        if area >= self.declared || count == 0 || !self.range_in_area(area, frame, count) || !is_device(device) {
            return Err(refusal::ARGUMENT);
        }
        let area = area as usize;
        self.check_granted_run(t, area, frame, count, device)?;
        let bit = (frame - self.areas[area].base) >> self.areas[area].order;
        let run = self.run_places(area, bit, count);
        t.marks[run.clone()].fill(0);
        t.words[run.clone()].fill(0);
        t.owners[run].fill(0);
        self.write_bits(t, area, bit, count, false);
        Ok((0, 0))
    }

    fn range_in_area(&self, area: u64, frame: u64, count: u64) -> bool {
        let area = &self.areas[area as usize];
        area.holds(frame) && count <= area.end() - frame
    }

    /// 3, 15 and 9 of release, for a range inside the area. The frame named is
    /// its first; who owns the later ones is not asked.
    fn check_granted_run(&self, t: &Tables, area: usize, frame: u64, count: u64, device: u64) -> Result<(), u64> {
        let offset = frame - self.areas[area].base;
        let first = self.place(frame);
        let mark = t.marks[first];
        if offset % (1 << self.areas[area].order) != 0 || kind_of(mark) != kind::GRANT_FIRST {
            return Err(refusal::NOTHING_THERE);
        }
        check_owner(t, first, device)?;
        let later = &t.marks[first + 1..first + count as usize];
        if field_of(mark) != count || later.iter().any(|&m| kind_of(m) != kind::GRANT_LATER) {
            return Err(refusal::RELEASE);
        }
        Ok(())
    }
}
