//! The memory report of document 02, and the difference of two readings of a
//! counter.

use crate::machine::{answer, is_granted, refusal, Outcome, PAGE};
use crate::machine::{Answer, Area, Machine, Tables};

/// A buffer of so many bytes is long enough for every report: the totals are
/// 41 bytes at most, and each of 64 areas 29.
pub const ENOUGH: usize = 2_048;

/// How many calls a counter has counted between two readings, where they were
/// fewer than 2^32.
pub fn since(later: u32, earlier: u32) -> u32 {
    later.wrapping_sub(earlier)
}

fn kilobytes(frames: u64) -> u64 {
    frames * (PAGE / 1024)
}

impl Machine {
    /// Writes the report to the front of a buffer. Answers its length, 0.
    pub fn report(&self, t: &Tables, buffer: &mut [u8]) -> Answer {
        answer(self.try_report(t, buffer))
    }

    fn try_report(&self, t: &Tables, buffer: &mut [u8]) -> Outcome {
        self.check_shape(t)?;
        let lines = self.report_lines(t);
        let front = buffer.get_mut(..lines.len()).ok_or(refusal::BUFFER)?;
        front.copy_from_slice(lines.as_bytes());
        Ok((lines.len() as u64, 0))
    }

    fn report_lines(&self, t: &Tables) -> String {
        let areas = self.used_areas();
        let used: Vec<u64> = areas.iter().map(|area| self.used_frames(t, area)).collect();
        let total: u64 = areas.iter().map(|area| area.count).sum();
        let free = total - used.iter().sum::<u64>();
        let mut lines = format!("CmaTotal: {} kB\nCmaFree: {} kB\n", kilobytes(total), kilobytes(free));
        for (number, area) in areas.iter().enumerate() {
            let maxchunk = self.longest_clear(t, number) << area.order;
            lines += &format!("area {number} {} {} {maxchunk}\n", area.count, used[number]);
        }
        lines
    }

    /// The frames of an area whose marks are of kind 4 or 5.
    fn used_frames(&self, t: &Tables, area: &Area) -> u64 {
        (area.base..area.end()).filter(|&frame| is_granted(t.marks[self.place(frame)])).count() as u64
    }

    /// The longest stretch of clear bits among an area's own.
    fn longest_clear(&self, t: &Tables, area: usize) -> u64 {
        let (mut longest, mut stretch) = (0, 0);
        for bit in 0..self.areas[area].bits() {
            stretch = if self.bit_is_set(t, area, bit) { 0 } else { stretch + 1 };
            longest = longest.max(stretch);
        }
        longest
    }
}
