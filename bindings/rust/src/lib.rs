//! The proved page manager, for Rust: a machine record whose calls are lent four tables of any length and any contents.
//!
//! What each call does and refuses is said in `include/szk.h`.

#![deny(unsafe_op_in_unsafe_fn)]
#![deny(unsafe_code)]

#[allow(unsafe_code)]
pub mod lent;
pub mod refusal;

pub use lent::since;

use lent::Lent;

/// What a call answers: a refusal's number, or `refusal::DONE`, and two numbers.
#[derive(Clone, Copy, Debug, Default, PartialEq, Eq)]
pub struct Answer {
    pub refusal: u64,
    pub first: u64,
    pub second: u64,
}

/// What a report gives: its answer, and the lines that it has written, of which there are none if it is refused.
#[derive(Clone, Copy, Debug, PartialEq, Eq)]
pub struct Report<'a> {
    pub answer: Answer,
    pub lines: &'a [u8],
}

/// The four tables lent to a call: a mark and a content word for each frame, the bitmap words, and for each frame the device that owns it, 0
/// for none.
pub struct Tables<'a> {
    pub marks: &'a mut [u32],
    pub words: &'a mut [u64],
    pub bitmap: &'a mut [u64],
    pub owners: &'a mut [u32],
}

/// What a declare asks for: amounts in bytes, the order of the pages per bit, and whether the base is where the area must begin.
#[derive(Clone, Copy, Debug, Default, PartialEq, Eq)]
pub struct Request {
    pub base: u64,
    pub size: u64,
    pub limit: u64,
    pub alignment: u64,
    pub order_per_bit: u64,
    pub fixed: bool,
}

/// A reserved area: its first physical frame, its count of frames, and the order of its pages per bit.
#[derive(Clone, Copy, Debug, Default, PartialEq, Eq)]
pub struct Area {
    pub base: u64,
    pub count: u64,
    pub order_per_bit: u64,
}

/// The machine record, as the numbers that the library reads and writes.
#[derive(Clone, Copy, Debug, PartialEq, Eq)]
pub struct Machine {
    pub numbers: [u64; Machine::NUMBERS],
}

impl Machine {
    /// How many area records there are.
    pub const AREAS: usize = 64;

    /// Numbers of a record: the base, the frames, the order, the areas declared, both counters, and three for each area.
    pub const NUMBERS: usize = Machine::AREAS_START + 3 * Machine::AREAS;

    /// Where the areas' numbers begin.
    const AREAS_START: usize = 5;

    /// A buffer of so many bytes is long enough for every report.
    pub const REPORT_ENOUGH: usize = 2_048;

    /// A fresh record is all zeros; every call but boot refuses it.
    pub const fn fresh() -> Machine {
        Machine { numbers: [0; Machine::NUMBERS] }
    }

    /// The first physical frame.
    pub fn base(&self) -> u64 {
        self.numbers[0]
    }

    /// How many frames there are.
    pub fn frames(&self) -> u64 {
        self.numbers[1]
    }

    /// The block order b: a block is 2^b frames.
    pub fn block_order(&self) -> u64 {
        self.numbers[2]
    }

    /// How many area records are in use.
    pub fn declared(&self) -> u64 {
        self.numbers[3]
    }

    /// How many grants were done since the boot. After 4,294,967,295 it goes on from 0; `since` tells the difference of two readings.
    pub fn granted(&self) -> u32 {
        self.numbers[4] as u32
    }

    /// How many grants were refused since the boot for another reason than the shape. It goes on from 0 likewise.
    pub fn refused(&self) -> u32 {
        (self.numbers[4] >> 32) as u32
    }

    /// All area records, those in use first.
    pub fn areas(&self) -> [Area; Machine::AREAS] {
        let at = |i: usize| Machine::AREAS_START + 3 * i;
        std::array::from_fn(|i| Area {
            base: self.numbers[at(i)],
            count: self.numbers[at(i) + 1],
            order_per_bit: self.numbers[at(i) + 2],
        })
    }

    /// Makes one call with the record and the tables, and answers what it wrote.
    fn call(&mut self, t: &mut Tables, make: impl FnOnce(Lent)) -> Answer {
        let mut answer = [0; 3];
        make(Lent {
            record: &mut self.numbers,
            marks: t.marks,
            words: t.words,
            bitmap: t.bitmap,
            owners: t.owners,
            answer: &mut answer,
        });
        let [refusal, first, second] = answer;
        Answer { refusal, first, second }
    }

    /// Boots a machine whose areas the regions text declares, whatever the record and the tables held.
    pub fn boot(&mut self, t: &mut Tables, base: u64, frames: u64, block_order: u64, text: &[u8]) -> Answer {
        self.call(t, |lent| lent::boot(lent, base, frames, block_order, text))
    }

    /// Declares an area. Answers its first frame and its count.
    pub fn declare(&mut self, t: &mut Tables, r: &Request) -> Answer {
        self.call(t, |lent| lent::declare(lent, r.base, r.size, r.limit, r.alignment, r.order_per_bit, u64::from(r.fixed)))
    }

    /// Puts a movable page. Answers its frame and 0.
    pub fn put_movable(&mut self, t: &mut Tables, name: u64) -> Answer {
        self.call(t, |lent| lent::put_movable(lent, name))
    }

    /// Puts a fixed page, never into an area. Answers its frame and 0.
    pub fn put_fixed(&mut self, t: &mut Tables, name: u64) -> Answer {
        self.call(t, |lent| lent::put_fixed(lent, name))
    }

    /// Drops a page that is not pinned.
    pub fn drop_page(&mut self, t: &mut Tables, name: u64) -> Answer {
        self.call(t, |lent| lent::drop(lent, name))
    }

    /// Pins a movable page.
    pub fn pin(&mut self, t: &mut Tables, name: u64) -> Answer {
        self.call(t, |lent| lent::pin(lent, name))
    }

    /// Makes a pinned page movable again.
    pub fn unpin(&mut self, t: &mut Tables, name: u64) -> Answer {
        self.call(t, |lent| lent::unpin(lent, name))
    }

    /// Stores the word of a page that is not pinned.
    pub fn store(&mut self, t: &mut Tables, name: u64, word: u64) -> Answer {
        self.call(t, |lent| lent::store(lent, name, word))
    }

    /// Reads a page. Answers its frame and its word.
    pub fn read(&mut self, t: &mut Tables, name: u64) -> Answer {
        self.call(t, |lent| lent::read(lent, name))
    }

    /// Grants `count` frames of an area to a device, the first a multiple of 2^align. Answers the first frame and the number of pages moved.
    pub fn grant(&mut self, t: &mut Tables, area: u64, count: u64, align: u64, device: u64) -> Answer {
        self.call(t, |lent| lent::grant(lent, area, count, align, device))
    }

    /// Releases a device's own grant.
    pub fn release(&mut self, t: &mut Tables, area: u64, frame: u64, count: u64, device: u64) -> Answer {
        self.call(t, |lent| lent::release(lent, area, frame, count, device))
    }

    /// Stores the word of a granted frame that is the device's own.
    pub fn device_store(&mut self, t: &mut Tables, frame: u64, word: u64, device: u64) -> Answer {
        self.call(t, |lent| lent::device_store(lent, frame, word, device))
    }

    /// Reads the word of a granted frame that is the device's own. Answers it and 0.
    pub fn device_read(&mut self, t: &mut Tables, frame: u64, device: u64) -> Answer {
        self.call(t, |lent| lent::device_read(lent, frame, device))
    }

    /// Writes the memory report to the front of a buffer. Answers its length and 0, and gives the lines back.
    pub fn report<'b>(&mut self, t: &mut Tables, buffer: &'b mut [u8]) -> Report<'b> {
        let answer = self.call(t, |lent| lent::report(lent, buffer));
        Report { answer, lines: &buffer[..answer.first as usize] }
    }
}
