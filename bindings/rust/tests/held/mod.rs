//! The library's machine with tables and a buffer of its own, held against the reference's state.

use reference::calls::front;
use reference::{Call, State};
use szk::{Answer, Machine, Request, Tables};

pub struct Held {
    pub machine: Machine,
    pub marks: Vec<u32>,
    pub words: Vec<u64>,
    pub bitmap: Vec<u64>,
    pub owners: Vec<u32>,
    pub buffer: Vec<u8>,
}

/// The numbers of a record, in the order of szk.h.
pub fn numbers(machine: &reference::Machine) -> [u64; Machine::NUMBERS] {
    let mut numbers = [0; Machine::NUMBERS];
    let counters = u64::from(machine.refused) << 32 | u64::from(machine.granted);
    numbers[..5].copy_from_slice(&[machine.base, machine.frames, machine.order, machine.declared, counters]);
    for (area, place) in machine.areas.iter().zip(numbers[5..].chunks_mut(3)) {
        place.copy_from_slice(&[area.base, area.count, area.order]);
    }
    numbers
}

impl Held {
    pub fn of(state: &State) -> Held {
        Held {
            machine: Machine { numbers: numbers(&state.machine) },
            marks: state.marks.clone(),
            words: state.words.clone(),
            bitmap: state.bitmap.clone(),
            owners: state.owners.clone(),
            buffer: state.buffer.clone(),
        }
    }

    pub fn make(&mut self, call: &Call) -> Answer {
        let t = &mut Tables { marks: &mut self.marks, words: &mut self.words, bitmap: &mut self.bitmap, owners: &mut self.owners };
        let m = &mut self.machine;
        match call {
            Call::Boot { base, frames, order, text } => m.boot(t, *base, *frames, *order, text),
            Call::PutMovable { name } => m.put_movable(t, *name),
            Call::PutFixed { name } => m.put_fixed(t, *name),
            Call::Drop { name } => m.drop_page(t, *name),
            Call::Pin { name } => m.pin(t, *name),
            Call::Unpin { name } => m.unpin(t, *name),
            Call::Store { name, word } => m.store(t, *name, *word),
            Call::Read { name } => m.read(t, *name),
            Call::Grant { area, count, align, device } => m.grant(t, *area, *count, *align, *device),
            Call::Release { area, frame, count, device } => m.release(t, *area, *frame, *count, *device),
            Call::DeviceStore { frame, word, device } => m.device_store(t, *frame, *word, *device),
            Call::DeviceRead { frame, device } => m.device_read(t, *frame, *device),
            Call::Declare(r) => m.declare(t, &request(r)),
            Call::Report { length } => m.report(t, front(&mut self.buffer, *length)).answer,
        }
    }

    /// The answer, the record, all four tables and the buffer are the reference's.
    pub fn agrees(&self, answer: Answer, state: &State, expected: reference::Answer) -> bool {
        (answer.refusal, answer.first, answer.second) == (expected.refusal, expected.first, expected.second)
            && self.machine.numbers == numbers(&state.machine)
            && self.marks == state.marks
            && self.words == state.words
            && self.bitmap == state.bitmap
            && self.owners == state.owners
            && self.buffer == state.buffer
    }
}

fn request(r: &reference::Request) -> Request {
    Request { base: r.base, size: r.size, limit: r.limit, alignment: r.alignment, order_per_bit: r.order, fixed: r.fixed }
}
