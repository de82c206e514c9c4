//! A call as a value, and a state that such calls are made on.

use crate::machine::{refusal, Answer, Machine, Tables};
use crate::Request;

/// One call with its arguments.
#[derive(Clone, Debug, PartialEq, Eq)]
pub enum Call {
    Boot { base: u64, frames: u64, order: u64, text: Vec<u8> },
    PutMovable { name: u64 },
    PutFixed { name: u64 },
    Drop { name: u64 },
    Pin { name: u64 },
    Unpin { name: u64 },
    Store { name: u64, word: u64 },
    Read { name: u64 },
    Grant { area: u64, count: u64, align: u64, device: u64 },
    Release { area: u64, frame: u64, count: u64, device: u64 },
    DeviceStore { frame: u64, word: u64, device: u64 },
    DeviceRead { frame: u64, device: u64 },
    Declare(Request),
    /// Lent the first so many bytes of the buffer, or all where it has fewer.
    Report { length: usize },
}

impl Call {
    /// The kind byte of the call's replay record. A report has no record; it
    /// has the number after the last.
    pub fn kind(&self) -> u8 {
        match self {
            Call::Boot { .. } => 0,
            Call::PutMovable { .. } => 1,
            Call::PutFixed { .. } => 2,
            Call::Drop { .. } => 3,
            Call::Pin { .. } => 4,
            Call::Unpin { .. } => 5,
            Call::Store { .. } => 6,
            Call::Read { .. } => 7,
            Call::Grant { .. } => 8,
            Call::Release { .. } => 9,
            Call::DeviceStore { .. } => 10,
            Call::DeviceRead { .. } => 11,
            Call::Declare(_) => 12,
            Call::Report { .. } => 13,
        }
    }
}

/// Makes one call on a record and lent tables. The buffer is a report's.
pub fn apply(machine: &mut Machine, t: &mut Tables, buffer: &mut [u8], call: &Call) -> Answer {
    match call {
        Call::Boot { base, frames, order, text } => machine.boot(t, *base, *frames, *order, text),
        Call::PutMovable { name } => machine.put_movable(t, *name),
        Call::PutFixed { name } => machine.put_fixed(t, *name),
        Call::Drop { name } => machine.drop_page(t, *name),
        Call::Pin { name } => machine.pin(t, *name),
        Call::Unpin { name } => machine.unpin(t, *name),
        Call::Store { name, word } => machine.store(t, *name, *word),
        Call::Read { name } => machine.read(t, *name),
        Call::Grant { area, count, align, device } => machine.grant(t, *area, *count, *align, *device),
        Call::Release { area, frame, count, device } => machine.release(t, *area, *frame, *count, *device),
        Call::DeviceStore { frame, word, device } => machine.device_store(t, *frame, *word, *device),
        Call::DeviceRead { frame, device } => machine.device_read(t, *frame, *device),
        Call::Declare(request) => machine.declare(t, request),
        Call::Report { length } => machine.report(t, front(buffer, *length)),
    }
}

/// The first so many bytes of a buffer, or all where it has fewer.
pub fn front(buffer: &mut [u8], length: usize) -> &mut [u8] {
    let length = length.min(buffer.len());
    &mut buffer[..length]
}

/// A record together with its own tables, and a buffer for reports.
#[derive(Clone, Debug, PartialEq, Eq)]
pub struct State {
    pub machine: Machine,
    pub marks: Vec<u32>,
    pub words: Vec<u64>,
    pub bitmap: Vec<u64>,
    pub owners: Vec<u32>,
    pub buffer: Vec<u8>,
}

impl State {
    /// A fresh record with zero tables of the given lengths, and a buffer of no
    /// bytes.
    pub fn fresh(frames: usize, bitmap_words: usize) -> State {
        State {
            machine: Machine::fresh(),
            marks: vec![0; frames],
            words: vec![0; frames],
            bitmap: vec![0; bitmap_words],
            owners: vec![0; frames],
            buffer: Vec::new(),
        }
    }

    pub fn apply(&mut self, call: &Call) -> Answer {
        let mut t = Tables {
            marks: &mut self.marks,
            words: &mut self.words,
            bitmap: &mut self.bitmap,
            owners: &mut self.owners,
        };
        apply(&mut self.machine, &mut t, &mut self.buffer, call)
    }

    /// What a call that is refused with this number leaves: all as it was, but
    /// that a grant is counted, unless by its shape.
    pub fn after_refusal(&self, call: &Call, number: u64) -> State {
        let mut state = self.clone();
        if matches!(call, Call::Grant { .. }) && number != refusal::SHAPE {
            state.machine.refused = state.machine.refused.wrapping_add(1);
        }
        state
    }

    pub fn shape_is_right(&mut self) -> bool {
        let t = Tables {
            marks: &mut self.marks,
            words: &mut self.words,
            bitmap: &mut self.bitmap,
            owners: &mut self.owners,
        };
        self.machine.shape_is_right(&t)
    }
}
