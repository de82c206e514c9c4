//! Replay records: their form, and the program that runs them.

use crate::calls::{apply, Call, State};
use crate::machine::{refusal, Answer, Machine, Tables};
use crate::Request;
use std::io::{self, Read, Write};

/// The program holds this many frames.
pub const FRAMES: usize = 2048;
/// The program lends this many bitmap words.
pub const BITMAP_WORDS: usize = 96;
/// The longest body: that of a declare.
const LONGEST: usize = 34;

pub const HEADING: &str = "step refusal first second";

/// The length of a record's body, or none for an unknown kind.
pub fn body_length(kind: u8) -> Option<usize> {
    match kind {
        0 => Some(13),
        1..=5 | 7 => Some(4),
        6 => Some(12),
        8 => Some(8),
        9 => Some(15),
        10 => Some(18),
        11 => Some(10),
        12 => Some(34),
        _ => None,
    }
}

/// Takes little-endian numbers off the front of a body.
struct Body<'a>(&'a [u8]);

impl Body<'_> {
    fn take(&mut self, bytes: usize) -> u64 {
        let (head, tail) = self.0.split_at(bytes);
        self.0 = tail;
        head.iter().rev().fold(0, |value, &byte| value << 8 | u64::from(byte))
    }
}

/// The call of a record whose body has the right length for its kind.
pub fn decode(kind: u8, body: &[u8]) -> Option<Call> {
    if body_length(kind) != Some(body.len()) {
        return None;
    }
    let mut b = Body(body);
    // Struct fields are evaluated in the order written here.
    Some(match kind {
        0 => Call::Boot { base: b.take(8), frames: b.take(4), order: b.take(1), text: Vec::new() },
        1 => Call::PutMovable { name: b.take(4) },
        2 => Call::PutFixed { name: b.take(4) },
        3 => Call::Drop { name: b.take(4) },
        4 => Call::Pin { name: b.take(4) },
        5 => Call::Unpin { name: b.take(4) },
        6 => Call::Store { name: b.take(4), word: b.take(8) },
        7 => Call::Read { name: b.take(4) },
        8 => Call::Grant { area: b.take(1), align: b.take(1), count: b.take(4), device: b.take(2) },
        9 => Call::Release { area: b.take(1), frame: b.take(8), count: b.take(4), device: b.take(2) },
        10 => Call::DeviceStore { frame: b.take(8), word: b.take(8), device: b.take(2) },
        11 => Call::DeviceRead { frame: b.take(8), device: b.take(2) },
        _ => Call::Declare(Request {
            base: b.take(8),
            size: b.take(8),
            limit: b.take(8),
            alignment: b.take(8),
            order: b.take(1),
            fixed: b.take(1) != 0,
        }),
    })
}

/// The numbers of a call's record with their widths in bytes.
fn fields(call: &Call) -> Vec<(u64, usize)> {
    match call {
        Call::Boot { base, frames, order, .. } => vec![(*base, 8), (*frames, 4), (*order, 1)],
        Call::PutMovable { name }
        | Call::PutFixed { name }
        | Call::Drop { name }
        | Call::Pin { name }
        | Call::Unpin { name }
        | Call::Read { name } => vec![(*name, 4)],
        Call::Store { name, word } => vec![(*name, 4), (*word, 8)],
        Call::Grant { area, count, align, device } => vec![(*area, 1), (*align, 1), (*count, 4), (*device, 2)],
        Call::Release { area, frame, count, device } => vec![(*area, 1), (*frame, 8), (*count, 4), (*device, 2)],
        Call::DeviceStore { frame, word, device } => vec![(*frame, 8), (*word, 8), (*device, 2)],
        Call::DeviceRead { frame, device } => vec![(*frame, 8), (*device, 2)],
        Call::Declare(r) => vec![
            (r.base, 8),
            (r.size, 8),
            (r.limit, 8),
            (r.alignment, 8),
            (r.order, 1),
            (u64::from(r.fixed), 1),
        ],
        Call::Report { .. } => panic!("a report has no record"),
    }
}

/// The record of a call that has one, numbers cut to the record's widths and a
/// boot's text left out.
pub fn encode(call: &Call) -> Vec<u8> {
    let mut out = vec![call.kind()];
    for (value, bytes) in fields(call) {
        out.extend(&value.to_le_bytes()[..bytes]);
    }
    out
}

/// The replaying program's machine and the tables it holds.
pub struct Station {
    machine: Machine,
    marks: Vec<u32>,
    words: Vec<u64>,
    bitmap: Vec<u64>,
    owners: Vec<u32>,
}

impl Station {
    pub fn new() -> Station {
        Station {
            machine: Machine::fresh(),
            marks: vec![0; FRAMES],
            words: vec![0; FRAMES],
            bitmap: vec![0; BITMAP_WORDS],
            owners: vec![0; FRAMES],
        }
    }

    /// A copy of the record and of the entries its machine has. There is no
    /// buffer, since no record is a report.
    pub fn view(&self) -> State {
        let frames = self.machine.frames as usize;
        State {
            machine: self.machine,
            marks: self.marks[..frames].to_vec(),
            words: self.words[..frames].to_vec(),
            bitmap: self.bitmap.clone(),
            owners: self.owners[..frames].to_vec(),
            buffer: Vec::new(),
        }
    }

    /// Makes the call of a record, lending as many entries as the machine has
    /// frames; a boot is lent as many as it asks for.
    pub fn call(&mut self, call: &Call) -> Answer {
        let frames = match call {
            Call::Boot { frames, .. } => *frames,
            _ => self.machine.frames,
        };
        if frames > FRAMES as u64 {
            return Answer::new(refusal::SHAPE, 0, 0);
        }
        let mut t = Tables {
            marks: &mut self.marks[..frames as usize],
            words: &mut self.words[..frames as usize],
            bitmap: &mut self.bitmap,
            owners: &mut self.owners[..frames as usize],
        };
        apply(&mut self.machine, &mut t, &mut [], call)
    }
}

impl Default for Station {
    fn default() -> Self {
        Station::new()
    }
}

/// Reads until the buffer is full or the input ends; answers the bytes read.
fn read_up_to(input: &mut impl Read, buffer: &mut [u8]) -> io::Result<usize> {
    let mut filled = 0;
    while filled < buffer.len() {
        match input.read(&mut buffer[filled..]) {
            Ok(0) => break,
            Ok(count) => filled += count,
            Err(error) if error.kind() == io::ErrorKind::Interrupted => {}
            Err(error) => return Err(error),
        }
    }
    Ok(filled)
}

/// What stands next in the input.
pub enum Next {
    End,
    Bad,
    Record { call: Call, length: u64 },
}

/// Reads the next record. It is bad where its kind is unknown or its body cut.
pub fn next_record(input: &mut impl Read) -> io::Result<Next> {
    let mut kind = [0u8; 1];
    if read_up_to(input, &mut kind)? == 0 {
        return Ok(Next::End);
    }
    let Some(length) = body_length(kind[0]) else {
        return Ok(Next::Bad);
    };
    let mut body = [0u8; LONGEST];
    if read_up_to(input, &mut body[..length])? < length {
        return Ok(Next::Bad);
    }
    Ok(match decode(kind[0], &body[..length]) {
        Some(call) => Next::Record { call, length: 1 + length as u64 },
        None => Next::Bad,
    })
}

/// Replays all records of the input and writes the whole output.
pub fn replay(input: &mut impl Read, output: &mut impl Write) -> io::Result<()> {
    writeln!(output, "{HEADING}")?;
    let mut station = Station::new();
    let mut offset = 0u64;
    let mut step = 0u64;
    loop {
        match next_record(input)? {
            Next::End => return writeln!(output, "end {step}"),
            Next::Bad => return writeln!(output, "bad {offset}"),
            Next::Record { call, length } => {
                let a = station.call(&call);
                writeln!(output, "{step} {} {} {}", a.refusal, a.first, a.second)?;
                offset += length;
                step += 1;
            }
        }
    }
}
