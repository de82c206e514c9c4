//! The regions text.

use crate::machine::{refusal, Machine};

pub const MAX_TEXT: usize = 8_192;
pub const MAX_NAME_BYTES: usize = 16;

/// One region of the text.
#[derive(Clone, Debug, PartialEq, Eq)]
pub struct Region {
    pub name: Vec<u8>,
    pub size: u64,
    pub start: u64,
    pub alignment: u64,
}

/// A refusal number and the place it is given at.
pub type Refusal = (u64, u64);

/// Reads a whole text, or gives the first refusal from the left.
pub fn parse(text: &[u8]) -> Result<Vec<Region>, Refusal> {
    if text.len() > MAX_TEXT {
        return Err((refusal::TEXT_LONG, MAX_TEXT as u64));
    }
    let mut reader = Reader { text, at: 0 };
    let mut regions: Vec<Region> = Vec::new();
    while reader.peek().is_some() {
        if regions.len() as u64 == Machine::MAX_AREAS {
            return Err(reader.refuse(refusal::TEXT_REGIONS_FULL, reader.at));
        }
        let region = reader.region(&regions)?;
        regions.push(region);
        if reader.peek().is_some() {
            reader.expect(b';')?;
        }
    }
    Ok(regions)
}

/// The text and the place in it.
struct Reader<'a> {
    text: &'a [u8],
    at: usize,
}

impl Reader<'_> {
    fn peek(&self) -> Option<u8> {
        self.text.get(self.at).copied()
    }

    fn refuse(&self, number: u64, place: usize) -> Refusal {
        (number, place as u64)
    }

    /// The byte here, or the end, cannot continue.
    fn stuck(&self) -> Refusal {
        self.refuse(refusal::TEXT_BYTE, self.at)
    }

    fn accept(&mut self, byte: u8) -> bool {
        let found = self.peek() == Some(byte);
        if found {
            self.at += 1;
        }
        found
    }

    fn expect(&mut self, byte: u8) -> Result<(), Refusal> {
        if self.accept(byte) {
            Ok(())
        } else {
            Err(self.stuck())
        }
    }

    fn region(&mut self, earlier: &[Region]) -> Result<Region, Refusal> {
        let name = self.new_name(earlier)?;
        self.expect(b'=')?;
        let size = self.amount(|size| size != 0)?;
        let start = match self.accept(b'@') {
            true => self.amount(|_| true)?,
            false => 0,
        };
        let alignment = match self.accept(b'/') {
            true => self.amount(|a| a == 0 || a.is_power_of_two())?,
            false => 0,
        };
        if self.accept(b':') {
            self.allocator()?;
        }
        Ok(Region { name, size, start, alignment })
    }

    fn new_name(&mut self, earlier: &[Region]) -> Result<Vec<u8>, Refusal> {
        let place = self.at;
        let name = self.name()?;
        if earlier.iter().any(|region| region.name == name) {
            return Err(self.refuse(refusal::TEXT_REPEATED, place));
        }
        Ok(name)
    }

    fn allocator(&mut self) -> Result<(), Refusal> {
        let place = self.at;
        if self.name()? == b"ff" {
            Ok(())
        } else {
            Err(self.refuse(refusal::TEXT_ALLOCATOR, place))
        }
    }

    /// 1 to 16 name bytes; a seventeenth is left for the caller to refuse.
    fn name(&mut self) -> Result<Vec<u8>, Refusal> {
        let rest = &self.text[self.at..];
        let length = rest.iter().take(MAX_NAME_BYTES).take_while(|&&b| is_name_byte(b)).count();
        if length == 0 {
            return Err(self.stuck());
        }
        self.at += length;
        Ok(rest[..length].to_vec())
    }

    /// A number that is at most 2^48 and passes the given rule.
    fn amount(&mut self, rule: fn(u64) -> bool) -> Result<u64, Refusal> {
        let place = self.at;
        let value = self.number()?;
        if value <= Machine::MAX_AMOUNT && rule(value) {
            Ok(value)
        } else {
            Err(self.refuse(refusal::TEXT_NUMBER, place))
        }
    }

    /// Digits and a suffix, stopping at the largest u64 when too big.
    fn number(&mut self) -> Result<u64, Refusal> {
        let radix = self.radix();
        let first = self.digit(radix).ok_or_else(|| self.stuck())?;
        let mut value = first;
        while let Some(digit) = self.digit(radix) {
            value = value.saturating_mul(u64::from(radix)).saturating_add(digit);
        }
        Ok(value.saturating_mul(self.suffix()))
    }

    /// `0x` is taken here; the `0` of an octal number is its first digit.
    fn radix(&mut self) -> u32 {
        if self.text[self.at..].starts_with(b"0x") {
            self.at += 2;
            16
        } else if self.peek() == Some(b'0') {
            8
        } else {
            10
        }
    }

    fn digit(&mut self, radix: u32) -> Option<u64> {
        let digit = char::from(self.peek()?).to_digit(radix)?;
        self.at += 1;
        Some(u64::from(digit))
    }

    fn suffix(&mut self) -> u64 {
        let factor = match self.peek() {
            Some(b'K' | b'k') => 1 << 10,
            Some(b'M' | b'm') => 1 << 20,
            Some(b'G' | b'g') => 1 << 30,
            _ => return 1,
        };
        self.at += 1;
        factor
    }
}

fn is_name_byte(byte: u8) -> bool {
    byte.is_ascii_alphanumeric() || byte == b'-' || byte == b'_'
}
