//! The machine record, the lent tables, marks, bits and the shape.

/// Bytes in a page.
pub const PAGE: u64 = 4096;

/// Refusal numbers, as document 01 lists them. 11 is a k above b or, by
/// document 02, a limit that cannot be kept; 15 and 16 are document 02's.
pub mod refusal {
    pub const DONE: u64 = 0;
    pub const SHAPE: u64 = 1;
    pub const ARGUMENT: u64 = 2;
    pub const NOTHING_THERE: u64 = 3;
    pub const NAME_LIVE: u64 = 4;
    pub const KIND: u64 = 5;
    pub const NO_FRAME: u64 = 6;
    pub const NO_RUN: u64 = 7;
    pub const NO_TARGET: u64 = 8;
    pub const RELEASE: u64 = 9;
    pub const AREAS_FULL: u64 = 10;
    pub const ORDER_OR_LIMIT: u64 = 11;
    pub const NOT_FREE: u64 = 12;
    pub const NO_PLACE: u64 = 13;
    pub const BITMAP: u64 = 14;
    pub const NOT_OWNER: u64 = 15;
    pub const BUFFER: u64 = 16;
    pub const TEXT_BYTE: u64 = 20;
    pub const TEXT_NUMBER: u64 = 21;
    pub const TEXT_REPEATED: u64 = 22;
    pub const TEXT_REGIONS_FULL: u64 = 23;
    pub const TEXT_LONG: u64 = 24;
    pub const TEXT_ALLOCATOR: u64 = 25;
}

/// Kinds of a mark. 6 and 7 are unused.
pub mod kind {
    pub const FREE: u32 = 0;
    pub const MOVABLE: u32 = 1;
    pub const PINNED: u32 = 2;
    pub const FIXED: u32 = 3;
    pub const GRANT_FIRST: u32 = 4;
    pub const GRANT_LATER: u32 = 5;
}

/// The kind of a mark.
pub fn kind_of(mark: u32) -> u32 {
    mark % 8
}

/// The mark of a granted frame.
pub fn is_granted(mark: u32) -> bool {
    matches!(kind_of(mark), kind::GRANT_FIRST | kind::GRANT_LATER)
}

/// The field of a mark: a page name or a count.
pub fn field_of(mark: u32) -> u64 {
    u64::from(mark / 8)
}

/// Builds a mark. The field always fits: names have 29 bits, counts 19.
pub fn mark_of(field: u64, kind: u32) -> u32 {
    (field as u32) * 8 + kind
}

/// What a call answers.
#[derive(Clone, Copy, Debug, PartialEq, Eq)]
pub struct Answer {
    pub refusal: u64,
    pub first: u64,
    pub second: u64,
}

impl Answer {
    pub fn new(refusal: u64, first: u64, second: u64) -> Answer {
        Answer { refusal, first, second }
    }
}

/// Two numbers when done, or a refusal number.
pub(crate) type Outcome = Result<(u64, u64), u64>;

/// A refusal answers its number and two zeros.
pub(crate) fn answer(outcome: Outcome) -> Answer {
    match outcome {
        Ok((first, second)) => Answer::new(refusal::DONE, first, second),
        Err(number) => Answer::new(number, 0, 0),
    }
}

/// A reserved area: first physical frame, count of frames, and k.
#[derive(Clone, Copy, Debug, Default, PartialEq, Eq)]
pub struct Area {
    pub base: u64,
    pub count: u64,
    pub order: u64,
}

impl Area {
    /// One past the last frame. Only asked of areas that lie in memory.
    pub fn end(&self) -> u64 {
        self.base + self.count
    }

    pub fn bits(&self) -> u64 {
        self.count >> self.order
    }

    pub fn bitmap_words(&self) -> u64 {
        self.bits().div_ceil(64)
    }

    pub fn holds(&self, frame: u64) -> bool {
        self.base <= frame && frame < self.end()
    }

    fn is_apart_from(&self, other: &Area) -> bool {
        self.end() <= other.base || other.end() <= self.base
    }
}

/// The machine record.
#[derive(Clone, Copy, Debug, PartialEq, Eq)]
pub struct Machine {
    /// P, the first physical frame.
    pub base: u64,
    /// n, the number of frames.
    pub frames: u64,
    /// b, the block order.
    pub order: u64,
    /// How many of the area records are in use.
    pub declared: u64,
    /// How many grant calls were done since the boot, and how many refused for
    /// another reason than the shape. Both wrap on purpose.
    pub granted: u32,
    pub refused: u32,
    pub areas: [Area; Machine::MAX_AREAS as usize],
}

/// The four tables lent to a call. An owner is a device's number, 0 for none.
pub struct Tables<'a> {
    pub marks: &'a mut [u32],
    pub words: &'a mut [u64],
    pub bitmap: &'a mut [u64],
    pub owners: &'a mut [u32],
}

impl Machine {
    pub const MAX_FRAMES: u64 = 262_144;
    pub const MAX_END: u64 = 1 << 36;
    pub const MAX_BLOCK_ORDER: u64 = 10;
    pub const MAX_AREAS: u64 = 64;
    pub const MAX_NAME: u64 = 536_870_911;
    pub const MAX_ALIGN_ORDER: u64 = 16;
    pub const MAX_AMOUNT: u64 = 1 << 48;
    pub const MAX_DEVICE: u64 = 65_535;

    /// A fresh record is all zeros.
    pub fn fresh() -> Machine {
        let areas = [Area::default(); Machine::MAX_AREAS as usize];
        Machine { base: 0, frames: 0, order: 0, declared: 0, granted: 0, refused: 0, areas }
    }

    /// One past the last physical frame. Only asked of a right shape.
    pub fn end(&self) -> u64 {
        self.base + self.frames
    }

    /// The declared areas. Only asked when there are no more than can be.
    pub fn used_areas(&self) -> &[Area] {
        &self.areas[..self.declared as usize]
    }

    /// P, n and b keep to the table of limits.
    pub fn numbers_are_right(&self) -> bool {
        self.base >= 1
            && self.frames >= 1
            && self.frames <= Self::MAX_FRAMES
            && self.order <= Self::MAX_BLOCK_ORDER
            && self.base <= Self::MAX_END - self.frames
    }

    /// Marks, words and owners have n entries each.
    pub fn lengths_are_right(&self, t: &Tables) -> bool {
        [t.marks.len(), t.words.len(), t.owners.len()].iter().all(|&length| length as u64 == self.frames)
    }

    /// Each declared area alone is right. Asked after the numbers.
    fn area_is_right(&self, area: &Area) -> bool {
        let block = 1u64 << self.order;
        area.count >= 1
            && area.order <= self.order
            && area.base % block == 0
            && area.count % block == 0
            && area.base >= self.base
            && area.count <= self.frames
            && area.base <= self.end() - area.count
    }

    fn areas_are_apart(&self) -> bool {
        let areas = self.used_areas();
        (0..areas.len()).all(|j| (0..j).all(|i| areas[i].is_apart_from(&areas[j])))
    }

    /// Bitmap words that the declared areas need.
    pub fn bitmap_words(&self) -> u64 {
        self.used_areas().iter().map(Area::bitmap_words).sum()
    }

    /// The shape of document 01, on any field values and any tables.
    pub fn shape_is_right(&self, t: &Tables) -> bool {
        self.numbers_are_right()
            && self.declared <= Self::MAX_AREAS
            && self.lengths_are_right(t)
            && self.used_areas().iter().all(|area| self.area_is_right(area))
            && self.areas_are_apart()
            && self.bitmap_words() <= t.bitmap.len() as u64
    }

    pub(crate) fn check_shape(&self, t: &Tables) -> Result<(), u64> {
        if self.shape_is_right(t) {
            Ok(())
        } else {
            Err(refusal::SHAPE)
        }
    }

    /// The table place of a physical frame in memory.
    pub(crate) fn place(&self, frame: u64) -> usize {
        (frame - self.base) as usize
    }

    /// The physical frame of a table place.
    pub(crate) fn frame(&self, place: usize) -> u64 {
        self.base + place as u64
    }

    /// A frame in no area is ordinary.
    pub fn is_ordinary(&self, frame: u64) -> bool {
        !self.used_areas().iter().any(|area| area.holds(frame))
    }

    /// Places of the free ordinary frames, ascending.
    pub(crate) fn free_ordinary<'m>(&'m self, marks: &'m [u32]) -> impl Iterator<Item = usize> + 'm {
        (0..marks.len())
            .filter(move |&p| kind_of(marks[p]) == kind::FREE && self.is_ordinary(self.frame(p)))
    }

    /// Word and bit-in-word of one bit of one area.
    fn bit_position(&self, area: usize, bit: u64) -> (usize, u64) {
        let before: u64 = self.areas[..area].iter().map(Area::bitmap_words).sum();
        ((before + bit / 64) as usize, bit % 64)
    }

    pub(crate) fn bit_is_set(&self, t: &Tables, area: usize, bit: u64) -> bool {
        let (word, shift) = self.bit_position(area, bit);
        t.bitmap[word] >> shift & 1 == 1
    }

    pub(crate) fn write_bit(&self, t: &mut Tables, area: usize, bit: u64, set: bool) {
        let (word, shift) = self.bit_position(area, bit);
        let mask = 1u64 << shift;
        if set {
            t.bitmap[word] |= mask;
        } else {
            t.bitmap[word] &= !mask;
        }
    }
}
