//! Boot and area declaration.

use crate::machine::{answer, kind, kind_of, refusal, Outcome, PAGE};
use crate::machine::{Answer, Area, Machine, Tables};
use crate::regions::{self, Region};

/// The arguments of a declare: four byte amounts, k, and the fixed hint.
#[derive(Clone, Copy, Debug, Default, PartialEq, Eq)]
pub struct Request {
    pub base: u64,
    pub size: u64,
    pub limit: u64,
    pub alignment: u64,
    pub order: u64,
    pub fixed: bool,
}

impl Request {
    fn amounts_are_right(&self) -> bool {
        let amounts = [self.base, self.size, self.limit, self.alignment];
        amounts.iter().all(|&amount| amount <= Machine::MAX_AMOUNT)
            && self.size != 0
            && (self.alignment == 0 || self.alignment.is_power_of_two())
    }

    /// A nonzero start is fixed; k and limit are 0.
    fn of_region(region: &Region) -> Request {
        Request {
            base: region.start,
            size: region.size,
            limit: 0,
            alignment: region.alignment,
            order: 0,
            fixed: region.start != 0,
        }
    }
}

/// A byte range looked for, after rounding. All amounts are at most 2^48.
struct Search {
    base: u64,
    size: u64,
    limit: u64,
    step: u64,
    is_fixed: bool,
}

fn round_up(amount: u64, step: u64) -> u64 {
    amount.div_ceil(step) * step
}

impl Machine {
    pub fn declare(&mut self, t: &mut Tables, request: &Request) -> Answer {
        answer(self.try_declare(t, request))
    }

    fn try_declare(&mut self, t: &mut Tables, request: &Request) -> Outcome {
        self.check_shape(t)?;
        let is_free = |frame| kind_of(t.marks[self.place(frame)]) == kind::FREE;
        let area = self.plan_area(t.bitmap.len() as u64, &is_free, request)?;
        let first_word = self.bitmap_words() as usize;
        t.bitmap[first_word..first_word + area.bitmap_words() as usize].fill(0);
        self.add_area(area);
        Ok((area.base, area.count))
    }

    fn add_area(&mut self, area: Area) {
        self.areas[self.declared as usize] = area;
        self.declared += 1;
    }

    /// Finds the area a request asks for, in a machine of right shape. The
    /// caller says which frames are free.
    fn plan_area(
        &self,
        bitmap_len: u64,
        is_free: &dyn Fn(u64) -> bool,
        request: &Request,
    ) -> Result<Area, u64> {
        let search = self.search_for(request)?;
        let mut area = Area { base: 0, count: search.size / PAGE, order: request.order };
        if self.bitmap_words() + area.bitmap_words() > bitmap_len {
            return Err(refusal::BITMAP);
        }
        area.base = match search.is_fixed {
            true => self.fixed_first(&search, is_free)?,
            false => self.highest_first(&search, is_free)?,
        };
        Ok(area)
    }

    /// The checks of the request itself, up to the bitmap's.
    fn search_for(&self, request: &Request) -> Result<Search, u64> {
        if self.declared >= Machine::MAX_AREAS {
            return Err(refusal::AREAS_FULL);
        }
        if !request.amounts_are_right() {
            return Err(refusal::ARGUMENT);
        }
        if request.order > self.order || self.limit_is_small(request) {
            return Err(refusal::ORDER_OR_LIMIT);
        }
        let search = self.rounded(request);
        let is_above = search.base + search.size > search.limit;
        if search.is_fixed && request.limit != 0 && is_above {
            return Err(refusal::ORDER_OR_LIMIT);
        }
        Ok(search)
    }

    fn end_byte(&self) -> u64 {
        self.end() * PAGE
    }

    /// A: the alignment, or a block where that is more.
    fn step(&self, request: &Request) -> u64 {
        request.alignment.max(PAGE << self.order)
    }

    /// A limit was given, and it rounds down to 0.
    fn limit_is_small(&self, request: &Request) -> bool {
        request.limit != 0 && request.limit < self.step(request)
    }

    /// The request after rounding, its limit cut to memory. Not for a limit
    /// that rounds to 0.
    fn rounded(&self, request: &Request) -> Search {
        let step = self.step(request);
        let limit = request.limit / step * step;
        let base = round_up(request.base, step);
        Search {
            base,
            size: round_up(request.size, step),
            limit: if request.limit == 0 { self.end_byte() } else { limit.min(self.end_byte()) },
            step,
            is_fixed: request.fixed && base != 0,
        }
    }

    fn is_in_memory(&self, start: u64, size: u64) -> bool {
        start >= self.base * PAGE && start + size <= self.end_byte()
    }

    /// All frames of a byte range in memory are free and ordinary.
    fn is_open(&self, start: u64, size: u64, is_free: &dyn Fn(u64) -> bool) -> bool {
        (start / PAGE..(start + size) / PAGE).all(|f| is_free(f) && self.is_ordinary(f))
    }

    fn fixed_first(&self, s: &Search, is_free: &dyn Fn(u64) -> bool) -> Result<u64, u64> {
        if !self.is_in_memory(s.base, s.size) {
            return Err(refusal::NO_PLACE);
        }
        if !self.is_open(s.base, s.size, is_free) {
            return Err(refusal::NOT_FREE);
        }
        Ok(s.base / PAGE)
    }

    /// Goes down from the highest multiple of A that ends in time.
    fn highest_first(&self, s: &Search, is_free: &dyn Fn(u64) -> bool) -> Result<u64, u64> {
        let mut next = s.limit.checked_sub(s.size).map(|top| top / s.step * s.step);
        while let Some(start) = next {
            if start < s.base || !self.is_in_memory(start, s.size) {
                break;
            }
            if self.is_open(start, s.size, is_free) {
                return Ok(start / PAGE);
            }
            next = start.checked_sub(s.step);
        }
        Err(refusal::NO_PLACE)
    }

    /// Boots a machine of `frames` frames from `base`, whatever the record
    /// and the tables held. A refusal answers a place or a region's index.
    pub fn boot(&mut self, t: &mut Tables, base: u64, frames: u64, order: u64, text: &[u8]) -> Answer {
        match booted(t, base, frames, order, text) {
            Ok(machine) => {
                *self = machine;
                t.marks.fill(0);
                t.words.fill(0);
                t.bitmap.fill(0);
                t.owners.fill(0);
                Answer::new(refusal::DONE, 0, 0)
            }
            Err((number, place)) => Answer::new(number, place, 0),
        }
    }
}

/// The record a boot makes, or the refusal and its place.
fn booted(t: &Tables, base: u64, frames: u64, order: u64, text: &[u8]) -> Result<Machine, (u64, u64)> {
    let mut machine = Machine { base, frames, order, ..Machine::fresh() };
    if !machine.numbers_are_right() || !machine.lengths_are_right(t) {
        return Err((refusal::SHAPE, 0));
    }
    let regions = regions::parse(text)?;
    for (index, region) in regions.iter().enumerate() {
        let request = Request::of_region(region);
        let area = machine
            .plan_area(t.bitmap.len() as u64, &|_| true, &request)
            .map_err(|number| (number, index as u64))?;
        machine.add_area(area);
    }
    Ok(machine)
}
