//! Page calls: put, drop, pin, unpin, store and read.

use crate::machine::{answer, field_of, kind, kind_of, mark_of, refusal, Outcome};
use crate::machine::{Answer, Machine, Tables};

/// Kinds 1, 2 and 3 carry a page name.
fn is_page(mark: u32) -> bool {
    matches!(kind_of(mark), kind::MOVABLE | kind::PINNED | kind::FIXED)
}

fn check_name(name: u64) -> Result<(), u64> {
    if (1..=Machine::MAX_NAME).contains(&name) {
        Ok(())
    } else {
        Err(refusal::ARGUMENT)
    }
}

/// The lowest place where the name stands.
fn find_page(t: &Tables, name: u64) -> Option<usize> {
    t.marks.iter().position(|&mark| is_page(mark) && field_of(mark) == name)
}

impl Machine {
    pub fn put_movable(&self, t: &mut Tables, name: u64) -> Answer {
        answer(self.try_put(t, name, kind::MOVABLE))
    }

    pub fn put_fixed(&self, t: &mut Tables, name: u64) -> Answer {
        answer(self.try_put(t, name, kind::FIXED))
    }

    pub fn drop_page(&self, t: &mut Tables, name: u64) -> Answer {
        answer(self.try_drop(t, name))
    }

    pub fn pin(&self, t: &mut Tables, name: u64) -> Answer {
        answer(self.try_change_kind(t, name, kind::MOVABLE, kind::PINNED))
    }

    pub fn unpin(&self, t: &mut Tables, name: u64) -> Answer {
        answer(self.try_change_kind(t, name, kind::PINNED, kind::MOVABLE))
    }

    pub fn store(&self, t: &mut Tables, name: u64, word: u64) -> Answer {
        answer(self.try_store(t, name, word))
    }

    pub fn read(&self, t: &mut Tables, name: u64) -> Answer {
        answer(self.try_read(t, name))
    }

    /// The checks that every call on a live page starts with: 1, 2, 3.
    fn live_page(&self, t: &Tables, name: u64) -> Result<usize, u64> {
        self.check_shape(t)?;
        check_name(name)?;
        find_page(t, name).ok_or(refusal::NOTHING_THERE)
    }

    fn try_put(&self, t: &mut Tables, name: u64, new_kind: u32) -> Outcome {
        self.check_shape(t)?;
        check_name(name)?;
        if find_page(t, name).is_some() {
            return Err(refusal::NAME_LIVE);
        }
        let place = self.place_for_put(t, new_kind).ok_or(refusal::NO_FRAME)?;
        t.marks[place] = mark_of(name, new_kind);
        t.words[place] = 0;
        Ok((self.frame(place), 0))
    }

    /// An ordinary frame first; only a movable page may use an area frame.
    fn place_for_put(&self, t: &Tables, new_kind: u32) -> Option<usize> {
        let ordinary = self.free_ordinary(t.marks).next();
        if ordinary.is_some() || new_kind != kind::MOVABLE {
            return ordinary;
        }
        // No free frame is ordinary, so any free frame is in an area.
        t.marks.iter().position(|&mark| kind_of(mark) == kind::FREE)
    }

    fn try_drop(&self, t: &mut Tables, name: u64) -> Outcome {
        let place = self.live_page(t, name)?;
        if kind_of(t.marks[place]) == kind::PINNED {
            return Err(refusal::KIND);
        }
        t.marks[place] = 0;
        t.words[place] = 0;
        Ok((0, 0))
    }

    fn try_change_kind(&self, t: &mut Tables, name: u64, from: u32, to: u32) -> Outcome {
        let place = self.live_page(t, name)?;
        if kind_of(t.marks[place]) != from {
            return Err(refusal::KIND);
        }
        t.marks[place] = mark_of(name, to);
        Ok((0, 0))
    }

    fn try_store(&self, t: &mut Tables, name: u64, word: u64) -> Outcome {
        let place = self.live_page(t, name)?;
        if kind_of(t.marks[place]) == kind::PINNED {
            return Err(refusal::KIND);
        }
        t.words[place] = word;
        Ok((0, 0))
    }

    fn try_read(&self, t: &Tables, name: u64) -> Outcome {
        let place = self.live_page(t, name)?;
        Ok((self.frame(place), t.words[place]))
    }
}
