//! A slice to lend, with guards around it.

use crate::tally::{Outcome, Tally};
use puvolamie::Refused;
use std::fmt::Debug;

const GUARD: usize = 8;

pub struct Guarded<T> {
    area: Vec<T>,
    mark: T,
}

impl<T: Copy + PartialEq + Debug> Guarded<T> {
    /// `room` places between two guards, all with the mark.
    pub fn new(room: usize, mark: T) -> Guarded<T> {
        Guarded {
            area: vec![mark; GUARD + room + GUARD],
            mark,
        }
    }

    pub fn room(&self) -> usize {
        self.area.len() - 2 * GUARD
    }

    pub fn lend(&mut self) -> &mut [T] {
        let end = self.area.len() - GUARD;
        &mut self.area[GUARD..end]
    }

    /// `due` at the slice's start, and every other place as it was.
    pub fn compare(&self, what: &str, due: &[T], tally: &mut Tally) -> Outcome {
        let mark = |places: &[T]| places.iter().all(|place| *place == self.mark);
        let (before, rest) = self.area.split_at(GUARD);
        let (written, after) = rest.split_at(due.len());
        tally.same(what, written, due)?;
        let left = (mark(before), mark(after));
        tally.same(
            &format!("{what}: places that must not change"),
            left,
            (true, true),
        )
    }
}

impl Guarded<u8> {
    /// The call's answer and the slice: the text where it has room, else the refusal 4 and nothing written.
    pub fn compare_text(
        &self,
        what: &str,
        answer: Result<usize, Refused>,
        due: &str,
        tally: &mut Tally,
    ) -> Outcome {
        if self.room() < due.len() {
            tally.same(what, answer, Err(Refused(4)))?;
            return self.compare(what, &[], tally);
        }
        tally.same(what, answer, Ok(due.len()))?;
        self.compare(what, due.as_bytes(), tally)
    }
}
