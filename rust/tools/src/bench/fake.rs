//! Works for tests, and a clock that each run of them moves on.

use super::timed::Timed;
use super::work::{Answer, Work};
use std::cell::Cell;
use std::rc::Rc;

/// A work that takes its time on a fake clock and answers with its last number.
struct Fake<'a> {
    now: &'a Cell<u64>,
    runs: &'a Cell<usize>,
    nanoseconds: u64,
    /// From this run on it does nothing.
    lazy_from: usize,
    last: u64,
}

impl Work for Fake<'_> {
    fn run(&mut self, at: usize) {
        self.now.set(self.now.get() + self.nanoseconds);
        self.runs.set(self.runs.get() + 1);
        if self.runs.get() < self.lazy_from {
            self.last = at as u64 % 4;
        }
    }
    fn forget(&mut self) {
        self.last = u64::MAX;
    }
    fn answer(&self) -> Answer {
        answer(self.last)
    }
    fn path(&self) -> &'static str {
        "fake"
    }
}

/// An answer of one entry.
pub fn answer(entry: u64) -> Answer {
    Answer {
        entries: vec![entry],
        output: Vec::new(),
    }
}

/// What a fake must answer: it has four books.
pub fn expected() -> Rc<[Answer]> {
    (0..4).map(answer).collect()
}

/// A fake clock and a count of runs.
#[derive(Default)]
pub struct World {
    pub now: Cell<u64>,
    pub runs: Cell<usize>,
}

impl World {
    /// A work that takes so long and is lazy from this run on.
    pub fn fake(&self, nanoseconds: u64, lazy_from: usize) -> Box<dyn Work + '_> {
        Box::new(Fake {
            now: &self.now,
            runs: &self.runs,
            nanoseconds,
            lazy_from,
            last: 0,
        })
    }

    /// A work that takes so long, to be timed under a name.
    pub fn timed(&self, name: &'static str, nanoseconds: u64) -> Timed<'_> {
        Timed::new(name, self.fake(nanoseconds, usize::MAX), expected()).unwrap()
    }
}
