//! Times of one thing, measured again and again.

use super::work::{Answer, Work};
use crate::cli::{no, Failure};
use std::rc::Rc;
use std::time::Duration;

/// How long one measurement lasts at least.
const LEAST: Duration = Duration::from_micros(200);

/// Time since some moment.
pub type Clock<'a> = &'a dyn Fn() -> Duration;

/// One thing that is timed, and what it must answer.
pub struct Timed<'a> {
    pub name: &'static str,
    work: Box<dyn Work + 'a>,
    /// Its answers; after the last they begin again.
    expected: Rc<[Answer]>,
    /// How often the work is done in one measurement.
    times: usize,
    nanoseconds: Vec<f64>,
}

impl<'a> Timed<'a> {
    /// Runs the work on each book: it must give what is expected.
    pub fn new(
        name: &'static str,
        work: Box<dyn Work + 'a>,
        expected: Rc<[Answer]>,
    ) -> Result<Timed<'a>, Failure> {
        let mut timed = Timed {
            name,
            work,
            expected,
            times: 1,
            nanoseconds: Vec::new(),
        };
        for at in 0..timed.expected.len() {
            timed.work.forget();
            timed.work.run(at);
            timed.compare(at)?;
        }
        Ok(timed)
    }

    /// The last answer must be that of the book with this number.
    fn compare(&self, at: usize) -> Result<(), Failure> {
        let at = at % self.expected.len();
        match self.work.answer() == self.expected[at] {
            true => Ok(()),
            false => Err(no(format!(
                "bench: {} did not give what is expected of book {at}",
                self.work.path()
            ))),
        }
    }

    /// One measurement. What the last run of it gave is compared, outside the time.
    fn measure(&mut self, clock: Clock) -> Result<Duration, Failure> {
        self.work.forget();
        let start = clock();
        (0..self.times).for_each(|at| self.work.run(at));
        let time = clock() - start;
        self.compare(self.times - 1)?;
        Ok(time)
    }

    /// Finds how often the work is done in a measurement that is long enough.
    pub fn settle(&mut self, clock: Clock) -> Result<(), Failure> {
        while self.measure(clock)? < LEAST {
            self.times *= 2;
        }
        Ok(())
    }

    /// Measures once and keeps the time of one run.
    pub fn round(&mut self, clock: Clock) -> Result<(), Failure> {
        let time = self.measure(clock)?.as_nanos() as f64 / self.times as f64;
        self.nanoseconds.push(time);
        Ok(())
    }

    /// The median time of one run.
    pub fn median(&self) -> f64 {
        let mut sorted = self.nanoseconds.clone();
        sorted.sort_by(f64::total_cmp);
        sorted[sorted.len() / 2]
    }

    /// The path of the function that is timed.
    #[cfg(test)]
    pub fn path(&self) -> &'static str {
        self.work.path()
    }
}
