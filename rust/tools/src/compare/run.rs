//! A run: two calculations on the cases of a seed, and what it comes to.

use super::case::Case;
use super::tally::Tally;
use super::{check, laws, shrink};
use crate::calls::{Calls, Proved, Second};
use crate::cli::{no, usage, Args, Failure};
use crate::progress::Progress;

/// How many cases a run has if nothing else is asked.
pub const DEFAULT_COUNT: u64 = 20_000;

/// Two calculations, and the cases that they are given.
pub struct Run<'a> {
    pub library: &'a dyn Calls,
    pub other: &'a dyn Calls,
    /// The case of a seed with this number.
    pub cases: fn(u64, u64) -> Case,
    pub seed: u64,
    pub first: u64,
    pub count: u64,
}

impl Run<'static> {
    /// The run that a command line asks for: the proved library, the second calculation.
    pub fn asked(args: &Args) -> Result<Run<'static>, Failure> {
        let [] = args.files()?;
        let count = args.number("--count")?.unwrap_or(DEFAULT_COUNT);
        if count == 0 {
            return Err(usage("compare: --count must not be 0"));
        }
        Ok(Run {
            library: &Proved,
            other: &Second,
            cases: Case::new,
            seed: args.number("--seed")?.unwrap_or(1),
            first: args.number("--first")?.unwrap_or(0),
            count,
        })
    }
}

impl Run<'_> {
    /// The first difference of a case, in words.
    pub fn difference(&self, case: &Case) -> Option<String> {
        check::difference(self.library, self.other, case)
            .or_else(|| laws::broken(self.library, case))
    }

    /// The report on a difference: the smallest case that still shows one.
    pub fn explain(&self, case: &Case, number: u64) -> String {
        let smallest = shrink::shrink(case, &mut |case| self.difference(case).is_some());
        let what = self.difference(&smallest).unwrap_or_default();
        let seed = self.seed;
        format!("pair {number} of seed {seed} differs\n{what}\n{smallest}")
    }

    /// Compares every case, and counts what was seen.
    fn compare(&self) -> Result<Tally, String> {
        let (mut progress, mut tally) = (Progress::new(self.count), Tally::default());
        for done in 0..self.count {
            let number = self.first.wrapping_add(done);
            let case = (self.cases)(self.seed, number);
            if self.difference(&case).is_some() {
                progress.clear();
                return Err(self.explain(&case, number));
            }
            tally.count(&case);
            progress.done(done + 1);
        }
        progress.clear();
        Ok(tally)
    }

    /// What was seen in a run without a difference. A calculation against itself, a
    /// difference, and too little seen are failures.
    pub fn outcome(&self) -> Result<Tally, Failure> {
        let (library, other) = (self.library.name(), self.other.name());
        if library == other {
            return Err(no(format!("{library} is compared with itself")));
        }
        let tally = self.compare().map_err(no)?;
        match &tally.lacking(self.count)[..] {
            [] => Ok(tally),
            lacking => {
                let lacking = lacking.join("\n");
                let count = self.count;
                Err(no(format!(
                    "{count} pairs have shown too little\n{lacking}"
                )))
            }
        }
    }
}
