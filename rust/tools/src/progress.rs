//! How far a long run has come, shown on a terminal alone.

use std::io::{IsTerminal, Write};
use std::time::{Duration, Instant};

/// A line on standard error that is rewritten ten times a second.
pub struct Progress {
    total: u64,
    shown: Option<Instant>,
    terminal: bool,
}

impl Progress {
    /// Nothing is shown where standard error is no terminal.
    pub fn new(total: u64) -> Progress {
        Progress {
            total,
            shown: None,
            terminal: std::io::stderr().is_terminal(),
        }
    }

    /// So many are done.
    pub fn done(&mut self, count: u64) {
        let due = |last: Instant| last.elapsed() > Duration::from_millis(100);
        if self.terminal && self.shown.is_none_or(due) {
            let _ = write!(std::io::stderr(), "\r{count} of {}", self.total);
            self.shown = Some(Instant::now());
        }
    }

    /// Takes the line away.
    pub fn clear(&mut self) {
        if self.shown.take().is_some() {
            let _ = write!(std::io::stderr(), "\r\x1b[K");
        }
    }
}
