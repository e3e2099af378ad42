//! The progress line of a long comparison.

use std::io::{self, IsTerminal, Write};
use std::time::{Duration, Instant};

/// The progress line on standard error: overwritten on a terminal, now and then one in a pipe.
pub struct Progress {
    count: u64,
    began: Instant,
    last: Instant,
    terminal: bool,
    shown: bool,
}

impl Progress {
    pub fn new(count: u64) -> Progress {
        let now = Instant::now();
        Progress {
            count,
            began: now,
            last: now,
            terminal: io::stderr().is_terminal(),
            shown: false,
        }
    }

    pub fn at(&mut self, done: u64) {
        let pause = Duration::from_millis(if self.terminal { 300 } else { 10_000 });
        if done % 64 != 0 || self.last.elapsed() < pause {
            return;
        }
        self.last = Instant::now();
        self.shown = true;
        let rate = u128::from(done) * 1000 / self.began.elapsed().as_millis().max(1);
        let line = format!("{done} of {} cases, {rate} a second", self.count);
        let mut stderr = io::stderr().lock();
        let _ = if self.terminal {
            write!(stderr, "\r{line}    ")
        } else {
            writeln!(stderr, "{line}")
        };
    }

    pub fn end(&self) {
        if self.terminal && self.shown {
            let _ = writeln!(io::stderr());
        }
    }
}
