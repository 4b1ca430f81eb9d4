//! A line on standard error every few seconds.

use std::fmt::Display;
use std::io::{self, IsTerminal, Write};
use std::time::{Duration, Instant};

pub const INTERVAL: Duration = Duration::from_secs(3);

pub struct Progress {
    start: Instant,
    last: Instant,
    /// On a terminal the line is written over, elsewhere each is a line.
    over: bool,
}

impl Progress {
    pub fn new() -> Self {
        let start = Instant::now();
        Progress {
            start,
            last: start,
            over: io::stderr().is_terminal(),
        }
    }

    pub fn seconds(&self) -> u64 {
        self.start.elapsed().as_secs()
    }

    /// Says it if the last time is long enough ago.
    pub fn say(&mut self, what: impl FnOnce() -> String) {
        if self.last.elapsed() < INTERVAL {
            return;
        }
        self.last = Instant::now();
        let (seconds, what) = (self.seconds(), what());
        if self.over {
            eprint!("\r{what}, {seconds} s\x1b[K");
            let _ = io::stderr().flush();
        } else {
            eprintln!("{what}, {seconds} s");
        }
    }

    /// A line that stays.
    pub fn note(&self, what: impl Display) {
        if self.over {
            eprint!("\r\x1b[K");
        }
        eprintln!("{what}");
    }
}

impl Drop for Progress {
    fn drop(&mut self) {
        if self.over {
            eprint!("\r\x1b[K");
        }
    }
}
