//! How far a long job has come, for whoever sits at the terminal.

use std::io::{self, IsTerminal, Write};
use std::time::{Duration, Instant};

/// The least time between two lines.
const APART: Duration = Duration::from_millis(50);

/// A line on standard error that is written over, where that is a terminal.
pub struct Progress {
    is_terminal: bool,
    last: Instant,
    /// How many columns of the terminal's line are written.
    columns: usize,
}

impl Progress {
    pub fn new() -> Progress {
        Progress {
            is_terminal: io::stderr().is_terminal(),
            last: Instant::now(),
            columns: 0,
        }
    }

    pub fn show(&mut self, line: impl FnOnce() -> String) {
        if !self.is_terminal || self.last.elapsed() < APART {
            return;
        }
        self.last = Instant::now();
        self.write(&line());
    }

    pub fn clear(&mut self) {
        if self.columns > 0 {
            self.write("");
        }
    }

    /// Writes over the line, and leaves the cursor behind what is written.
    fn write(&mut self, line: &str) {
        let blank = " ".repeat(self.columns);
        self.columns = line.len();
        // A terminal that takes nothing is no reason to stop.
        let _ = io::stderr().write_all(format!("\r{blank}\r{line}").as_bytes());
    }
}
