//! How far a run is, on a terminal.

use std::io::{stderr, IsTerminal, Write};
use std::time::{Duration, Instant};

/// How often the line is written at most.
const PAUSE: Duration = Duration::from_millis(200);

pub struct Progress {
    shown: Option<Instant>,
    terminal: bool,
}

impl Progress {
    pub fn new() -> Progress {
        Progress {
            shown: None,
            terminal: stderr().is_terminal(),
        }
    }

    /// Shows how many cases of how many are done, unless it was shown just now.
    pub fn show(&mut self, done: u64, of: u64) {
        if self.terminal && self.shown.is_none_or(|shown| shown.elapsed() >= PAUSE) {
            // Progress that cannot be written is no reason to stop.
            let _ = write!(stderr(), "\r{done} of {of} cases");
            self.shown = Some(Instant::now());
        }
    }
}

impl Drop for Progress {
    /// Takes the line away.
    fn drop(&mut self) {
        if self.shown.is_some() {
            let _ = write!(stderr(), "\r\x1b[K");
        }
    }
}
