//! A line on a terminal that says how far long work has come.

use std::time::{Duration, Instant};

use crate::streams::Streams;

const EVERY: Duration = Duration::from_millis(100);

pub struct Progress {
    next: Instant,
}

impl Progress {
    pub fn start() -> Progress {
        Progress {
            next: Instant::now() + EVERY,
        }
    }

    /// Shows the line, at most ten times a second, only to a person, and never amid an answer.
    pub fn show(&mut self, streams: &mut Streams, line: impl FnOnce() -> String) {
        if !streams.out_terminal {
            self.show_before(streams, line);
        }
    }

    /// The same before any answer, which may go to the same terminal.
    pub fn show_before(&mut self, streams: &mut Streams, line: impl FnOnce() -> String) {
        if streams.err_terminal && Instant::now() >= self.next {
            streams.show_progress(&line());
            self.next = Instant::now() + EVERY;
        }
    }
}
