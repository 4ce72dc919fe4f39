//! Ctrl-C, and the other ways to be asked to end, while something is half made or waits.

use std::fs::File;
use std::os::fd::AsRawFd;
use std::os::raw::c_int;
use std::sync::atomic::{AtomicI32, Ordering};

use crate::status::Failure;

/// Hang-up, Ctrl-C and `kill`, by their numbers.
const SIGNALS: [c_int; 3] = [1, 2, 15];
const DEFAULT: usize = 0;
const IGNORED: usize = 1;

extern "C" {
    fn signal(number: c_int, handler: usize) -> usize;
    fn dup2(from: c_int, to: c_int) -> c_int;
}

/// The number of the signal that came last, 0 for none.
static CAME: AtomicI32 = AtomicI32::new(0);

extern "C" fn note(number: c_int) {
    CAME.store(number, Ordering::Relaxed);
}

/// Whether a signal came since they were last held.
pub fn came() -> bool {
    CAME.load(Ordering::Relaxed) != 0
}

/// A file that is at its end.
static NOTHING: AtomicI32 = AtomicI32::new(-1);

/// Notes the signal and has standard input at its end, also where it is being waited for. The same
/// signal once more ends the program.
extern "C" fn end_input(number: c_int) {
    note(number);
    // SAFETY: a handler may call both, and the descriptors are open.
    unsafe { dup2(NOTHING.load(Ordering::Relaxed), 0) };
    set(number, DEFAULT);
}

/// While it lives, such a signal is noted and does not end the program.
pub struct Held {
    before: [usize; 3],
    /// What the input becomes.
    _nothing: Option<File>,
}

impl Held {
    pub fn start() -> Held {
        Held::with(note, None)
    }

    /// The same, and the signal ends standard input. None where that cannot be.
    pub fn ending_input() -> Option<Held> {
        let nothing = File::open("/dev/null").ok()?;
        NOTHING.store(nothing.as_raw_fd(), Ordering::Relaxed);
        Some(Held::with(end_input, Some(nothing)))
    }

    fn with(handler: extern "C" fn(c_int), nothing: Option<File>) -> Held {
        CAME.store(0, Ordering::Relaxed);
        let before = SIGNALS.map(|number| set(number, handler as usize));
        for (number, before) in SIGNALS.into_iter().zip(before) {
            if before == IGNORED {
                set(number, IGNORED);
            }
        }
        Held {
            before,
            _nothing: nothing,
        }
    }

    /// Fails with these words where a signal came.
    pub fn check(&self, words: &str) -> Result<(), Failure> {
        match CAME.load(Ordering::Relaxed) {
            0 => Ok(()),
            number => Err(Failure::new(128 + number as u8, words)),
        }
    }
}

impl Drop for Held {
    fn drop(&mut self) {
        for (number, before) in SIGNALS.into_iter().zip(self.before) {
            set(number, before);
        }
    }
}

fn set(number: c_int, handler: usize) -> usize {
    // SAFETY: the handler is one of the two above, which do only what a handler may, or what the
    // system gave before or has names for.
    unsafe { signal(number, handler) }
}
