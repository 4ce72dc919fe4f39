//! A clock on a terminal while one long call is at work.

use std::io::{self, Write};
use std::sync::atomic::{AtomicU64, Ordering};
use std::sync::mpsc::{self, Receiver, RecvTimeoutError};
use std::sync::Mutex;
use std::thread;
use std::time::{Duration, Instant};

/// What the work says of itself meanwhile.
#[derive(Default)]
pub struct Told {
    /// How many seconds it is expected to take; 0 where that is not known.
    expected: AtomicU64,
    /// How far it has come, in words.
    far: Mutex<String>,
}

impl Told {
    pub fn expect(&self, time: Duration) {
        self.expected.store(time.as_secs() + 1, Ordering::Relaxed);
    }

    pub fn come(&self, far: String) {
        if let Ok(mut told) = self.far.lock() {
            *told = far;
        }
    }

    fn line(&self, doing: &str, seconds: u64) -> String {
        let of = match self.expected.load(Ordering::Relaxed) {
            0 => String::new(),
            expected => format!(" of about {expected}"),
        };
        let far = self.far.lock().map_or(String::new(), |far| far.clone());
        let colon = if far.is_empty() { "" } else { ": " };
        format!("{doing} for {seconds}{of} s{colon}{far}")
    }
}

/// Does the work while a second thread shows on the terminal how long it takes, and what the work has said.
pub fn with_clock<R>(doing: &str, work: impl FnOnce(&Told) -> R) -> R {
    let (done, ended) = mpsc::channel();
    let told = Told::default();
    thread::scope(|scope| {
        // Where no thread is to be had, the work goes on without a clock.
        let _ = thread::Builder::new().spawn_scoped(scope, || clock(doing, ended, &told));
        let result = work(&told);
        drop(done);
        result
    })
}

fn clock(doing: &str, ended: Receiver<()>, told: &Told) {
    let start = Instant::now();
    let mut err = io::stderr();
    let mut shown = false;
    while ended.recv_timeout(Duration::from_millis(200)) == Err(RecvTimeoutError::Timeout) {
        let line = told.line(doing, start.elapsed().as_secs());
        shown |= write!(err, "\r\x1b[K{line}").is_ok();
    }
    if shown {
        let _ = write!(err, "\r\x1b[K");
    }
}

#[cfg(test)]
mod tests {
    use super::Told;
    use std::time::Duration;

    #[test]
    fn what_is_shown() {
        let told = Told::default();
        assert_eq!(told.line("copying", 2), "copying for 2 s");
        told.come("5 visits".to_owned());
        assert_eq!(told.line("copying", 3), "copying for 3 s: 5 visits");
        told.expect(Duration::from_millis(6_500));
        assert_eq!(
            told.line("copying", 4),
            "copying for 4 of about 7 s: 5 visits"
        );
    }
}
