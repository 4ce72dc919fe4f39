//! Exit statuses, and a failure: a status with its words.

use std::ffi::OsStr;
use std::io;
use std::path::Path;

use boundary::Refusal;

use crate::words;

pub const DONE: u8 = 0;
/// What `diff` ends with where files differ, as diff(1) does. No refusal of its is 1: that is of messages.
pub const DIFFERENT: u8 = 1;
/// What the demonstration ends with where a claim of its does not hold.
pub const CLAIM_FAILED: u8 = 1;
pub const VERDICT_NOT_KNOWN: u8 = 32;
/// Some of what was asked for could not be read.
pub const PARTLY: u8 = 33;
pub const USAGE: u8 = 64;
pub const UNFIT: u8 = 65;
pub const MISSING: u8 = 66;
pub const EXISTS: u8 = 73;
pub const INPUT_OUTPUT: u8 = 74;
pub const BUSY: u8 = 75;
pub const PROTOCOL: u8 = 76;

/// All statuses, as the help prints them.
pub const TABLE: [(&str, &str); 14] = [
    ("0", "done"),
    (
        "1",
        "diff: files differ (0: none does), as diff(1) has it; diff itself is never refused with 1",
    ),
    (
        "1 to 26",
        "refused; the status is the refusal's number (11 not held, 12 not known)",
    ),
    (
        "32",
        "report, list, copy --all: part of the log is doubtful, the verdict is notknown",
    ),
    (
        "33",
        "search, restore, diff: some cards, files or names could not be read or compared; it is told which",
    ),
    ("64", "the words given make no command"),
    (
        "65",
        "the log does not fit its mark, the mark is damaged, or the log has a second name",
    ),
    ("66", "no such file, or the log has no mark (see --adopt)"),
    ("69", "./skywimple: the program could not be built"),
    (
        "73",
        "init, index, restore, --svg or --html would overwrite a file, or the log",
    ),
    ("74", "reading or writing failed"),
    ("75", "another writer holds the log"),
    (
        "76",
        "serve --handshake: the client's opening line is late, too long or no such line",
    ),
    (
        "128 + n",
        "interrupted by signal n (130: Ctrl-C): init leaves nothing, restore whole files, serve what it answered for",
    ),
];

/// Why a command ends, and with which status. Without words it ends silently.
#[derive(Debug)]
pub struct Failure {
    pub status: u8,
    pub words: String,
}

impl Failure {
    pub fn new(status: u8, words: impl Into<String>) -> Failure {
        Failure {
            status,
            words: words.into(),
        }
    }

    pub fn usage(words: impl Into<String>) -> Failure {
        Failure::new(USAGE, words)
    }

    /// A refusal, by its number and in words.
    pub fn refused(refusal: Refusal) -> Failure {
        Failure::new(refusal.number(), words::refusal(refusal))
    }

    /// A refusal of something that has a name.
    pub fn refused_about(refusal: Refusal, subject: &OsStr) -> Failure {
        let words = format!("{}: {}", subject.display(), words::refusal(refusal));
        Failure::new(refusal.number(), words)
    }

    /// A file that cannot be opened: perhaps there is none.
    pub fn open(path: &Path, error: &io::Error) -> Failure {
        let failure = Failure::disk("open", path, error);
        match error.kind() {
            io::ErrorKind::NotFound => Failure::new(MISSING, failure.words),
            _ => failure,
        }
    }

    /// Reading, writing or syncing that failed.
    pub fn disk(doing: &str, path: &Path, error: &io::Error) -> Failure {
        let words = format!("cannot {doing} {}: {error}", path.display());
        Failure::new(INPUT_OUTPUT, words)
    }

    /// The same failure, and what is to be done besides.
    pub fn and(self, advice: &str) -> Failure {
        let words = self.words.trim_end_matches('.');
        Failure::new(self.status, format!("{words}. {advice}"))
    }

    /// Standard output failed. A reader that went away is no news.
    pub fn output(error: io::Error) -> Failure {
        let words = match error.kind() {
            io::ErrorKind::BrokenPipe => String::new(),
            _ => format!("cannot write standard output: {error}"),
        };
        Failure::new(INPUT_OUTPUT, words)
    }
}
