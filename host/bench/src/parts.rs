//! What is lent to both programs, and the messages.

use boundary::{serve, serve_known, Known, Refusal, Session};
use plain::log as ordinary;
use std::time::Instant;

pub const BLOCK: usize = 8192;
/// The sectors of a block.
pub const PARTS: usize = BLOCK.div_ceil(389);
/// The sectors of the waiting part.
const WAITING: usize = 256;
pub const DATA: u8 = 13;
/// The date of each block.
pub const DATE: [u8; 8] = *b"20261116";

/// A sync.
pub const SYNC: [u8; 4] = [0, 2, 16, 1];

/// A log with its waiting part and index, and where answers go.
pub struct Parts {
    pub log: Vec<u8>,
    pub waiting: Vec<u8>,
    pub index: Vec<u8>,
    /// What is known of all three, where requests go by that.
    pub known: Option<Known>,
    reply: Vec<u8>,
}

impl Parts {
    /// All blank: a log of so many sectors, an index of so many bytes.
    pub fn new(sectors: usize, index: usize) -> Parts {
        // written once: pages that were only read would all be one page of zeros
        let mut log = vec![1; sectors * 512];
        log.fill(0);
        Parts {
            log,
            waiting: vec![0; WAITING * 512],
            index: vec![0; index],
            known: None,
            reply: vec![0; 57_348],
        }
    }

    /// The proved archive's answer.
    pub fn ask(&mut self, message: &[u8]) -> Result<(), Refusal> {
        let (log, waiting) = (&mut self.log, &mut self.waiting);
        let (index, reply) = (&mut self.index, &mut self.reply);
        let session = Session::Greeted;
        let served = match &mut self.known {
            Some(known) => serve_known(known, session, message, &DATE, log, waiting, index, reply),
            None => serve(session, message, &DATE, log, waiting, index, reply),
        };
        served.outcome
    }

    /// Learns what is known.
    pub fn learn(&mut self) {
        self.known = Some(Known::learn(&self.log, &self.waiting, &self.index));
    }

    /// A read by the ordinary log.
    pub fn ordinary_read(&mut self, score: &[u8; 20]) -> Result<usize, ordinary::Refused> {
        let (log, waiting, index) = (&self.log, &self.waiting, &self.index);
        ordinary::read(log, waiting, index, DATA, score, &mut self.reply)
    }

    /// Moves the sectors from a border on from the log to the waiting part.
    pub fn unsettle(&mut self, border: usize) {
        let last = self.log.split_off(border * 512);
        self.waiting[..last.len()].copy_from_slice(&last);
    }
}

pub fn write_message(data: &[u8]) -> Vec<u8> {
    let size = (data.len() + 6) as u16;
    [&size.to_be_bytes()[..], &[14, 1, DATA, 0, 0, 0], data].concat()
}

pub fn read_message(score: &[u8; 20]) -> Vec<u8> {
    let count = (BLOCK as u16).to_be_bytes();
    [&[0, 26, 12, 1][..], score, &[DATA, 0], &count].concat()
}

pub fn time(work: impl FnOnce()) -> f64 {
    let start = Instant::now();
    work();
    start.elapsed().as_secs_f64()
}
