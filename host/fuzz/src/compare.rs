//! Asking the archive under test and the second program alike, and comparing.

use second::crc32::crc32;
use second::ledger::Prediction;
use second::{Refusal, Session};

use crate::archive::{Archive, Buffers};
use crate::known::{self, Left};

/// The longest reply buffer that is lent.
pub const LONGEST_REPLY: usize = 65_600;

/// One request of so many, by its bytes, is asked by what is known besides.
const KNOWN_EVERY: u32 = 3;

/// The steps of a case, written down only if wanted.
pub struct Trace {
    pub on: bool,
    pub steps: Vec<String>,
}

impl Trace {
    pub fn note(&mut self, step: impl FnOnce() -> String) {
        if self.on {
            let step = step();
            self.steps.push(step);
        }
    }
}

/// What is asked in one request, besides the log and its waiting part.
#[derive(Clone, Copy)]
pub struct Asked<'a> {
    pub session: Session,
    pub message: &'a [u8],
    pub date: &'a [u8],
    /// What is lent as an index to an archive that takes one.
    pub index: &'a [u8],
    pub reply_len: usize,
}

/// A log and its waiting part.
#[derive(Clone, Debug, PartialEq, Eq)]
pub struct Parts {
    pub log: Vec<u8>,
    pub waiting: Vec<u8>,
}

/// Reply buffers that go on from case to case. Each lent one holds the pattern beforehand; only
/// what a reply has overwritten is restored.
pub struct Compare {
    pattern: Vec<u8>,
    tested: Vec<u8>,
    second: Vec<u8>,
    /// The index that the last request left.
    pub index: Vec<u8>,
    /// How often each number was the answer, to requests and to other calls.
    pub requests: [u64; 27],
    pub calls: [u64; 27],
}

impl Compare {
    pub fn new() -> Compare {
        let mut pattern = crate::random::Random::new(&[0]).bytes(LONGEST_REPLY);
        // No reply starts with this byte: it would be longer than any.
        pattern[0] = 0xff;
        Compare {
            tested: pattern.clone(),
            second: pattern.clone(),
            pattern,
            index: Vec::new(),
            requests: [0; 27],
            calls: [0; 27],
        }
    }

    /// One request. `lent` are the parts of the archive under test and those of the second program.
    pub fn request(
        &mut self,
        archive: &mut dyn Archive,
        asked: Asked,
        lent: (&mut Parts, &mut Parts),
        expected: Option<&Prediction>,
    ) -> Result<Session, String> {
        let Asked {
            session,
            message,
            date,
            index,
            reply_len,
        } = asked;
        let (tested, right) = lent;
        let by_known = archive.takes_known() && crc32(message).is_multiple_of(KNOWN_EVERY);
        let before = by_known.then(|| tested.clone());
        let indexed = archive.takes_index();
        self.index = if indexed { index.to_vec() } else { Vec::new() };
        let mut index = self.index.clone();
        let reply = &mut self.tested[..reply_len];
        let (log, waiting) = (&mut tested.log[..], &mut tested.waiting[..]);
        let (number, after) = match indexed {
            false => archive.serve(session, message, date, log, waiting, reply),
            true => {
                let index = &mut index[..];
                let lent = Buffers {
                    log,
                    waiting,
                    index,
                };
                archive.serve_by(session, message, date, lent, reply)
            }
        };
        let second = second::request::serve_by(
            session,
            message,
            Some(date),
            &mut right.log,
            Some(&mut right.waiting),
            &mut self.index,
            &mut self.second[..reply_len],
        );
        self.requests[usize::from(second.0)] += 1;

        let written = self.written();
        let same_reply = self.tested[..written] == self.second[..written]
            && self.tested[written..] == self.pattern[written..];
        let result = if (number, after) != second {
            Err(format!(
                "number and session are {number}, {after:?}, the second program's {}, {:?}",
                second.0, second.1
            ))
        } else if !same_reply {
            let at = (0..LONGEST_REPLY)
                .find(|&at| self.tested[at] != self.second[at])
                .unwrap_or(0);
            Err(format!(
                "the reply buffer differs from the second program's, first at byte {at}; number {number}"
            ))
        } else if tested.log != right.log {
            Err(difference("the log", &tested.log, &right.log))
        } else if tested.waiting != right.waiting {
            let (tested, right) = (&tested.waiting, &right.waiting);
            Err(difference("the waiting part", tested, right))
        } else if index != self.index {
            Err(difference("the index", &index, &self.index))
        } else {
            match expected {
                Some(expected) => against_ledger(expected, second, &self.second[..written]),
                None => Ok(after),
            }
        };
        let reply = by_known.then(|| self.second[..reply_len].to_vec());
        if result.is_err() {
            self.restore();
        } else {
            self.tested[..written].copy_from_slice(&self.pattern[..written]);
            self.second[..written].copy_from_slice(&self.pattern[..written]);
        }
        let (Ok(_), Some(before), Some(reply)) = (&result, before, reply) else {
            return result;
        };
        let left = Left {
            answer: second,
            reply,
            parts: right,
            index: &self.index,
        };
        let buffer = self.pattern[..reply_len].to_vec();
        known::check(archive, asked, before, buffer, &left)?;
        result
    }

    /// A request of the earlier program, with no waiting part or no date: the second program against
    /// the ledger alone.
    pub fn earlier_request(
        &mut self,
        session: Session,
        message: &[u8],
        date: Option<&[u8]>,
        reply_len: usize,
        (log, waiting): (&mut [u8], Option<&mut [u8]>),
        expected: &Prediction,
    ) -> Result<Session, String> {
        let reply = &mut self.second[..reply_len];
        let second = second::request::serve(session, message, date, log, waiting, reply);
        self.requests[usize::from(second.0)] += 1;
        let written = self.written();
        let result = against_ledger(expected, second, &self.second[..written]);
        self.second[..written].copy_from_slice(&self.pattern[..written]);
        result
    }

    /// How many bytes of reply the second program wrote.
    fn written(&self) -> usize {
        match self.second[0] {
            0xff => 0,
            _ => second::message::number(&self.second[..2]) + 2,
        }
    }

    /// Puts the pattern back.
    pub fn restore(&mut self) {
        self.tested.copy_from_slice(&self.pattern);
        self.second.copy_from_slice(&self.pattern);
    }

    /// Two answers to another call, the number of the right one being told for counting.
    pub fn call<T: PartialEq + std::fmt::Debug>(
        &mut self,
        name: &str,
        number: u8,
        tested: T,
        second: T,
    ) -> Result<(), String> {
        self.calls[usize::from(number)] += 1;
        if tested == second {
            Ok(())
        } else {
            Err(format!(
                "{name} gives {tested:?}, the second program {second:?}"
            ))
        }
    }
}

/// A lent buffer after a call.
pub fn buffer(what: &str, tested: &[u8], right: &[u8]) -> Result<(), String> {
    if tested == right {
        Ok(())
    } else {
        Err(difference(what, tested, right))
    }
}

fn against_ledger(
    expected: &Prediction,
    second: (u8, Session),
    reply: &[u8],
) -> Result<Session, String> {
    if (expected.number, expected.session) != second {
        return Err(format!(
            "number and session are {}, {:?}, the ledger's {}, {:?}",
            second.0, second.1, expected.number, expected.session
        ));
    }
    if expected.reply != reply {
        return Err("the reply buffer differs from the ledger's".to_string());
    }
    Ok(second.1)
}

/// Says where two runs of bytes differ.
pub fn difference(what: &str, tested: &[u8], right: &[u8]) -> String {
    match tested.iter().zip(right).position(|(a, b)| a != b) {
        Some(at) => format!(
            "{what} differs, first at byte {at} (sector {}, byte {} of it)",
            at / 512,
            at % 512
        ),
        None => format!("{what} differs"),
    }
}

/// The number of an answer that is a value or a refusal.
pub fn number<T>(answer: &Result<T, impl Copy + Into<Refusal>>) -> u8 {
    match answer {
        Ok(_) => 0,
        Err(refused) => (*refused).into().number,
    }
}

/// The front of some bytes in hex.
pub fn hex(bytes: &[u8]) -> String {
    let mut text: String = bytes
        .iter()
        .take(48)
        .map(|byte| format!("{byte:02x}"))
        .collect();
    if bytes.len() > 48 {
        text.push_str("..");
    }
    text
}
