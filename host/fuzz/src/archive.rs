//! What an archive under test has to offer.

use second::changes::{Compared, Part};
use second::known::{Known, KNOWN};
use second::known_request::{self, Parts};
use second::query::Value;
use second::tree::Run;
use second::{Refusal, Score, Session};

use crate::changes::bytes_of;
use crate::shams::Broken;

/// What a request is lent besides the reply buffer.
pub struct Buffers<'a> {
    pub log: &'a mut [u8],
    pub waiting: &'a mut [u8],
    pub index: &'a mut [u8],
}

/// The archive's calls. Numbers are the description's refusals, 0 for none; what looks up a block
/// tells of the first doubtful sector besides, `serve` in its reply.
pub trait Archive {
    /// One request: the number and the session afterwards.
    fn serve(
        &mut self,
        session: Session,
        message: &[u8],
        date: &[u8],
        log: &mut [u8],
        waiting: &mut [u8],
        reply: &mut [u8],
    ) -> (u8, Session);

    /// Whether its requests are tried with an index. Without one it is asked by `serve` alone.
    fn takes_index(&self) -> bool {
        false
    }

    /// One request that is lent an index: the number and the session afterwards.
    fn serve_by(
        &mut self,
        session: Session,
        message: &[u8],
        date: &[u8],
        lent: Buffers,
        reply: &mut [u8],
    ) -> (u8, Session) {
        let Buffers {
            log,
            waiting,
            index,
        } = lent;
        let (date, waiting) = (Some(date), Some(waiting));
        second::request::serve_by(session, message, date, log, waiting, index, reply)
    }

    /// Whether its requests are tried by what is known, too.
    fn takes_known(&self) -> bool {
        false
    }

    /// What is known of a log, its waiting part and an index, learned from their bytes.
    fn learn(&mut self, log: &[u8], waiting: &[u8], index: &[u8]) -> [u8; KNOWN] {
        second::known::learn(log, waiting, index).bytes()
    }

    /// One request by what is said to be known, and what is known then.
    fn serve_known(
        &mut self,
        known: &mut [u8; KNOWN],
        session: Session,
        message: &[u8],
        date: &[u8],
        lent: Buffers,
        reply: &mut [u8],
    ) -> (u8, Session) {
        let Buffers {
            log,
            waiting,
            index,
        } = lent;
        let mut now = Known::of(known);
        let parts = Parts {
            log,
            waiting,
            index,
        };
        let answer = known_request::serve(&mut now, session, message, date, parts, reply);
        *known = now.bytes();
        answer
    }

    /// Where the block of a score and type starts, by an index: none for the empty block.
    fn look_up_by(
        &mut self,
        log: &[u8],
        waiting: &[u8],
        index: &[u8],
        kind: u8,
        score: &Score,
    ) -> Result<Option<usize>, Refusal> {
        second::index::asked(log, waiting, index, kind, score)
    }

    /// Makes an index anew; gives the number.
    fn rebuild(&mut self, log: &[u8], index: &mut [u8]) -> u8 {
        second::index::rebuild(log, index)
    }

    /// Writes a slice as a file: its entry, or the number.
    fn write_file(
        &mut self,
        log: &mut [u8],
        waiting: &mut [u8],
        date: &[u8],
        slice: &[u8],
        (dsize, psize): (usize, usize),
    ) -> Result<[u8; 40], u8> {
        second::writer::write_file(log, waiting, date, slice, dsize, psize)
    }

    /// Copies what a root reaches to a second log: how it ended, and the visits spent.
    fn copy(
        &mut self,
        parts: (&[u8], &[u8]),
        second: &mut [u8],
        date: &[u8],
        score: &Score,
        allowance: u64,
    ) -> (Result<(), Refusal>, u64) {
        second::copy::copy(parts.0, parts.1, second, date, score, allowance)
    }

    /// The report's length, or the number.
    fn report(&mut self, log: &[u8], buffer: &mut [u8]) -> Result<usize, u8>;

    /// The length of a block cut by its zeros, or the number.
    fn cut(&mut self, kind: u8, block: &[u8]) -> Result<usize, u8>;

    /// Pads the block at the buffer's front; gives the number.
    fn pad(&mut self, kind: u8, buffer: &mut [u8], block_len: usize, target: usize) -> u8;

    /// Where a file's bytes at an offset are, or why not.
    fn locate(
        &mut self,
        log: &[u8],
        waiting: &[u8],
        page: &[u8],
        entry: &[u8],
        offset: u64,
    ) -> Result<Run, Refusal>;

    /// Fills a buffer with a file's bytes from an offset on: the number, and the bytes written.
    fn fill(
        &mut self,
        log: &[u8],
        waiting: &[u8],
        entry: &[u8],
        offset: u64,
        buffer: &mut [u8],
    ) -> (Result<(), Refusal>, usize);

    /// How it ended, and the visits spent.
    fn walk(
        &mut self,
        log: &[u8],
        waiting: &[u8],
        score: &Score,
        allowance: u64,
    ) -> (Result<(), Refusal>, u64);

    /// The first difference of two directory blocks, a part of one of them and its bytes, or the number.
    fn difference<'a>(
        &mut self,
        first: &'a [u8],
        second: &'a [u8],
    ) -> Result<Option<(Part, &'a [u8])>, u8>;

    /// Counts the differences between two directory entries.
    fn differences(
        &mut self,
        log: &[u8],
        waiting: &[u8],
        first: &[u8],
        second: &[u8],
        allowance: u64,
    ) -> Compared;

    /// What the card of an entry answers to a query, or why not.
    fn search(
        &mut self,
        log: &[u8],
        waiting: &[u8],
        page: &[u8],
        entry: &[u8],
        query: &[u8],
    ) -> Result<Value, Refusal>;

    /// Whether bytes are a well-formed card.
    fn is_card(&mut self, bytes: &[u8]) -> bool;

    /// The wire type of a number of the enumeration, or the number 9.
    fn wire_type(&mut self, number: u64) -> Result<u8, u8>;

    /// The size of the sound block that starts at a sector, 0 for none, or the number.
    fn sound_at(&mut self, log: &[u8], sector: usize) -> Result<usize, u8>;

    fn sha1(&mut self, bytes: &[u8]) -> Score;

    fn crc32(&mut self, bytes: &[u8]) -> u32;

    /// The rule that is broken, if one is: the ledger's rules are broken for it.
    fn broken(&self) -> Option<Broken> {
        None
    }
}

/// The second program as an archive under test.
pub struct Second;

impl Archive for Second {
    fn serve(
        &mut self,
        session: Session,
        message: &[u8],
        date: &[u8],
        log: &mut [u8],
        waiting: &mut [u8],
        reply: &mut [u8],
    ) -> (u8, Session) {
        second::request::serve(session, message, Some(date), log, Some(waiting), reply)
    }

    fn report(&mut self, log: &[u8], buffer: &mut [u8]) -> Result<usize, u8> {
        second::report::report(log, buffer)
    }

    fn cut(&mut self, kind: u8, block: &[u8]) -> Result<usize, u8> {
        second::zeros::cut(kind, block)
    }

    fn pad(&mut self, kind: u8, buffer: &mut [u8], block_len: usize, target: usize) -> u8 {
        second::zeros::pad(kind, buffer, block_len, target)
    }

    fn locate(
        &mut self,
        log: &[u8],
        waiting: &[u8],
        page: &[u8],
        entry: &[u8],
        offset: u64,
    ) -> Result<Run, Refusal> {
        second::tree::locate(log, waiting, page, entry, offset)
    }

    fn fill(
        &mut self,
        log: &[u8],
        waiting: &[u8],
        entry: &[u8],
        offset: u64,
        buffer: &mut [u8],
    ) -> (Result<(), Refusal>, usize) {
        second::tree::fill(log, waiting, entry, offset, buffer)
    }

    fn walk(
        &mut self,
        log: &[u8],
        waiting: &[u8],
        score: &Score,
        allowance: u64,
    ) -> (Result<(), Refusal>, u64) {
        second::walk::walk(log, waiting, score, allowance)
    }

    fn difference<'a>(
        &mut self,
        first: &'a [u8],
        second: &'a [u8],
    ) -> Result<Option<(Part, &'a [u8])>, u8> {
        let found = second::changes::difference(first, second)?;
        Ok(found.map(|part| (part, bytes_of(first, second, part))))
    }

    fn differences(
        &mut self,
        log: &[u8],
        waiting: &[u8],
        first: &[u8],
        second: &[u8],
        allowance: u64,
    ) -> Compared {
        second::changes::differences(log, waiting, first, second, allowance)
    }

    fn search(
        &mut self,
        log: &[u8],
        waiting: &[u8],
        page: &[u8],
        entry: &[u8],
        query: &[u8],
    ) -> Result<Value, Refusal> {
        second::search::search(log, waiting, page, entry, query)
    }

    fn is_card(&mut self, bytes: &[u8]) -> bool {
        second::card::lines(bytes).is_ok()
    }

    fn wire_type(&mut self, number: u64) -> Result<u8, u8> {
        second::kind::wire_type(number)
    }

    fn sound_at(&mut self, log: &[u8], sector: usize) -> Result<usize, u8> {
        second::log::asked_at(log, sector)
    }

    fn sha1(&mut self, bytes: &[u8]) -> Score {
        second::sha1::sha1(bytes)
    }

    fn crc32(&mut self, bytes: &[u8]) -> u32 {
        second::crc32::crc32(bytes)
    }
}
