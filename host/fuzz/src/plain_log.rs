//! The ordinary Rust log of the speed comparison as an archive under test: its reads, writes and syncs
//! are tried, all else is the second program's.

use plain::index::rebuild;
use plain::log::{read, settle, store, Refused, Stored};
use second::changes::{Compared, Part};
use second::message::{accept, read_reply, refusal, sync_reply, write_reply, Lent, Request};
use second::query::Value;
use second::tree::Run;
use second::{Edition, Refusal, Score, Session};

use crate::archive::{Archive, Buffers, Second};

pub struct PlainLog;

impl Archive for PlainLog {
    fn takes_index(&self) -> bool {
        true
    }

    fn serve(
        &mut self,
        session: Session,
        message: &[u8],
        date: &[u8],
        log: &mut [u8],
        waiting: &mut [u8],
        reply: &mut [u8],
    ) -> (u8, Session) {
        let index = &mut [];
        let lent = Buffers {
            log,
            waiting,
            index,
        };
        self.serve_by(session, message, date, lent, reply)
    }

    fn rebuild(&mut self, log: &[u8], index: &mut [u8]) -> u8 {
        match rebuild(log, index) {
            Err(Refused::Number(number)) => number,
            _ => 0,
        }
    }

    fn serve_by(
        &mut self,
        session: Session,
        message: &[u8],
        date: &[u8],
        lent: Buffers,
        reply: &mut [u8],
    ) -> (u8, Session) {
        let Buffers {
            log,
            waiting,
            index,
        } = lent;
        let lent = Lent {
            log: log.len(),
            waiting: Some(waiting.len()),
        };
        let answer = match accept(session, message, Some(date), reply.len(), lent) {
            Ok(Request::Read { kind, score, count }) => {
                let mut data = vec![0; count];
                match read(log, waiting, index, kind, &score, &mut data) {
                    Ok(size) => Ok(read_reply(message[3], &data[..size])),
                    Err(Refused::Number(number)) => Err(Refusal::from(number)),
                    Err(Refused::NotKnown(sector)) => Err(Refusal::not_known(sector)),
                }
            }
            Ok(Request::Write {
                edition: Edition::Second(date),
                kind,
                data,
            }) => match store(log, waiting, index, date, kind, data) {
                Stored::New(score) | Stored::Held(score) => Ok(write_reply(message[3], &score)),
                Stored::Refused(number) => Err(Refusal::from(number)),
            },
            Ok(Request::Sync) => match settle(log, waiting) {
                Ok(()) => Ok(sync_reply(message[3])),
                Err(Refused::Number(number)) => Err(Refusal::from(number)),
                Err(Refused::NotKnown(sector)) => Err(Refusal::not_known(sector)),
            },
            _ => return Second.serve(session, message, date, log, waiting, reply),
        };
        let (number, text) = match answer {
            Ok(text) => (0, text),
            Err(refused) => (refused.number, refusal(&refused, message[3])),
        };
        reply[..text.len()].copy_from_slice(&text);
        (number, session)
    }

    fn report(&mut self, log: &[u8], buffer: &mut [u8]) -> Result<usize, u8> {
        Second.report(log, buffer)
    }

    fn cut(&mut self, kind: u8, block: &[u8]) -> Result<usize, u8> {
        Second.cut(kind, block)
    }

    fn pad(&mut self, kind: u8, buffer: &mut [u8], block_len: usize, target: usize) -> u8 {
        Second.pad(kind, buffer, block_len, target)
    }

    fn locate(
        &mut self,
        log: &[u8],
        waiting: &[u8],
        page: &[u8],
        entry: &[u8],
        offset: u64,
    ) -> Result<Run, Refusal> {
        Second.locate(log, waiting, page, entry, offset)
    }

    fn fill(
        &mut self,
        log: &[u8],
        waiting: &[u8],
        entry: &[u8],
        offset: u64,
        buffer: &mut [u8],
    ) -> (Result<(), Refusal>, usize) {
        Second.fill(log, waiting, entry, offset, buffer)
    }

    fn walk(
        &mut self,
        log: &[u8],
        waiting: &[u8],
        score: &Score,
        allowance: u64,
    ) -> (Result<(), Refusal>, u64) {
        Second.walk(log, waiting, score, allowance)
    }

    fn difference<'a>(
        &mut self,
        first: &'a [u8],
        second: &'a [u8],
    ) -> Result<Option<(Part, &'a [u8])>, u8> {
        Second.difference(first, second)
    }

    fn differences(
        &mut self,
        log: &[u8],
        waiting: &[u8],
        first: &[u8],
        second: &[u8],
        allowance: u64,
    ) -> Compared {
        Second.differences(log, waiting, first, second, allowance)
    }

    fn search(
        &mut self,
        log: &[u8],
        waiting: &[u8],
        page: &[u8],
        entry: &[u8],
        query: &[u8],
    ) -> Result<Value, Refusal> {
        Second.search(log, waiting, page, entry, query)
    }

    fn is_card(&mut self, bytes: &[u8]) -> bool {
        Second.is_card(bytes)
    }

    fn wire_type(&mut self, number: u64) -> Result<u8, u8> {
        Second.wire_type(number)
    }

    fn sound_at(&mut self, log: &[u8], sector: usize) -> Result<usize, u8> {
        Second.sound_at(log, sector)
    }

    fn sha1(&mut self, bytes: &[u8]) -> Score {
        plain::sha1::sha1(bytes)
    }

    fn crc32(&mut self, bytes: &[u8]) -> u32 {
        plain::crc32::crc32(bytes)
    }
}
