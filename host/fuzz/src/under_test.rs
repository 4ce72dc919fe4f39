//! The archive under test: the proved library, by the crate `boundary`.

use crate::archive::{Archive, Buffers};
use boundary as proved;
use second::changes::{Compared, Part, Side};
use second::known::KNOWN;
use second::query::Value;
use second::tree::{Place, Run};
use second::{Refusal, Score, Session};

pub fn archive() -> Box<dyn Archive> {
    Box::new(Proved {
        scores: vec![0; proved::FILE_SCORES],
    })
}

struct Proved {
    /// What the writer of files is lent for scores.
    scores: Vec<u8>,
}

/// The number of a refusal, 0 for none.
fn number(outcome: Result<(), proved::Refusal>) -> u8 {
    outcome.map_or_else(proved::Refusal::number, |()| 0)
}

fn session_of(session: Session) -> proved::Session {
    match session {
        Session::Fresh => proved::Session::Fresh,
        Session::Ready => proved::Session::Greeted,
        Session::Closed => proved::Session::Closed,
    }
}

/// The number and the session afterwards.
fn answer(served: proved::Served) -> (u8, Session) {
    let after = match served.session {
        proved::Session::Fresh => Session::Fresh,
        proved::Session::Greeted => Session::Ready,
        proved::Session::Closed => Session::Closed,
    };
    (number(served.outcome), after)
}

/// A refusal with its sector.
fn refused(refusal: proved::Refusal) -> Refusal {
    Refusal {
        number: refusal.number(),
        at: refusal.first_doubtful(),
    }
}

impl Archive for Proved {
    fn serve(
        &mut self,
        session: Session,
        message: &[u8],
        date: &[u8],
        log: &mut [u8],
        waiting: &mut [u8],
        reply: &mut [u8],
    ) -> (u8, Session) {
        let index = &mut [];
        let lent = Buffers {
            log,
            waiting,
            index,
        };
        self.serve_by(session, message, date, lent, reply)
    }

    fn takes_index(&self) -> bool {
        true
    }

    fn look_up_by(
        &mut self,
        log: &[u8],
        waiting: &[u8],
        index: &[u8],
        kind: u8,
        score: &Score,
    ) -> Result<Option<usize>, Refusal> {
        let place = proved::look_up_by(log, waiting, index, kind, score).map_err(refused)?;
        Ok((place.size > 0).then_some(place.sector))
    }

    fn rebuild(&mut self, log: &[u8], index: &mut [u8]) -> u8 {
        number(proved::rebuild(log, index))
    }

    fn serve_by(
        &mut self,
        session: Session,
        message: &[u8],
        date: &[u8],
        lent: Buffers,
        reply: &mut [u8],
    ) -> (u8, Session) {
        let Buffers {
            log,
            waiting,
            index,
        } = lent;
        let session = session_of(session);
        answer(proved::serve(
            session, message, date, log, waiting, index, reply,
        ))
    }

    fn takes_known(&self) -> bool {
        true
    }

    fn learn(&mut self, log: &[u8], waiting: &[u8], index: &[u8]) -> [u8; KNOWN] {
        *proved::Known::learn(log, waiting, index).bytes()
    }

    fn serve_known(
        &mut self,
        known: &mut [u8; KNOWN],
        session: Session,
        message: &[u8],
        date: &[u8],
        lent: Buffers,
        reply: &mut [u8],
    ) -> (u8, Session) {
        let Buffers {
            log,
            waiting,
            index,
        } = lent;
        let session = session_of(session);
        let mut then = proved::Known::of(*known);
        let served = proved::serve_known(
            &mut then, session, message, date, log, waiting, index, reply,
        );
        *known = *then.bytes();
        answer(served)
    }

    fn write_file(
        &mut self,
        log: &mut [u8],
        waiting: &mut [u8],
        date: &[u8],
        slice: &[u8],
        sizes: (usize, usize),
    ) -> Result<[u8; 40], u8> {
        let written = proved::write_file(log, waiting, date, slice, sizes, &mut self.scores);
        assert!(self.scores.iter().all(|&byte| byte == 0), "scores are left");
        written.map_err(proved::Refusal::number)
    }

    fn copy(
        &mut self,
        parts: (&[u8], &[u8]),
        second: &mut [u8],
        date: &[u8],
        score: &Score,
        allowance: u64,
    ) -> (Result<(), Refusal>, u64) {
        let copied = proved::copy(parts.0, parts.1, second, date, score, allowance);
        (copied.outcome.map_err(refused), copied.visits)
    }

    fn report(&mut self, log: &[u8], buffer: &mut [u8]) -> Result<usize, u8> {
        proved::report(log, buffer).map_err(proved::Refusal::number)
    }

    fn cut(&mut self, kind: u8, block: &[u8]) -> Result<usize, u8> {
        proved::cut(kind, block).map_err(proved::Refusal::number)
    }

    fn pad(&mut self, kind: u8, buffer: &mut [u8], block_len: usize, target: usize) -> u8 {
        number(proved::pad(kind, buffer, block_len, target))
    }

    fn locate(
        &mut self,
        log: &[u8],
        waiting: &[u8],
        page: &[u8],
        entry: &[u8],
        offset: u64,
    ) -> Result<Run, Refusal> {
        let run = proved::locate(log, waiting, page, entry, offset).map_err(refused)?;
        let (place, start, len) = match run {
            proved::Run::Log { at, length } => (Place::Log, at, length),
            proved::Run::Waiting { at, length } => (Place::Waiting, at, length),
            proved::Run::Page { length } => (Place::Page, 0, length),
        };
        Ok(Run { place, start, len })
    }

    fn fill(
        &mut self,
        log: &[u8],
        waiting: &[u8],
        entry: &[u8],
        offset: u64,
        buffer: &mut [u8],
    ) -> (Result<(), Refusal>, usize) {
        let filled = proved::fill(log, waiting, entry, offset, buffer);
        (filled.outcome.map_err(refused), filled.count)
    }

    fn walk(
        &mut self,
        log: &[u8],
        waiting: &[u8],
        score: &Score,
        allowance: u64,
    ) -> (Result<(), Refusal>, u64) {
        let walked = proved::walk(log, waiting, score, allowance);
        (walked.outcome.map_err(refused), walked.visits)
    }

    fn difference<'a>(
        &mut self,
        first: &'a [u8],
        second: &'a [u8],
    ) -> Result<Option<(Part, &'a [u8])>, u8> {
        let found = proved::difference(first, second).map_err(proved::Refusal::number)?;
        Ok(found.map(|found| {
            let (side, block, bytes) = match found {
                proved::Difference::First(bytes) => (Side::First, first, bytes),
                proved::Difference::Second(bytes) => (Side::Second, second, bytes),
            };
            let start = bytes.as_ptr() as usize - block.as_ptr() as usize;
            (Part { side, start }, bytes)
        }))
    }

    fn differences(
        &mut self,
        log: &[u8],
        waiting: &[u8],
        first: &[u8],
        second: &[u8],
        allowance: u64,
    ) -> Compared {
        let compared = proved::differences(log, waiting, first, second, allowance);
        Compared {
            ended: compared.outcome.map_err(refused),
            count: compared.count,
            units: compared.units,
        }
    }

    fn search(
        &mut self,
        log: &[u8],
        waiting: &[u8],
        page: &[u8],
        entry: &[u8],
        query: &[u8],
    ) -> Result<Value, Refusal> {
        let answer = proved::search(log, waiting, page, entry, query);
        let value = answer.map(|value| match value {
            proved::Value::Yes => Value::Yes,
            proved::Value::No => Value::No,
            proved::Value::NotKnown => Value::NotKnown,
        });
        value.map_err(refused)
    }

    fn is_card(&mut self, bytes: &[u8]) -> bool {
        proved::is_card(bytes)
    }

    fn wire_type(&mut self, number: u64) -> Result<u8, u8> {
        proved::block_type(number).map_err(proved::Refusal::number)
    }

    fn sound_at(&mut self, log: &[u8], sector: usize) -> Result<usize, u8> {
        proved::sound_at(log, sector).map_err(proved::Refusal::number)
    }

    fn sha1(&mut self, bytes: &[u8]) -> Score {
        proved::sha1(bytes)
    }

    fn crc32(&mut self, bytes: &[u8]) -> u32 {
        proved::crc32(bytes)
    }
}
