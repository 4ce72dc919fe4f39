//! Shams: the second program with one rule broken each. The fuzzer has to catch them all.

use second::changes::{Compared, Part};
use second::known::KNOWN;
use second::log::{joined, shaped_at, used, write_in, Contents};
use second::message::{accept, read_reply, silent, write_reply, Lent, Request};
use second::query::Value;
use second::sector::SECTOR;
use second::tree::Run;
use second::{Edition, Refusal, Score, Session};

use crate::archive::{Archive, Buffers, Second};
use crate::changes::bytes_of;
use crate::sham_cards;
use crate::sham_changes;
use crate::sham_copy;
use crate::sham_dates;
use crate::sham_doubt;
use crate::sham_index;
use crate::sham_known;
use crate::sham_texts::{no_overlong, no_surrogate, no_zero, not_cut_off, not_past_end};
use crate::sham_tools::{
    lower_label, only_blank_doubts, records_and_doubtful, refit, refuse, reply_data, report_text,
    serve_altered, texts_altered, without, Tests,
};
use crate::sham_trees;
use crate::sham_waiting;
use crate::sham_writer;

pub use crate::broken::{Broken, ALL};

/// The second program with a rule broken.
pub struct Sham {
    broken: Broken,
    /// For the one that pretends: whether it has stored a block.
    stored: bool,
}

impl Sham {
    pub fn new(broken: Broken) -> Sham {
        Sham {
            broken,
            stored: false,
        }
    }
}

/// Puts both parts back.
fn restore(log: &mut [u8], waiting: &mut [u8], before: &(Vec<u8>, Vec<u8>)) {
    log.copy_from_slice(&before.0);
    waiting.copy_from_slice(&before.1);
}

/// Appends a block that is held already, if the waiting part has room.
pub fn append(log: &[u8], waiting: &mut [u8], edition: Edition, kind: u8, data: &[u8]) {
    let waits = used(waiting);
    if waiting.len() / SECTOR - waits >= edition.sectors_for(data.len()) {
        let first = used(log) + waits;
        write_in(&mut waiting[waits * SECTOR..], first, edition, kind, data);
    }
}

impl Sham {
    /// An ill-formed message without what the sham does not mind.
    fn patched(&self, message: &[u8]) -> Vec<u8> {
        match (self.broken, message[2]) {
            (Broken::ZeroInTextAccepted, 4) => texts_altered(message, no_zero),
            (Broken::OverlongAccepted, 4) => texts_altered(message, no_overlong),
            (Broken::SurrogateAccepted, 4) => texts_altered(message, no_surrogate),
            (Broken::PastEndAccepted, 4) => texts_altered(message, not_past_end),
            (Broken::CutOffAccepted, 4) => texts_altered(message, not_cut_off),
            (Broken::ReadPadIgnored, 12) => without(message, 25),
            (Broken::WritePadEndIgnored, 14) => without(message, 7),
            _ => message.to_vec(),
        }
    }

    /// What becomes of the right number and session of a request that passed tests 1 to 10.
    fn answer(
        &self,
        (number, after): (u8, Session),
        request: Request,
        message: &[u8],
        log: &[u8],
        waiting: &[u8],
        reply: &mut [u8],
    ) -> (u8, Session) {
        let mut put = |text: Vec<u8>| reply[..text.len()].copy_from_slice(&text);
        match (self.broken, request) {
            (Broken::NotHeldWhileDoubtful, _) if number == 12 => {
                refuse(11, message, reply);
                return (11, after);
            }
            (Broken::BlankHoleIsNoDoubt, _)
                if number == 12 && only_blank_doubts(&joined(log, waiting)) =>
            {
                refuse(11, message, reply);
                return (11, after);
            }
            (Broken::LastBlockInsteadOfFirst, Request::Read { kind, score, count })
                if number == 0 =>
            {
                let both = joined(log, waiting);
                let contents = Contents::of(&both);
                let last = contents
                    .blocks
                    .iter()
                    .rfind(|block| block.kind == kind && block.score == score);
                if let Some(block) = last.filter(|block| block.size <= count) {
                    put(read_reply(message[3], &block.data(&both)));
                }
            }
            (Broken::NoScoreTest, Request::Read { kind, score, count })
                if number == 11 || number == 12 =>
            {
                let both = joined(log, waiting);
                let found = (0..both.len() / SECTOR)
                    .filter_map(|at| shaped_at(&both, at))
                    .find(|block| block.kind == kind && block.score == score);
                if let Some(block) = found.filter(|block| block.size <= count) {
                    put(read_reply(message[3], &block.data(&both)));
                    return (0, after);
                }
            }
            (Broken::AnswersReadsAlike, Request::Read { .. }) => {
                put(read_reply(message[3], b""));
                return (0, after);
            }
            (Broken::CollisionTakenAsDuplicate, Request::Write { data, .. }) if number == 15 => {
                put(write_reply(message[3], &second::sha1::sha1(data)));
                return (0, after);
            }
            (Broken::WritesPastReply, Request::Ping) => reply[4] = 0,
            (Broken::CountOffByOne, Request::Read { count, .. })
                if number == 0 && count > 0 && reply_data(reply) == count =>
            {
                refuse(13, message, reply);
                return (13, after);
            }
            _ => {}
        }
        if number == 11 || number == 12 {
            let both = joined(log, waiting);
            if let Some(text) = sham_doubt::reply(reply, &both, self.broken) {
                reply[..text.len()].copy_from_slice(&text);
            }
        }
        (number, after)
    }
}

impl Archive for Sham {
    fn broken(&self) -> Option<Broken> {
        Some(self.broken)
    }

    fn serve(
        &mut self,
        session: Session,
        message: &[u8],
        date: &[u8],
        log: &mut [u8],
        waiting: &mut [u8],
        reply: &mut [u8],
    ) -> (u8, Session) {
        let broken = self.broken;
        if let Some(answer) =
            sham_waiting::serve(broken, session, message, date, log, waiting, reply)
        {
            return answer;
        }
        if let Some(answer) = sham_dates::serve(broken, session, message, date, log, waiting, reply)
        {
            return answer;
        }
        let lent = Lent {
            log: log.len(),
            waiting: Some(waiting.len()),
        };
        let request = accept(session, message, Some(date), reply.len(), lent);
        match self.broken {
            Broken::NoCheckTest => {
                return serve_altered(refit, session, message, date, log, waiting, reply);
            }
            Broken::CapitalHexAccepted => {
                return serve_altered(lower_label, session, message, date, log, waiting, reply);
            }
            _ if request == Err(6) => {
                let patched = self.patched(message);
                return Second.serve(session, &patched, date, log, waiting, reply);
            }
            _ => {}
        }
        let before = (log.to_vec(), waiting.to_vec());
        let right = Second.serve(session, message, date, log, waiting, reply);
        let stored = *log != before.0 || *waiting != before.1;
        let answer = match request {
            Ok(request) => self.answer(right, request, message, log, waiting, reply),
            Err(_) => right,
        };
        match self.broken {
            Broken::StoresNothing => {}
            Broken::FreshGoodbyeLeavesOpen if request == Ok(Request::Goodbye) => {
                let open = session == Session::Fresh;
                return (right.0, if open { session } else { right.1 });
            }
            Broken::ErrorTagZero if !silent(right.0) => reply[3] = 0,
            Broken::RefusalChangesSession if right.0 > 4 => return (right.0, Session::Closed),
            Broken::RefusesEverything if request.is_ok() => {
                refuse(7, message, reply);
                restore(log, waiting, &before);
                return (7, session);
            }
            Broken::RoomOffByOne if stored && used(&joined(log, waiting)) == log.len() / SECTOR => {
                refuse(14, message, reply);
                restore(log, waiting, &before);
                return (14, right.1);
            }
            Broken::WorksOnceThenPretends if stored => {
                if !self.stored {
                    self.stored = true;
                    return answer;
                }
            }
            Broken::DuplicateAppended => {
                if let Ok(Request::Write {
                    edition,
                    kind,
                    data,
                }) = request
                {
                    if right.0 == 0 && !stored {
                        append(log, waiting, edition, kind, data);
                    }
                }
                return answer;
            }
            _ => return answer,
        }
        restore(log, waiting, &before);
        answer
    }

    fn takes_index(&self) -> bool {
        sham_index::RULES.contains(&self.broken) || self.takes_known()
    }

    fn serve_by(
        &mut self,
        session: Session,
        message: &[u8],
        date: &[u8],
        lent: Buffers,
        reply: &mut [u8],
    ) -> (u8, Session) {
        sham_index::serve(self.broken, session, message, date, lent, reply)
    }

    fn takes_known(&self) -> bool {
        sham_known::RULES.contains(&self.broken)
    }

    fn learn(&mut self, log: &[u8], waiting: &[u8], index: &[u8]) -> [u8; KNOWN] {
        sham_known::learned(self.broken, log, waiting, index)
    }

    fn serve_known(
        &mut self,
        known: &mut [u8; KNOWN],
        session: Session,
        message: &[u8],
        date: &[u8],
        lent: Buffers,
        reply: &mut [u8],
    ) -> (u8, Session) {
        sham_known::serve(self.broken, known, session, message, date, lent, reply)
    }

    fn look_up_by(
        &mut self,
        log: &[u8],
        waiting: &[u8],
        index: &[u8],
        kind: u8,
        score: &Score,
    ) -> Result<Option<usize>, Refusal> {
        let right = Second.look_up_by(log, waiting, index, kind, score);
        sham_index::look_up(
            self.broken,
            right,
            &joined(log, waiting),
            index,
            (kind, score),
        )
    }

    fn rebuild(&mut self, log: &[u8], index: &mut [u8]) -> u8 {
        sham_index::rebuild(self.broken, log, index)
    }

    fn write_file(
        &mut self,
        log: &mut [u8],
        waiting: &mut [u8],
        date: &[u8],
        slice: &[u8],
        sizes: (usize, usize),
    ) -> Result<[u8; 40], u8> {
        sham_writer::write_file(self.broken, (log, waiting), date, slice, sizes)
    }

    fn copy(
        &mut self,
        parts: (&[u8], &[u8]),
        second: &mut [u8],
        date: &[u8],
        score: &Score,
        allowance: u64,
    ) -> (Result<(), Refusal>, u64) {
        sham_copy::copy(self.broken, parts, second, date, (score, allowance))
    }

    fn report(&mut self, log: &[u8], buffer: &mut [u8]) -> Result<usize, u8> {
        let answer = Second.report(log, buffer);
        let all = Tests::ALL;
        let tests = match self.broken {
            Broken::ReportCountsUsedAsRecords => all,
            Broken::ReportWithoutPlaceTest => Tests {
                place: false,
                ..all
            },
            Broken::ReportWithoutPartsTest => Tests {
                parts: false,
                ..all
            },
            Broken::ReportWithoutCountTest => Tests {
                count: false,
                ..all
            },
            Broken::ReportWithoutTypeTest => Tests { kind: false, ..all },
            Broken::ReportWithoutAgreementTest => Tests {
                agreement: false,
                ..all
            },
            Broken::ReportWithoutDateTest => Tests { date: false, ..all },
            Broken::ReportWithoutRestTest => Tests { rest: false, ..all },
            Broken::ReportWithoutCheckTest => Tests {
                check: false,
                ..all
            },
            Broken::ReportWithoutScoreTest => Tests {
                score: false,
                ..all
            },
            _ => return answer,
        };
        answer?;
        let (mut records, doubtful) = records_and_doubtful(log, tests);
        if self.broken == Broken::ReportCountsUsedAsRecords {
            records = used(log);
        }
        let text = report_text(log, records, doubtful);
        buffer[..text.len()].copy_from_slice(text.as_bytes());
        Ok(text.len())
    }

    fn cut(&mut self, kind: u8, block: &[u8]) -> Result<usize, u8> {
        match Second.cut(kind, block) {
            Ok(_) if self.broken == Broken::BytesCutFromPointers => Second.cut(13, block),
            answer => answer,
        }
    }

    fn pad(&mut self, kind: u8, buffer: &mut [u8], block_len: usize, target: usize) -> u8 {
        Second.pad(kind, buffer, block_len, target)
    }

    fn locate(
        &mut self,
        log: &[u8],
        waiting: &[u8],
        page: &[u8],
        entry: &[u8],
        offset: u64,
    ) -> Result<Run, Refusal> {
        let answer = match self.broken {
            Broken::EntryPadEndIgnored => {
                Second.locate(log, waiting, page, &without(entry, 13), offset)
            }
            Broken::LocateInLogAlone => Second.locate(log, &[], page, entry, offset),
            _ => Second.locate(log, waiting, page, entry, offset),
        };
        let answer = match self.broken {
            Broken::LocateDropsDoubt => answer.map_err(|right| right.number.into()),
            _ => {
                let told = |right| sham_doubt::told(right, &joined(log, waiting), self.broken);
                answer.map_err(told)
            }
        };
        let answer = sham_waiting::locate(answer, log, self.broken);
        let answer = sham_dates::locate(answer, (log, waiting), self.broken);
        sham_trees::locate(answer, page, entry, offset, self.broken)
    }

    fn fill(
        &mut self,
        log: &[u8],
        waiting: &[u8],
        entry: &[u8],
        offset: u64,
        buffer: &mut [u8],
    ) -> (Result<(), Refusal>, usize) {
        let answer = match self.broken {
            Broken::FillFromLogAlone => Second.fill(log, &[], entry, offset, buffer),
            _ => Second.fill(log, waiting, entry, offset, buffer),
        };
        sham_trees::fill(answer, entry, offset, buffer, self.broken)
    }

    fn walk(
        &mut self,
        log: &[u8],
        waiting: &[u8],
        score: &Score,
        allowance: u64,
    ) -> (Result<(), Refusal>, u64) {
        match Second.walk(log, waiting, score, allowance) {
            _ if self.broken == Broken::WalkInLogAlone => Second.walk(log, &[], score, allowance),
            (Ok(()), visits) if self.broken == Broken::InventedVisits && visits > 3 => {
                (Ok(()), visits - 1)
            }
            (Err(right), visits) if self.broken == Broken::WalkDropsDoubt => {
                (Err(right.number.into()), visits)
            }
            refused @ (Err(Refusal { number: 3 | 23, .. }), _) => refused,
            _ => {
                let both = joined(log, waiting);
                let (ended, visits) = sham_trees::walk(&both, score, allowance, self.broken);
                let told = |right| sham_doubt::told(right, &both, self.broken);
                (ended.map_err(told), visits)
            }
        }
    }

    fn difference<'a>(
        &mut self,
        first: &'a [u8],
        second: &'a [u8],
    ) -> Result<Option<(Part, &'a [u8])>, u8> {
        let right = second::changes::difference(first, second)?;
        let found = sham_changes::difference(right, first, second, self.broken);
        Ok(found.map(|part| (part, bytes_of(first, second, part))))
    }

    fn differences(
        &mut self,
        log: &[u8],
        waiting: &[u8],
        first: &[u8],
        second: &[u8],
        allowance: u64,
    ) -> Compared {
        let right = Second.differences(log, waiting, first, second, allowance);
        match (self.broken, right.ended) {
            (_, Err(Refusal { number: 3 | 23, .. })) => right,
            (Broken::CountAndUnitsSwapped, _) => Compared {
                count: right.units,
                units: right.count,
                ..right
            },
            (Broken::ComparedInLogAlone, _) => {
                Second.differences(log, &[], first, second, allowance)
            }
            (Broken::ComparisonDropsDoubt, Err(refused)) => Compared {
                ended: Err(refused.number.into()),
                ..right
            },
            (_, Err(Refusal { number: 16, .. })) if right.units == 0 => right,
            (broken, _) => {
                sham_changes::differences(log, waiting, first, second, allowance, broken)
            }
        }
    }

    fn search(
        &mut self,
        log: &[u8],
        waiting: &[u8],
        page: &[u8],
        entry: &[u8],
        query: &[u8],
    ) -> Result<Value, Refusal> {
        let right = Second.search(log, waiting, page, entry, query);
        let lent = (log, waiting, page, entry);
        sham_cards::search(right, lent, query, self.broken)
    }

    fn is_card(&mut self, bytes: &[u8]) -> bool {
        sham_cards::lines_of(bytes, self.broken).is_ok()
    }

    fn wire_type(&mut self, number: u64) -> Result<u8, u8> {
        Second.wire_type(number)
    }

    fn sound_at(&mut self, log: &[u8], sector: usize) -> Result<usize, u8> {
        Second.sound_at(log, sector)
    }

    fn sha1(&mut self, bytes: &[u8]) -> Score {
        Second.sha1(bytes)
    }

    fn crc32(&mut self, bytes: &[u8]) -> u32 {
        Second.crc32(bytes)
    }
}
