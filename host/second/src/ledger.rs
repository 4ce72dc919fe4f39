//! The ledger: what each answer has to be, from the messages alone. It never looks at a log.

use std::collections::BTreeSet;
use std::ops::Range;

use crate::edition::Edition;
use crate::message::{
    accept, hello_reply, ping_reply, read_reply, refusal, sync_reply, write_reply, Lent, Request,
};
use crate::refusal::Refusal;
use crate::sector::SECTOR;
use crate::sha1::{sha1, Score, ZERO_SCORE};
use crate::Session;

/// A block that was stored.
#[derive(Clone, Debug)]
pub struct Row {
    /// With its date, if it has one.
    pub edition: Edition,
    pub kind: u8,
    pub score: Score,
    pub data: Vec<u8>,
    /// Its first sector.
    pub first: usize,
}

impl Row {
    /// The sectors that it covers.
    pub fn sectors(&self) -> Range<usize> {
        self.first..self.first + self.edition.sectors_for(self.data.len())
    }
}

/// Which session a message gets.
#[derive(Clone, Copy, Debug, PartialEq, Eq)]
pub enum Origin {
    Fresh,
    /// The one that this message left, counted from 0.
    After(usize),
}

/// What a request does to the rows.
#[derive(Clone, Copy, Debug, PartialEq, Eq)]
pub enum Effect {
    Nothing,
    /// A row is added, the last one: it waits, or is settled at once where no waiting part is lent.
    Adds,
    /// An accepted sync: all rows are settled.
    Settles,
}

/// What an answer has to be.
#[derive(Clone, Debug)]
pub struct Prediction {
    pub number: u8,
    /// The front of the reply buffer; the rest of it is unchanged.
    pub reply: Vec<u8>,
    pub session: Session,
    pub effect: Effect,
}

#[derive(Clone, Debug, Default)]
pub struct Ledger {
    sessions: Vec<Session>,
    changed: BTreeSet<usize>,
    rows: Vec<Row>,
    /// How many rows are settled: those after them wait.
    settled: usize,
}

impl Ledger {
    pub fn new() -> Ledger {
        Ledger::default()
    }

    /// The sessions that the messages so far have left.
    pub fn sessions(&self) -> &[Session] {
        &self.sessions
    }

    pub fn rows(&self) -> &[Row] {
        &self.rows
    }

    pub fn settled_rows(&self) -> &[Row] {
        &self.rows[..self.settled]
    }

    /// The rows added since the last settling.
    pub fn waiting_rows(&self) -> &[Row] {
        &self.rows[self.settled..]
    }

    /// The changed sectors, as they were last told.
    pub fn changed(&self) -> &BTreeSet<usize> {
        &self.changed
    }

    /// The session that a message gets.
    pub fn session(&self, origin: Origin) -> Session {
        match origin {
            Origin::Fresh => Session::Fresh,
            Origin::After(message) => self.sessions[message],
        }
    }

    /// Damage: the changed sectors are told anew, in the place of those told before. No row may wait.
    pub fn damage(&mut self, changed: BTreeSet<usize>) {
        assert!(self.waiting_rows().is_empty(), "damage while rows wait");
        self.changed = changed;
    }

    /// A stop between two requests: the waiting rows are gone.
    pub fn stop(&mut self) {
        self.rows.truncate(self.settled);
    }

    /// A stop while the waiting rows were being written: told which of their sectors arrived whole and
    /// which are torn. A row that arrived whole is settled. One that did not is gone, and what there is
    /// of it counts as changed.
    pub fn crash(&mut self, whole: &BTreeSet<usize>, torn: &BTreeSet<usize>) {
        for row in self.rows.split_off(self.settled) {
            if row.sectors().all(|sector| whole.contains(&sector)) {
                self.rows.push(row);
            } else {
                let there = |sector: &usize| whole.contains(sector) || torn.contains(sector);
                self.changed.extend(row.sectors().filter(there));
            }
        }
        self.settled = self.rows.len();
    }

    /// Takes the next message, with its date or without one.
    pub fn request(
        &mut self,
        origin: Origin,
        message: &[u8],
        date: Option<&[u8]>,
        reply_len: usize,
        lent: Lent,
    ) -> Prediction {
        let prediction = self.begin(origin, message, date, reply_len, lent);
        if lent.waiting.is_none() || prediction.effect == Effect::Settles {
            self.settled = self.rows.len();
        }
        self.sessions.push(prediction.session);
        prediction
    }

    /// A message that may never be answered: its row, if it adds one, waits to be written.
    pub fn begin(
        &mut self,
        origin: Origin,
        message: &[u8],
        date: Option<&[u8]>,
        reply_len: usize,
        lent: Lent,
    ) -> Prediction {
        let before = self.session(origin);
        let answer = accept(before, message, date, reply_len, lent)
            .map_err(Refusal::from)
            .and_then(|request| self.answer(before, request, message[3], lent));
        let (number, reply, session, effect) = match answer {
            Ok((reply, session, effect)) => (0, reply, session, effect),
            Err(Refusal { number: 1, .. }) => (1, Vec::new(), before, Effect::Nothing),
            Err(refused) => {
                let reply = refusal(&refused, message[3]);
                (refused.number, reply, before, Effect::Nothing)
            }
        };
        Prediction {
            number,
            reply,
            session,
            effect,
        }
    }

    fn answer(
        &mut self,
        session: Session,
        request: Request,
        tag: u8,
        lent: Lent,
    ) -> Result<(Vec<u8>, Session, Effect), Refusal> {
        let stays = |reply| Ok((reply, session, Effect::Nothing));
        match request {
            Request::Hello => Ok((hello_reply(tag), Session::Ready, Effect::Nothing)),
            Request::Ping => stays(ping_reply(tag)),
            Request::Sync => Ok((sync_reply(tag), session, Effect::Settles)),
            Request::Goodbye => Ok((Vec::new(), Session::Closed, Effect::Nothing)),
            Request::Read { score, .. } if score == ZERO_SCORE => stays(read_reply(tag, &[])),
            Request::Read { kind, score, count } => match self.first_intact(kind, &score) {
                Some(row) if row.data.len() > count => Err(13.into()),
                Some(row) => stays(read_reply(tag, &row.data)),
                None => Err(match self.first_uncovered() {
                    Some(first) => Refusal::not_known(first),
                    None => 11.into(),
                }),
            },
            Request::Write {
                edition,
                kind,
                data,
            } => {
                let effect = self.write(edition, kind, data, lent)?;
                Ok((write_reply(tag, &sha1(data)), session, effect))
            }
        }
    }

    /// The four steps of a write: empty, duplicate, 15, 14. A row that it adds waits.
    pub fn write(
        &mut self,
        edition: Edition,
        kind: u8,
        data: &[u8],
        lent: Lent,
    ) -> Result<Effect, u8> {
        let score = sha1(data);
        let row = self.first_intact(kind, &score);
        if data.is_empty() || row.is_some_and(|row| row.data == data) {
            return Ok(Effect::Nothing);
        }
        if row.is_some() || score == ZERO_SCORE {
            return Err(15);
        }
        let row = Row {
            edition,
            kind,
            score,
            data: data.to_vec(),
            first: self.end(),
        };
        self.add(row, lent)?;
        Ok(Effect::Adds)
    }

    /// Whether two intact rows of one type and score differ, as healing can have it. Then nothing is
    /// promised of a read by index.
    pub fn clashes(&self) -> bool {
        self.rows.iter().any(|row| {
            let first = self.first_intact(row.kind, &row.score);
            self.intact(row) && first.is_some_and(|first| first.data != row.data)
        })
    }

    /// Adds a row that starts at the end, or 14.
    fn add(&mut self, row: Row, lent: Lent) -> Result<(), u8> {
        let sectors = row.sectors().len();
        let left_in_log = (lent.log / SECTOR).saturating_sub(row.first);
        let left_waiting = lent.waiting.map_or(usize::MAX, |waiting| {
            (waiting / SECTOR).saturating_sub(self.waiting_sectors())
        });
        if left_in_log < sectors || left_waiting < sectors {
            return Err(14);
        }
        self.rows.push(row);
        Ok(())
    }

    /// How many sectors the waiting rows take.
    pub fn waiting_sectors(&self) -> usize {
        let rows = self.waiting_rows().iter();
        rows.map(|row| row.sectors().len()).sum()
    }

    fn intact(&self, row: &Row) -> bool {
        self.changed.range(row.sectors()).next().is_none()
    }

    fn first_intact(&self, kind: u8, score: &Score) -> Option<&Row> {
        self.rows
            .iter()
            .find(|row| row.kind == kind && row.score == *score && self.intact(row))
    }

    /// One past the last sector covered or changed.
    fn end(&self) -> usize {
        let covered = self.rows.iter().map(|row| row.sectors().end).max();
        let changed = self.changed.last().map_or(0, |last| last + 1);
        covered.unwrap_or(0).max(changed)
    }

    /// The first sector before the end that is in no intact row.
    fn first_uncovered(&self) -> Option<usize> {
        (0..self.end()).find(|sector| {
            !self
                .rows
                .iter()
                .any(|row| row.sectors().contains(sector) && self.intact(row))
        })
    }
}
