//! One request by what is said to be known of the log, its waiting part and the index: any of it is answered.
//! Where it is what would be learned, that is the request with the index, and it stays so.

use crate::edition::Edition;
use crate::index::{enter, hinted, listed};
use crate::known::{learn, Known};
use crate::log::{write_in, Block, Contents};
use crate::message::{accept, read_reply, refusal, sync_reply, write_reply, Lent, Request};
use crate::refusal::Refusal;
use crate::request::serve_by;
use crate::sector::SECTOR;
use crate::sha1::{sha1, Score, ZERO_SCORE};
use crate::Session;

/// What is lent besides the reply buffer.
pub struct Parts<'a> {
    pub log: &'a mut [u8],
    pub waiting: &'a mut [u8],
    pub index: &'a mut [u8],
}

/// Takes a message, answers at the front of the reply buffer, and leaves what is known then. Gives the
/// number and the session afterwards. What cannot be known of parts of these lengths is learned anew, once
/// a read, a write or a sync needs it; no other message looks at it.
pub fn serve(
    known: &mut Known,
    session: Session,
    message: &[u8],
    date: &[u8],
    mut parts: Parts,
    reply: &mut [u8],
) -> (u8, Session) {
    let lent = Lent {
        log: parts.log.len(),
        waiting: Some(parts.waiting.len()),
    };
    let request = accept(session, message, Some(date), reply.len(), lent);
    let needs_it = match request {
        Ok(Request::Read { .. } | Request::Write { .. } | Request::Sync) => true,
        // a read or a write of such a type, a write of so much data
        Err(9 | 10) => true,
        _ => false,
    };
    if !needs_it {
        let Parts {
            log,
            waiting,
            index,
        } = parts;
        return serve_by(
            session,
            message,
            Some(date),
            log,
            Some(waiting),
            index,
            reply,
        );
    }
    if !known.belongs(parts.log.len(), parts.waiting.len()) {
        *known = learn(parts.log, parts.waiting, parts.index);
    }
    let answer = match request {
        Ok(request) => parts.answer(known, request, message[3]),
        Err(number) => Err(number.into()),
    };
    let (number, text) = match answer {
        Ok(text) => (0, text),
        Err(refused) => (refused.number, refusal(&refused, message[3])),
    };
    reply[..text.len()].copy_from_slice(&text);
    (number, session)
}

/// What is found by what is known.
enum Found {
    Empty,
    Block(Block),
}

impl Parts<'_> {
    /// The reply of a read, a write or a sync, or why not.
    fn answer(&mut self, known: &mut Known, request: Request, tag: u8) -> Result<Vec<u8>, Refusal> {
        match request {
            Request::Read { kind, score, count } => {
                let data = self.read(known, kind, &score, count)?;
                Ok(read_reply(tag, &data))
            }
            Request::Write {
                edition,
                kind,
                data,
            } => {
                let score = self.store(known, edition, kind, data)?;
                Ok(write_reply(tag, &score))
            }
            _ => {
                self.settle(known)?;
                Ok(sync_reply(tag))
            }
        }
    }

    /// Both parts as one log, by the end that is known.
    fn both(&self, known: &Known) -> Vec<u8> {
        [&self.log[..known.used * SECTOR], self.waiting].concat()
    }

    /// What the index leads to, or the scan finds where the index is not known to lead to every block.
    fn find(&self, both: &[u8], known: &Known, kind: u8, score: &Score) -> Option<Found> {
        if *score == ZERO_SCORE {
            return Some(Found::Empty);
        }
        let found = match hinted(both, self.index, kind, score) {
            None if !known.exact => scan(both, kind, score),
            led => led,
        };
        found.map(Found::Block)
    }

    /// The data of a score and type, at most count bytes. A block that is not found is refused by the doubt
    /// that is known.
    fn read(
        &self,
        known: &Known,
        kind: u8,
        score: &Score,
        count: usize,
    ) -> Result<Vec<u8>, Refusal> {
        let both = self.both(known);
        match (self.find(&both, known, kind, score), known.doubt) {
            (Some(Found::Empty), _) => Ok(Vec::new()),
            (Some(Found::Block(block)), _) if block.size > count => Err(13.into()),
            (Some(Found::Block(block)), _) => Ok(block.data(&both)),
            (None, Some(sector)) => Err(Refusal::not_known(sector)),
            (None, None) => Err(11.into()),
        }
    }

    /// Stores data at the end that is known. Whether it is held the index decides where it is known to lead
    /// to every block, else the scan.
    fn store(
        &mut self,
        known: &mut Known,
        edition: Edition,
        kind: u8,
        data: &[u8],
    ) -> Result<Score, u8> {
        let score = sha1(data);
        let both = self.both(known);
        let found = if known.exact || score == ZERO_SCORE {
            self.find(&both, known, kind, &score)
        } else {
            scan(&both, kind, &score).map(Found::Block)
        };
        if let Some(found) = found {
            let held = match found {
                Found::Empty => Vec::new(),
                Found::Block(block) => block.data(&both),
            };
            return if held == data { Ok(score) } else { Err(15) };
        }
        let (first, sectors) = (known.used + known.waits, edition.sectors_for(data.len()));
        let has_room = first + sectors <= self.log.len() / SECTOR
            && known.waits + sectors <= self.waiting.len() / SECTOR;
        if !has_room {
            return Err(14);
        }
        let room = &mut self.waiting[known.waits * SECTOR..];
        write_in(room, first, edition, kind, data);
        enter(self.index, &score, kind, first);
        known.waits += sectors;
        known.exact = known.exact && listed(self.index, &score, kind, first);
        Ok(score)
    }

    /// Moves what is known to wait to the end that is known, and leaves the waiting part blank; or 14, and
    /// nothing is moved.
    fn settle(&mut self, known: &mut Known) -> Result<(), u8> {
        let (from, count) = (known.used * SECTOR, known.waits * SECTOR);
        if self.log.len() - from < count {
            return Err(14);
        }
        self.log[from..from + count].copy_from_slice(&self.waiting[..count]);
        self.waiting.fill(0);
        known.used += known.waits;
        known.waits = 0;
        Ok(())
    }
}

/// The first sound block of a type and score.
fn scan(both: &[u8], kind: u8, score: &Score) -> Option<Block> {
    let mut blocks = Contents::of(both).blocks.into_iter();
    blocks.find(|block| block.kind == kind && block.score == *score)
}
