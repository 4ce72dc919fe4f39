//! One greeted session over a log in memory, or on disk.

use boundary::{serve, Refusal, Session};

use crate::date::NO_DAY;
use crate::format::Score;
use crate::status::Failure;
use crate::streams::Streams;

/// The bytes that a reply buffer needs.
pub const REPLY: usize = 57_348;

const HELLO: [u8; 13] = [0, 11, 4, 0, 0, 2, b'0', b'2', 0, 0, 0, 0, 0];
/// Sync, of tag 0.
pub const SYNC: [u8; 4] = [0, 2, 16, 0];
const READ: u8 = 12;
const WRITE: u8 = 14;

/// What came of a request.
pub struct Served {
    pub outcome: Result<(), Refusal>,
    /// The session afterwards.
    pub session: Session,
    /// The sectors that were appended.
    pub appended: usize,
}

/// A log on disk that answers requests.
pub trait Answers {
    /// Answers one request. When it has answered a sync, all that was acknowledged is on disk.
    fn serve(
        &mut self,
        session: Session,
        message: &[u8],
        reply: &mut [u8],
        streams: &mut Streams,
    ) -> Result<Served, Failure>;

    /// The same, but what a sync acknowledges may be on disk only later: the reply, and all that follow it, are
    /// to be held back while the log is owing.
    fn serve_ahead(
        &mut self,
        session: Session,
        message: &[u8],
        reply: &mut [u8],
        streams: &mut Streams,
    ) -> Result<Served, Failure> {
        self.serve(session, message, reply, streams)
    }

    /// Whether a sync was asked for and what it acknowledges is not on disk. Nothing is owed after a request that
    /// was not asked ahead.
    fn is_owing(&self) -> bool {
        false
    }

    /// Has all that was acknowledged on disk, as after a sync.
    fn settle(&mut self) -> Result<(), Failure>;

    /// Does what no reply waits for.
    fn rest(&mut self) {}
}

pub struct Client {
    session: Session,
    reply: Vec<u8>,
    /// What reads of a log in memory are lent as an index.
    index: Vec<u8>,
}

impl Client {
    /// A session that said hello.
    pub fn greet(log: &mut [u8]) -> Result<Client, Failure> {
        let mut client = Client {
            session: Session::Fresh,
            reply: vec![0; REPLY],
            index: Vec::new(),
        };
        client.ask(log, &HELLO).map_err(Failure::refused)?;
        Ok(client)
    }

    /// A session with a log on disk that said hello.
    pub fn greet_on_disk(log: &mut dyn Answers, streams: &mut Streams) -> Result<Client, Failure> {
        let mut reply = vec![0; REPLY];
        let served = log.serve(Session::Fresh, &HELLO, &mut reply, streams)?;
        served.outcome.map_err(Failure::refused)?;
        Ok(Client {
            session: served.session,
            reply,
            index: Vec::new(),
        })
    }

    /// The same session, whose reads of a log in memory go by these hints first.
    pub fn with_hints(self, index: Vec<u8>) -> Client {
        Client { index, ..self }
    }

    /// Stores a block of at most 65,529 bytes, which is on disk once the log is settled. Gives its
    /// score, or the refusal.
    pub fn store(
        &mut self,
        log: &mut dyn Answers,
        kind: u8,
        data: &[u8],
        streams: &mut Streams,
    ) -> Result<Result<Score, Refusal>, Failure> {
        let message = write_message(kind, data);
        let served = log.serve(self.session, &message, &mut self.reply, streams)?;
        Ok(served.outcome.map(|()| score_in(&self.reply)))
    }

    /// Has what was stored on disk, by a sync.
    #[cfg(test)]
    pub fn sync(&mut self, log: &mut dyn Answers, streams: &mut Streams) -> Result<(), Failure> {
        let served = log.serve(self.session, &SYNC, &mut self.reply, streams)?;
        served.outcome.map_err(Failure::refused)
    }

    /// Stores a block of at most 65,529 bytes in a log in memory, with no day's date, and settles it.
    /// Gives its score.
    #[cfg(test)]
    pub fn write(&mut self, log: &mut [u8], kind: u8, data: &[u8]) -> Result<Score, Refusal> {
        let mut waiting = vec![0; boundary::MOST_WAITING * crate::format::SECTOR];
        let mut ask = |message: &[u8]| {
            let reply = &mut self.reply;
            let index = &mut [];
            serve(
                self.session,
                message,
                &NO_DAY,
                log,
                &mut waiting,
                index,
                reply,
            )
            .outcome
        };
        ask(&write_message(kind, data))?;
        ask(&SYNC)?;
        Ok(boundary::sha1(data))
    }

    /// A block's bytes.
    pub fn read(
        &mut self,
        log: &mut [u8],
        kind: u8,
        score: &Score,
        count: u16,
    ) -> Result<&[u8], Refusal> {
        let body = [&score[..], &[kind, 0], &count.to_be_bytes()].concat();
        self.ask(log, &message(READ, &body))
    }

    /// The index that its reads of a log in memory are lent.
    pub fn hints(&self) -> &[u8] {
        &self.index
    }

    /// Stores a block in a log in memory, among its waiting sectors, with no day's date.
    pub fn lay_down(
        &mut self,
        log: &mut [u8],
        waiting: &mut [u8],
        kind: u8,
        data: &[u8],
    ) -> Result<(), Refusal> {
        let (message, reply, index) = (write_message(kind, data), &mut self.reply, &mut []);
        let served = serve(self.session, &message, &NO_DAY, log, waiting, index, reply);
        served.outcome
    }

    /// Asks of a log with nothing waiting, and gives the reply's body.
    fn ask(&mut self, log: &mut [u8], message: &[u8]) -> Result<&[u8], Refusal> {
        let reply = &mut self.reply;
        let index = &mut self.index;
        let served = serve(self.session, message, &NO_DAY, log, &mut [], index, reply);
        self.session = served.session;
        served.outcome?;
        Ok(&whole_reply(&self.reply)[4..])
    }
}

/// The message at the front of a reply buffer.
pub fn whole_reply(buffer: &[u8]) -> &[u8] {
    let size = usize::from(u16::from_be_bytes([buffer[0], buffer[1]]));
    &buffer[..2 + size]
}

/// Whether a message may change the log or what waits: a write or a sync.
pub fn may_change(message: &[u8]) -> bool {
    is_write(message) || message.get(2) == Some(&SYNC[2])
}

/// Whether a message asks to store a block.
pub fn is_write(message: &[u8]) -> bool {
    message.get(2) == Some(&WRITE)
}

/// The type and score of the block that an accepted request wrote, if it was a write. None for the
/// empty block, which is in no sector.
pub fn stored(message: &[u8], reply: &[u8]) -> Option<(u8, Score)> {
    match message {
        [_, _, WRITE, _, kind, _, _, _, _, ..] => Some((*kind, score_in(reply))),
        _ => None,
    }
}

/// The score that the reply to a write gives.
fn score_in(reply: &[u8]) -> Score {
    let mut score = [0; 20];
    score.copy_from_slice(&reply[4..24]);
    score
}

fn write_message(kind: u8, data: &[u8]) -> Vec<u8> {
    message(WRITE, &[&[kind, 0, 0, 0], data].concat())
}

fn message(kind: u8, body: &[u8]) -> Vec<u8> {
    let size = (body.len() + 2) as u16;
    [&size.to_be_bytes()[..], &[kind, 0], body].concat()
}

#[cfg(test)]
mod tests {
    use super::*;

    #[test]
    fn blocks_that_are_in_sectors() {
        let reply = [7; 24];
        assert_eq!(
            stored(&write_message(13, b"x"), &reply),
            Some((13, [7; 20]))
        );
        assert_eq!(stored(&write_message(13, b""), &reply), None);
        assert_eq!(stored(&HELLO, &reply), None);
        assert!(is_write(&write_message(13, b"")) && !is_write(&HELLO) && !is_write(&[0]));
    }
}
