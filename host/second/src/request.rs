//! One request, decided by the bytes of the log and of its waiting part.

use crate::index;
use crate::log::{joined, used, Lookup};
use crate::message::{
    accept, hello_reply, ping_reply, read_reply, refusal, sync_reply, write_reply, Lent, Request,
};
use crate::refusal::Refusal;
use crate::sector::SECTOR;
use crate::store::store;
use crate::{Score, Session};

/// Takes a message, answers at the front of the reply buffer, appends at most one block: to the
/// waiting part, or to the log itself if none is lent; with the date that is lent, or in the first
/// edition if none is. Gives the number and the session afterwards.
pub fn serve(
    session: Session,
    message: &[u8],
    date: Option<&[u8]>,
    log: &mut [u8],
    waiting: Option<&mut [u8]>,
    reply: &mut [u8],
) -> (u8, Session) {
    serve_by(session, message, date, log, waiting, &mut [], reply)
}

/// The same with an index lent besides: a read goes by it, and a write, which decides by the scan,
/// enters the block that it stores. Nothing else looks at it.
pub fn serve_by(
    session: Session,
    message: &[u8],
    date: Option<&[u8]>,
    log: &mut [u8],
    waiting: Option<&mut [u8]>,
    index: &mut [u8],
    reply: &mut [u8],
) -> (u8, Session) {
    let lent = Lent {
        log: log.len(),
        waiting: waiting.as_ref().map(|waiting| waiting.len()),
    };
    let answer = accept(session, message, date, reply.len(), lent)
        .map_err(Refusal::from)
        .and_then(|request| answer(session, request, message[3], log, waiting, index));
    let (number, text, session) = match answer {
        Ok((text, session)) => (0, text, session),
        Err(Refusal { number: 1, .. }) => (1, Vec::new(), session),
        Err(refused) => (refused.number, refusal(&refused, message[3]), session),
    };
    reply[..text.len()].copy_from_slice(&text);
    (number, session)
}

/// The reply and the session afterwards, or why not.
fn answer(
    session: Session,
    request: Request,
    tag: u8,
    log: &mut [u8],
    waiting: Option<&mut [u8]>,
    index: &mut [u8],
) -> Result<(Vec<u8>, Session), Refusal> {
    match request {
        Request::Hello => Ok((hello_reply(tag), Session::Ready)),
        Request::Ping => Ok((ping_reply(tag), session)),
        Request::Sync => {
            if let Some(waiting) = waiting {
                settle(log, waiting)?;
            }
            Ok((sync_reply(tag), session))
        }
        Request::Goodbye => Ok((Vec::new(), Session::Closed)),
        Request::Read { kind, score, count } => {
            let both = joined(log, waiting.as_deref().unwrap_or(&[]));
            let data = read(&both, index, kind, &score, count)?;
            Ok((read_reply(tag, &data), session))
        }
        Request::Write {
            edition,
            kind,
            data,
        } => {
            let stored = store(log, waiting, edition, kind, data)?;
            if let Some(first) = stored.new_at {
                index::enter(index, &stored.score, kind, first);
            }
            Ok((write_reply(tag, &stored.score), session))
        }
    }
}

/// Moves the used sectors of the waiting part into the log, right after its used part, and leaves the
/// waiting part blank; or 14, and nothing is moved.
fn settle(log: &mut [u8], waiting: &mut [u8]) -> Result<(), u8> {
    let from = used(log) * SECTOR;
    let count = used(waiting) * SECTOR;
    if log.len() - from < count {
        return Err(14);
    }
    log[from..from + count].copy_from_slice(&waiting[..count]);
    waiting.fill(0);
    Ok(())
}

/// The data of a score and type, at most count bytes.
fn read(
    log: &[u8],
    index: &[u8],
    kind: u8,
    score: &Score,
    count: usize,
) -> Result<Vec<u8>, Refusal> {
    match index::lookup(log, index, kind, score) {
        Lookup::Empty => Ok(Vec::new()),
        Lookup::Found(block) if block.size > count => Err(13.into()),
        Lookup::Found(block) => Ok(block.data(log)),
        Lookup::Missing(refused) => Err(refused),
    }
}
