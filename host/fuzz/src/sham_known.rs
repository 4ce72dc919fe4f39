//! Shams that break a rule of what is known from the last request.

use second::known::{learn, Known, KNOWN};
use second::log::used;
use second::message::{accept, Lent, Request};
use second::Session;

use crate::archive::{Archive, Buffers, Second};
use crate::sham_tools::refuse;
use crate::shams::{append, Broken};

/// Those of which requests are tried by what is known.
pub const RULES: [Broken; 9] = [
    Broken::KnownNotRenewed,
    Broken::KnownExactAfterOverflow,
    Broken::KnownDoubtForgotten,
    Broken::KnownMissesDuplicate,
    Broken::KnownKeptAtSync,
    Broken::KnownByLastCopy,
    Broken::KnownAlwaysLearned,
    Broken::KnownDoubtPastTheEnd,
    Broken::KnownExactByAnyByte,
];

/// What is learned by a broken rule.
pub fn learned(broken: Broken, log: &[u8], waiting: &[u8], index: &[u8]) -> [u8; KNOWN] {
    let mut known = learn(log, waiting, index);
    match broken {
        Broken::KnownDoubtForgotten => known.doubt = None,
        // Any copy that the index leads to would do.
        Broken::KnownByLastCopy => {
            let both = second::log::joined(log, waiting);
            let blocks = second::log::Contents::of(&both).blocks;
            let led = |b: &second::log::Block| {
                second::index::hinted(&both, index, b.kind, &b.score).is_some()
            };
            known.exact = blocks.iter().all(led);
        }
        _ => {}
    }
    known.bytes()
}

pub fn serve(
    broken: Broken,
    known: &mut [u8; KNOWN],
    session: Session,
    message: &[u8],
    date: &[u8],
    lent: Buffers,
    reply: &mut [u8],
) -> (u8, Session) {
    let Buffers {
        log,
        waiting,
        index,
    } = lent;
    let lengths = Lent {
        log: log.len(),
        waiting: Some(waiting.len()),
    };
    let request = accept(session, message, Some(date), reply.len(), lengths);
    let (before, waits) = (*known, used(waiting));
    let said = Known::of(&before);
    let past = said.doubt >= Some(said.used.saturating_add(said.waits));
    *known = match (broken, request) {
        // Right of what was learned, and wrong of what is made up.
        (
            Broken::KnownAlwaysLearned,
            Ok(Request::Read { .. } | Request::Write { .. } | Request::Sync),
        ) => learn(log, waiting, index).bytes(),
        (Broken::KnownDoubtPastTheEnd, _) if past => Known {
            doubt: None,
            ..said
        }
        .bytes(),
        (Broken::KnownExactByAnyByte, _) => Known {
            exact: before[KNOWN - 1] > 0,
            ..said
        }
        .bytes(),
        _ => before,
    };
    let right = Second.serve_known(
        known,
        session,
        message,
        date,
        Buffers {
            log,
            waiting,
            index,
        },
        reply,
    );
    let stored = used(waiting) > waits;
    match (broken, request) {
        (Broken::KnownNotRenewed, Ok(Request::Write { .. })) => *known = before,
        (Broken::KnownKeptAtSync, Ok(Request::Sync)) => *known = before,
        (Broken::KnownDoubtPastTheEnd, _) if past => {
            let (doubt, now) = (said.doubt, Known::of(known));
            *known = Known { doubt, ..now }.bytes();
        }
        (Broken::KnownExactAfterOverflow, Ok(_)) if stored => {
            known[KNOWN - 1] = u8::from(said.exact)
        }
        (Broken::KnownDoubtForgotten, Ok(Request::Read { .. })) if right.0 == 12 => {
            refuse(11, message, reply);
            return (11, right.1);
        }
        (
            Broken::KnownMissesDuplicate,
            Ok(Request::Write {
                edition,
                kind,
                data,
            }),
        ) if right.0 == 0 && !stored && !data.is_empty() => {
            append(log, waiting, edition, kind, data);
        }
        _ => {}
    }
    right
}
