//! Shams that break a rule of the index.

use second::index::{enter, hint, places, BUCKETS, HINT};
use second::log::{joined, shaped_at, sound_at, used, write_in, Block, Contents, Lookup};
use second::message::{accept, number, read_reply, Lent, Request};
use second::sector::SECTOR;
use second::sha1::{sha1, Score, ZERO_SCORE};
use second::{Refusal, Session};

use crate::archive::{Archive, Buffers, Second};
use crate::sham_tools::refuse;
use crate::shams::Broken;

/// Those of which requests are tried with an index.
pub const RULES: [Broken; 15] = [
    Broken::HintTrusted,
    Broken::HintTypeIgnored,
    Broken::HintInAnyBucket,
    Broken::FirstHintAlone,
    Broken::MissIsNotHeld,
    Broken::HintMissedByOne,
    Broken::ReadEnters,
    Broken::DuplicateEntered,
    Broken::FullBucketReplaced,
    Broken::EnteredAgainLeftOut,
    Broken::EnteredByWaitingNumber,
    Broken::WriteDecidesByIndex,
    Broken::RebuildKeepsOldEntries,
    Broken::RebuildClearsTheRest,
    Broken::RebuildEntersOnce,
];

/// The start and the end of a score's bucket.
fn bucket(index: &[u8], score: &Score) -> (usize, usize) {
    let length = HINT * places(index.len());
    let start = usize::from(score[0]) * length;
    (start, start + length)
}

/// The entries of a score's bucket.
fn entries<'a>(index: &'a [u8], score: &Score) -> impl Iterator<Item = &'a [u8]> {
    let (start, end) = bucket(index, score);
    index[start..end].chunks(HINT)
}

/// The block that the hints lead to by a broken rule, if the rule finds one.
fn found(broken: Broken, log: &[u8], index: &[u8], kind: u8, score: &Score) -> Option<Block> {
    let at = |entry: &[u8]| number(&entry[21..]);
    let within = |sector: &usize| *sector < log.len() / SECTOR;
    let mut named = entries(index, score).filter(|entry| entry[..20] == *score);
    match broken {
        Broken::HintTrusted => named
            .filter(|entry| entry[20] == kind)
            .map(at)
            .filter(within)
            .find_map(|sector| shaped_at(log, sector)),
        Broken::HintTypeIgnored => named
            .map(at)
            .filter(within)
            .find_map(|sector| sound_at(log, sector))
            .filter(|block| block.score == *score),
        Broken::HintInAnyBucket => index[..places(index.len()) * BUCKETS * HINT]
            .chunks(HINT)
            .filter(|entry| entry[..20] == *score && entry[20] == kind)
            .map(at)
            .filter(within)
            .find_map(|sector| sound_at(log, sector))
            .filter(|block| block.kind == kind && block.score == *score),
        Broken::FirstHintAlone => {
            let first = named.find(|entry| entry[20] == kind).map(at);
            let block = first
                .filter(within)
                .and_then(|sector| sound_at(log, sector));
            block
                .filter(|block| block.kind == kind && block.score == *score)
                .or_else(|| match Contents::of(log).lookup(kind, score) {
                    Lookup::Found(block) => Some(block),
                    _ => None,
                })
        }
        _ => None,
    }
}

pub fn look_up(
    broken: Broken,
    right: Result<Option<usize>, Refusal>,
    log: &[u8],
    index: &[u8],
    (kind, score): (u8, &Score),
) -> Result<Option<usize>, Refusal> {
    match (broken, right) {
        (_, Err(Refusal { number: 3 | 9, .. })) => right,
        (Broken::HintMissedByOne, Ok(Some(first))) => Ok(Some(first + 1)),
        _ if *score == ZERO_SCORE => right,
        _ => match found(broken, log, index, kind, score) {
            Some(block) => Ok(Some(block.first)),
            None => right,
        },
    }
}

pub fn rebuild(broken: Broken, log: &[u8], index: &mut [u8]) -> u8 {
    let before = index.to_vec();
    let right = second::index::rebuild(log, index);
    match broken {
        _ if right != 0 => {}
        Broken::RebuildKeepsOldEntries => {
            index.copy_from_slice(&before);
            for block in Contents::of(log).blocks {
                enter(index, &block.score, block.kind, block.first);
            }
        }
        Broken::RebuildClearsTheRest => {
            let end = places(index.len()) * BUCKETS * HINT;
            index[end..].fill(0);
        }
        Broken::RebuildEntersOnce => {
            let end = places(index.len()) * BUCKETS * HINT;
            index[..end].fill(0);
            for block in Contents::of(log).blocks {
                let name = hint(&block.score, block.kind, 0);
                if entries(index, &block.score).all(|entry| entry[..21] != name[..21]) {
                    enter(index, &block.score, block.kind, block.first);
                }
            }
        }
        _ => {}
    }
    right
}

pub fn serve(
    broken: Broken,
    session: Session,
    message: &[u8],
    date: &[u8],
    lent: Buffers,
    reply: &mut [u8],
) -> (u8, Session) {
    let Buffers {
        log,
        waiting,
        index,
    } = lent;
    let lengths = Lent {
        log: log.len(),
        waiting: Some(waiting.len()),
    };
    let request = accept(session, message, Some(date), reply.len(), lengths);
    let (settled, waits) = (used(log), used(waiting));
    let before = index.to_vec();
    let lent = Buffers {
        log,
        waiting,
        index,
    };
    let right = Second.serve_by(session, message, date, lent, reply);
    match request {
        Ok(Request::Read { kind, score, count }) => {
            let both = joined(log, waiting);
            let found = found(broken, &both, &before, kind, &score);
            if score == ZERO_SCORE {
                return right;
            }
            if let Some(block) = found.filter(|block| block.size <= count) {
                let text = read_reply(message[3], &block.data(&both));
                reply[..text.len()].copy_from_slice(&text);
                return (0, right.1);
            }
            let hit = entries(&before, &score).any(|e| e[..20] == score && e[20] == kind);
            if broken == Broken::MissIsNotHeld && !hit && places(before.len()) > 0 && right.0 == 0 {
                refuse(11, message, reply);
                return (11, right.1);
            }
            if let (Broken::ReadEnters, false, Lookup::Found(block)) =
                (broken, hit, Contents::of(&both).lookup(kind, &score))
            {
                enter(index, &score, kind, block.first);
            }
        }
        Ok(Request::Write {
            edition,
            kind,
            data,
        }) if right.0 == 0 && !data.is_empty() => {
            let score = sha1(data);
            let stored = used(waiting) > waits;
            let (start, end) = bucket(index, &score);
            match broken {
                Broken::DuplicateEntered if !stored => enter(index, &score, kind, settled),
                Broken::FullBucketReplaced if stored && *index == before && end > start => {
                    let entry = hint(&score, kind, settled + waits);
                    index[end - HINT..end].copy_from_slice(&entry);
                }
                Broken::EnteredAgainLeftOut if stored => {
                    let name = hint(&score, kind, 0);
                    let there = entries(&before, &score).any(|e| e[..21] == name[..21]);
                    if there {
                        index.copy_from_slice(&before);
                    }
                }
                Broken::EnteredByWaitingNumber if stored => {
                    index.copy_from_slice(&before);
                    enter(index, &score, kind, waits);
                }
                Broken::WriteDecidesByIndex
                    if !stored
                        && waiting.len() / SECTOR - waits >= edition.sectors_for(data.len())
                        && entries(&before, &score).all(|e| e[..20] != score) =>
                {
                    let room = &mut waiting[waits * SECTOR..];
                    write_in(room, settled + waits, edition, kind, data);
                }
                _ => {}
            }
        }
        _ => {}
    }
    right
}
