//! Shams that break a rule of the waiting part.

use second::log::{joined, used, write_in, Contents, Lookup, MOST_WAITING};
use second::message::{accept, sync_reply, whole, Lent, Request, LEAST_REPLY};
use second::sector::SECTOR;
use second::tree::{Place, Run};
use second::{Edition, Refusal, Session};

use crate::archive::{Archive, Second};
use crate::sham_tools::refuse;
use crate::shams::Broken;

/// Those that break a rule of a write.
const WRITES: [Broken; 5] = [
    Broken::WritesToTheLog,
    Broken::WaitingNumberedFromZero,
    Broken::RoomOfWaitingAlone,
    Broken::RoomForgetsWaiting,
    Broken::SettlesWhenFull,
];

/// Serves a message with a rule broken; nothing if the rule has no part in it.
pub fn serve(
    broken: Broken,
    session: Session,
    message: &[u8],
    date: &[u8],
    log: &mut [u8],
    waiting: &mut [u8],
    reply: &mut [u8],
) -> Option<(u8, Session)> {
    let lent = Lent {
        log: log.len(),
        waiting: Some(waiting.len()),
    };
    match accept(session, message, Some(date), reply.len(), lent) {
        Ok(Request::Sync) => Some(sync(broken, session, message, date, log, waiting, reply)),
        Ok(Request::Goodbye) if broken == Broken::GoodbyeSettles => {
            settle(log, waiting);
            None
        }
        Ok(Request::Read { .. }) => {
            let mut blank = (vec![0; log.len()], vec![0; waiting.len()]);
            let (log, waiting) = match broken {
                Broken::LooksInLogAlone => (log, &mut blank.1[..]),
                Broken::LooksInWaitingAlone => (&mut blank.0[..], waiting),
                Broken::JudgesPartsApart if across(log, waiting, message) => {
                    refuse(11, message, reply);
                    return Some((11, session));
                }
                _ => return None,
            };
            Some(Second.serve(session, message, date, log, waiting, reply))
        }
        Ok(Request::Write { .. }) if WRITES.contains(&broken) => {
            Some(write(broken, session, message, date, log, waiting, reply))
        }
        Err(3) => {
            let kept = match broken {
                Broken::LongWaitingAccepted => MOST_WAITING * SECTOR,
                Broken::RaggedWaitingAccepted => waiting.len() / SECTOR * SECTOR,
                _ => return None,
            };
            let kept = kept.min(waiting.len());
            let waiting = &mut waiting[..kept];
            Some(Second.serve(session, message, date, log, waiting, reply))
        }
        _ => None,
    }
}

fn sync(
    broken: Broken,
    session: Session,
    message: &[u8],
    date: &[u8],
    log: &mut [u8],
    waiting: &mut [u8],
    reply: &mut [u8],
) -> (u8, Session) {
    let before = waiting.to_vec();
    let waits = used(waiting);
    let left = log.len() / SECTOR - used(log);
    match broken {
        Broken::SyncAnsweredAtOnce => {
            let text = sync_reply(message[3]);
            reply[..text.len()].copy_from_slice(&text);
            return (0, session);
        }
        Broken::SyncAsksRoomForAll if left < waiting.len() / SECTOR => {
            refuse(14, message, reply);
            return (14, session);
        }
        Broken::SyncMovesWhatFits if left < waits => {
            let at = log.len() - left * SECTOR;
            log[at..].copy_from_slice(&waiting[..left * SECTOR]);
            refuse(14, message, reply);
            return (14, session);
        }
        _ => {}
    }
    let answer = Second.serve(session, message, date, log, waiting, reply);
    match broken {
        Broken::SyncForgetsLastSector if answer.0 == 0 && waits > 0 => {
            let end = used(log) * SECTOR;
            log[end - SECTOR..end].fill(0);
        }
        Broken::SyncLeavesWaiting if answer.0 == 0 => waiting.copy_from_slice(&before),
        Broken::SyncBlanksUsedAlone if answer.0 == 0 && waits > 1 => {
            let kept = (waits - 1) * SECTOR;
            waiting[kept..].copy_from_slice(&before[kept..]);
        }
        _ => {}
    }
    answer
}

fn write(
    broken: Broken,
    session: Session,
    message: &[u8],
    date: &[u8],
    log: &mut [u8],
    waiting: &mut [u8],
    reply: &mut [u8],
) -> (u8, Session) {
    let edition = Edition::of(Some(date)).expect("a date");
    let (kind, data) = (message[4], &message[8..]);
    if broken == Broken::WritesToTheLog {
        return second::request::serve(session, message, Some(date), log, None, reply);
    }
    let (settled, waits) = (used(log), used(waiting));
    let answer = Second.serve(session, message, date, log, waiting, reply);
    let sectors = edition.sectors_for(data.len());
    let room_in_log = log.len() / SECTOR >= settled + sectors;
    let room_waiting = waiting.len() / SECTOR >= waits + sectors;
    let accepts = match broken {
        Broken::RoomOfWaitingAlone => room_waiting,
        Broken::RoomForgetsWaiting => room_in_log && room_waiting,
        Broken::SettlesWhenFull if answer.0 == 14 && !room_waiting => {
            settle(log, waiting);
            return Second.serve(session, message, date, log, waiting, reply);
        }
        _ => false,
    };
    if answer.0 == 14 && accepts {
        let room = &mut waiting[waits * SECTOR..];
        write_in(room, settled + waits, edition, kind, data);
        let text = second::message::write_reply(message[3], &second::sha1::sha1(data));
        reply[..text.len()].copy_from_slice(&text);
        return (0, session);
    }
    if broken == Broken::WaitingNumberedFromZero && used(waiting) > waits {
        write_in(&mut waiting[waits * SECTOR..], waits, edition, kind, data);
    }
    answer
}

/// Settles what waits, with a request of its own.
fn settle(log: &mut [u8], waiting: &mut [u8]) {
    let mut reply = vec![0; LEAST_REPLY];
    let (sync, date) = (whole(16, 0, &[]), b"00000000");
    Second.serve(Session::Ready, &sync, date, log, waiting, &mut reply);
}

/// Whether a read finds a block that lies across the border.
fn across(log: &[u8], waiting: &[u8], message: &[u8]) -> bool {
    let mut score = [0; 20];
    score.copy_from_slice(&message[4..24]);
    let border = used(log);
    match Contents::of(&joined(log, waiting)).lookup(message[24], &score) {
        Lookup::Found(block) => block.first < border && block.first + block.sectors() > border,
        _ => false,
    }
}

/// What becomes of the right answer to reading a file.
pub fn locate(answer: Result<Run, Refusal>, log: &[u8], broken: Broken) -> Result<Run, Refusal> {
    let mut run = answer?;
    if broken == Broken::RunInTheWrongPart && run.place == Place::Waiting {
        run.place = Place::Log;
        run.start += used(log) * SECTOR;
    }
    Ok(run)
}
