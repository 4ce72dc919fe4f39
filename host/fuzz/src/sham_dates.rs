//! Shams that break a rule of the dates.

use second::edition::dated;
use second::log::{joined, sector, used, write_in, Block, Contents, Lookup};
use second::message::{accept, whole, write_reply, Lent, Request};
use second::sector::{encode, fits, label, payload, Label, SECTOR};
use second::sha1::sha1;
use second::tree::{Place, Run};
use second::{Date, Edition, Refusal, Session};

use crate::archive::{Archive, Second};
use crate::sham_tools::{refit, refuse, serve_altered, serve_on_copies};
use crate::shams::Broken;

/// Serves a message with a rule broken; nothing if the rule has no part in it.
pub fn serve(
    broken: Broken,
    session: Session,
    message: &[u8],
    date: &[u8],
    log: &mut [u8],
    waiting: &mut [u8],
    reply: &mut [u8],
) -> Option<(u8, Session)> {
    let lent = Lent {
        log: log.len(),
        waiting: Some(waiting.len()),
    };
    match accept(session, message, Some(date), reply.len(), lent) {
        Err(4) if broken == Broken::DateBeforeClosed && Edition::of(Some(date)).is_err() => {
            Some((24, session))
        }
        Err(24) => match broken {
            Broken::DateAfterType if ![2, 4, 6, 12, 14, 16].contains(&message[2]) => {
                refuse(5, message, reply);
                Some((5, session))
            }
            Broken::NoDateAnswered => {
                let text = whole(1, message[3], b"\0\x06why=24");
                reply[..text.len()].copy_from_slice(&text);
                Some((24, session))
            }
            _ => {
                let date = taken(broken, message, date)?;
                Some(Second.serve(session, message, &date, log, waiting, reply))
            }
        },
        Ok(request) => match (broken, request) {
            (Broken::TwoDatesSound | Broken::TwoEditionsSound, _) => {
                let alter = |part: &mut [u8]| as_the_first(part, broken);
                Some(serve_on_copies(
                    alter, session, message, date, log, waiting, reply,
                ))
            }
            (
                Broken::NoDateInLabelAccepted
                | Broken::FirstEditionForgotten
                | Broken::DatedTakenAsFirst,
                _,
            ) => {
                let alter = |sector: &mut [u8]| altered(sector, broken);
                Some(serve_altered(
                    alter, session, message, date, log, waiting, reply,
                ))
            }
            (Broken::DateDropped, Request::Write { .. }) => {
                let waiting = Some(waiting);
                let answer = second::request::serve(session, message, None, log, waiting, reply);
                Some(answer)
            }
            (_, Request::Write { .. }) => {
                write(broken, session, message, date, log, waiting, reply)
            }
            _ => None,
        },
        _ => None,
    }
}

/// What is taken for a date where none is lent.
fn taken(broken: Broken, message: &[u8], date: &[u8]) -> Option<Date> {
    let zeros = *b"00000000";
    let digits = date.iter().all(u8::is_ascii_digit);
    match (broken, date.len()) {
        (Broken::SevenDigitsAccepted, 7) if digits => [b"0", date].concat().try_into().ok(),
        (Broken::LongDateAccepted, 9..) => Date::try_from(&date[..8]).ok(),
        (Broken::LetterInDateAccepted, 8) => Some(zeros),
        (Broken::EmptyDateAccepted, 0) => Some(zeros),
        (Broken::DateAskedOfWritesAlone, _) if message[2] != 14 => Some(zeros),
        _ => None,
    }
    .filter(|date| Edition::of(Some(date)).is_ok())
}

/// A write: the right answer, and what becomes of it.
fn write(
    broken: Broken,
    session: Session,
    message: &[u8],
    date: &[u8],
    log: &mut [u8],
    waiting: &mut [u8],
    reply: &mut [u8],
) -> Option<(u8, Session)> {
    let rules = [
        Broken::DateIsIdentity,
        Broken::DuplicateRedated,
        Broken::RoomByFirstEdition,
    ];
    if !rules.contains(&broken) {
        return None;
    }
    let edition = Edition::of(Some(date)).ok()?;
    let (kind, data) = (message[4], &message[8..]);
    let (settled, waits) = (used(log), used(waiting));
    let held = Contents::of(&joined(log, waiting)).lookup(kind, &sha1(data));
    let answer = Second.serve(session, message, date, log, waiting, reply);
    let left = (log.len() / SECTOR - settled).saturating_sub(waits);
    let left = left.min(waiting.len() / SECTOR - waits);
    match (broken, answer.0, held) {
        (Broken::RoomByFirstEdition, 14, _) if Edition::First.sectors_for(data.len()) <= left => {
            let text = write_reply(message[3], &sha1(data));
            reply[..text.len()].copy_from_slice(&text);
            return Some((0, session));
        }
        (Broken::DateIsIdentity, 0, Lookup::Found(block))
            if block.edition != edition && edition.sectors_for(data.len()) <= left =>
        {
            let room = &mut waiting[waits * SECTOR..];
            write_in(room, settled + waits, edition, kind, data);
        }
        (Broken::DuplicateRedated, 0, Lookup::Found(block)) => {
            redate(&block, edition, log, waiting);
        }
        _ => {}
    }
    Some(answer)
}

/// Gives a dated block another date, where it lies.
fn redate(block: &Block, edition: Edition, log: &mut [u8], waiting: &mut [u8]) {
    let border = used(log);
    for number in block.first..block.first + block.sectors() {
        let (part, at) = match number.checked_sub(border) {
            None => (&mut *log, number),
            Some(at) => (&mut *waiting, at),
        };
        let sector = &mut part[at * SECTOR..(at + 1) * SECTOR];
        if let (Some(_), Edition::Second(date)) = (dated(sector), edition) {
            sector[5..13].copy_from_slice(&date);
            refit(sector);
        }
    }
}

/// Makes the sectors of a block agree with its first one: in their dates, or in their editions.
fn as_the_first(part: &mut [u8], broken: Broken) {
    for at in 0..part.len() / SECTOR {
        let found = sector(part, at);
        let Some(mine) = label(found).filter(|_| fits(found)) else {
            continue;
        };
        let first = at.checked_sub(usize::from(mine.part));
        let Some(head) = first.and_then(|first| label(sector(part, first))) else {
            continue;
        };
        let both_dated = mine.edition.front() == head.edition.front();
        if both_dated != (broken == Broken::TwoDatesSound) {
            continue;
        }
        let data = payload(found, mine.edition);
        let end = data
            .iter()
            .rposition(|&byte| byte != 0)
            .map_or(0, |at| at + 1);
        if end <= head.edition.payload() {
            let edition = head.edition;
            let agreeing = encode(&Label { edition, ..mine }, &data[..end]);
            part[at * SECTOR..(at + 1) * SECTOR].copy_from_slice(&agreeing);
        }
    }
}

/// A sector as an archive takes it that has no right notion of the two editions.
fn altered(sector: &mut [u8], broken: Broken) {
    match broken {
        Broken::NoDateInLabelAccepted if no_date(sector) && fits(sector) => {
            sector[5..13].fill(b'0');
            refit(sector);
        }
        Broken::FirstEditionForgotten if sector.starts_with(b"rec=") => sector[0] ^= 1,
        Broken::DatedTakenAsFirst if dated(sector).is_some() => sector[0] ^= 1,
        _ => {}
    }
}

/// Whether a sector begins as with a date that is none.
fn no_date(sector: &[u8]) -> bool {
    sector.starts_with(b"date=") && sector[13] == b'\n' && dated(sector).is_none()
}

/// What becomes of the right answer to reading a file.
pub fn locate(
    answer: Result<Run, Refusal>,
    (log, waiting): (&[u8], &[u8]),
    broken: Broken,
) -> Result<Run, Refusal> {
    let mut run = answer?;
    let part = match run.place {
        Place::Log => log,
        Place::Waiting => waiting,
        Place::Page => return Ok(run),
    };
    let from = run.start / SECTOR * SECTOR;
    let front = dated(&part[from..]).map_or(0, |_| 14);
    match broken {
        Broken::RunByFirstEdition if (run.start + run.len) % SECTOR == 499 => run.len += front,
        Broken::RunBehindFirstLabel => run.start -= front,
        _ => {}
    }
    Ok(run)
}
