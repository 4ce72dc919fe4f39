//! What the shams are made with.

use second::edition::dated;
use second::kind::lawful;
use second::log::{Block, Contents};
use second::message::{number, refusal};
use second::sector::{blank, check, fits, label, payload, Label, CHECK, SECTOR};
use second::sha1::sha1;
use second::{Edition, Session};

use crate::archive::{Archive, Second};

/// Puts a message's error reply in the place of its reply.
pub fn refuse(refused: u8, message: &[u8], reply: &mut [u8]) {
    let text = refusal(&refused.into(), message[3]);
    reply[..text.len()].copy_from_slice(&text);
}

/// Serves on copies of both parts whose sectors are altered, and takes over what was written.
pub fn serve_altered(
    alter: impl Fn(&mut [u8]),
    session: Session,
    message: &[u8],
    date: &[u8],
    log: &mut [u8],
    waiting: &mut [u8],
    reply: &mut [u8],
) -> (u8, Session) {
    let alter = |part: &mut [u8]| part.chunks_exact_mut(SECTOR).for_each(&alter);
    serve_on_copies(alter, session, message, date, log, waiting, reply)
}

/// The same, where each part is altered as a whole.
pub fn serve_on_copies(
    alter: impl Fn(&mut [u8]),
    session: Session,
    message: &[u8],
    date: &[u8],
    log: &mut [u8],
    waiting: &mut [u8],
    reply: &mut [u8],
) -> (u8, Session) {
    let altered = |part: &[u8]| {
        let mut copy = part.to_vec();
        alter(&mut copy);
        copy
    };
    let before = (altered(log), altered(waiting));
    let mut copy = before.clone();
    let answer = Second.serve(session, message, date, &mut copy.0, &mut copy.1, reply);
    for (part, copy, before) in [(log, copy.0, before.0), (waiting, copy.1, before.1)] {
        for at in 0..part.len() {
            if copy[at] != before[at] {
                part[at] = copy[at];
            }
        }
    }
    answer
}

/// Makes the check of a sector fit, unless it is blank.
pub fn refit(sector: &mut [u8]) {
    if !blank(sector) {
        let line = check(&sector[..CHECK]);
        sector[CHECK..].copy_from_slice(&line);
    }
}

/// Writes the label of a sector whose check fits in small letters.
pub fn lower_label(sector: &mut [u8]) {
    if fits(sector) {
        let edition = dated(sector).map_or(Edition::First, Edition::Second);
        sector[..edition.label()].make_ascii_lowercase();
        refit(sector);
    }
}

/// Whether all doubtful sectors are blank.
pub fn only_blank_doubts(log: &[u8]) -> bool {
    let contents = Contents::of(log);
    (0..contents.used).all(|at| {
        blank(&log[at * SECTOR..(at + 1) * SECTOR])
            || contents
                .blocks
                .iter()
                .any(|block| (block.first..block.first + block.sectors()).contains(&at))
    })
}

/// The bytes of data in a read's reply.
pub fn reply_data(reply: &[u8]) -> usize {
    number(&reply[..2]) - 2
}

/// The bytes with a 0 at a place, if they reach there.
pub fn without(bytes: &[u8], at: usize) -> Vec<u8> {
    let mut patched = bytes.to_vec();
    if let Some(byte) = patched.get_mut(at) {
        *byte = 0;
    }
    patched
}

/// A hello with its texts altered.
pub fn texts_altered(message: &[u8], alter: fn(&mut [u8])) -> Vec<u8> {
    let mut patched = message.to_vec();
    let mut at = 4;
    for _ in 0..2 {
        if at + 2 > patched.len() {
            break;
        }
        let count = number(&patched[at..at + 2]);
        let end = (at + 2 + count).min(patched.len());
        alter(&mut patched[at + 2..end]);
        at = end;
    }
    patched
}

/// The tests of a sound block, each of which can be left out.
#[derive(Clone, Copy)]
pub struct Tests {
    pub place: bool,
    pub parts: bool,
    pub count: bool,
    pub kind: bool,
    pub agreement: bool,
    pub date: bool,
    pub rest: bool,
    pub check: bool,
    pub score: bool,
}

impl Tests {
    pub const ALL: Tests = Tests {
        place: true,
        parts: true,
        count: true,
        kind: true,
        agreement: true,
        date: true,
        rest: true,
        check: true,
        score: true,
    };
}

/// The block that starts at a sector, sound by these tests.
fn sound_at(log: &[u8], first: usize, tests: Tests) -> Option<Block> {
    let sector = |at: usize| log.get(at * SECTOR..(at + 1) * SECTOR);
    let head = label(sector(first)?)?;
    let block = Block {
        edition: head.edition,
        kind: head.kind,
        score: head.score,
        first,
        size: usize::from(head.size),
    };
    let good = (!tests.place || head.rec as usize == first)
        && (!tests.count || usize::from(head.of) == block.sectors())
        && (!tests.kind || lawful(head.kind))
        && (1..=57_344).contains(&block.size);
    if !good {
        return None;
    }
    for part in 0..block.sectors() {
        let sector = sector(first + part)?;
        let mut expected = Label {
            part: part as u16,
            ..head
        };
        let found = label(sector)?;
        if !tests.parts {
            expected.part = found.part;
        }
        if !tests.date && found.edition.front() == head.edition.front() {
            expected.edition = found.edition;
        }
        if !tests.agreement {
            let part = expected.part;
            expected = Label { part, ..found };
        }
        let payload = payload(sector, head.edition);
        let here = (block.size - part * payload.len()).min(payload.len());
        if found != expected
            || (tests.check && !fits(sector))
            || (tests.rest && payload[here..].iter().any(|&byte| byte != 0))
        {
            return None;
        }
    }
    (!tests.score || sha1(&block.data(log)) == block.score).then_some(block)
}

/// How many blocks are sound by these tests, and how many sectors are in none of them.
pub fn records_and_doubtful(log: &[u8], tests: Tests) -> (usize, usize) {
    let used = second::log::used(log);
    let mut covered = vec![false; used];
    let mut records = 0;
    for first in 0..used {
        if let Some(block) = sound_at(log, first, tests) {
            let end = (first + block.sectors()).min(used);
            covered[first..end].fill(true);
            records += 1;
        }
    }
    (records, covered.iter().filter(|&&covered| !covered).count())
}

/// A report with these numbers.
pub fn report_text(log: &[u8], records: usize, doubtful: usize) -> String {
    let sectors = log.len() / SECTOR;
    let used = second::log::used(log);
    let verdict = if doubtful == 0 { "sound" } else { "notknown" };
    format!(
        "sectors={sectors}\nused={used}\nrecords={records}\ndoubtful={doubtful}\nverdict={verdict}\n"
    )
}
