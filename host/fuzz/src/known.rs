//! Requests by what is known from the last one: what was learned before, the answer, and what is known then.
//! What is said to be known is also made up.

use second::crc32::crc32;
use second::known::{self, Known, KNOWN};
use second::sector::SECTOR;
use second::Session;

use crate::archive::{Archive, Buffers, Second};
use crate::compare::{Asked, Parts};
use crate::random::Random;

/// What a request with an index left: number and session, the reply buffer, the parts and the index.
pub struct Left<'a> {
    pub answer: (u8, Session),
    pub reply: Vec<u8>,
    pub parts: &'a Parts,
    pub index: &'a [u8],
}

/// Asks the archive under test by what it learns of the parts as they were before a request, and compares
/// with what that request left by the second program. `reply` is the buffer as it was.
pub fn check(
    archive: &mut dyn Archive,
    asked: Asked,
    parts: Parts,
    reply: Vec<u8>,
    right: &Left,
) -> Result<(), String> {
    let known = archive.learn(&parts.log, &parts.waiting, asked.index);
    let learned = known::learn(&parts.log, &parts.waiting, asked.index);
    same(known, learned, "learned")?;
    let tested = served(archive, known, asked, parts.clone(), reply.clone());
    if let Some(what) = differs(&tested, right) {
        return Err(format!("by what is known {what}"));
    }
    let now = known::learn(&tested.parts.log, &tested.parts.waiting, &tested.index);
    same(tested.known, now, "then known")?;

    let mut random = Random::new(&[u64::from(crc32(asked.message)), u64::from(known[7])]);
    let any = made_up(learned, &parts, &mut random);
    let tested = served(archive, any, asked, parts.clone(), reply.clone());
    let right = served(&mut Second, any, asked, parts, reply);
    let by = format!("by {:?}, made up,", Known::of(&any));
    if let Some(what) = differs(&tested, &right.left()) {
        return Err(format!("{by} {what}"));
    }
    same(
        tested.known,
        Known::of(&right.known),
        &format!("{by} known"),
    )
}

/// What may be said to be known: some of what was learned, the rest of it wrong or impossible; or any bytes.
fn made_up(learned: Known, parts: &Parts, random: &mut Random) -> [u8; KNOWN] {
    let mut known = learned;
    if random.percent(40) {
        known.used = random.between(0, parts.log.len() / SECTOR + 1);
    }
    if random.percent(40) {
        known.waits = random.between(0, parts.waiting.len() / SECTOR + 1);
    }
    let end = known.used + known.waits;
    known.doubt = match random.below(8) {
        0 => None,
        1 | 2 => end.checked_sub(random.between(1, end.max(1))),
        3 => Some(end),
        4 => Some(end + random.below(300)),
        5 => Some(random.number() as usize / 2),
        _ => known.doubt,
    };
    known.exact ^= random.percent(40);
    let mut bytes = known.bytes();
    if random.percent(10) {
        bytes[KNOWN - 1] = random.byte();
    }
    if random.percent(10) {
        let at = random.below(KNOWN);
        bytes[at] = random.byte();
    }
    bytes
}

/// A request by what is said to be known, and all that it left.
struct Served {
    answer: (u8, Session),
    reply: Vec<u8>,
    parts: Parts,
    index: Vec<u8>,
    known: [u8; KNOWN],
}

impl Served {
    fn left(&self) -> Left<'_> {
        Left {
            answer: self.answer,
            reply: self.reply.clone(),
            parts: &self.parts,
            index: &self.index,
        }
    }
}

fn served(
    archive: &mut dyn Archive,
    mut known: [u8; KNOWN],
    asked: Asked,
    mut parts: Parts,
    mut reply: Vec<u8>,
) -> Served {
    let mut index = asked.index.to_vec();
    let lent = Buffers {
        log: &mut parts.log,
        waiting: &mut parts.waiting,
        index: &mut index,
    };
    let (session, message, date) = (asked.session, asked.message, asked.date);
    let answer = archive.serve_known(&mut known, session, message, date, lent, &mut reply);
    Served {
        answer,
        reply,
        parts,
        index,
        known,
    }
}

/// In what a request differs from the right one.
fn differs(served: &Served, right: &Left) -> Option<String> {
    if served.answer != right.answer {
        return Some(format!(
            "number and session are {:?}, right is {:?}",
            served.answer, right.answer
        ));
    }
    let (parts, left) = (&served.parts, right.parts);
    let buffers: [(&str, &[u8], &[u8]); 4] = [
        ("the reply buffer", &served.reply, &right.reply),
        ("the log", &parts.log, &left.log),
        ("the waiting part", &parts.waiting, &left.waiting),
        ("the index", &served.index, right.index),
    ];
    let (name, ..) = buffers.iter().find(|(_, served, right)| served != right)?;
    Some(format!("{name} differs"))
}

fn same(known: [u8; KNOWN], right: Known, when: &str) -> Result<(), String> {
    match known == right.bytes() {
        true => Ok(()),
        false => Err(format!(
            "{when} is {:?}, the second program's {right:?}",
            Known::of(&known)
        )),
    }
}
