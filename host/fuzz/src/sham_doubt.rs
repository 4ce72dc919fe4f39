//! Answers that tell of the doubt in a wrong way.

use second::log::{sector, Contents};
use second::message::{number, whole};
use second::sector::blank;
use second::Refusal;

use crate::shams::Broken;

/// The right refusal 11 or 12 of a call over a log, with a rule about the sector broken.
pub fn told(right: Refusal, log: &[u8], broken: Broken) -> Refusal {
    let wrong = match (broken, right.number) {
        (Broken::DoubtAtLastSector, 12) => doubtful(log).next_back(),
        (Broken::DoubtAtLastOfFirstRun, 12) => last_of_first_run(log),
        (Broken::DoubtAtEndOfUsedPart, 12) => Some(Contents::of(log).used),
        (Broken::DoubtSkipsBlankSectors, 12) => doubtful(log)
            .find(|&at| !blank(sector(log, at)))
            .or(right.at),
        (Broken::DoubtCountedFromOne, 12) => right.at.map(|at| at + 1),
        (Broken::DoubtNotTold, 12) => None,
        (Broken::NotHeldTellsOfSector, 11) => Some(Contents::of(log).used),
        _ => right.at,
    };
    Refusal { at: wrong, ..right }
}

/// The same in an error reply, where the text can be another one too.
pub fn reply(right: &[u8], log: &[u8], broken: Broken) -> Option<Vec<u8>> {
    let end = 2 + number(&right[..2]);
    let text = std::str::from_utf8(right.get(6..end)?).ok()?;
    let why = text.get(4..6)?.parse().ok()?;
    let at = text
        .get(10..)
        .and_then(|at| usize::from_str_radix(at, 16).ok());
    let refused = told(Refusal { number: why, at }, log, broken);
    let text = match (broken, refused.at) {
        (Broken::DoubtInDecimal, Some(at)) => format!("why=12 at={at:08}"),
        (Broken::DoubtInCapitals, Some(at)) => format!("why=12 at={at:08X}"),
        (Broken::DoubtInFourDigits, Some(at)) => format!("why=12 at={at:04x}"),
        (Broken::DoubtWithoutZeros, Some(at)) => format!("why=12 at={at:x}"),
        _ => refused.text(),
    };
    let length = (text.len() as u16).to_be_bytes();
    Some(whole(1, right[3], &[&length, text.as_bytes()].concat()))
}

/// The doubtful sectors of a log.
fn doubtful(log: &[u8]) -> impl DoubleEndedIterator<Item = usize> {
    let Contents { blocks, used, .. } = Contents::of(log);
    let covered = move |at: &usize| {
        let mut blocks = blocks.iter();
        blocks.any(|block| (block.first..block.first + block.sectors()).contains(at))
    };
    (0..used).filter(move |at| !covered(at))
}

/// The last of the doubtful sectors that follow each other from the first on.
fn last_of_first_run(log: &[u8]) -> Option<usize> {
    let all: Vec<usize> = doubtful(log).collect();
    let run = all.iter().zip(*all.first()?..);
    run.take_while(|(at, next)| *at == next)
        .map(|(at, _)| *at)
        .last()
}
