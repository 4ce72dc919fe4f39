//! What changed: the first difference of two directory blocks, and the differences between two trees.

use crate::log::{joined, well_lent, Contents, MOST_DATA};
use crate::refusal::Refusal;
use crate::sha1::{Score, ZERO_SCORE};
use crate::tree::{active, entry, find, Entry, ENTRY};
use crate::walk::{MOST_NESTED, MOST_VISITS};

/// One of the two blocks that are lent.
#[derive(Clone, Copy, Debug, PartialEq, Eq)]
pub enum Side {
    First,
    Second,
}

/// An entry of a lent block.
#[derive(Clone, Copy, Debug, PartialEq, Eq)]
pub struct Part {
    pub side: Side,
    /// The place of its first byte.
    pub start: usize,
}

/// The first position where active entries differ or only one is active, or 16.
pub fn difference(first: &[u8], second: &[u8]) -> Result<Option<Part>, u8> {
    let lawful = |block: &[u8]| block.len() <= MOST_DATA && block.len().is_multiple_of(ENTRY);
    if !lawful(first) || !lawful(second) {
        return Err(16);
    }
    for start in (0..first.len().max(second.len())).step_by(ENTRY) {
        let ours = active_at(first, start);
        if ours != active_at(second, start) {
            let side = match ours {
                Some(_) => Side::First,
                None => Side::Second,
            };
            return Ok(Some(Part { side, start }));
        }
    }
    Ok(None)
}

/// The active entry at a place of a block. Past the end there is none.
fn active_at(block: &[u8], start: usize) -> Option<&[u8]> {
    let bytes = block.get(start..start + ENTRY)?;
    active(bytes).then_some(bytes)
}

/// How a comparison ended, the differences counted, and the units spent.
#[derive(Clone, Copy, Debug, PartialEq, Eq)]
pub struct Compared {
    pub ended: Result<(), Refusal>,
    pub count: u64,
    pub units: u64,
}

impl Compared {
    /// Refused before anything was compared.
    fn refused(number: u8) -> Compared {
        Compared {
            ended: Err(number.into()),
            count: 0,
            units: 0,
        }
    }
}

/// Counts the differences between two directory entries over a log and its waiting part.
pub fn differences(
    log: &[u8],
    waiting: &[u8],
    first: &[u8],
    second: &[u8],
    allowance: u64,
) -> Compared {
    if !well_lent(log.len(), waiting.len()) {
        return Compared::refused(3);
    }
    if allowance > MOST_VISITS {
        return Compared::refused(23);
    }
    let directory = |bytes: &[u8]| entry(bytes).is_ok_and(|entry| entry.directory);
    if !directory(first) || !directory(second) {
        return Compared::refused(16);
    }
    let log = joined(log, waiting);
    let mut comparison = Comparison {
        contents: Contents::of(&log),
        log,
        allowance,
        count: 0,
        units: 0,
    };
    let ended = comparison.entries(first, second, 1);
    Compared {
        ended,
        count: comparison.count,
        units: comparison.units,
    }
}

struct Comparison {
    /// Both parts as one log.
    log: Vec<u8>,
    contents: Contents,
    allowance: u64,
    count: u64,
    units: u64,
}

impl Comparison {
    /// A pair of entries, whose blocks are at this nest if they are opened.
    fn entries(&mut self, first: &[u8], second: &[u8], nest: u32) -> Result<(), Refusal> {
        if first == second || !active(first) && !active(second) {
            return Ok(());
        }
        let well_formed = |bytes| match active(bytes) {
            true => entry(bytes).map(Some),
            false => Ok(None),
        };
        match (well_formed(first)?, well_formed(second)?) {
            (Some(ours), Some(theirs)) if opened(&ours, &theirs) => {
                self.scores(&ours, ours.depth, (&ours.score, &theirs.score), nest)
            }
            _ => {
                self.count += 1;
                Ok(())
            }
        }
    }

    /// A pair of scores at a level of two trees of one shape, and all below them.
    fn scores(
        &mut self,
        shape: &Entry,
        level: u32,
        (first, second): (&Score, &Score),
        nest: u32,
    ) -> Result<(), Refusal> {
        if first == second {
            return Ok(());
        }
        if nest > MOST_NESTED {
            return Err(20.into());
        }
        if self.units == self.allowance {
            return Err(21.into());
        }
        self.units += 1;
        let first = self.block(shape, level, first)?;
        let second = self.block(shape, level, second)?;
        let longer = first.len().max(second.len());
        if level == 0 {
            for start in (0..longer).step_by(ENTRY) {
                self.entries(
                    &entry_at(&first, start),
                    &entry_at(&second, start),
                    nest + 1,
                )?;
            }
        } else {
            for start in (0..longer).step_by(20) {
                let pair = (&score_at(&first, start), &score_at(&second, start));
                self.scores(shape, level - 1, pair, nest)?;
            }
        }
        Ok(())
    }

    /// The data of a block, as the walk reads and checks it.
    fn block(&self, shape: &Entry, level: u32, score: &Score) -> Result<Vec<u8>, Refusal> {
        let (kind, most) = match level {
            0 => (shape.leaf(), shape.dsize),
            _ => (2 + level as u8, shape.psize),
        };
        let found = find(&self.contents, kind, score, most)?;
        let data = found.map_or_else(Vec::new, |block| block.data(&self.log));
        if level > 0 && !data.len().is_multiple_of(20) {
            return Err(18.into());
        }
        Ok(data)
    }
}

/// Whether two entries are opened pairwise: directories of one shape.
fn opened(first: &Entry, second: &Entry) -> bool {
    let shape = |entry: &Entry| (entry.psize, entry.dsize, entry.depth);
    first.directory && second.directory && shape(first) == shape(second)
}

/// The bytes of an entry in a directory block, which is padded with zeros.
fn entry_at(block: &[u8], start: usize) -> [u8; ENTRY] {
    let mut bytes = [0; ENTRY];
    for (byte, held) in bytes.iter_mut().zip(block.iter().skip(start)) {
        *byte = *held;
    }
    bytes
}

/// A pointer of a block, the zero score past its end.
fn score_at(block: &[u8], start: usize) -> Score {
    let mut score = ZERO_SCORE;
    if let Some(bytes) = block.get(start..start + 20) {
        score.copy_from_slice(bytes);
    }
    score
}
