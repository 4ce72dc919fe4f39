//! Comparing with rules that can be broken one by one.

use second::changes::{Compared, Part, Side};
use second::log::{joined, Contents};
use second::sha1::{Score, ZERO_SCORE};
use second::tree::{active, entry, find, Entry, ENTRY};
use second::Refusal;

use crate::shams::Broken;

/// What becomes of the right answer to the first difference of two blocks of lawful lengths.
pub fn difference(
    right: Option<Part>,
    first: &[u8],
    second: &[u8],
    broken: Broken,
) -> Option<Part> {
    let differ: fn(&[u8], &[u8]) -> bool = match broken {
        Broken::EntriesComparedWithoutGen => |a, b| {
            let but_gen = |bytes: &[u8]| active(bytes).then(|| bytes[4..].to_vec());
            but_gen(a) != but_gen(b)
        },
        Broken::InactiveCompared => |a, b| a != b,
        Broken::SecondHandedBack => {
            let side = Side::Second;
            let both = |part: &Part| part.start < second.len() && active(&second[part.start..]);
            return right.map(|part| match both(&part) {
                true => Part { side, ..part },
                false => part,
            });
        }
        _ => return right,
    };
    let longer = first.len().max(second.len());
    let starts = (0..longer).step_by(ENTRY);
    let start = starts
        .into_iter()
        .find(|&at| differ(&padded(first, at), &padded(second, at)))?;
    let side = match active(&padded(first, start)) || start >= second.len() {
        true => Side::First,
        false => Side::Second,
    };
    Some(Part { side, start })
}

/// Compares with one rule broken. The given entries must be directories.
pub fn differences(
    log: &[u8],
    waiting: &[u8],
    first: &[u8],
    second: &[u8],
    allowance: u64,
    broken: Broken,
) -> Compared {
    let log = joined(log, waiting);
    let mut comparison = Comparison {
        contents: Contents::of(&log),
        log,
        allowance,
        count: 0,
        units: 0,
        opened: 0,
        broken,
    };
    let ended = comparison.entries(first, second, 1);
    Compared {
        ended,
        count: comparison.count,
        units: comparison.units,
    }
}

struct Comparison {
    log: Vec<u8>,
    contents: Contents,
    allowance: u64,
    count: u64,
    units: u64,
    /// Pairs of blocks opened so far.
    opened: u64,
    broken: Broken,
}

impl Comparison {
    fn entries(&mut self, first: &[u8], second: &[u8], nest: u32) -> Result<(), Refusal> {
        let judged = self.broken == Broken::IllFormedEqualRefused && active(first);
        if first == second && !judged || !active(first) && !active(second) {
            return Ok(());
        }
        let well_formed = |bytes| match active(bytes) {
            true => entry(bytes).map(Some),
            false => Ok(None),
        };
        let pair = (well_formed(first)?, well_formed(second)?);
        if first == second {
            return Ok(());
        }
        match pair {
            (Some(ours), Some(theirs)) if self.opens(&ours, &theirs) => {
                self.count += u64::from(self.broken == Broken::OpenedPairCounted);
                self.scores(&ours, ours.depth, (&ours.score, &theirs.score), nest)
            }
            _ => {
                self.count += 1;
                Ok(())
            }
        }
    }

    fn opens(&self, first: &Entry, second: &Entry) -> bool {
        let shape = |entry: &Entry| (entry.psize, entry.dsize, entry.depth);
        let alike = shape(first) == shape(second) || self.broken == Broken::ShapesNotCompared;
        first.directory && second.directory && alike
    }

    fn scores(
        &mut self,
        shape: &Entry,
        level: u32,
        (first, second): (&Score, &Score),
        nest: u32,
    ) -> Result<(), Refusal> {
        if first == second && self.broken != Broken::EqualScoresRead {
            return Ok(());
        }
        if nest > 16 {
            return Err(20.into());
        }
        if self.opened > 0 || self.broken != Broken::NoUnitForTopPair {
            if self.units == self.allowance {
                return Err(21.into());
            }
            self.units += 1;
        }
        self.opened += 1;
        let (first, second) = match self.blocks(shape, level, first, second) {
            Err(refusal)
                if refusal.number == 11 && self.broken == Broken::MissingBlockIsDifference =>
            {
                self.count += 1;
                return Ok(());
            }
            blocks => blocks?,
        };
        let (a, b) = (first.len(), second.len());
        let until = match self.broken {
            Broken::ComparedUpToShorter => a.min(b),
            _ => a.max(b),
        };
        let step = if level == 0 { ENTRY } else { 20 };
        for at in (0..until).step_by(step) {
            if level == 0 {
                self.entries(&padded(&first, at), &padded(&second, at), nest + 1)?;
            } else {
                let pair = (&pointer(&first, at), &pointer(&second, at));
                self.scores(shape, level - 1, pair, nest)?;
            }
        }
        Ok(())
    }

    fn blocks(
        &self,
        shape: &Entry,
        level: u32,
        first: &Score,
        second: &Score,
    ) -> Result<(Vec<u8>, Vec<u8>), Refusal> {
        if self.broken == Broken::SecondReadFirst {
            let second = self.block(shape, level, second)?;
            return Ok((self.block(shape, level, first)?, second));
        }
        Ok((
            self.block(shape, level, first)?,
            self.block(shape, level, second)?,
        ))
    }

    fn block(&self, shape: &Entry, level: u32, score: &Score) -> Result<Vec<u8>, Refusal> {
        let (kind, most) = match level {
            0 => (2, shape.dsize),
            _ => (2 + level as u8, shape.psize),
        };
        let found = find(&self.contents, kind, score, most)?;
        let data = found.map_or(Vec::new(), |block| block.data(&self.log));
        if level > 0 && !data.len().is_multiple_of(20) {
            return Err(18.into());
        }
        Ok(data)
    }
}

/// An entry of a block, with zeros past its end.
fn padded(block: &[u8], start: usize) -> Vec<u8> {
    let mut bytes: Vec<u8> = block.iter().skip(start).take(ENTRY).copied().collect();
    bytes.resize(ENTRY, 0);
    bytes
}

/// A pointer of a block, the zero score past its end.
fn pointer(block: &[u8], start: usize) -> Score {
    let bytes = block.get(start..start + 20);
    bytes
        .and_then(|bytes| bytes.try_into().ok())
        .unwrap_or(ZERO_SCORE)
}
