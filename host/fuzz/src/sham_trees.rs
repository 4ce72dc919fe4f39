//! Reading and walking with rules that can be broken one by one.

use second::log::Contents;
use second::sha1::{Score, ZERO_SCORE};
use second::tree::{active, entry, root, Entry, Place, Run, ENTRY, ROOT};
use second::Refusal;

use crate::shams::Broken;

/// What becomes of the right answer to reading a file.
pub fn locate(
    answer: Result<Run, Refusal>,
    page: &[u8],
    bytes: &[u8],
    offset: u64,
    broken: Broken,
) -> Result<Run, Refusal> {
    let zeros = |entry: &Entry, most: usize| {
        Ok(Run {
            place: Place::Page,
            start: 0,
            len: page.len().min(most).min((entry.size - offset) as usize),
        })
    };
    match (answer, broken) {
        (
            Err(Refusal {
                number: 11 | 12, ..
            }),
            Broken::HoleReadAsZeros,
        ) => {
            let entry = entry(bytes)?;
            let at = (offset % entry.dsize as u64) as usize;
            zeros(&entry, entry.dsize - at)
        }
        (Ok(run), Broken::LocateRunIntoNextLeaf) if run.place == Place::Page => {
            let entry = entry(bytes)?;
            zeros(&entry, entry.dsize)
        }
        (Err(Refusal { number: 19, .. }), Broken::LocateEntryBeforePage) => {
            entry(bytes)?;
            answer
        }
        _ => answer,
    }
}

/// What becomes of the right answer to filling a buffer.
pub fn fill(
    (ended, count): (Result<(), Refusal>, usize),
    bytes: &[u8],
    offset: u64,
    buffer: &mut [u8],
    broken: Broken,
) -> (Result<(), Refusal>, usize) {
    match (
        entry(bytes),
        ended.map_err(|refusal| refusal.number),
        broken,
    ) {
        (Ok(entry), Err(11 | 12), Broken::FillHoleAsZeros) => {
            let left = (entry.size - offset).min(buffer.len() as u64) as usize;
            buffer[count..left].fill(0);
            (Ok(()), left)
        }
        (Ok(entry), Ok(()), Broken::FillStopsAtTheLeaf) => {
            let left = entry.dsize - (offset % entry.dsize as u64) as usize;
            (Ok(()), count.min(left))
        }
        (_, _, Broken::FillClearsTheRest) => {
            buffer[count..].fill(0);
            (ended, count)
        }
        _ => (ended, count),
    }
}

/// Walks from a root score with one rule broken. Lengths and allowance must have been tested.
pub fn walk(
    log: &[u8],
    score: &Score,
    allowance: u64,
    broken: Broken,
) -> (Result<(), Refusal>, u64) {
    let mut walk = Walk {
        log,
        contents: Contents::of(log),
        allowance,
        spent: 0,
        broken,
    };
    let ended = walk.top_and_below(score);
    (ended, walk.spent)
}

struct Walk<'a> {
    log: &'a [u8],
    contents: Contents,
    allowance: u64,
    spent: u64,
    broken: Broken,
}

impl Walk<'_> {
    fn visit(
        &mut self,
        kind: u8,
        score: &Score,
        count: usize,
        nest: u32,
    ) -> Result<Vec<u8>, Refusal> {
        let deepest = match self.broken {
            Broken::WalkOneNestMore => 17,
            Broken::WalkOneNestLess => 15,
            _ => 16,
        };
        let none_left = self.spent == self.allowance;
        if none_left && self.broken == Broken::WalkAllowanceBeforeNest {
            return Err(21.into());
        }
        if nest > deepest {
            return Err(20.into());
        }
        if self.broken == Broken::WalkZeroScoreNoVisit && *score == ZERO_SCORE {
            return Ok(Vec::new());
        }
        if none_left {
            return Err(21.into());
        }
        self.spent += 1;
        let count = if self.broken == Broken::WalkNoCountTest {
            usize::MAX
        } else {
            count
        };
        match second::tree::find(&self.contents, kind, score, count) {
            Ok(block) => Ok(block.map_or(Vec::new(), |block| block.data(self.log))),
            Err(Refusal {
                number: 11 | 12, ..
            }) if self.broken == Broken::WalkHoleAsZeros => Ok(Vec::new()),
            Err(refused) => Err(refused),
        }
    }

    fn top_and_below(&mut self, score: &Score) -> Result<(), Refusal> {
        let mut bytes = self.visit(1, score, ROOT, 1)?;
        bytes.resize(ROOT, 0);
        let top = root(&bytes)?;
        let directory = self.visit(2, &top, 57_344, 1)?;
        self.entries(directory, 1)
    }

    fn entries(&mut self, mut block: Vec<u8>, nest: u32) -> Result<(), Refusal> {
        if self.broken == Broken::WalkPartEntryLost {
            block.truncate(block.len() / ENTRY * ENTRY);
        }
        block.resize(block.len().next_multiple_of(ENTRY), 0);
        if self.broken == Broken::WalkLooksAheadForIllFormed {
            for bytes in block.chunks(ENTRY).filter(|bytes| active(bytes)) {
                entry(bytes)?;
            }
        }
        for bytes in block.chunks(ENTRY) {
            if !active(bytes) {
                if self.broken == Broken::WalkJudgesInactive && bytes[9..14] != [0; 5] {
                    return Err(16.into());
                }
                continue;
            }
            let entry = match entry(bytes) {
                Err(_) if self.broken == Broken::WalkSkipsIllFormed => continue,
                entry => entry?,
            };
            let deeper = entry.directory || self.broken == Broken::WalkDataOneDeeper;
            let nest = if deeper { nest + 1 } else { nest };
            self.below(&entry, entry.depth, &entry.score, nest)?;
        }
        Ok(())
    }

    fn below(
        &mut self,
        entry: &Entry,
        level: u32,
        score: &Score,
        nest: u32,
    ) -> Result<(), Refusal> {
        if level == 0 {
            let leaf = self.visit(entry.leaf(), score, entry.dsize, nest)?;
            return if entry.directory {
                self.entries(leaf, nest)
            } else {
                Ok(())
            };
        }
        let mut pointers = self.visit(2 + level as u8, score, entry.psize, nest)?;
        if !pointers.len().is_multiple_of(20) && self.broken != Broken::WalkNoMultipleTest {
            return Err(18.into());
        }
        if self.broken == Broken::WalkPadsPointers && pointers.len() < entry.psize / 20 * 20 {
            pointers.extend(ZERO_SCORE);
        }
        for bytes in pointers.chunks_exact(20) {
            let mut score = [0; 20];
            score.copy_from_slice(bytes);
            self.below(entry, level - 1, &score, nest)?;
        }
        Ok(())
    }
}
