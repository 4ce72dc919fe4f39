//! Walking a tree from its root.

use crate::kind;
use crate::log::{joined, well_lent, Contents};
use crate::refusal::Refusal;
use crate::tree::{active, entry, find, root, Entry, ENTRY, ROOT};
use crate::Score;

/// The most visits a walk may be allowed.
pub const MOST_VISITS: u64 = 1_000_000;
/// The deepest nest of directories.
pub const MOST_NESTED: u32 = 16;

/// Walks from a root score over a log and its waiting part. Gives how it ended, and the visits spent.
pub fn walk(
    log: &[u8],
    waiting: &[u8],
    score: &Score,
    allowance: u64,
) -> (Result<(), Refusal>, u64) {
    if !well_lent(log.len(), waiting.len()) {
        return (Err(3.into()), 0);
    }
    if allowance > MOST_VISITS {
        return (Err(23.into()), 0);
    }
    Walk::new(log, waiting, allowance, &mut |_, _| Ok(())).run(score)
}

/// What is done with a block, by its type and data, when all below it is done.
type Done<'a> = &'a mut dyn FnMut(u8, &[u8]) -> Result<(), Refusal>;

/// A walk under way.
pub(crate) struct Walk<'a> {
    /// Both parts as one log.
    log: Vec<u8>,
    contents: Contents,
    allowance: u64,
    spent: u64,
    done: Done<'a>,
}

impl<'a> Walk<'a> {
    pub(crate) fn new(log: &[u8], waiting: &[u8], allowance: u64, done: Done<'a>) -> Walk<'a> {
        let log = joined(log, waiting);
        Walk {
            contents: Contents::of(&log),
            log,
            allowance,
            spent: 0,
            done,
        }
    }

    /// How it ends, and the visits spent.
    pub(crate) fn run(mut self, score: &Score) -> (Result<(), Refusal>, u64) {
        let ended = self.root_and_below(score);
        (ended, self.spent)
    }

    /// A visit: the data of a block.
    fn visit(
        &mut self,
        kind: u8,
        score: &Score,
        count: usize,
        nest: u32,
    ) -> Result<Vec<u8>, Refusal> {
        if nest > MOST_NESTED {
            return Err(20.into());
        }
        if self.spent == self.allowance {
            return Err(21.into());
        }
        self.spent += 1;
        Ok(match find(&self.contents, kind, score, count)? {
            Some(block) => block.data(&self.log),
            None => Vec::new(),
        })
    }

    fn root_and_below(&mut self, score: &Score) -> Result<(), Refusal> {
        let bytes = self.visit(kind::ROOT, score, ROOT, 1)?;
        let mut padded = bytes.clone();
        padded.resize(ROOT, 0);
        let top = root(&padded)?;
        let directory = self.visit(kind::DIRECTORY, &top, 57_344, 1)?;
        self.entries(&directory, 1)?;
        (self.done)(kind::DIRECTORY, &directory)?;
        (self.done)(kind::ROOT, &bytes)
    }

    /// The entries of a directory block that lies at this nest.
    fn entries(&mut self, block: &[u8], nest: u32) -> Result<(), Refusal> {
        let mut padded = block.to_vec();
        padded.resize(block.len().next_multiple_of(ENTRY), 0);
        for bytes in padded.chunks(ENTRY) {
            if !active(bytes) {
                continue;
            }
            let entry = entry(bytes)?;
            let nest = if entry.directory { nest + 1 } else { nest };
            self.below(&entry, entry.depth, &entry.score, nest)?;
        }
        Ok(())
    }

    /// All that lies below a score of an entry's tree, the score's own block first.
    fn below(
        &mut self,
        entry: &Entry,
        level: u32,
        score: &Score,
        nest: u32,
    ) -> Result<(), Refusal> {
        if level == 0 {
            let leaf = self.visit(entry.leaf(), score, entry.dsize, nest)?;
            if entry.directory {
                self.entries(&leaf, nest)?;
            }
            return (self.done)(entry.leaf(), &leaf);
        }
        let kind = 2 + level as u8;
        let pointers = self.visit(kind, score, entry.psize, nest)?;
        if !pointers.len().is_multiple_of(20) {
            return Err(18.into());
        }
        for bytes in pointers.chunks(20) {
            let mut score = [0; 20];
            score.copy_from_slice(bytes);
            self.below(entry, level - 1, &score, nest)?;
        }
        (self.done)(kind, &pointers)
    }
}
