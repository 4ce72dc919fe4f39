//! Follows a walk block by block, to name the one that it stopped at. The answer is the proved
//! walk's: the trail goes by an index of the log, and counts only where both agree.

use std::collections::HashMap;

use boundary::{sha1, Refusal, Walked};

use crate::blocks::{self, Piece};
use crate::entry::{self, Entry};
use crate::format::{Score, MOST_DATA};

/// Bytes in a root, and the deepest nest of directories.
const ROOT: usize = 300;
const MOST_NESTED: usize = 16;

/// How a walk went.
pub struct Trail {
    pub walked: Walked,
    /// The sectors before each visited block, which look-up passes by.
    pub passed: u64,
    /// The block that has the most of them: its sector, type and score.
    pub farthest: Option<(usize, u8, Score)>,
    /// The block that was refused, or the last one visited.
    pub at: Stop,
}

/// A block of a tree.
#[derive(Clone, Debug, PartialEq, Eq)]
pub struct Stop {
    pub kind: u8,
    pub score: Score,
    /// Where in the tree it is, in words.
    pub place: String,
}

struct Walk<'a> {
    log: &'a [u8],
    /// The first sound block of each type and score: its sector and size.
    index: HashMap<(u8, Score), (usize, usize)>,
    /// The refusal of a block that isn't found.
    missing: Refusal,
    zero: Score,
    allowance: u64,
    visits: u64,
    passed: u64,
    farthest: Option<(usize, u8, Score)>,
    at: Where,
}

/// Where in the tree a block is.
#[derive(Clone)]
struct Where {
    kind: u8,
    score: Score,
    /// The entries that lead to it, none for the root's own directory.
    entries: Vec<u64>,
    /// The byte of that entry's file where what is below it begins; none for the root and for an
    /// entry itself.
    byte: Option<u64>,
}

/// Walks as the proved walk does, from a root's score.
pub fn follow(log: &[u8], score: &Score, allowance: u64) -> Option<Trail> {
    let pieces = blocks::pieces(log).ok()?;
    let mut walk = Walk {
        log,
        index: index(&pieces),
        missing: match blocks::first_doubtful(&pieces) {
            Some(sector) => Refusal::NotKnown { sector },
            None => Refusal::NotHeld,
        },
        zero: sha1(b""),
        allowance,
        visits: 0,
        passed: 0,
        farthest: None,
        at: Where {
            kind: 1,
            score: *score,
            entries: Vec::new(),
            byte: None,
        },
    };
    let outcome = walk.root();
    Some(Trail {
        walked: Walked {
            outcome,
            visits: walk.visits,
        },
        passed: walk.passed,
        farthest: walk.farthest,
        at: walk.at.stop(),
    })
}

fn index(pieces: &[Piece]) -> HashMap<(u8, Score), (usize, usize)> {
    let mut index = HashMap::new();
    for piece in pieces {
        if let Some(block) = piece.block {
            let key = (block.kind, block.score);
            index.entry(key).or_insert((piece.sector, block.size));
        }
    }
    index
}

impl Where {
    fn stop(self) -> Stop {
        let entries: Vec<_> = self.entries.iter().map(u64::to_string).collect();
        let entries = entries.join("/");
        let place = match (self.byte, &entries[..]) {
            (None, "") => "the root".to_string(),
            (None, _) => format!("entry {entries} in it"),
            (Some(_), "") => "the root's directory".to_string(),
            (Some(byte), _) => format!("entry {entries}, byte {byte}"),
        };
        Stop {
            kind: self.kind,
            score: self.score,
            place,
        }
    }
}

impl Walk<'_> {
    fn root(&mut self) -> Result<(), Refusal> {
        let mut root = self.visit(ROOT, 0)?;
        root.resize(ROOT, 0);
        if root[..2] != [0, 2] {
            return Err(Refusal::Entry);
        }
        self.at.kind = 2;
        self.at.score.copy_from_slice(&root[258..278]);
        self.at.byte = Some(0);
        let directory = self.visit(MOST_DATA, 1)?;
        self.directory(directory, 1)
    }

    /// Visits the block that the walk is at.
    fn visit(&mut self, count: usize, nest: usize) -> Result<Vec<u8>, Refusal> {
        if nest > MOST_NESTED {
            return Err(Refusal::Nest);
        }
        if self.visits == self.allowance {
            return Err(Refusal::Spent);
        }
        self.visits += 1;
        if self.at.score == self.zero {
            return Ok(Vec::new());
        }
        let found = self.index.get(&(self.at.kind, self.at.score));
        let (sector, size) = *found.ok_or(self.missing)?;
        self.passed += sector as u64;
        self.farthest = self
            .farthest
            .max(Some((sector, self.at.kind, self.at.score)));
        if size > count {
            return Err(Refusal::OverCount);
        }
        // The bytes of data lead nowhere.
        Ok(match self.at.kind {
            13 => Vec::new(),
            _ => blocks::data(self.log, sector, size),
        })
    }

    /// The entries of the directory block that the walk is at.
    fn directory(&mut self, mut block: Vec<u8>, nest: usize) -> Result<(), Refusal> {
        block.resize(block.len().next_multiple_of(entry::LENGTH), 0);
        let here = self.at.clone();
        let before = here.byte.unwrap_or(0) / entry::LENGTH as u64;
        for (at, bytes) in (before..).zip(block.chunks_exact(entry::LENGTH)) {
            if !entry::active(bytes) {
                continue;
            }
            self.at.clone_from(&here);
            self.at.entries.push(at);
            self.at.byte = None;
            let entry = Entry::parse(bytes).ok_or(Refusal::Entry)?;
            self.at.byte = Some(0);
            let nest = nest + usize::from(entry.directory);
            self.below(&entry, entry.depth, entry.score, nest)?;
        }
        Ok(())
    }

    /// All that is below a score of an entry's tree, its own block first.
    fn below(
        &mut self,
        entry: &Entry,
        level: u32,
        score: Score,
        nest: usize,
    ) -> Result<(), Refusal> {
        self.at.kind = entry.kind(level);
        self.at.score = score;
        let block = self.visit(entry.count(level), nest)?;
        if level == 0 {
            return match entry.directory {
                true => self.directory(block, nest),
                false => Ok(()),
            };
        }
        if !block.len().is_multiple_of(20) {
            return Err(Refusal::Pointers);
        }
        let here = self.at.clone();
        for (at, pointer) in (0..).zip(block.chunks_exact(20)) {
            self.at.clone_from(&here);
            let before = entry.span(level - 1).saturating_mul(at);
            self.at.byte = here.byte.map(|byte| byte.saturating_add(before));
            let mut score = [0; 20];
            score.copy_from_slice(pointer);
            self.below(entry, level - 1, score, nest)?;
        }
        Ok(())
    }
}

#[cfg(test)]
mod tests {
    use super::*;
    use crate::format::SECTOR;
    use crate::session::Client;
    use boundary::walk;

    struct Forest {
        log: Vec<u8>,
        client: Client,
    }

    impl Forest {
        fn new() -> Forest {
            let mut log = vec![0; 64 * SECTOR];
            let client = Client::greet(&mut log).unwrap();
            Forest { log, client }
        }

        fn put(&mut self, kind: u8, data: &[u8]) -> Score {
            self.client.write(&mut self.log, kind, data).unwrap()
        }

        fn root(&mut self, directory: &[u8]) -> Score {
            let top = self.put(2, directory);
            let mut root = vec![0; ROOT];
            root[1] = 2;
            root[258..278].copy_from_slice(&top);
            self.put(1, &root)
        }

        /// A file of depth 2 whose second leaf is a hole, with leaves of 600 bytes.
        fn file(&mut self) -> Vec<u8> {
            let leaves = [self.put(13, &[1; 600]), sha1(b""), self.put(13, &[3; 600])];
            let low = [leaves[..2].concat(), leaves[2].to_vec()];
            let low = [self.put(3, &low[0]), self.put(3, &low[1])];
            let top = self.put(4, &low.concat());
            entry(1 | 2 << 2, 600, &top)
        }

        /// Fails unless the trail ends as the walk does, whatever is allowed.
        fn agrees(&self, root: &Score) {
            for allowance in (0..20).chain([1_000_000]) {
                let trail = follow(&self.log, root, allowance).unwrap();
                assert_eq!(trail.walked, walk(&self.log, &[], root, allowance));
            }
        }

        fn stops(&self, root: &Score, number: u8) -> Stop {
            let trail = follow(&self.log, root, 1_000_000).unwrap();
            let refused = trail.walked.outcome.err();
            assert_eq!(trail.walked, walk(&self.log, &[], root, 1_000_000));
            assert_eq!(refused.map_or(0, Refusal::number), number);
            trail.at
        }
    }

    /// An entry with two scores in a pointer block.
    fn entry(flags: u8, dsize: u16, score: &Score) -> Vec<u8> {
        let mut entry = vec![0; entry::LENGTH];
        entry[5] = 40;
        entry[6..8].copy_from_slice(&dsize.to_be_bytes());
        entry[8] = flags;
        entry[19] = 200;
        entry[20..].copy_from_slice(score);
        entry
    }

    fn stop(kind: u8, score: Score, place: &str) -> Stop {
        let place = place.to_string();
        Stop { kind, score, place }
    }

    #[test]
    fn every_bit_of_an_entry_and_of_a_root() {
        let mut forest = Forest::new();
        let file = forest.file();
        let (log, client) = (forest.log.clone(), forest.client);
        forest.client = client;
        for bit in 0..8 * entry::LENGTH {
            forest.log.clone_from(&log);
            let mut changed = file.clone();
            changed[bit / 8] ^= 1 << (bit % 8);
            let root = forest.root(&[&changed[..], &file].concat());
            forest.agrees(&root);
        }
        for length in [0, 1, 2, 3, 277, 299, 300, 301] {
            forest.log.clone_from(&log);
            let mut bytes = vec![0; length];
            bytes.iter_mut().skip(1).take(1).for_each(|byte| *byte = 2);
            let root = forest.put(1, &bytes);
            forest.agrees(&root);
        }
    }

    #[test]
    fn any_sector_damaged() {
        let mut forest = Forest::new();
        let file = forest.file();
        let inner = forest.put(2, &[&[0; 40][..], &file].concat());
        let folder = entry(0b11, 400, &inner);
        let root = forest.root(&[&folder[..], &file].concat());
        let log = forest.log.clone();
        for sector in 0..crate::format::used(&log) {
            forest.log.clone_from(&log);
            forest.log[sector * SECTOR + 300] ^= 1;
            forest.agrees(&root);
        }
    }

    #[test]
    fn places_in_words() {
        let mut forest = Forest::new();
        let file = forest.file();
        let leaf = sha1(&[3; 600]);
        let inner = [&[0; 40][..], &file].concat();
        let inner = entry(0b11, 400, &forest.put(2, &inner));
        let directory = [&inner[..], &file].concat();
        let root = forest.root(&directory);
        let never = sha1(b"never");
        let place = "the root";
        assert_eq!(forest.stops(&never, 11), stop(1, never, place));
        forest.log[2 * SECTOR + 300] ^= 1; // in the last leaf, which both files have
        let place = "entry 0/1, byte 1200";
        assert_eq!(forest.stops(&root, 12), stop(13, leaf, place));
        forest.put(13, &[3; 600]);
        forest.stops(&root, 0);

        let mut bad = file.clone();
        bad[8] |= 0x80;
        let folder = [&file[..], &bad].concat();
        let root = forest.root(&folder);
        let place = "entry 1 in it";
        assert_eq!(forest.stops(&root, 16), stop(2, sha1(&folder), place));
        let odd = forest.put(3, &[9; 21]);
        let root = forest.root(&entry(1 | 1 << 2, 600, &odd));
        assert_eq!(forest.stops(&root, 18), stop(3, odd, "entry 0, byte 0"));
        let root = forest.root(&entry(1, 599, &leaf));
        assert_eq!(forest.stops(&root, 13), stop(13, leaf, "entry 0, byte 0"));
    }

    /// A file that stands for more bytes than can be counted.
    #[test]
    fn spans_too_large_to_count() {
        let mut forest = Forest::new();
        let odd = forest.put(13, &[1; 10]);
        let mut score = sha1(b"");
        for kind in 3..=9 {
            let last = if kind == 3 { odd } else { score };
            let pointers = [[score; 2].concat(), last.to_vec()].concat();
            score = forest.put(kind, &pointers);
        }
        let mut file = entry(1 | 7 << 2, 57_344, &score);
        file[4..6].copy_from_slice(&57_344_u16.to_be_bytes());
        let root = forest.root(&file);
        forest.agrees(&root);
    }

    /// Directories in directories, to the deepest and one deeper.
    #[test]
    fn nested() {
        let mut forest = Forest::new();
        let mut inside = vec![0; 40];
        for depth in 0..18 {
            let root = forest.root(&inside);
            forest.agrees(&root);
            if depth == 16 {
                assert_eq!(forest.stops(&root, 20).kind, 2);
            }
            let score = forest.put(2, &inside);
            inside = entry(0b11, 400, &score);
            forest.log.resize(forest.log.len() + 4 * SECTOR, 0);
        }
    }
}
