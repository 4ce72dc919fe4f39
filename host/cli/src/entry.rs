//! An entry of 40 bytes: what stands for a file or a directory.

use crate::format::{Score, MOST_DATA};

/// Bytes in an entry.
pub const LENGTH: usize = 40;

/// An active, well-formed entry.
pub struct Entry {
    psize: usize,
    dsize: usize,
    pub directory: bool,
    pub depth: u32,
    pub size: u64,
    pub score: Score,
}

/// Whether the active bit of 40 bytes is set.
pub fn active(bytes: &[u8]) -> bool {
    bytes[8] & 1 == 1
}

/// A number of these bytes, the first one the highest.
pub fn number(bytes: &[u8]) -> u64 {
    let digit = |number, byte: &u8| number * 256 + u64::from(*byte);
    bytes.iter().fold(0, digit)
}

/// The score in 40 bytes.
pub fn score_in(bytes: &[u8; LENGTH]) -> Score {
    let mut score = [0; 20];
    score.copy_from_slice(&bytes[20..]);
    score
}

impl Entry {
    /// The entry in these bytes, none where there is no well-formed active one.
    pub fn parse(bytes: &[u8]) -> Option<Entry> {
        if bytes.len() != LENGTH || !active(bytes) {
            return None;
        }
        let flags = bytes[8];
        let entry = Entry {
            psize: number(&bytes[4..6]) as usize,
            dsize: number(&bytes[6..8]) as usize,
            directory: flags & 2 != 0,
            depth: u32::from(flags >> 2 & 7),
            size: number(&bytes[14..20]),
            score: bytes[20..].try_into().ok()?,
        };
        let sizes = (40..=MOST_DATA).contains(&entry.psize)
            && (1..=MOST_DATA).contains(&entry.dsize)
            && (!entry.directory || entry.dsize.is_multiple_of(LENGTH));
        let plain = flags >> 5 == 0 && bytes[9..14].iter().all(|pad| *pad == 0);
        let whole = plain && sizes && entry.size <= entry.span(entry.depth);
        whole.then_some(entry)
    }

    /// The type of a block at a level of its tree, 0 for the leaves.
    pub fn kind(&self, level: u32) -> u8 {
        match (level, self.directory) {
            (0, true) => 2,
            (0, false) => 13,
            (level, _) => 2 + level as u8,
        }
    }

    /// The most bytes that a block at a level may have.
    pub fn count(&self, level: u32) -> usize {
        match level {
            0 => self.dsize,
            _ => self.psize,
        }
    }

    /// The bytes of the file that a block at a level stands for; where those are too many to count,
    /// the largest number.
    pub fn span(&self, level: u32) -> u64 {
        let pointers = (self.psize / 20) as u64;
        (self.dsize as u64).saturating_mul(pointers.saturating_pow(level))
    }

    /// Which pointer of a block at a level leads to an offset.
    pub fn pointer(&self, offset: u64, level: u32) -> usize {
        let pointers = (self.psize / 20) as u64;
        (offset / self.span(level - 1) % pointers) as usize
    }
}
