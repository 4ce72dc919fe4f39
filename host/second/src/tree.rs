//! Entries, roots, and reading a file through its tree.

use crate::kind::{DATA, DIRECTORY};
use crate::log::{joined, used, well_lent, Block, Contents, Lookup};
use crate::message::number;
use crate::refusal::Refusal;
use crate::sector::SECTOR;
use crate::sha1::{Score, ZERO_SCORE};

/// Bytes in an entry.
pub const ENTRY: usize = 40;
/// Bytes in a root.
pub const ROOT: usize = 300;

/// An active, well-formed entry.
#[derive(Clone, Copy, Debug, PartialEq, Eq)]
pub struct Entry {
    pub psize: usize,
    pub dsize: usize,
    pub directory: bool,
    pub depth: u32,
    pub size: u64,
    pub score: Score,
}

/// Whether the active bit of 40 bytes is set.
pub fn active(bytes: &[u8]) -> bool {
    bytes[8] & 1 == 1
}

/// The entry of 40 bytes, or 16 if it is inactive or ill-formed.
pub fn entry(bytes: &[u8]) -> Result<Entry, u8> {
    if bytes.len() != ENTRY || !active(bytes) {
        return Err(16);
    }
    let flags = bytes[8];
    let mut score = [0; 20];
    score.copy_from_slice(&bytes[20..]);
    let entry = Entry {
        psize: number(&bytes[4..6]),
        dsize: number(&bytes[6..8]),
        directory: flags & 2 != 0,
        depth: u32::from(flags >> 2 & 7),
        size: number(&bytes[14..20]) as u64,
        score,
    };
    let well_formed = (40..=57_344).contains(&entry.psize)
        && (1..=57_344).contains(&entry.dsize)
        && (!entry.directory || entry.dsize.is_multiple_of(40))
        && flags & 0b1110_0000 == 0
        && bytes[9..14] == [0; 5]
        && u128::from(entry.size) <= entry.dsize as u128 * entry.fan().pow(entry.depth);
    if well_formed {
        Ok(entry)
    } else {
        Err(16)
    }
}

impl Entry {
    /// The scores that a pointer block can hold.
    pub fn fan(&self) -> u128 {
        (self.psize / 20) as u128
    }

    /// The type of its leaves.
    pub fn leaf(&self) -> u8 {
        if self.directory {
            DIRECTORY
        } else {
            DATA
        }
    }

    /// Which pointer of a block of this level leads to an offset.
    pub fn index(&self, offset: u64, level: u32) -> usize {
        let leaf = u128::from(offset) / self.dsize as u128;
        (leaf / self.fan().pow(level - 1) % self.fan()) as usize
    }
}

/// The score in a root of 300 bytes, or 16.
pub fn root(bytes: &[u8]) -> Result<Score, u8> {
    if bytes.len() != ROOT || number(&bytes[..2]) != 2 {
        return Err(16);
    }
    let mut score = [0; 20];
    score.copy_from_slice(&bytes[258..278]);
    Ok(score)
}

/// Which lent buffer holds a run of bytes.
#[derive(Clone, Copy, Debug, PartialEq, Eq)]
pub enum Place {
    Log,
    Waiting,
    Page,
}

/// A run of bytes in a lent buffer.
#[derive(Clone, Copy, Debug, PartialEq, Eq)]
pub struct Run {
    pub place: Place,
    pub start: usize,
    pub len: usize,
}

/// Where a file's bytes at an offset are, or why not. The page is the blank page.
pub fn locate(
    log: &[u8],
    waiting: &[u8],
    page: &[u8],
    bytes: &[u8],
    offset: u64,
) -> Result<Run, Refusal> {
    if !well_lent(log.len(), waiting.len()) {
        return Err(3.into());
    }
    if page.is_empty() || page.iter().any(|&byte| byte != 0) {
        return Err(19.into());
    }
    let entry = entry(bytes)?;
    if offset >= entry.size {
        return Err(17.into());
    }

    let both = joined(log, waiting);
    let leaf = leaf(&both, &Contents::of(&both), &entry, offset)?;
    let at = (offset % entry.dsize as u64) as usize;
    let left_in_file = usize::try_from(entry.size - offset).unwrap_or(usize::MAX);
    Ok(match leaf {
        Some(block) if at < block.size => {
            let payload = block.edition.payload();
            let (place, sector) = part_of(block.first + at / payload, used(log));
            Run {
                place,
                start: sector * SECTOR + block.edition.label() + at % payload,
                len: (payload - at % payload)
                    .min(block.size - at)
                    .min(left_in_file),
            }
        }
        _ => Run {
            place: Place::Page,
            start: 0,
            len: page.len().min(entry.dsize - at).min(left_in_file),
        },
    })
}

/// In which part a sector of the joined log lies, and its number there.
fn part_of(sector: usize, used: usize) -> (Place, usize) {
    if sector < used {
        (Place::Log, sector)
    } else {
        (Place::Waiting, sector - used)
    }
}

/// The leaf in which an offset lies, none below a zero score. Refuses 11, 12, 13 and 18.
fn leaf(
    log: &[u8],
    contents: &Contents,
    entry: &Entry,
    offset: u64,
) -> Result<Option<Block>, Refusal> {
    let mut score = entry.score;
    for level in (1..=entry.depth).rev() {
        let data = match find(contents, 2 + level as u8, &score, entry.psize)? {
            Some(block) => block.data(log),
            None => Vec::new(),
        };
        if !data.len().is_multiple_of(20) {
            return Err(18.into());
        }
        let start = 20 * entry.index(offset, level);
        score = ZERO_SCORE;
        if start < data.len() {
            score.copy_from_slice(&data[start..start + 20]);
        }
    }
    find(contents, entry.leaf(), &score, entry.dsize)
}

/// Fills a buffer with a file's bytes from an offset on, byte by byte: how it ended, and how many
/// bytes were written to its front.
pub fn fill(
    log: &[u8],
    waiting: &[u8],
    bytes: &[u8],
    offset: u64,
    buffer: &mut [u8],
) -> (Result<(), Refusal>, usize) {
    if !well_lent(log.len(), waiting.len()) {
        return (Err(3.into()), 0);
    }
    let entry = match entry(bytes) {
        Ok(entry) => entry,
        Err(number) => return (Err(number.into()), 0),
    };
    if offset >= entry.size {
        return (Err(17.into()), 0);
    }

    let both = joined(log, waiting);
    let contents = Contents::of(&both);
    let dsize = entry.dsize as u64;
    let mut data = Vec::new();
    for (count, byte) in buffer.iter_mut().enumerate() {
        let at = offset + count as u64;
        if at == entry.size {
            return (Ok(()), count);
        }
        if count == 0 || at.is_multiple_of(dsize) {
            data = match leaf(&both, &contents, &entry, at) {
                Ok(leaf) => leaf.map_or_else(Vec::new, |block| block.data(&both)),
                Err(refusal) => return (Err(refusal), count),
            };
        }
        *byte = data.get((at % dsize) as usize).copied().unwrap_or(0);
    }
    (Ok(()), buffer.len())
}

/// The block of a type and score, none for the zero score. Refuses 11, 12 and 13.
pub fn find(
    contents: &Contents,
    kind: u8,
    score: &Score,
    count: usize,
) -> Result<Option<Block>, Refusal> {
    match contents.lookup(kind, score) {
        Lookup::Empty => Ok(None),
        Lookup::Found(block) if block.size > count => Err(13.into()),
        Lookup::Found(block) => Ok(Some(block)),
        Lookup::Missing(refused) => Err(refused),
    }
}
