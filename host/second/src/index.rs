//! The index beside the log: 256 equal buckets of entries by the first byte of the score, each a hint
//! where a block starts. An entry is score[20] type[1] sector[4]; zeros are a free place.

use std::ops::Range;

use crate::kind::lawful;
use crate::log::{joined, sound_at, well_lent, well_sized, Block, Contents, Lookup};
use crate::message::number;
use crate::refusal::Refusal;
use crate::sector::SECTOR;
use crate::sha1::{Score, ZERO_SCORE};

pub const BUCKETS: usize = 256;
/// Bytes of an entry.
pub const HINT: usize = 25;

/// The entries that fit in each bucket of an index of so many bytes. What they leave over is at the end.
pub fn places(length: usize) -> usize {
    length / (BUCKETS * HINT)
}

/// The bytes of a score's bucket.
fn bucket(length: usize, score: &Score) -> Range<usize> {
    let bytes = HINT * places(length);
    let start = bytes * usize::from(score[0]);
    start..start + bytes
}

/// An entry's bytes.
pub fn hint(score: &Score, kind: u8, sector: usize) -> [u8; HINT] {
    let mut bytes = [0; HINT];
    bytes[..20].copy_from_slice(score);
    bytes[20] = kind;
    bytes[21..].copy_from_slice(&(sector as u32).to_be_bytes());
    bytes
}

/// Enters a block in the first free place of its bucket. Without one it is left out.
pub fn enter(index: &mut [u8], score: &Score, kind: u8, sector: usize) {
    let bucket = bucket(index.len(), score);
    let mut places = index[bucket].chunks_exact_mut(HINT);
    if let Some(free) = places.find(|place| place.iter().all(|&byte| byte == 0)) {
        free.copy_from_slice(&hint(score, kind, sector));
    }
}

/// Whether the bucket of a score has an entry with it, this type and this sector.
pub fn listed(index: &[u8], score: &Score, kind: u8, sector: usize) -> bool {
    let mut entries = index[bucket(index.len(), score)].chunks_exact(HINT);
    entries.any(|entry| entry == hint(score, kind, sector))
}

/// Makes the index of a log alone: clears the buckets and enters each sound block in log order. Gives the
/// number, 0 for none.
pub fn rebuild(log: &[u8], index: &mut [u8]) -> u8 {
    if !well_sized(log.len()) {
        return 3;
    }
    let cleared = BUCKETS * HINT * places(index.len());
    index[..cleared].fill(0);
    for block in Contents::of(log).blocks {
        enter(index, &block.score, block.kind, block.first);
    }
    0
}

/// Look-up by index of a lawful type in the joined log: the first entry of the bucket that holds true for
/// this score and type, else the scan.
pub fn lookup(log: &[u8], index: &[u8], kind: u8, score: &Score) -> Lookup {
    if *score == ZERO_SCORE {
        return Lookup::Empty;
    }
    match hinted(log, index, kind, score) {
        Some(block) => Lookup::Found(block),
        None => Contents::of(log).lookup(kind, score),
    }
}

/// The block of the first entry of the bucket that holds true.
pub fn hinted(log: &[u8], index: &[u8], kind: u8, score: &Score) -> Option<Block> {
    let bucket = &index[bucket(index.len(), score)];
    let mut entries = bucket.chunks_exact(HINT);
    entries.find_map(|entry| true_hint(log, entry, kind, score))
}

/// The sound block of this score and type at the sector that an entry for them names.
fn true_hint(log: &[u8], entry: &[u8], kind: u8, score: &Score) -> Option<Block> {
    let sector = number(&entry[21..]);
    if entry[..20] != *score || entry[20] != kind || sector >= log.len() / SECTOR {
        return None;
    }
    sound_at(log, sector).filter(|block| block.score == *score && block.kind == kind)
}

/// Where the block of a score and type starts, by an index: none for the empty block, which is not stored.
pub fn asked(
    log: &[u8],
    waiting: &[u8],
    index: &[u8],
    kind: u8,
    score: &Score,
) -> Result<Option<usize>, Refusal> {
    if !well_lent(log.len(), waiting.len()) {
        return Err(3.into());
    }
    if !lawful(kind) {
        return Err(9.into());
    }
    match lookup(&joined(log, waiting), index, kind, score) {
        Lookup::Empty => Ok(None),
        Lookup::Found(block) => Ok(Some(block.first)),
        Lookup::Missing(refused) => Err(refused),
    }
}
