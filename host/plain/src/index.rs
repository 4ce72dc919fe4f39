//! The index in ordinary Rust: 256 buckets by the first byte of the score, each entry a score, a type and
//! the sector where the block starts. It is only a hint: whoever uses one looks at the block.

use crate::log::{sound_blocks, well_sized, Refused, Score};

const BUCKETS: usize = 256;
const ENTRY: usize = 25;
/// The bytes of an entry that name its block.
const NAME: usize = 21;

/// The bytes of an index with so many places in each bucket.
pub const fn length(places: usize) -> usize {
    BUCKETS * ENTRY * places
}

fn name(kind: u8, score: &Score) -> [u8; NAME] {
    let mut name = [0; NAME];
    name[..20].copy_from_slice(score);
    name[20] = kind;
    name
}

/// The start and the length of a score's bucket.
fn bucket(index: &[u8], score: &Score) -> (usize, usize) {
    let length = ENTRY * (index.len() / (BUCKETS * ENTRY));
    (usize::from(score[0]) * length, length)
}

/// The sectors where the entries of a type and score say that their block starts.
pub fn hints<'a>(index: &'a [u8], kind: u8, score: &Score) -> impl Iterator<Item = usize> + 'a {
    let (start, length) = bucket(index, score);
    let (entries, _) = index[start..start + length].as_chunks::<ENTRY>();
    let name = name(kind, score);
    entries.iter().filter_map(move |entry| {
        let sector = entry.strip_prefix(&name)?;
        Some(u32::from_be_bytes(sector.try_into().ok()?) as usize)
    })
}

/// Enters a block in the first free place of its bucket, if there is one.
pub fn enter(index: &mut [u8], kind: u8, score: &Score, first: usize) {
    let (start, length) = bucket(index, score);
    let (entries, _) = index[start..start + length].as_chunks_mut::<ENTRY>();
    if let Some(free) = entries.iter_mut().find(|entry| **entry == [0; ENTRY]) {
        free[..NAME].copy_from_slice(&name(kind, score));
        free[NAME..].copy_from_slice(&(first as u32).to_be_bytes());
    }
}

/// Makes the index of a log anew. Refuses 3.
pub fn rebuild(log: &[u8], index: &mut [u8]) -> Result<(), Refused> {
    if !well_sized(log, &[]) {
        return Err(Refused::Number(3));
    }
    let cleared = length(index.len() / length(1));
    index[..cleared].fill(0);
    sound_blocks(log, |kind, score, first| enter(index, kind, score, first));
    Ok(())
}
