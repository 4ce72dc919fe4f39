//! The writer of files: the blocks of a slice, stored from the leaves upward, and the entry over them.

use crate::edition::Edition;
use crate::kind::DATA;
use crate::log::{well_lent, MOST_DATA};
use crate::sha1::{sha1, Score, ZERO_SCORE};
use crate::store::store;
use crate::tree::ENTRY;
use crate::zeros::cut;

/// The most pointer levels of a file.
pub const MOST_DEPTH: u32 = 7;

/// The blocks of a file in the order in which they are stored, and its entry.
#[derive(Clone, Debug, PartialEq, Eq)]
pub struct File {
    /// Types and data. Those that are cut to nothing stand here too.
    pub blocks: Vec<(u8, Vec<u8>)>,
    pub entry: [u8; ENTRY],
}

/// Writes a slice as a file and gives its entry, or the number. The blocks that were stored before 14 or
/// 15 stay.
pub fn write_file(
    log: &mut [u8],
    waiting: &mut [u8],
    date: &[u8],
    slice: &[u8],
    dsize: usize,
    psize: usize,
) -> Result<[u8; ENTRY], u8> {
    if !well_lent(log.len(), waiting.len()) {
        return Err(3);
    }
    let edition = Edition::of(Some(date))?;
    let file = file(slice, dsize, psize)?;
    for (kind, data) in &file.blocks {
        store(log, Some(waiting), edition, *kind, data)?;
    }
    Ok(file.entry)
}

/// What a slice gives, or 10, then 16.
pub fn file(slice: &[u8], dsize: usize, psize: usize) -> Result<File, u8> {
    if slice.len() > MOST_DATA {
        return Err(10);
    }
    if !(1..=57_344).contains(&dsize) || !(40..=57_344).contains(&psize) {
        return Err(16);
    }
    let depth = least_depth(slice.len(), dsize, psize).ok_or(16)?;

    let mut blocks = Vec::new();
    let mut scores = level(&mut blocks, DATA, slice, dsize);
    for height in 1..=depth {
        let pointers = scores.concat();
        scores = level(&mut blocks, 2 + height as u8, &pointers, psize / 20 * 20);
    }
    let top = scores.first().copied().unwrap_or(ZERO_SCORE);
    Ok(File {
        blocks,
        entry: entry_of(slice.len(), dsize, psize, depth, &top),
    })
}

/// The least depth that holds so many bytes, none if that is over 7.
fn least_depth(length: usize, dsize: usize, psize: usize) -> Option<u32> {
    let holds = |depth: &u32| length as u128 <= dsize as u128 * (psize as u128 / 20).pow(*depth);
    (0..=MOST_DEPTH).find(holds)
}

/// Adds the blocks of one level, each cut, and gives their scores from the left.
fn level(blocks: &mut Vec<(u8, Vec<u8>)>, kind: u8, bytes: &[u8], most: usize) -> Vec<Score> {
    let mut scores = Vec::new();
    for piece in bytes.chunks(most) {
        let length = cut(kind, piece).expect("whole scores of a lawful type");
        scores.push(sha1(&piece[..length]));
        blocks.push((kind, piece[..length].to_vec()));
    }
    scores
}

/// gen[4] psize[2] dsize[2] flags[1] pad[5] size[6] score[20]: active, not local, no directory.
fn entry_of(length: usize, dsize: usize, psize: usize, depth: u32, top: &Score) -> [u8; ENTRY] {
    let mut entry = [0; ENTRY];
    entry[4..6].copy_from_slice(&(psize as u16).to_be_bytes());
    entry[6..8].copy_from_slice(&(dsize as u16).to_be_bytes());
    entry[8] = 1 + 4 * depth as u8;
    entry[14..20].copy_from_slice(&(length as u64).to_be_bytes()[2..]);
    entry[20..].copy_from_slice(top);
    entry
}
