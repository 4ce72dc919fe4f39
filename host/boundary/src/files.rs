//! The writer of files.

use crate::{boundary, Refusal};

/// The bytes of an entry.
const ENTRY: usize = 40;
/// The bytes that the writer is lent for scores: one for each of the most leaves.
pub const FILE_SCORES: usize = 20 * 57_344;

/// Writes a slice of at most 57,344 bytes as a file: leaves of `dsize` bytes, pointer blocks of `psize`,
/// each cut and appended in `waiting` with the date, as a write of it would be. Gives the file's entry. A
/// refusal keeps the blocks before it; 14 for want of room in `waiting` is mended by a sync, after which
/// the same call finds them and goes on. `scores` has at least `FILE_SCORES` bytes; those used are zeros
/// afterwards.
pub fn write_file(
    log: &[u8],
    waiting: &mut [u8],
    date: &[u8],
    slice: &[u8],
    (dsize, psize): (usize, usize),
    scores: &mut [u8],
) -> Result<[u8; ENTRY], Refusal> {
    let mut entry = [0; ENTRY];
    // SAFETY: the pointers and lengths are those of slices that outlive the call; the mutable ones are
    // borrowed alone, so none overlaps another.
    let number = unsafe {
        boundary::skywimple_write_file(
            log.as_ptr(),
            log.len(),
            waiting.as_mut_ptr(),
            waiting.len(),
            date.as_ptr(),
            date.len(),
            slice.as_ptr(),
            slice.len(),
            dsize,
            psize,
            entry.as_mut_ptr(),
            entry.len(),
            scores.as_mut_ptr(),
            scores.len(),
        )
    };
    Refusal::of(number as u8)?;
    Ok(entry)
}
