//! What a log holds: its report, and the sound block at a sector.

use crate::{answer, boundary, Refusal};

/// Writes the report of `log` to the front of `buffer` and gives its length.
pub fn report(log: &[u8], buffer: &mut [u8]) -> Result<usize, Refusal> {
    // SAFETY: the pointers and lengths are those of slices that outlive the call; `buffer` is
    // borrowed alone, so it does not overlap `log`.
    answer(unsafe {
        boundary::skywimple_report(log.as_ptr(), log.len(), buffer.as_mut_ptr(), buffer.len())
    })
}

/// The size in bytes of the sound block that starts at a sector, 0 if none does there.
pub fn sound_at(log: &[u8], sector: usize) -> Result<usize, Refusal> {
    // SAFETY: the pointer and the length are those of a slice that outlives the call.
    answer(unsafe { boundary::skywimple_sound_at(log.as_ptr(), log.len(), sector) })
}
