//! Cutting zeros off a block, and padding it with them.

use crate::{boundary, Refusal};

/// The length of a block without the zeros at its end, zero scores for pointer types.
pub fn cut(kind: u8, block: &[u8]) -> Result<usize, Refusal> {
    // SAFETY: the pointer and the length are those of a slice that outlives the call.
    let result = unsafe { boundary::skywimple_cut(kind, block.as_ptr(), block.len()) };
    Refusal::of(result.saturating_sub(block.len()) as u8)?;
    Ok(result)
}

/// Pads the block of `block_len` bytes at the front of `buffer` to `target` bytes.
pub fn pad(kind: u8, buffer: &mut [u8], block_len: usize, target: usize) -> Result<(), Refusal> {
    // SAFETY: as above, and `buffer` is borrowed alone.
    let number = unsafe {
        boundary::skywimple_pad(kind, buffer.as_mut_ptr(), buffer.len(), block_len, target)
    };
    Refusal::of(number as u8)
}
