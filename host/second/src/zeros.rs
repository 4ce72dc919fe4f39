//! Cutting and padding zeros.

use crate::kind::{lawful, pointer};
use crate::sha1::ZERO_SCORE;

/// The length of the shortest beginning whose rest is all zeros, or the number. Zeros are zero
/// scores for pointer types and zero bytes for the others.
pub fn cut(kind: u8, block: &[u8]) -> Result<usize, u8> {
    if !lawful(kind) {
        return Err(9);
    }
    if pointer(kind) && !block.len().is_multiple_of(20) {
        return Err(22);
    }
    let zero: &[u8] = if pointer(kind) { &ZERO_SCORE } else { &[0] };
    let mut rest = block;
    while let Some(shorter) = rest.strip_suffix(zero) {
        rest = shorter;
    }
    Ok(rest.len())
}

/// Appends zeros to the block at the buffer's front, up to a length. Gives the number, 0 for none.
pub fn pad(kind: u8, buffer: &mut [u8], block_len: usize, target: usize) -> u8 {
    if !lawful(kind) {
        return 9;
    }
    let odd = pointer(kind) && (!block_len.is_multiple_of(20) || !target.is_multiple_of(20));
    if target < block_len || target > buffer.len() || odd {
        return 22;
    }
    let room = &mut buffer[block_len..target];
    if pointer(kind) {
        for score in room.chunks_mut(20) {
            score.copy_from_slice(&ZERO_SCORE);
        }
    } else {
        room.fill(0);
    }
    0
}
