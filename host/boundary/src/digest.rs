//! SHA-1 and CRC-32.

use crate::{boundary, Refusal};

/// The CRC-32 of `s`.
pub fn crc32(s: &[u8]) -> u32 {
    // SAFETY: the pointer and the length are those of a slice that outlives the call.
    unsafe { boundary::skywimple_crc32(s.as_ptr(), s.len()) }
}

/// Writes the SHA-1 of `s` to the first 20 bytes of `out`. Where `out` is shorter, writes nothing.
pub fn sha1_into(s: &[u8], out: &mut [u8]) -> Result<(), Refusal> {
    // SAFETY: as above, and `out` is borrowed alone, so it does not overlap `s`.
    let number =
        unsafe { boundary::skywimple_sha1(s.as_ptr(), s.len(), out.as_mut_ptr(), out.len()) };
    Refusal::of(number as u8)
}

/// The SHA-1 of `s`.
pub fn sha1(s: &[u8]) -> [u8; 20] {
    let mut digest = [0; 20];
    sha1_into(s, &mut digest).expect("a digest has 20 bytes");
    digest
}
