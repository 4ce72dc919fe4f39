//! The archive's parts in ordinary Rust, written from the same documents and sharing nothing with
//! the proved code: to compare results and speed with. So it is written to be quick, but in safe Rust and
//! without intrinsics: SHA-1 with a ring of sixteen words and all rounds written out, CRC-32 by eight static
//! tables, a scan that looks at eight digits of the score first, the end of the used part by `memcmp`, and the
//! same index.

pub mod crc32;
pub mod index;
pub mod log;
pub mod random;
pub mod sha1;
