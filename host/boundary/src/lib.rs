//! The proved archive's functions, safe to call from Rust. `crates/boundary` has their contracts.
//! Each that can refuse says so by a `Result` with a `Refusal`.

mod boundary;
mod cards;
mod changes;
mod digest;
mod files;
mod index;
mod known;
mod refusal;
mod report;
mod request;
mod tree;
mod zeros;

pub use cards::{is_card, search, Value};
pub use changes::{difference, differences, Compared, Difference};
pub use digest::{crc32, sha1, sha1_into};
pub use files::{write_file, FILE_SCORES};
pub use index::{look_up_by, rebuild, Place};
pub use known::{serve_known, Known};
pub use refusal::Refusal;
pub use report::{report, sound_at};
pub use request::{serve, Served, Session};
pub use tree::{block_type, copy, fill, locate, read, walk, Filled, Run, Walked};
pub use zeros::{cut, pad};

/// The most sectors of a log: one more is refused with 3.
pub const MOST_SECTORS: usize = 1_048_576;
/// The most sectors of a waiting part: one more is refused with 3.
pub const MOST_WAITING: usize = 256;

/// A result that is a refusal's number, or 0 and 256 times the answer.
fn answer(result: u32) -> Result<usize, Refusal> {
    Refusal::of((result % 256) as u8)?;
    Ok((result / 256) as usize)
}
