//! The layout of a log: its sizes, its used part, and what a sector's label says.

use std::ops::Range;

use crate::hex;

/// Bytes in a sector, and those before its check: label and payload.
pub const SECTOR: usize = 512;
const CHECKED: usize = 499;
/// Bytes of the lines that each label has, and of the date's line that stands before them in the
/// second edition.
const LINES: usize = 96;
const DATE_LINE: usize = 14;
/// Bytes of payload in a sector of a new block, which has a date.
pub const PAYLOAD: usize = CHECKED - LINES - DATE_LINE;
pub use boundary::MOST_SECTORS;
/// The most bytes a block may have, and the most sectors that a new one takes.
pub const MOST_DATA: usize = 57_344;
pub const MOST_PARTS: usize = MOST_DATA.div_ceil(PAYLOAD);

pub const BLANK: [u8; SECTOR] = [0; SECTOR];

pub type Score = [u8; 20];
/// Eight decimal digits.
pub type Date = [u8; 8];

/// That limit as one reads it, with a comma after each thousand.
pub fn limit() -> String {
    let digits = MOST_SECTORS.to_string();
    let groups: Vec<_> = digits.as_bytes().rchunks(3).rev().collect();
    String::from_utf8_lossy(&groups.join(&b',')).into_owned()
}

/// The sectors of the used part.
pub fn used(log: &[u8]) -> usize {
    let last = log.chunks_exact(SECTOR).rposition(|sector| sector != BLANK);
    last.map_or(0, |last| last + 1)
}

/// The sectors that a new block of so many bytes takes.
pub fn sectors_of(size: usize) -> usize {
    size.div_ceil(PAYLOAD)
}

/// Where the payload lies in a sector.
pub fn payload(sector: &[u8]) -> Range<usize> {
    front(sector) + LINES..CHECKED
}

/// The date at the front of a label of the second edition; one of the first has none.
pub fn date(sector: &[u8]) -> Option<Date> {
    let line = sector.get(..DATE_LINE)?.strip_prefix(b"date=")?;
    let date = Date::try_from(line.strip_suffix(b"\n")?).ok()?;
    date.iter().all(u8::is_ascii_digit).then_some(date)
}

/// The bytes of the date's line.
fn front(sector: &[u8]) -> usize {
    date(sector).map_or(0, |_| DATE_LINE)
}

/// A block type as `--type` takes it.
pub fn kind_name(kind: u8) -> String {
    match kind {
        1 => "root".to_string(),
        2 => "dir".to_string(),
        3..=9 => format!("ptr{}", kind - 2),
        13 => "data".to_string(),
        other => other.to_string(),
    }
}

/// Test 3, of a length in bytes.
pub fn allowed(length: u64) -> bool {
    length.is_multiple_of(SECTOR as u64) && length / SECTOR as u64 <= MOST_SECTORS as u64
}

/// What the label of a block's sector says of the block: its type's digits and its score's.
pub fn named(sector: &[u8]) -> (&[u8], &[u8]) {
    let lines = &sector[front(sector)..];
    (&lines[36..38], &lines[55..95])
}

/// The type and score that the label of a sound block says.
pub fn label(sector: &[u8]) -> Option<(u8, Score)> {
    let (kind, score) = named(sector);
    let kind: [u8; 1] = hex::decode(str::from_utf8(kind).ok()?)?;
    Some((kind[0], hex::decode(str::from_utf8(score).ok()?)?))
}

/// The type and score of the block that starts at a sector of this number, by what its label says.
pub fn start(sector: &[u8], number: usize) -> Option<(u8, Score)> {
    let digits = &sector[front(sector)..][4..12];
    let first: [u8; 4] = hex::decode(str::from_utf8(digits).ok()?)?;
    match u32::from_be_bytes(first) as usize == number {
        true => label(sector),
        false => None,
    }
}

/// The digits that a label has for a type and a score.
pub fn digits(kind: u8, score: &Score) -> (String, String) {
    (hex::encode(&[kind]), hex::encode(score))
}
