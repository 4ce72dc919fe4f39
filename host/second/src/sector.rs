//! One sector of the log: a label of 96 or 110 bytes, the payload and a check of 13.

use crate::crc32::crc32;
use crate::edition::{dated, Edition};
use crate::Score;

/// Bytes in a sector.
pub const SECTOR: usize = 512;
/// Where the check starts.
pub const CHECK: usize = 499;

/// What a sector's label says.
#[derive(Clone, Copy, Debug, PartialEq, Eq)]
pub struct Label {
    /// Whether it begins with a date, and which.
    pub edition: Edition,
    /// The sector number where the block starts.
    pub rec: u32,
    pub part: u16,
    pub of: u16,
    pub kind: u8,
    /// Bytes in the block.
    pub size: u16,
    pub score: Score,
}

/// A whole sector: the label, the payload filled up with zeros, the check.
pub fn encode(label: &Label, payload: &[u8]) -> [u8; SECTOR] {
    let mut text = Vec::with_capacity(SECTOR);
    text.extend(label.edition.first_line());
    line(&mut text, "rec=", &label.rec.to_be_bytes());
    line(&mut text, "part=", &label.part.to_be_bytes());
    line(&mut text, "of=", &label.of.to_be_bytes());
    line(&mut text, "type=", &[label.kind]);
    line(&mut text, "size=", &label.size.to_be_bytes());
    line(&mut text, "score=", &label.score);
    text.extend(payload);
    text.resize(CHECK, 0);
    text.extend(check(&text));
    let mut sector = [0; SECTOR];
    sector.copy_from_slice(&text);
    sector
}

/// The check line for the first 499 bytes.
pub fn check(checked: &[u8]) -> Vec<u8> {
    let mut text = Vec::with_capacity(SECTOR - CHECK);
    line(&mut text, "crc=", &crc32(checked).to_be_bytes());
    text
}

/// The payload of a sector of this edition.
pub fn payload(sector: &[u8], edition: Edition) -> &[u8] {
    &sector[edition.label()..CHECK]
}

/// Whether the check fits.
pub fn fits(sector: &[u8]) -> bool {
    sector[CHECK..] == check(&sector[..CHECK])
}

/// Whether the sector is all zeros.
pub fn blank(sector: &[u8]) -> bool {
    sector.iter().all(|&byte| byte == 0)
}

/// The label, if its lines are exactly as they are written. A sector that begins with the line of a
/// date is judged by the second edition only, any other by the first only.
pub fn label(sector: &[u8]) -> Option<Label> {
    let edition = dated(sector).map_or(Edition::First, Edition::Second);
    let mut rest = &sector[edition.front()..];
    let rec = field(&mut rest, "rec=")?;
    let part = field(&mut rest, "part=")?;
    let of = field(&mut rest, "of=")?;
    let [kind] = field(&mut rest, "type=")?;
    let size = field(&mut rest, "size=")?;
    let score = field(&mut rest, "score=")?;
    Some(Label {
        edition,
        rec: u32::from_be_bytes(rec),
        part: u16::from_be_bytes(part),
        of: u16::from_be_bytes(of),
        kind,
        size: u16::from_be_bytes(size),
        score,
    })
}

/// Writes a line: its name, the value in lower-case hex, a line feed.
fn line(text: &mut Vec<u8>, name: &str, value: &[u8]) {
    text.extend(name.bytes());
    for byte in value {
        text.push(b"0123456789abcdef"[usize::from(byte >> 4)]);
        text.push(b"0123456789abcdef"[usize::from(byte & 15)]);
    }
    text.push(b'\n');
}

/// Reads a line of this name with a value of N bytes.
fn field<const N: usize>(rest: &mut &[u8], name: &str) -> Option<[u8; N]> {
    let digits = rest.strip_prefix(name.as_bytes())?;
    let mut value = [0; N];
    for i in 0..N {
        value[i] = 16 * digit(digits[2 * i])? + digit(digits[2 * i + 1])?;
    }
    *rest = digits[2 * N..].strip_prefix(b"\n")?;
    Some(value)
}

/// The value of a lower-case hex digit.
fn digit(byte: u8) -> Option<u8> {
    match byte {
        b'0'..=b'9' => Some(byte - b'0'),
        b'a'..=b'f' => Some(byte - b'a' + 10),
        _ => None,
    }
}
