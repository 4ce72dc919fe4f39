//! The log report.

use crate::log::{well_sized, Contents};
use crate::sector::SECTOR;

/// The least length of a report buffer.
pub const LEAST_REPORT: usize = 128;
/// The most sectors that the program takes on standard input.
pub const MOST_INPUT: usize = 127;

/// Writes the report to the front of the buffer and gives its length, or the number.
pub fn report(log: &[u8], buffer: &mut [u8]) -> Result<usize, u8> {
    if buffer.len() < LEAST_REPORT {
        return Err(2);
    }
    if !well_sized(log.len()) {
        return Err(3);
    }
    let text = text(log);
    buffer[..text.len()].copy_from_slice(text.as_bytes());
    Ok(text.len())
}

/// What the program prints for its standard input.
pub fn print(input: &[u8]) -> String {
    if !well_sized(input.len()) || input.len() / SECTOR > MOST_INPUT {
        return "why=03\n".to_string();
    }
    text(input)
}

fn text(log: &[u8]) -> String {
    let contents = Contents::of(log);
    let verdict = if contents.doubtful == 0 {
        "sound"
    } else {
        "notknown"
    };
    format!(
        "sectors={}\nused={}\nrecords={}\ndoubtful={}\nverdict={}\n",
        log.len() / SECTOR,
        contents.used,
        contents.blocks.len(),
        contents.doubtful,
        verdict
    )
}
