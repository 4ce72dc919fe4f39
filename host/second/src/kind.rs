//! Block types.

pub const ROOT: u8 = 1;
pub const DIRECTORY: u8 = 2;
pub const DATA: u8 = 13;

/// The ten block types on the wire.
pub const KINDS: [u8; 10] = [1, 2, 3, 4, 5, 6, 7, 8, 9, 13];

/// Whether it is one of the ten.
pub fn lawful(kind: u8) -> bool {
    KINDS.contains(&kind)
}

/// Whether blocks of this type hold scores: pointers of level 1 to 7.
pub fn pointer(kind: u8) -> bool {
    (3..=9).contains(&kind)
}

/// The wire type of a number of the enumeration, or refusal 9.
pub fn wire_type(number: u64) -> Result<u8, u8> {
    match number {
        0 => Ok(DATA),
        1..=7 => Ok(number as u8 + 2),
        8 => Ok(DIRECTORY),
        9..=15 => Ok(number as u8 - 6),
        16 => Ok(ROOT),
        _ => Err(9),
    }
}
