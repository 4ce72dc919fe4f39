//! Dates that are lent with requests, and editions of blocks.

use second::{Date, Edition};

use crate::random::Random;

/// Lawful dates, few, so that they meet again.
const DATES: [&Date; 4] = [b"20261116", b"20261117", b"00000000", b"99999999"];

/// Bytes that are nearly digits, and some that are.
const NEARLY: &[u8] = b"/:09a \n\0\xb2\xff-";

/// A date as it is lent, nearly always lawful.
pub fn lent(random: &mut Random) -> Vec<u8> {
    let mut date = random.pick(&DATES).to_vec();
    match random.below(60) {
        0 => date.truncate(random.below(8)),
        1 => date.push(random.pick(NEARLY)),
        2 => {
            let at = random.below(8);
            date[at] = random.pick(NEARLY);
        }
        3 => {
            let count = random.below(20);
            date = random.bytes(count);
        }
        4..=9 => date = format!("{:08}", random.below(100_000_000)).into_bytes(),
        _ => {}
    }
    date
}

/// An edition of a block, dated more often than not.
pub fn edition(random: &mut Random) -> Edition {
    match random.below(3) {
        0 => Edition::First,
        _ => Edition::Second(*random.pick(&DATES)),
    }
}

/// The date of another edition than this one, or of this day's neighbour.
pub fn other(random: &mut Random, edition: Edition) -> Edition {
    match edition {
        Edition::First => Edition::Second(*random.pick(&DATES)),
        Edition::Second(mut date) => {
            let at = random.below(8);
            date[at] = b'0' + (date[at] - b'0' + 1) % 10;
            Edition::Second(date)
        }
    }
}

/// Puts something that is no date, or not its line, at the front of a dated sector.
pub fn spoil(random: &mut Random, sector: &mut [u8]) {
    let at = random.between(5, 12);
    match random.below(4) {
        0 => sector[random.below(5)] ^= 0x20,
        1 => sector[13] = random.pick(b" \r\0"),
        _ => sector[at] = random.pick(b"/:a \n\0"),
    }
}
