//! Entries for trees of some measures.

use second::Score;

use crate::messages::pad;
use crate::random::Random;

/// The measures of a tree.
#[derive(Clone, Copy)]
pub struct Shape {
    pub psize: usize,
    pub dsize: usize,
    pub directory: bool,
    pub depth: usize,
}

impl Shape {
    /// A well-formed, active entry.
    pub fn bytes(&self, score: &Score, size: u64) -> Vec<u8> {
        let mut bytes = vec![0; 4];
        bytes.extend((self.psize as u16).to_be_bytes());
        bytes.extend((self.dsize as u16).to_be_bytes());
        bytes.push(1 + 2 * u8::from(self.directory) + 4 * self.depth as u8);
        bytes.extend([0; 5]);
        bytes.extend(&size.to_be_bytes()[2..]);
        bytes.extend(score);
        bytes
    }

    /// An entry, mostly well-formed and active, of a size that its tree can have or nearly. The pad
    /// of an inactive one is anything.
    pub fn entry(&self, random: &mut Random, score: &Score) -> Vec<u8> {
        let fan = (self.psize / 20) as u128;
        let most = (self.dsize as u128 * fan.pow(self.depth as u32)).min((1 << 48) - 1) as u64;
        let size = match random.below(20) {
            0 => (most + 1).min((1 << 48) - 1),
            1 => 0,
            2..=12 => most,
            13..=15 => most.saturating_sub(random.below(50) as u64),
            _ => random.number() % (most + 1),
        };
        let mut bytes = self.bytes(score, size);
        bytes[..4].copy_from_slice(&random.bytes(4));
        bytes[9..14].copy_from_slice(&pad(random, 5));
        match random.below(60) {
            0 => bytes[8] |= 0x20 << random.below(3),
            1 => bytes[4..6].copy_from_slice(&[0, 39]),
            2 => bytes[4..6].copy_from_slice(&[0xe0, 1]),
            3 => bytes[6..8].copy_from_slice(&[0, 0]),
            4 => bytes[6..8].copy_from_slice(&[0xe0, 1]),
            5 => bytes[7] = bytes[7].wrapping_add(1),
            6..=9 => {
                bytes[8] &= !1;
                bytes[9..14].copy_from_slice(&random.bytes(5));
            }
            10 => bytes[8] = random.byte(),
            _ => {}
        }
        bytes
    }
}
