//! A stop while sectors are on their way into the log, in any order: each of them has arrived whole, is
//! torn, or is blank still.

use std::collections::BTreeSet;

use second::account::Account;
use second::sector::{blank, fits, SECTOR};

use crate::damage::unfitting;
use crate::random::Random;

/// What a stop leaves.
pub struct Left {
    pub log: Vec<u8>,
    /// The sectors that arrived whole.
    pub whole: BTreeSet<usize>,
    /// Those that are neither whole nor blank.
    pub torn: BTreeSet<usize>,
}

/// A stop while the waiting rows of an account were being written.
pub fn crashed(random: &mut Random, account: &Account) -> Left {
    let mut left = Left {
        log: account.log().to_vec(),
        whole: BTreeSet::new(),
        torn: BTreeSet::new(),
    };
    let sectors = account.on_their_way();
    let in_order = random.percent(30);
    let count = random.below(sectors.len() + 1);
    let arriving = random.pick(&[10, 50, 80, 100]);
    for (place, (number, bytes)) in sectors.iter().enumerate() {
        let arrives = if in_order {
            place < count
        } else {
            random.percent(arriving)
        };
        let sector = &mut left.log[number * SECTOR..(number + 1) * SECTOR];
        if arrives {
            sector.copy_from_slice(bytes);
            left.whole.insert(*number);
        } else if random.percent(if in_order && place > count { 0 } else { 40 }) {
            tear(random, bytes, sector);
            left.torn.insert(*number);
        }
    }
    left
}

/// Leaves a part of some bytes in a blank sector, or something else that doesn't fit.
fn tear(random: &mut Random, bytes: &[u8], sector: &mut [u8]) {
    let cut = random.between(1, SECTOR - 1);
    match random.below(4) {
        0 => sector[..cut].copy_from_slice(&bytes[..cut]),
        1 => sector[cut..].copy_from_slice(&bytes[cut..]),
        2 => {
            sector.copy_from_slice(bytes);
            sector[cut / 64 * 64..(cut / 64 + 1) * 64].fill(0);
        }
        _ => unfitting(random, sector, bytes),
    }
    while fits(sector) || blank(sector) {
        sector[random.below(SECTOR)] ^= random.mark();
    }
}
