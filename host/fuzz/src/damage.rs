//! Damage that the archive has to live with, measured against what was last written: each changed
//! sector is in the used part that is left, and its check doesn't fit or it differs only within four
//! neighbouring bytes. So each is doubtful. And healing, which puts sectors back as they were written.

use second::account::Account;
use second::log::{used, Contents};
use second::sector::{blank, fits, CHECK, SECTOR};

use crate::random::Random;

/// The log of an account after some damage or healing, of whole sectors.
pub fn damaged(random: &mut Random, account: &Account) -> Vec<u8> {
    let before = account.log();
    let sectors = before.len() / SECTOR;
    let mut log = before.to_vec();
    if sectors == 0 {
        return log;
    }
    let changed: Vec<usize> = account.ledger.changed().iter().copied().collect();
    if !changed.is_empty() && random.percent(50) {
        heal(random, account, &changed, &mut log);
    }
    let used = used(&log[..sectors * SECTOR]).max(1);
    for _ in 0..random.pick(&[0, 1, 1, 1, 2, 2, 3, 5]) {
        let number = match random.below(10) {
            0 => sectors - 1,
            1 => random.below(sectors),
            2 => used.min(sectors - 1),
            _ => random.below(used),
        };
        hurt(random, number, &mut log);
    }
    undo_lost(account, before, &mut log);
    log
}

/// Puts some of the changed sectors back as they were written, or all.
fn heal(random: &mut Random, account: &Account, changed: &[usize], log: &mut [u8]) {
    let written = account.written();
    let all = random.percent(40);
    for &number in changed {
        if all || random.percent(50) {
            let range = number * SECTOR..(number + 1) * SECTOR;
            log[range.clone()].copy_from_slice(&written[range]);
        }
    }
}

/// Changes a sector, or nearly always.
fn hurt(random: &mut Random, number: usize, log: &mut [u8]) {
    let other = random.below(log.len() / SECTOR);
    let other = log[other * SECTOR..(other + 1) * SECTOR].to_vec();
    let sector = &mut log[number * SECTOR..(number + 1) * SECTOR];
    match random.below(10) {
        0..=3 => within_four(random, sector),
        4..=7 => unfitting(random, sector, &other),
        _ => sector.fill(0),
    }
}

/// Takes back what isn't allowed: a changed sector that is not doubtful, such as zeros at the end of
/// the used part. What was there before was allowed.
fn undo_lost(account: &Account, before: &[u8], log: &mut [u8]) {
    loop {
        let contents = Contents::of(&log[..log.len() / SECTOR * SECTOR]);
        let sound = |sector| {
            let mut blocks = contents.blocks.iter();
            blocks.any(|block| (block.first..block.first + block.sectors()).contains(&sector))
        };
        let lost: Vec<usize> = account
            .changed_in(log)
            .into_iter()
            .filter(|&sector| sector >= contents.used || sound(sector))
            .collect();
        if lost.is_empty() {
            return;
        }
        let mut undone = false;
        for number in lost {
            let range = number * SECTOR..(number + 1) * SECTOR;
            undone |= log[range.clone()] != before[range.clone()];
            log[range.clone()].copy_from_slice(&before[range]);
        }
        if !undone {
            // Healing behind them has left them outside the used part.
            log.copy_from_slice(before);
            return;
        }
    }
}

/// Changes one to four bytes in a window of four.
fn within_four(random: &mut Random, sector: &mut [u8]) {
    let start = match random.below(4) {
        0 => random.between(CHECK - 4, SECTOR - 4),
        1 => random.below(110),
        _ => random.below(SECTOR - 3),
    };
    let count = random.between(1, 4);
    for byte in &mut sector[start..start + count] {
        *byte = match random.below(3) {
            0 => *byte ^ 1 << random.below(8),
            1 => *byte ^ 0x20,
            _ => random.byte(),
        };
    }
    if blank(sector) {
        sector[start] = 1;
    }
}

/// Writes anything that isn't blank and whose check doesn't fit.
pub fn unfitting(random: &mut Random, sector: &mut [u8], other: &[u8]) {
    match random.below(6) {
        0 => sector.copy_from_slice(&random.bytes(SECTOR)),
        1 => sector.fill(random.mark()),
        2 => sector.copy_from_slice(other),
        3 => sector.rotate_right(random.between(1, SECTOR - 1)),
        4 => sector[CHECK..].make_ascii_uppercase(),
        _ => {
            for _ in 0..random.between(1, 20) {
                sector[random.below(SECTOR)] = random.byte();
            }
        }
    }
    while fits(sector) || blank(sector) {
        sector[random.below(SECTOR)] ^= random.mark();
    }
}

/// Says where two logs differ.
pub fn describe(before: &[u8], after: &[u8]) -> String {
    let mut text = String::new();
    for (number, (old, new)) in before.chunks(SECTOR).zip(after.chunks(SECTOR)).enumerate() {
        let differs: Vec<usize> = (0..old.len()).filter(|&at| old[at] != new[at]).collect();
        if let (Some(first), Some(last)) = (differs.first(), differs.last()) {
            text += &format!(
                "sector {number} in {} bytes, {first} to {last}; ",
                differs.len()
            );
        }
    }
    text
}
