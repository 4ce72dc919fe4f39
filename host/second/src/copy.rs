//! A copy of all that a root reaches to another log.

use crate::edition::Edition;
use crate::log::{well_lent, well_sized};
use crate::refusal::Refusal;
use crate::store::store;
use crate::walk::{Walk, MOST_VISITS};
use crate::Score;

/// Copies what a root reaches into a second log, for which nothing waits: each block when all below it is
/// done, through the four steps of a write. Gives how it ended, and the visits spent. What was copied
/// before a refusal stays.
pub fn copy(
    log: &[u8],
    waiting: &[u8],
    second: &mut [u8],
    date: &[u8],
    score: &Score,
    allowance: u64,
) -> (Result<(), Refusal>, u64) {
    if !well_lent(log.len(), waiting.len()) || !well_sized(second.len()) {
        return (Err(3.into()), 0);
    }
    let edition = match Edition::of(Some(date)) {
        Ok(edition) => edition,
        Err(number) => return (Err(number.into()), 0),
    };
    if allowance > MOST_VISITS {
        return (Err(23.into()), 0);
    }
    let mut append = |kind, data: &[u8]| {
        store(second, None, edition, kind, data)?;
        Ok(())
    };
    Walk::new(log, waiting, allowance, &mut append).run(score)
}
