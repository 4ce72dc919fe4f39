//! The index beside a log: look-up by it, and rebuilding.

use crate::{answer, boundary, Refusal};

/// Where a stored block starts, and how many bytes it has. The empty block is at sector 0 with none.
#[derive(Clone, Copy, Debug, PartialEq, Eq)]
pub struct Place {
    /// A sector of the log's used part and of what waits behind it, read as one log.
    pub sector: usize,
    pub size: usize,
}

/// Looks a score and type up by `index`, of any length and any bytes: the block of the first true
/// entry, else the one that the scan finds.
pub fn look_up_by(
    log: &[u8],
    waiting: &[u8],
    index: &[u8],
    kind: u8,
    score: &[u8; 20],
) -> Result<Place, Refusal> {
    // SAFETY: the pointers and lengths are those of slices that outlive the call and are only read;
    // `score` is a reference to 20 bytes.
    placed(unsafe {
        boundary::skywimple_look_up_by(
            log.as_ptr(),
            log.len(),
            waiting.as_ptr(),
            waiting.len(),
            index.as_ptr(),
            index.len(),
            kind,
            score,
        )
    })
}

/// What a result of look-up says: the number, the size, and above both the first sector of the block
/// or the first doubtful one.
fn placed(result: u64) -> Result<Place, Refusal> {
    let sector = (result / 256 / 65_536) as usize;
    Refusal::with_sector((result % 256) as u8, sector)?;
    Ok(Place {
        sector,
        size: (result / 256 % 65_536) as usize,
    })
}

/// Rebuilds `index` from `log` alone, which has nothing waiting: every sound block is entered, as far
/// as its bucket has places. The bytes after the last whole 6,400 stay.
pub fn rebuild(log: &[u8], index: &mut [u8]) -> Result<(), Refusal> {
    // SAFETY: the pointers and lengths are those of slices that outlive the call; `index` is borrowed
    // alone, so it does not overlap `log`.
    answer(unsafe {
        boundary::skywimple_rebuild(log.as_ptr(), log.len(), index.as_mut_ptr(), index.len())
    })
    .map(|_| ())
}

#[cfg(test)]
mod tests {
    use super::{placed, Place};
    use crate::Refusal;

    #[test]
    fn what_a_look_up_says() {
        let place = Place {
            sector: 1_048_831,
            size: 57_344,
        };
        assert_eq!(placed(256 * (57_344 + 65_536 * 1_048_831)), Ok(place));
        assert_eq!(placed(11), Err(Refusal::NotHeld));
        let doubt = Refusal::NotKnown { sector: 7 };
        assert_eq!(placed(12 + 256 * 65_536 * 7), Err(doubt));
    }
}
