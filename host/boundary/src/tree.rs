//! Files and directories: reading a file at an offset, filling a buffer, and walking from a root.

use crate::{answer, boundary, Refusal};

/// Where a run of a file's bytes lies: in the log or in the waiting part from a byte on, or at the
/// front of the page of zeros.
#[derive(Clone, Copy, Debug, PartialEq, Eq)]
pub enum Run {
    Log { at: usize, length: usize },
    Waiting { at: usize, length: usize },
    Page { length: usize },
}

/// Where the bytes of a file at an offset lie, as one run.
pub fn locate(
    log: &[u8],
    waiting: &[u8],
    page: &[u8],
    entry: &[u8],
    offset: u64,
) -> Result<Run, Refusal> {
    // SAFETY: the pointers and lengths are those of slices that outlive the call and are only read.
    located(unsafe {
        boundary::skywimple_locate(
            log.as_ptr(),
            log.len(),
            waiting.as_ptr(),
            waiting.len(),
            page.as_ptr(),
            page.len(),
            entry.as_ptr(),
            entry.len(),
            offset,
        )
    })
}

/// What a result of locate says.
fn located(result: u64) -> Result<Run, Refusal> {
    // Where the run starts; beside a refusal, the first doubtful sector.
    let at = (result / 1024 / 65_536) as usize;
    Refusal::with_sector((result % 256) as u8, at)?;
    let length = (result / 1024 % 65_536) as usize;
    Ok(match result / 256 % 4 {
        0 => Run::Log { at, length },
        1 => Run::Waiting { at, length },
        _ => Run::Page { length },
    })
}

/// The bytes of a file at an offset, as one run out of the log, the waiting part or the page.
pub fn read<'a>(
    log: &'a [u8],
    waiting: &'a [u8],
    page: &'a [u8],
    entry: &[u8],
    offset: u64,
) -> Result<&'a [u8], Refusal> {
    Ok(match locate(log, waiting, page, entry, offset)? {
        Run::Log { at, length } => &log[at..at + length],
        Run::Waiting { at, length } => &waiting[at..at + length],
        Run::Page { length } => &page[..length],
    })
}

/// How filling a buffer ended.
#[derive(Clone, Copy, Debug, PartialEq, Eq)]
pub struct Filled {
    /// The bytes written to the buffer's front.
    pub count: usize,
    /// The refusal at the first offset behind them; none where the buffer or the file is full.
    pub outcome: Result<(), Refusal>,
}

/// Fills a buffer with the bytes of a file from an offset on. What is behind the count stays.
pub fn fill(log: &[u8], waiting: &[u8], entry: &[u8], offset: u64, buffer: &mut [u8]) -> Filled {
    let mut told = 0;
    // SAFETY: as above; `buffer` and `told` are lent for writing until the call is done, and overlap
    // nothing.
    let result = unsafe {
        boundary::skywimple_fill(
            log.as_ptr(),
            log.len(),
            waiting.as_ptr(),
            waiting.len(),
            entry.as_ptr(),
            entry.len(),
            offset,
            buffer.as_mut_ptr(),
            buffer.len(),
            &mut told,
        )
    };
    Filled {
        count: (result / 256) as usize,
        outcome: Refusal::with_sector((result % 256) as u8, told as usize),
    }
}

/// How a walk ended.
#[derive(Clone, Copy, Debug, PartialEq, Eq)]
pub struct Walked {
    pub outcome: Result<(), Refusal>,
    /// The visits spent.
    pub visits: u64,
}

/// Walks from a root's score.
pub fn walk(log: &[u8], waiting: &[u8], score: &[u8; 20], allowance: u64) -> Walked {
    // SAFETY: as above; `score` is a reference to 20 bytes.
    walked(unsafe {
        boundary::skywimple_walk(
            log.as_ptr(),
            log.len(),
            waiting.as_ptr(),
            waiting.len(),
            score,
            allowance,
        )
    })
}

/// Copies all that a root reaches into a second log, for which nothing waits; the blocks that it
/// stores have the date. A refusal keeps what was copied before it.
pub fn copy(
    log: &[u8],
    waiting: &[u8],
    second: &mut [u8],
    date: &[u8],
    score: &[u8; 20],
    allowance: u64,
) -> Walked {
    // SAFETY: as above; `second` is lent to the call alone.
    walked(unsafe {
        boundary::skywimple_copy(
            log.as_ptr(),
            log.len(),
            waiting.as_ptr(),
            waiting.len(),
            second.as_mut_ptr(),
            second.len(),
            date.as_ptr(),
            date.len(),
            score,
            allowance,
        )
    })
}

/// What a result of walk or copy says: the number, the visits, and behind them the first doubtful sector.
fn walked(result: u64) -> Walked {
    let sector = (result / 256 / 1_048_576) as usize;
    Walked {
        outcome: Refusal::with_sector((result % 256) as u8, sector),
        visits: result / 256 % 1_048_576,
    }
}

/// The block type of a number of the enumeration.
pub fn block_type(number: u64) -> Result<u8, Refusal> {
    // SAFETY: it takes a number.
    answer(unsafe { boundary::skywimple_block_type(number) }).map(|kind| kind as u8)
}

#[cfg(test)]
mod tests {
    use super::{located, walked, Refusal, Run, Walked};

    #[test]
    fn the_largest_results() {
        for sector in [0, 1, 42, 1_048_575, 1_048_830] {
            let refusal = Refusal::NotKnown { sector };
            assert_eq!(located(12 + (sector as u64) * 67_108_864), Err(refusal));
            for visits in [0, 1, 1_000_000] {
                let result = 12 + 256 * (visits + 1_048_576 * sector as u64);
                let outcome = Err(refusal);
                assert_eq!(walked(result), Walked { outcome, visits });
            }
        }
        let (at, length) = (1_048_575 * 512 + 96, 403);
        let result = 1024 * length as u64 + 67_108_864 * at as u64;
        assert_eq!(located(result), Ok(Run::Log { at, length }));
        let (at, length) = (255 * 512 + 96, 403);
        let result = 256 + 1024 * length as u64 + 67_108_864 * at as u64;
        assert_eq!(located(result), Ok(Run::Waiting { at, length }));
        let length = 57_344;
        let result = 512 + 1024 * length as u64;
        assert_eq!(located(result), Ok(Run::Page { length }));
        assert_eq!(located(17), Err(Refusal::Offset));
        let (outcome, visits) = (Err(Refusal::Spent), 1_000_000);
        assert_eq!(walked(21 + 256 * visits), Walked { outcome, visits });
    }
}
