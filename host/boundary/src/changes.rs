//! What changed: the first difference of two directory blocks, and the differences between two trees.

use crate::{boundary, Refusal};

/// The entry at which two directory blocks first differ: 40 bytes of the first or of the second.
#[derive(Clone, Copy, Debug, PartialEq, Eq)]
pub enum Difference<'a> {
    First(&'a [u8]),
    Second(&'a [u8]),
}

/// The first difference of two directory blocks, if there is one.
pub fn difference<'a>(
    first: &'a [u8],
    second: &'a [u8],
) -> Result<Option<Difference<'a>>, Refusal> {
    // SAFETY: the pointers and lengths are those of slices that outlive the call and are only read.
    let result = unsafe {
        boundary::skywimple_difference(first.as_ptr(), first.len(), second.as_ptr(), second.len())
    };
    Refusal::of((result % 256) as u8)?;
    let at = (result / 256 / 4) as usize;
    Ok(match result / 256 % 4 {
        0 => None,
        1 => Some(Difference::First(&first[at..at + 40])),
        _ => Some(Difference::Second(&second[at..at + 40])),
    })
}

/// How a comparison ended.
#[derive(Clone, Copy, Debug, PartialEq, Eq)]
pub struct Compared {
    pub outcome: Result<(), Refusal>,
    /// The differences counted.
    pub count: u64,
    /// The units spent.
    pub units: u64,
}

/// Counts the differences between two directory entries.
pub fn differences(
    log: &[u8],
    waiting: &[u8],
    first: &[u8],
    second: &[u8],
    allowance: u64,
) -> Compared {
    let mut told = 0;
    // SAFETY: as above; `told` is a number that outlives the call.
    let result = unsafe {
        boundary::skywimple_differences(
            log.as_ptr(),
            log.len(),
            waiting.as_ptr(),
            waiting.len(),
            first.as_ptr(),
            first.len(),
            second.as_ptr(),
            second.len(),
            allowance,
            &mut told,
        )
    };
    compared(result, told)
}

/// What a result says: the number, the units, and behind them the count; the sector is told beside it.
fn compared(result: u64, told: u64) -> Compared {
    Compared {
        outcome: Refusal::with_sector((result % 256) as u8, told as usize),
        count: result / 256 / 1_048_576,
        units: result / 256 % 1_048_576,
    }
}

#[cfg(test)]
mod tests {
    use super::{compared, difference, differences, Compared, Difference, Refusal};

    /// An active directory entry of depth 0, psize 40 and dsize 40, with a gen and a score.
    fn directory(gen: u8, score: u8) -> [u8; 40] {
        let mut e = [0; 40];
        (e[3], e[5], e[7], e[8]) = (gen, 40, 40, 3);
        e[20..].fill(score);
        e
    }

    #[test]
    fn the_first_difference() {
        let (a, b) = (directory(0, 1), directory(1, 1));
        assert_eq!(difference(&a, &a), Ok(None));
        assert_eq!(difference(&a, &b), Ok(Some(Difference::First(&a))));
        assert_eq!(difference(&[], &b), Ok(Some(Difference::Second(&b))));
        assert_eq!(difference(&a[..39], &b), Err(Refusal::Entry));
    }

    #[test]
    fn what_the_given_entries_decide() {
        let log = [0; 512];
        let none = Compared {
            outcome: Ok(()),
            count: 0,
            units: 0,
        };
        let compare = |x: &[u8], y: &[u8], n| differences(&log, &[], x, y, n);
        let (a, b, c) = (directory(0, 1), directory(1, 1), directory(0, 2));
        assert_eq!(compare(&a, &a, 0), none);
        assert_eq!(compare(&a, &b, 0), none);
        let mut deep = c;
        deep[8] = 7;
        assert_eq!(compare(&a, &deep, 0), Compared { count: 1, ..none });
        let spent = Compared {
            outcome: Err(Refusal::Spent),
            ..none
        };
        assert_eq!(compare(&a, &c, 0), spent);
        let missing = Compared {
            outcome: Err(Refusal::NotHeld),
            units: 1,
            ..none
        };
        assert_eq!(compare(&a, &c, 5), missing);
        let refused = Compared {
            outcome: Err(Refusal::Entry),
            ..none
        };
        assert_eq!(compare(&a, &[0; 40], 0), refused);
    }

    #[test]
    fn the_largest_results() {
        let (count, units) = (1_433_000_001, 1_000_000);
        let outcome = Err(Refusal::NotKnown { sector: 1_048_830 });
        let result = 12 + 256 * (units + 1_048_576 * count);
        assert_eq!(
            compared(result, 1_048_830),
            Compared {
                outcome,
                count,
                units
            }
        );
    }
}
