//! What is known of a log, its waiting part and an index from the last request: what would be learned from
//! their bytes. A request by it is the request with the index.

use crate::index::hinted;
use crate::log::{joined, used, Contents};
use crate::message::number;
use crate::sector::SECTOR;

/// The bytes in which it is handed on.
pub const KNOWN: usize = 25;

#[derive(Clone, Copy, Debug, PartialEq, Eq)]
pub struct Known {
    /// The sectors of the used part of the log, and of what waits.
    pub used: usize,
    pub waits: usize,
    /// The first doubtful sector of both as one log.
    pub doubt: Option<usize>,
    /// Whether the index leads from each sound block's type and score to the first of them.
    pub exact: bool,
}

impl Known {
    /// used[8] waits[8] doubt[8] exact[1]; no doubt is 0, sector n is n + 1.
    pub fn bytes(&self) -> [u8; KNOWN] {
        let mut bytes = [0; KNOWN];
        let doubt = self.doubt.map_or(0, |sector| sector + 1);
        for (at, number) in [self.used, self.waits, doubt].into_iter().enumerate() {
            bytes[8 * at..8 * at + 8].copy_from_slice(&(number as u64).to_be_bytes());
        }
        bytes[24] = u8::from(self.exact);
        bytes
    }

    /// Of any bytes.
    pub fn of(bytes: &[u8; KNOWN]) -> Known {
        Known {
            used: number(&bytes[..8]),
            waits: number(&bytes[8..16]),
            doubt: number(&bytes[16..24]).checked_sub(1),
            exact: bytes[24] == 1,
        }
    }

    /// Whether it can be known of a log and a waiting part of these lengths: no part has more used sectors
    /// than it has sectors, and a doubtful one is before the end of both.
    pub fn belongs(&self, log_len: usize, waiting_len: usize) -> bool {
        self.used <= log_len / SECTOR
            && self.waits <= waiting_len / SECTOR
            && self
                .doubt
                .is_none_or(|sector| sector < self.used + self.waits)
    }
}

pub fn learn(log: &[u8], waiting: &[u8], index: &[u8]) -> Known {
    let both = joined(log, waiting);
    let contents = Contents::of(&both);
    let leads = |block: &crate::log::Block| {
        let found = hinted(&both, index, block.kind, &block.score);
        found.is_some_and(|found| found.first <= block.first)
    };
    Known {
        used: used(log),
        waits: used(waiting),
        doubt: contents.first_doubtful,
        exact: contents.blocks.iter().all(leads),
    }
}

#[cfg(test)]
mod tests {
    use super::*;
    use crate::edition::Edition;
    use crate::index::{enter, BUCKETS, HINT};
    use crate::log::write;
    use crate::sha1::sha1;

    #[test]
    fn what_belongs() {
        let known = |used, waits, doubt| Known {
            used,
            waits,
            doubt,
            exact: true,
        };
        let belongs = |known: Known| known.belongs(4 * 512, 2 * 512);
        assert!(belongs(known(0, 0, None)));
        assert!(belongs(known(4, 2, Some(5))));
        assert!(!belongs(known(5, 2, None)));
        assert!(!belongs(known(4, 3, None)));
        assert!(!belongs(known(4, 2, Some(6))));
        assert!(!belongs(known(0, 0, Some(0))));
        assert!(!belongs(Known::of(&[255; KNOWN])));
        let any = known(3, 258, Some(65_535));
        assert_eq!(Known::of(&any.bytes()), any);
    }

    #[test]
    fn what_is_learned() {
        let mut log = vec![0; 4 * 512];
        let mut index = vec![0; BUCKETS * HINT];
        let blank = learn(&log, &[], &[]);
        assert_eq!(blank.bytes(), [&[0; 24][..], &[1]].concat()[..]);
        write(&mut log, 0, Edition::First, 13, b"a");
        write(&mut log, 1, Edition::First, 13, b"a");
        let known = |log: &[u8], index: &[u8]| learn(log, &[1; 512], index);
        let expected = Known {
            used: 2,
            waits: 1,
            doubt: Some(2),
            exact: false,
        };
        assert_eq!(known(&log, &index), expected);
        // the index leads to the second of them, then to both
        enter(&mut index, &sha1(b"a"), 13, 1);
        assert_eq!(known(&log, &index), expected);
        index.fill(0);
        enter(&mut index, &sha1(b"a"), 13, 0);
        let exact = Known {
            exact: true,
            ..expected
        };
        assert_eq!(known(&log, &index), exact);
        assert_eq!(
            exact.bytes()[..16],
            [0, 0, 0, 0, 0, 0, 0, 2, 0, 0, 0, 0, 0, 0, 0, 1]
        );
        assert_eq!(exact.bytes()[16..], [0, 0, 0, 0, 0, 0, 0, 3, 1]);
    }
}
