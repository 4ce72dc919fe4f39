//! Writes a file as a hash tree: its leaves from the left, then the pointer levels upward, each from
//! the left, every block cut first. Each leaf of a file is written by the proved writer of files, so a file
//! of one leaf by one call. Stands on nothing but a place that stores blocks.

use std::io::{self, Read};

use boundary::{cut, sha1, Refusal};

use crate::entry;
use crate::format::{Score, MOST_DATA};

/// The block sizes of a tree, and whether its leaves are entries.
pub struct Shape {
    psize: usize,
    dsize: usize,
    directory: bool,
}

/// A file: one leaf for up to 57,344 bytes.
pub const FILE: Shape = Shape {
    psize: MOST_DATA,
    dsize: MOST_DATA,
    directory: false,
};

/// A directory: whole entries in each leaf.
pub const DIRECTORY: Shape = Shape {
    psize: MOST_DATA,
    dsize: MOST_DATA - MOST_DATA % entry::LENGTH,
    directory: true,
};

/// The deepest tree, and the longest file: its size has six bytes.
const MOST_DEPTH: u8 = 7;
const MOST_SIZE: u64 = (1 << 48) - 1;

/// A file that was written.
#[derive(Debug)]
pub struct Written {
    pub entry: EntryBytes,
    /// The SHA-1 of what each leaf stands for, as it was read, its zeros included.
    pub leaves: Vec<Score>,
    /// The bytes that a leaf stands for.
    pub leaf: usize,
}

/// Why a file was not written: the source failed, or the place where blocks are stored.
#[derive(Debug)]
pub enum Ended<E> {
    Source(io::Error),
    Store(E),
    /// The file is too long for an entry.
    Refused(Refusal),
}

/// A place that stores blocks.
pub trait Store {
    type Error;

    /// Stores one block of a type, which is cut, and gives its score.
    fn store(&mut self, kind: u8, block: &[u8]) -> Result<Score, Self::Error>;

    /// Writes a slice of at most one leaf as a file of a shape, and gives its entry.
    fn write_leaf(&mut self, shape: &Shape, slice: &[u8]) -> Result<EntryBytes, Self::Error>;
}

type EntryBytes = [u8; entry::LENGTH];

/// Writes all that a source has.
pub fn write<S: Store>(
    shape: &Shape,
    source: &mut dyn Read,
    store: &mut S,
) -> Result<Written, Ended<S::Error>> {
    let (mut scores, mut leaves, mut size) = (Vec::new(), Vec::new(), 0);
    let mut first = None;
    let mut leaf = Vec::new();
    loop {
        leaf.clear();
        let mut front = source.take(shape.dsize as u64);
        front.read_to_end(&mut leaf).map_err(Ended::Source)?;
        size += leaf.len() as u64;
        if size > MOST_SIZE {
            return Err(Ended::Refused(Refusal::Entry));
        }
        if leaf.is_empty() && (shape.directory || first.is_some()) {
            break;
        }
        if shape.directory {
            scores.push(store_cut(shape.kind(0), &leaf, store)?);
        } else {
            let entry = store.write_leaf(shape, &leaf).map_err(Ended::Store)?;
            scores.push(entry::score_in(&entry));
            first.get_or_insert(entry);
        }
        if leaf.is_empty() {
            break;
        }
        leaves.push(sha1(&leaf));
    }
    let entry = match first.filter(|_| scores.len() == 1) {
        Some(entry) => entry,
        None => {
            let (depth, top) = raise(shape, scores, store)?;
            shape.entry(depth, size, &top)
        }
    };
    Ok(Written {
        entry,
        leaves,
        leaf: shape.dsize,
    })
}

/// Writes the pointer levels over these leaves: the least depth that holds them, and the top score.
fn raise<S: Store>(
    shape: &Shape,
    mut scores: Vec<Score>,
    store: &mut S,
) -> Result<(u8, Score), Ended<S::Error>> {
    let mut depth = 0;
    while scores.len() > 1 {
        depth += 1;
        if depth > MOST_DEPTH {
            return Err(Ended::Refused(Refusal::Entry));
        }
        let blocks = scores.chunks(shape.psize / 20);
        let above = blocks.map(|block| store_cut(shape.kind(depth), &block.concat(), store));
        scores = above.collect::<Result<_, _>>()?;
    }
    Ok((depth, scores.first().copied().unwrap_or(sha1(b""))))
}

/// Stores a block without the zeros at its end. An empty one has the zero score.
fn store_cut<S: Store>(kind: u8, block: &[u8], store: &mut S) -> Result<Score, Ended<S::Error>> {
    let length = cut(kind, block).map_err(Ended::Refused)?;
    store.store(kind, &block[..length]).map_err(Ended::Store)
}

impl Shape {
    /// The type of a block at a level, 0 for the leaves.
    fn kind(&self, level: u8) -> u8 {
        match (level, self.directory) {
            (0, true) => 2,
            (0, false) => 13,
            (level, _) => 2 + level,
        }
    }

    /// The sizes that the writer of files takes: dsize and psize.
    pub fn sizes(&self) -> (usize, usize) {
        (self.dsize, self.psize)
    }

    /// An active entry, with gen and pad 0.
    fn entry(&self, depth: u8, size: u64, top: &Score) -> EntryBytes {
        let mut entry = [0; entry::LENGTH];
        entry[4..6].copy_from_slice(&(self.psize as u16).to_be_bytes());
        entry[6..8].copy_from_slice(&(self.dsize as u16).to_be_bytes());
        entry[8] = 1 + 2 * u8::from(self.directory) + 4 * depth;
        entry[14..20].copy_from_slice(&size.to_be_bytes()[2..]);
        entry[20..].copy_from_slice(top);
        entry
    }
}

/// A place that stores each block by a function.
#[cfg(test)]
pub struct By<F>(pub F);

#[cfg(test)]
impl<E, F: FnMut(u8, &[u8]) -> Result<Score, E>> Store for By<F> {
    type Error = E;

    fn store(&mut self, kind: u8, block: &[u8]) -> Result<Score, E> {
        self.0(kind, block)
    }

    /// As the proved call does it; that stores the one block that there is in a waiting part.
    fn write_leaf(&mut self, shape: &Shape, slice: &[u8]) -> Result<EntryBytes, E> {
        let mut waiting = vec![0; 256 * crate::format::SECTOR];
        let log = vec![0; waiting.len()];
        let mut scores = vec![0; boundary::FILE_SCORES];
        let (date, sizes) = (crate::date::NO_DAY, shape.sizes());
        let written = boundary::write_file(&log, &mut waiting, &date, slice, sizes, &mut scores);
        let stored = crate::blocks::pieces(&waiting).expect("a log");
        for block in stored.iter().filter_map(|piece| piece.block) {
            self.0(block.kind, &crate::blocks::data(&waiting, 0, block.size))?;
        }
        Ok(written.expect("written"))
    }
}

#[cfg(test)]
mod tests {
    use super::*;
    use crate::entry::Entry;
    use crate::format::SECTOR;
    use crate::session::Client;
    use std::convert::Infallible;

    const SMALL: Shape = Shape {
        psize: 59, // two scores and a rest that is not used
        dsize: 7,
        directory: false,
    };

    /// Writes the bytes into a list, and gives the blocks in the order they were stored.
    fn blocks(shape: &Shape, bytes: &[u8]) -> (Written, Vec<(u8, Vec<u8>)>) {
        let mut stored = Vec::new();
        let mut store = By(|kind, block: &[u8]| {
            stored.push((kind, block.to_vec()));
            Ok::<_, Infallible>(sha1(block))
        });
        let written = write(shape, &mut &bytes[..], &mut store).unwrap();
        (written, stored)
    }

    #[test]
    fn leaves_then_levels_from_the_left_each_cut() {
        let bytes = b"1234567\0\0\0\0\0\0\0xyz\0\0\0\0\0\0\0";
        let (written, stored) = blocks(&SMALL, bytes);
        let zero = sha1(b"");
        let low = [sha1(b"1234567").to_vec(), sha1(b"xyz").to_vec()];
        let expected = [
            (13, b"1234567".to_vec()),
            (13, b"xyz".to_vec()),
            (3, low[0].clone()),
            (3, low[1].clone()),
            (4, [sha1(&low[0]), sha1(&low[1])].concat()),
        ];
        assert_eq!(stored, expected);
        let entry = Entry::parse(&written.entry).unwrap();
        assert_eq!((entry.depth, entry.size), (2, bytes.len() as u64));
        assert_eq!(entry.score, sha1(&stored[4].1));
        assert_eq!(written.entry[..4], [0; 4]);
        assert_eq!(written.entry[8], 1 + 4 * 2);
        let zeros = blocks(&SMALL, &[0; 29]);
        assert!(zeros.1.iter().all(|(_, block)| block.is_empty()));
        assert_eq!(zeros.0.entry[20..], zero);
        assert_eq!(zeros.0.entry[8], 1 + 4 * 3);
    }

    /// Depth d holds dsize times p to the d, and not a byte more.
    #[test]
    fn the_least_depth() {
        for depth in 0..8 {
            let most = 7 * 2_usize.pow(depth);
            assert_eq!(blocks(&SMALL, &vec![1; most]).0.entry[8] >> 2, depth as u8);
            if depth < 7 {
                let next = blocks(&SMALL, &vec![1; most + 1]).0;
                assert_eq!(next.entry[8] >> 2, depth as u8 + 1);
            }
        }
        let (empty, stored) = blocks(&SMALL, b"");
        assert_eq!((empty.entry[8], stored.len()), (1, 0));
        assert_eq!(empty.entry[20..], sha1(b""));
        let mut store = By(|_, block: &[u8]| Ok::<_, Infallible>(sha1(block)));
        let deep = write(&SMALL, &mut &[1; 7 * 128 + 1][..], &mut store);
        assert!(matches!(deep, Err(Ended::Refused(Refusal::Entry))));
    }

    /// What is written reads back through the proved calls, of any length and with any zeros.
    #[test]
    fn it_reads_back() {
        let mut log = vec![0; 600 * SECTOR];
        let mut client = Client::greet(&mut log).unwrap();
        for length in 0..=120 {
            for hole in [0..0, 0..length / 2, length / 3..length, 0..length] {
                let mut bytes: Vec<u8> = (0..length).map(|i| (i * 31 + length) as u8).collect();
                bytes[hole].fill(0);
                let mut store = By(|kind, block: &[u8]| client.write(&mut log, kind, block));
                let written = write(&SMALL, &mut &bytes[..], &mut store).unwrap();
                let mut read = vec![1; length + 1];
                let filled = boundary::fill(&log, &[], &written.entry, 0, &mut read);
                assert_eq!((filled.count, &read[..length]), (length, &bytes[..]));
                assert_eq!(written.leaves.len(), length.div_ceil(7));
            }
            log.fill(0);
        }
    }
}
