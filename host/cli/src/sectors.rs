//! Reads a log, also where some of its sectors cannot be read.

use std::fs::File;
use std::io::{self, ErrorKind};
use std::ops::Range;

use crate::disk;
use crate::format::{used, BLANK, SECTOR};

pub struct Loaded {
    pub bytes: Vec<u8>,
    /// The sectors of the used part.
    pub used: usize,
    /// The sectors that could not be read, in order. They are neither blank nor sound in `bytes`.
    pub unreadable: Vec<usize>,
}

impl Loaded {
    /// The end of the used part as far as it was seen: behind the last sector that could be read and
    /// isn't blank.
    pub fn seen(&self) -> usize {
        let sector = |n: usize| &self.bytes[n * SECTOR..(n + 1) * SECTOR];
        let read = |n: &usize| self.unreadable.binary_search(n).is_err();
        let mut from_end = (0..self.used).rev();
        let last = from_end.find(|n| read(n) && sector(*n) != BLANK);
        last.map_or(0, |last| last + 1)
    }

    /// The runs of sectors that could be read, from a sector on up to that end.
    pub fn readable(&self, start: usize) -> Vec<Range<usize>> {
        let end = self.seen();
        let mut runs = Vec::new();
        let mut next = start;
        let before = self.unreadable.iter().filter(|bad| **bad < end);
        for &bad in before.chain([&end]) {
            if (next + 1..=end).contains(&bad) {
                runs.push(next..bad);
            }
            next = next.max(bad + 1);
        }
        runs
    }
}

/// The front of a log that was read, with the memory of the rest given back and room for so many bytes in all
/// reserved behind it: as it grows up to that it is never moved, and memory is taken as it is written.
pub fn front(mut bytes: Vec<u8>, length: usize, most: usize) -> Vec<u8> {
    bytes.truncate(length);
    bytes.shrink_to_fit();
    bytes.reserve_exact(most.saturating_sub(length));
    bytes
}

/// A sector that isn't blank and fits no check: its last 13 bytes are zeros.
pub fn unsound(sentence: &[u8]) -> [u8; SECTOR] {
    let mut sector = [0; SECTOR];
    sector[..sentence.len()].copy_from_slice(sentence);
    sector
}

/// Bytes that are read at once, and those where blank sectors are expected: some sectors.
const PIECE: usize = 8192 * SECTOR;
const BLANK_PIECE: usize = 256 * SECTOR;

/// The first `length` bytes, or as many as there are, piece by piece; a piece that cannot be read
/// at once, sector by sector. Behind the `marked` bytes, which are some sectors, blank ones take no memory.
/// Tells after each piece how far it is.
pub fn load(
    read_at: impl Fn(&mut [u8], u64) -> io::Result<usize>,
    length: u64,
    marked: usize,
    mut tell: impl FnMut(u64),
) -> Loaded {
    let mut bytes = vec![0; length as usize];
    let marked = marked.min(bytes.len());
    let (front, rear) = bytes.split_at_mut(marked);
    let mut reading = Reading {
        read_at,
        end: 0,
        unreadable: Vec::new(),
    };
    for piece in front.chunks_mut(PIECE) {
        reading.next(piece);
        tell(reading.end as u64);
    }
    let behind = read_blank(rear, &mut reading, tell);
    let Reading {
        end, unreadable, ..
    } = reading;
    bytes.truncate(end);
    Loaded {
        used: behind.unwrap_or_else(|| used(&bytes[..marked.min(end)])),
        bytes,
        unreadable,
    }
}

/// Reads what is blank but for what a crash left. Gives the end of the used part, where that is here.
fn read_blank(
    bytes: &mut [u8],
    reading: &mut Reading<impl Fn(&mut [u8], u64) -> io::Result<usize>>,
    mut tell: impl FnMut(u64),
) -> Option<usize> {
    let mut buffer = vec![0; BLANK_PIECE.min(bytes.len())];
    let mut end = None;
    for piece in bytes.chunks_mut(BLANK_PIECE) {
        let start = reading.end / SECTOR;
        let count = reading.next(&mut buffer[..piece.len()]);
        let read = &buffer[..count];
        if !is_blank(read) {
            piece[..count].copy_from_slice(read);
            end = match used(read) {
                0 => end,
                used => Some(start + used),
            };
        }
        tell(reading.end as u64);
    }
    end
}

/// Whether all these bytes are zeros.
pub fn is_blank(bytes: &[u8]) -> bool {
    let mut sectors = bytes.chunks(SECTOR);
    sectors.all(|sector| *sector == BLANK[..sector.len()])
}

/// How far a file has been read.
struct Reading<R> {
    read_at: R,
    end: usize,
    unreadable: Vec<usize>,
}

impl<R: Fn(&mut [u8], u64) -> io::Result<usize>> Reading<R> {
    /// Reads the next bytes, as many as there are, and gives their count.
    fn next(&mut self, buffer: &mut [u8]) -> usize {
        let start = self.end as u64;
        let read = fill(&self.read_at, buffer, start);
        let count =
            read.unwrap_or_else(|_| by_sectors(&self.read_at, buffer, start, &mut self.unreadable));
        self.end += count;
        count
    }
}

/// The same from some byte of a file on.
pub fn load_from(file: &File, start: u64, length: usize) -> Loaded {
    load(
        |buffer, at| disk::read_at(file, buffer, start + at),
        length as u64,
        length,
        |_| {},
    )
}

/// Reads sector by sector until the buffer is full or the file ends. Gives the count of bytes, and
/// adds the sectors that could not be read.
fn by_sectors(
    read_at: &impl Fn(&mut [u8], u64) -> io::Result<usize>,
    buffer: &mut [u8],
    start: u64,
    unreadable: &mut Vec<usize>,
) -> usize {
    let mut end = 0;
    for sector in buffer.chunks_mut(SECTOR) {
        let count = fill(read_at, sector, start + end as u64).unwrap_or_else(|_| {
            sector.copy_from_slice(&unsound(b"unreadable")[..sector.len()]);
            unreadable.push(start as usize / SECTOR + end / SECTOR);
            sector.len()
        });
        end += count;
        if count < sector.len() {
            break;
        }
    }
    end
}

/// Reads until the buffer is full or the file ends, and gives the count of bytes.
fn fill(
    read_at: &impl Fn(&mut [u8], u64) -> io::Result<usize>,
    buffer: &mut [u8],
    start: u64,
) -> io::Result<usize> {
    let mut count = 0;
    while count < buffer.len() {
        match read_at(&mut buffer[count..], start + count as u64) {
            Ok(0) => break,
            Ok(more) => count += more,
            Err(e) if e.kind() == ErrorKind::Interrupted => {}
            Err(e) => return Err(e),
        }
    }
    Ok(count)
}

#[cfg(test)]
mod tests {
    use super::*;
    use crate::session::Client;
    use boundary::Refusal;
    use std::cell::Cell;

    /// Loads from a file that gives 300 bytes at a time, is interrupted, and fails in some sectors.
    fn load_with(file: &[u8], length: usize, bad: &[usize]) -> Loaded {
        let calls = Cell::new(0);
        let read_at = |buffer: &mut [u8], at: u64| {
            calls.set(calls.get() + 1);
            if calls.get() % 3 == 0 {
                return Err(ErrorKind::Interrupted.into());
            }
            let start = (at as usize).min(file.len());
            let end = file.len().min(start + buffer.len().min(300));
            if bad
                .iter()
                .any(|bad| (start..end).any(|i| i / SECTOR == *bad))
            {
                return Err(io::Error::other("bad sector"));
            }
            buffer[..end - start].copy_from_slice(&file[start..end]);
            Ok(end - start)
        };
        let marked = length / 2 / SECTOR * SECTOR;
        load(read_at, length as u64, marked, |_| {})
    }

    #[test]
    fn whole_and_short_files() {
        let file: Vec<u8> = (0..1500).map(|i| i as u8).collect();
        let cases: [(usize, &[usize], usize, usize); 5] = [
            (1500, &[], 0, 1500),
            (700, &[2], 0, 700), // the bad sector is not asked for
            (9000, &[], 0, 1500),
            (9000, &[0], SECTOR, 1500),
            (0, &[0], 0, 0),
        ];
        for (length, bad, sound, end) in cases {
            let loaded = load_with(&file, length, bad);
            assert_eq!(loaded.bytes.len(), end);
            assert_eq!(loaded.bytes[sound..], file[sound..end]);
            assert_eq!(loaded.used, used(&loaded.bytes));
        }
        let loaded = load_with(&file, 1500, &[2]);
        assert_eq!(
            (loaded.bytes.len(), &loaded.unreadable[..]),
            (1500, &[2][..])
        );
        assert_eq!(loaded.bytes[..1024], file[..1024]);
    }

    /// What was seen of the used part, and what of it is written once more.
    #[test]
    fn what_could_be_read() {
        let mut file = vec![0; 12 * SECTOR];
        for used in [0, 1, 2, 4, 5, 7] {
            file[used * SECTOR] = 1;
        }
        type Case<'a> = (&'a [usize], usize, usize, &'a [[usize; 2]]);
        let cases: [Case; 7] = [
            (&[], 8, 8, &[]),
            (&[], 2, 8, &[[2, 8]]),
            (&[], 9, 8, &[]),
            (&[4], 2, 8, &[[2, 4], [5, 8]]),
            (&[0, 2, 3, 7, 9, 11], 2, 6, &[[4, 6]]),
            (&[5, 7], 5, 5, &[]),
            (&[10], 0, 8, &[[0, 8]]),
        ];
        for (bad, start, seen, runs) in cases {
            let loaded = load_with(&file, file.len(), bad);
            assert_eq!(loaded.unreadable, bad);
            assert_eq!(loaded.used, used(&loaded.bytes));
            assert_eq!(loaded.seen(), seen, "{bad:?}");
            let readable = loaded.readable(start);
            let readable: Vec<_> = readable.iter().map(|run| [run.start, run.end]).collect();
            assert_eq!(readable, runs, "{bad:?} from {start}");
        }
    }

    /// The file is read piece by piece, and a bad sector costs no more than its own.
    #[test]
    fn several_pieces() {
        let file: Vec<u8> = (0..2 * PIECE + 700).map(|i| (i % 251) as u8).collect();
        let read_at = |buffer: &mut [u8], at: u64| {
            let start = (at as usize).min(file.len());
            let end = file.len().min(start + buffer.len());
            if (start..end).contains(&(PIECE + 5 * SECTOR)) {
                return Err(io::Error::other("bad sector"));
            }
            buffer[..end - start].copy_from_slice(&file[start..end]);
            Ok(end - start)
        };
        let mut told = Vec::new();
        let length = 4 * PIECE;
        let loaded = load(read_at, length as u64, length, |end| {
            told.push(end as usize)
        });
        assert_eq!(told, [PIECE, 2 * PIECE, file.len(), file.len()]);
        // The same where less of it, or nothing, was expected.
        let others = [0, SECTOR, PIECE + 6 * SECTOR];
        let others = others.map(|marked| load(read_at, length as u64, marked, |_| {}));
        for loaded in others.into_iter().chain([loaded]) {
            let Loaded {
                bytes,
                used,
                unreadable,
            } = loaded;
            assert_eq!(used, file.len() / SECTOR);
            assert_eq!(
                (bytes.len(), unreadable),
                (file.len(), vec![PIECE / SECTOR + 5])
            );
            let bad = PIECE + 5 * SECTOR..PIECE + 6 * SECTOR;
            assert_eq!(bytes[bad.clone()], unsound(b"unreadable"));
            assert!(bytes[..bad.start] == file[..bad.start] && bytes[bad.end..] == file[bad.end..]);
        }
    }

    /// A block with an unreadable sector is not known, and so is any that isn't found; others read.
    #[test]
    fn unreadable_sectors_are_doubtful() {
        let mut log = vec![0; 8 * SECTOR];
        let mut client = Client::greet(&mut log).unwrap();
        let blocks = [vec![1; 500], vec![2; 50], vec![3; 1000]];
        let scores = [0, 1, 2].map(|i| client.write(&mut log, 13, &blocks[i]).unwrap());
        for (bad, lost, first) in [(&[1][..], 0, 0), (&[2], 1, 2), (&[3, 5], 2, 3)] {
            let not_known = Err(Refusal::NotKnown { sector: first });
            let mut loaded = load_with(&log, log.len(), bad);
            assert_eq!(loaded.unreadable, bad);
            for i in 0..3 {
                let read = client.read(&mut loaded.bytes, 13, &scores[i], 60_000);
                let expected = if i == lost {
                    not_known
                } else {
                    Ok(&blocks[i][..])
                };
                assert_eq!(read, expected);
            }
            let never = client.read(&mut loaded.bytes, 13, &[9; 20], 60_000);
            assert_eq!(never, not_known);
        }
        let mut loaded = load_with(&log, log.len(), &[7]);
        let never = client.read(&mut loaded.bytes, 13, &[9; 20], 60_000);
        assert_eq!(
            never,
            Err(Refusal::NotKnown { sector: 6 }),
            "a blank sector could have been another"
        );
    }
}
