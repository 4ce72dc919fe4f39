//! The sound blocks of a log, and the doubtful sectors between them.

use std::ops::Range;

use boundary::{sound_at, Refusal};

use crate::format::{self, Date, Score, SECTOR};

/// A sound block.
#[derive(Clone, Copy, Debug, PartialEq, Eq)]
pub struct Block {
    pub kind: u8,
    pub size: usize,
    /// None in the first edition.
    pub date: Option<Date>,
    pub score: Score,
}

/// A part of the used part: a sound block, or doubtful sectors as many as follow each other.
#[derive(Clone, Copy, Debug, PartialEq, Eq)]
pub struct Piece {
    /// Its first sector.
    pub sector: usize,
    /// How many it has.
    pub count: usize,
    /// None where they are doubtful.
    pub block: Option<Block>,
}

/// The used part from its front to its end.
pub fn pieces(log: &[u8]) -> Result<Vec<Piece>, Refusal> {
    let used = format::used(log);
    let mut pieces: Vec<Piece> = Vec::new();
    let mut next = 0;
    while next < used {
        let size = sound_at(log, next)?;
        let sector = &log[next * SECTOR..(next + 1) * SECTOR];
        match (size, format::label(sector), pieces.last_mut()) {
            (1.., Some((kind, score)), _) => {
                let block = Block {
                    kind,
                    size,
                    date: format::date(sector),
                    score,
                };
                let count = parts(sector, size);
                pieces.push(piece(next, count, Some(block)));
                next += count;
            }
            (_, _, Some(before)) if before.block.is_none() => {
                before.count += 1;
                next += 1;
            }
            _ => {
                pieces.push(piece(next, 1, None));
                next += 1;
            }
        }
    }
    Ok(pieces)
}

/// The first doubtful sector of a log in pieces: the one that a look-up's refusal 12 tells.
pub fn first_doubtful(pieces: &[Piece]) -> Option<usize> {
    let first = pieces.iter().find(|piece| piece.block.is_none());
    first.map(|piece| piece.sector)
}

fn piece(sector: usize, count: usize, block: Option<Block>) -> Piece {
    Piece {
        sector,
        count,
        block,
    }
}

/// Where the first sound block of a type and score starts: the one that look-up finds.
pub fn find(log: &[u8], kind: u8, score: &Score) -> Option<usize> {
    let wanted = format::digits(kind, score);
    let mut sectors = log.chunks_exact(SECTOR).enumerate();
    let named = |sector| format::named(sector) == (wanted.0.as_bytes(), wanted.1.as_bytes());
    let found = sectors.find(|(at, sector)| named(sector) && self::at(log, *at).is_some());
    found.map(|(at, _)| at)
}

/// The sectors of the sound block that starts at a sector.
pub fn at(log: &[u8], sector: usize) -> Option<Range<usize>> {
    let size = sound_at(log, sector).ok().filter(|size| *size > 0)?;
    let first = &log[sector * SECTOR..(sector + 1) * SECTOR];
    Some(sector..sector + parts(first, size))
}

/// The sectors of a sound block of so many bytes, by its first.
fn parts(first: &[u8], size: usize) -> usize {
    size.div_ceil(format::payload(first).len())
}

/// The bytes of the sound block of so many bytes that starts at a sector.
pub fn data(log: &[u8], sector: usize, size: usize) -> Vec<u8> {
    let sectors = log[sector * SECTOR..].chunks_exact(SECTOR);
    let payloads = sectors.flat_map(|sector| &sector[format::payload(sector)]);
    payloads.take(size).copied().collect()
}

#[cfg(test)]
mod tests {
    use super::*;
    use crate::session::Client;

    #[test]
    fn the_first_sound_one() {
        let mut log = vec![0; 20 * SECTOR];
        let mut client = Client::greet(&mut log).unwrap();
        let mut put =
            |log: &mut Vec<u8>, kind, length| client.write(log, kind, &vec![7; length]).unwrap();
        let long = put(&mut log, 13, 1000);
        let short = put(&mut log, 13, 5);
        assert_eq!(put(&mut log, 2, 1000), long);
        assert_eq!(find(&log, 13, &long), Some(0));
        assert_eq!(find(&log, 13, &short), Some(3));
        assert_eq!(find(&log, 2, &long), Some(4));
        assert_eq!(find(&log, 1, &long), None);
        let places = [0, 1, 3, 4, 7].map(|sector| at(&log, sector));
        assert_eq!(places, [Some(0..3), None, Some(3..4), Some(4..7), None]);
        assert_eq!(data(&log, 4, 1000), [7; 1000]);
        let block = |kind, size, score| {
            Some(Block {
                kind,
                size,
                date: Some(crate::date::NO_DAY),
                score,
            })
        };
        let first = piece(0, 3, block(13, 1000, long));
        let rest = [
            piece(3, 1, block(13, 5, short)),
            piece(4, 3, block(2, 1000, long)),
        ];
        assert_eq!(pieces(&log).unwrap(), [&[first][..], &rest].concat());
        log[2 * SECTOR + 200] ^= 1;
        assert_eq!(find(&log, 13, &long), None);
        assert_eq!(put(&mut log, 13, 1000), long);
        assert_eq!(find(&log, 13, &long), Some(7));
        let again = piece(7, 3, block(13, 1000, long));
        let doubtful = piece(0, 3, None);
        assert_eq!(
            pieces(&log).unwrap(),
            [&[doubtful][..], &rest, &[again]].concat()
        );
        assert_eq!(pieces(&log[..700]), Err(Refusal::LogLength));
    }

    /// Any sector damaged: the look-up names the first doubtful one as well.
    #[test]
    fn the_first_doubtful_one() {
        let mut log = vec![0; 12 * SECTOR];
        let mut client = Client::greet(&mut log).unwrap();
        for length in [5, 1000, 389, 390] {
            client.write(&mut log, 13, &vec![7; length]).unwrap();
        }
        assert_eq!(first_doubtful(&pieces(&log).unwrap()), None);
        let expected = [0, 1, 1, 1, 4, 5, 5, 7, 7, 7, 7, 7];
        for (damaged, sector) in expected.into_iter().enumerate() {
            let mut log = log.clone();
            log[damaged * SECTOR + 300] ^= 1;
            assert_eq!(first_doubtful(&pieces(&log).unwrap()), Some(sector));
            let told = client.read(&mut log, 13, &[9; 20], 1);
            assert_eq!(told, Err(Refusal::NotKnown { sector }));
        }
    }
}
