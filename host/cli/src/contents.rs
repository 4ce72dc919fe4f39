//! The bytes of a file, through its hash tree, as far as they can be read.

use boundary::{fill, Refusal};

use crate::entry::{self, Entry};
use crate::format::{kind_name, Score, MOST_DATA};
use crate::hex;
use crate::session::Client;
use crate::status::Failure;
use crate::words;

/// Where reading a file stopped, and why.
#[derive(Clone, Copy, Debug, PartialEq, Eq)]
pub struct Stopped {
    pub offset: u64,
    pub refusal: Refusal,
}

/// Hands out the file piece by piece, up to its end or the first refused offset, which it gives.
pub fn pieces(
    log: &[u8],
    entry: &[u8],
    mut take: impl FnMut(&[u8]) -> Result<(), Failure>,
) -> Result<Option<Stopped>, Failure> {
    let mut buffer = vec![0; whole_leaves(entry)];
    let mut offset = 0;
    loop {
        let filled = fill(log, &[], entry, offset, &mut buffer);
        take(&buffer[..filled.count])?;
        offset += filled.count as u64;
        match filled.outcome {
            Ok(()) => {}
            // An offset that is refused so, and no other, is the end: all tests before it passed.
            Err(Refusal::Offset) => return Ok(None),
            Err(refusal) => return Ok(Some(Stopped { offset, refusal })),
        }
    }
}

/// The bytes of as many whole leaves as the longest leaf has room for, so that no leaf is looked
/// up twice; no more than the file has.
fn whole_leaves(entry: &[u8]) -> usize {
    let leaf = Entry::parse(entry).map_or(1, |entry| entry.count(0));
    let whole = MOST_DATA - MOST_DATA % leaf;
    usize::try_from(size(entry)).map_or(whole, |size| size.clamp(1, whole))
}

/// The size that an entry says.
pub fn size(entry: &[u8]) -> u64 {
    entry::number(entry.get(14..20).unwrap_or_default())
}

/// Where reading stopped, at which block, why, and what to do.
pub fn stopped_words(log: &mut [u8], entry: &[u8], stopped: Stopped) -> String {
    let Stopped { offset, refusal } = stopped;
    let block = refused_block(log, entry, stopped);
    let mut at = format!("reading stopped at offset {offset}");
    if let Some((kind, score)) = &block {
        let (kind, score) = (kind_name(*kind), hex::encode(score));
        at += &format!(", at the {kind} block {score}");
    }
    let block = block.as_ref().map(|(kind, score)| (*kind, score));
    format!("{at}: {}", words::refusal_in_tree(refusal, block))
}

/// The block on the way to the offset that is refused so.
fn refused_block(log: &mut [u8], entry: &[u8], stopped: Stopped) -> Option<(u8, Score)> {
    let entry = Entry::parse(entry)?;
    let mut client = Client::greet(log).ok()?;
    let mut score = entry.score;
    for level in (0..=entry.depth).rev() {
        let (kind, count) = (entry.kind(level), entry.count(level));
        let block = match client.read(log, kind, &score, count as u16) {
            Ok(block) => block,
            Err(refused) => return (refused == stopped.refusal).then_some((kind, score)),
        };
        if level > 0 && !block.len().is_multiple_of(20) {
            return (stopped.refusal == Refusal::Pointers).then_some((kind, score));
        }
        if level > 0 {
            let start = 20 * entry.pointer(stopped.offset, level);
            score = block.get(start..start + 20)?.try_into().ok()?;
        }
    }
    None
}

#[cfg(test)]
mod tests {
    use super::*;
    use crate::format::SECTOR;

    /// A data entry of depth 0 with leaves of 1,000 bytes.
    fn file(size: u64, score: &[u8; 20]) -> Vec<u8> {
        let mut entry = vec![0; entry::LENGTH];
        entry[4..6].copy_from_slice(&40_u16.to_be_bytes());
        entry[6..8].copy_from_slice(&1000_u16.to_be_bytes());
        entry[8] = 1;
        entry[14..20].copy_from_slice(&size.to_be_bytes()[2..]);
        entry[20..].copy_from_slice(score);
        entry
    }

    /// All runs of a file laid end to end, each looked up by itself.
    fn run_by_run(log: &[u8], page: &[u8], entry: &[u8]) -> Vec<u8> {
        let mut bytes = Vec::new();
        while let Ok(run) = boundary::read(log, &[], page, entry, bytes.len() as u64) {
            bytes.extend(run);
        }
        bytes
    }

    #[test]
    fn a_file_filled_is_the_file_run_by_run() {
        let mut log = vec![0; 40 * SECTOR];
        let mut client = Client::greet(&mut log).unwrap();
        let page = [0; 64];
        for stored in [1, 388, 389, 390, 777, 778, 779, 1000] {
            let block: Vec<u8> = (0..stored).map(|i| (i * 7 + stored) as u8 | 1).collect();
            let score = client.write(&mut log, 13, &block).unwrap();
            for size in [1, 388, 389, 390, 778, 779, 999, 1000] {
                let entry = file(size, &score);
                let mut bytes = vec![0xaa; 1200];
                let filled = fill(&log, &[], &entry, 0, &mut bytes);
                assert_eq!(filled.outcome, Ok(()));
                assert_eq!(filled.count as u64, size);
                assert_eq!(bytes[filled.count..], [0xaa; 1200][filled.count..]);
                bytes.truncate(filled.count);
                assert_eq!(bytes, run_by_run(&log, &page, &entry), "{stored} {size}");
                let mut whole: Vec<u8> = Vec::new();
                let ended = pieces(&log, &entry, |piece| {
                    whole.extend(piece);
                    Ok(())
                });
                assert_eq!(ended.unwrap(), None);
                assert_eq!(whole, bytes);
            }
        }
    }

    #[test]
    fn no_leaf_is_looked_up_twice() {
        let mut long = file(1_000_000, &[0; 20]);
        long[4..6].copy_from_slice(&57_000_u16.to_be_bytes());
        long[8] = 1 + 4;
        assert_eq!(whole_leaves(&long), 57_000);
        assert_eq!(whole_leaves(&file(999, &[0; 20])), 999);
        assert_eq!(whole_leaves(&file(0, &[0; 20])), 1);
        assert_eq!(whole_leaves(&[0; 39]), 1);
    }
}
