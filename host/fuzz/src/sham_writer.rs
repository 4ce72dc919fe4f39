//! Shams that break a rule of the writer of files.

use second::log::well_lent;
use second::sha1::{sha1, Score, ZERO_SCORE};
use second::store::store;
use second::writer::{file, write_file as right_file, MOST_DEPTH};
use second::zeros::cut;
use second::Edition;

use crate::shams::Broken;

pub fn write_file(
    broken: Broken,
    (log, waiting): (&mut [u8], &mut [u8]),
    date: &[u8],
    slice: &[u8],
    (dsize, psize): (usize, usize),
) -> Result<[u8; 40], u8> {
    let before = waiting.to_vec();
    match broken {
        Broken::LeafNotCut | Broken::PointersNotCut | Broken::LevelsFromTheRight => {
            let entry = file(slice, dsize, psize)?.entry;
            let depth = u32::from(entry[8] >> 2);
            levels(broken, (log, waiting), date, slice, (dsize, psize, depth)).map(|top| {
                let mut entry = entry;
                entry[20..].copy_from_slice(&top);
                entry
            })
        }
        Broken::DepthOneMore => {
            let mut entry = right_file(log, waiting, date, slice, dsize, psize)?;
            let depth = u32::from(entry[8] >> 2);
            if slice.is_empty() || depth == MOST_DEPTH {
                return Ok(entry);
            }
            let top: Score = entry[20..].try_into().expect("20 bytes");
            entry[8] += 4;
            if top != ZERO_SCORE {
                let edition = Edition::of(Some(date))?;
                let kind = 3 + depth as u8;
                let stored = store(log, Some(waiting), edition, kind, &top)?;
                entry[20..].copy_from_slice(&stored.score);
            }
            Ok(entry)
        }
        Broken::SizeIsCutLength => {
            let mut entry = right_file(log, waiting, date, slice, dsize, psize)?;
            let length = cut(13, slice)? as u64;
            entry[14..20].copy_from_slice(&length.to_be_bytes()[2..]);
            Ok(entry)
        }
        Broken::UndoneWhenFull => {
            let answer = right_file(log, waiting, date, slice, dsize, psize);
            if answer == Err(14) {
                waiting.copy_from_slice(&before);
            }
            answer
        }
        Broken::FirstLeafBeforeDepth => {
            let answer = right_file(log, waiting, date, slice, dsize, psize);
            let sized = (1..=57_344).contains(&dsize) && (40..=57_344).contains(&psize);
            if answer == Err(16) && sized {
                let edition = Edition::of(Some(date))?;
                store(log, Some(waiting), edition, 13, &slice[..dsize])?;
            }
            answer
        }
        Broken::GoesOnAfterRefusal => {
            let answer = right_file(log, waiting, date, slice, dsize, psize);
            if let Err(14 | 15) = answer {
                let edition = Edition::of(Some(date))?;
                for (kind, data) in file(slice, dsize, psize)?.blocks {
                    let _ = store(log, Some(waiting), edition, kind, &data);
                }
            }
            answer
        }
        Broken::SlicesTooLongAccepted if slice.len() > 57_344 => {
            right_file(log, waiting, date, &slice[..57_344], dsize, psize)
        }
        _ => right_file(log, waiting, date, slice, dsize, psize),
    }
}

/// Writes the levels with a rule broken, and gives the top score.
fn levels(
    broken: Broken,
    (log, waiting): (&mut [u8], &mut [u8]),
    date: &[u8],
    slice: &[u8],
    (dsize, psize, depth): (usize, usize, u32),
) -> Result<Score, u8> {
    if !well_lent(log.len(), waiting.len()) {
        return Err(3);
    }
    let edition = Edition::of(Some(date))?;
    let mut bytes = slice.to_vec();
    for level in 0..=depth {
        let (kind, most) = match level {
            0 => (13, dsize),
            _ => (2 + level as u8, psize / 20 * 20),
        };
        let uncut = match level {
            0 => broken == Broken::LeafNotCut,
            _ => broken == Broken::PointersNotCut,
        };
        let mut blocks: Vec<&[u8]> = bytes
            .chunks(most)
            .map(|piece| match uncut {
                true => piece,
                false => &piece[..cut(kind, piece).unwrap_or(piece.len())],
            })
            .collect();
        let scores: Vec<u8> = blocks.iter().flat_map(|block| sha1(block)).collect();
        if broken == Broken::LevelsFromTheRight {
            blocks.reverse();
        }
        for block in blocks {
            store(log, Some(waiting), edition, kind, block)?;
        }
        bytes = scores;
    }
    Ok(bytes.try_into().unwrap_or(ZERO_SCORE))
}
