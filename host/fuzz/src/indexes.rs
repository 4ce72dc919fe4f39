//! Indexes to be lent: of any bytes, with hints that are right, stale, foreign or doubled.

use second::index::{hint, places, BUCKETS, HINT};
use second::kind::KINDS;
use second::log::write;
use second::sector::SECTOR;
use second::sha1::sha1;
use second::Score;

use crate::archive::Archive;
use crate::compare::{hex, number, Compare, Trace};
use crate::dates;
use crate::random::Random;

/// Look-ups in a small log with several copies of few blocks, where each hint may be the one that counts.
pub fn run(
    archive: &mut dyn Archive,
    compare: &mut Compare,
    random: &mut Random,
    trace: &mut Trace,
) -> Result<(), String> {
    let mut log = vec![0; random.between(2, 9) * SECTOR];
    let sectors = log.len() / SECTOR;
    let kinds = [random.pick(&KINDS), 13];
    let mut names = Vec::new();
    for sector in 0..sectors {
        let (kind, data) = (random.pick(&kinds), [random.below(2) as u8]);
        write(&mut log, sector, dates::edition(random), kind, &data);
        names.push((kind, sha1(&data)));
    }
    if random.percent(30) {
        let at = random.below(log.len());
        log[at] ^= random.mark();
    }
    let waiting = log.split_off(random.below(sectors + 1) * SECTOR);
    for _ in 0..6 {
        let index = any(random, &names, sectors);
        let (kind, score) = random.pick(&names);
        trace.note(|| {
            let index = shown(&index);
            format!(
                "of {sectors} sectors look up type {kind}, {}, {index}",
                hex(&score)
            )
        });
        let right = second::index::asked(&log, &waiting, &index, kind, &score);
        let answer = archive.look_up_by(&log, &waiting, &index, kind, &score);
        compare.call("look_up_by", number(&right), answer, right)?;
    }
    Ok(())
}

/// Few places, so that buckets fill up; now and then none, or bytes left over.
pub fn length(random: &mut Random) -> usize {
    let places = random.pick(&[0, 1, 1, 1, 2, 3]);
    places * BUCKETS * HINT + random.pick(&[0, 0, 0, 1, 7, 6_399])
}

/// An index for a log of about so many sectors, with hints for these types and scores.
pub fn any(random: &mut Random, names: &[(u8, Score)], sectors: usize) -> Vec<u8> {
    let length = match random.percent(30) {
        true => 0,
        false => length(random),
    };
    let mut index = match random.below(5) {
        0 => random.bytes(length),
        _ => vec![0; length],
    };
    let places = places(length);
    if places == 0 || names.is_empty() {
        return index;
    }
    for _ in 0..random.below(9) {
        let (mut kind, score) = random.pick(names);
        if random.percent(8) {
            kind = random.byte();
        }
        let sector = match random.below(10) {
            0 => random.pick(&[0x7f_ffff, 0xffff_ffff]),
            _ => random.below(sectors + 2),
        };
        let bucket = match random.below(12) {
            0 => random.below(BUCKETS),
            _ => usize::from(score[0]),
        };
        let start = HINT * (bucket * places + random.below(places));
        index[start..start + HINT].copy_from_slice(&hint(&score, kind, sector));
        if random.percent(8) {
            index[start + random.below(HINT)] ^= 1 << random.below(8);
        }
    }
    index
}

/// An index as it stands in a trace: its places that are not free.
pub fn shown(index: &[u8]) -> String {
    let end = places(index.len()) * BUCKETS * HINT;
    let taken = index[..end].chunks(HINT).enumerate();
    let taken = taken.filter(|(_, place)| place.iter().any(|&byte| byte != 0));
    let words: Vec<String> = taken
        .take(12)
        .map(|(at, place)| {
            let sector = second::message::number(&place[21..]);
            format!(
                "{at}: {:02x}{:02x}.. type {} at {sector}",
                place[0], place[1], place[20]
            )
        })
        .collect();
    format!("index of {} [{}]", index.len(), words.join(", "))
}
