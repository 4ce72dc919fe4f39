//! The writer of files: slices of any bytes and sizes, on any log, with room that runs out.

use second::sector::SECTOR;

use crate::archive::Archive;
use crate::collision;
use crate::compare::{buffer, hex, number, Compare, Parts, Trace};
use crate::dates;
use crate::hostile::parts_lent;
use crate::messages::Pool;
use crate::random::Random;

/// A slice, and the sizes of its tree: dsize and psize. It has few blocks, since some archives look
/// through the log for each.
pub fn slice(random: &mut Random) -> (Vec<u8>, (usize, usize)) {
    let (one, other) = collision::pair();
    let dsize = match random.below(40) {
        0 => random.pick(&[0, 57_345, usize::MAX]),
        _ => random.pick(&[1, 7, 20, 320, 320, 389, 390, 400, 57_344]),
    };
    let psize = match random.below(40) {
        0 => random.pick(&[0, 39, 57_345, usize::MAX]),
        _ => random.pick(&[40, 40, 59, 60, 60, 100, 57_344]),
    };
    let leaf = dsize.clamp(1, 400);
    let pieces = [
        random.bytes(leaf),
        random.bytes(leaf),
        vec![0; leaf],
        vec![7; leaf],
        [&random.bytes(leaf)[..leaf / 2], &vec![0; leaf - leaf / 2]].concat(),
        one,
        other,
    ];
    let mut slice = Vec::new();
    for _ in 0..random.below(10) {
        slice.extend(&pieces[random.below(pieces.len())]);
    }
    if leaf < 20 && random.percent(50) {
        slice.truncate(random.below(12) * leaf);
    }
    match random.below(20) {
        0 => slice = vec![random.pick(&[0, 7]); random.pick(&[127, 128, 129, 255])],
        1 => slice = vec![random.byte(); random.between(57_343, 57_346)],
        2 => slice.truncate(random.below(slice.len() + 1)),
        3 => slice.resize(slice.len() + random.below(900), 0),
        _ => {}
    }
    // Thousands of leaves would take long.
    let most = if slice.len() > 57_344 {
        slice.len()
    } else {
        300 * leaf
    };
    slice.truncate(most);
    (slice, (dsize, psize))
}

/// A call as it stands in a trace.
pub fn shown(slice: &[u8], (dsize, psize): (usize, usize), date: &[u8]) -> String {
    let date = date.escape_ascii();
    let slice = format!("{} bytes: {}", slice.len(), hex(slice));
    format!("write_file, date \"{date}\", dsize {dsize}, psize {psize}, of {slice}")
}

pub fn run(
    archive: &mut dyn Archive,
    compare: &mut Compare,
    random: &mut Random,
    trace: &mut Trace,
) -> Result<(), String> {
    let mut tested = match random.percent(40) {
        true => {
            let mut pool = Pool::new(random);
            parts_lent(random, &mut pool, trace)
        }
        false => {
            let log = vec![0; random.below(30) * SECTOR];
            let waiting = vec![0; random.below(24) * SECTOR];
            Parts { log, waiting }
        }
    };
    for _ in 0..2 {
        one(archive, compare, random, trace, &mut tested)?;
    }
    Ok(())
}

/// One call, and reading back what it wrote.
fn one(
    archive: &mut dyn Archive,
    compare: &mut Compare,
    random: &mut Random,
    trace: &mut Trace,
    tested: &mut Parts,
) -> Result<(), String> {
    let (slice, sizes) = slice(random);
    let date = dates::lent(random);
    trace.note(|| {
        let call = shown(&slice, sizes, &date);
        format!(
            "a log of {}, waiting {}: {call}",
            tested.log.len(),
            tested.waiting.len()
        )
    });
    let mut second = tested.clone();
    let Parts { log, waiting } = &mut second;
    let right = second::writer::write_file(log, waiting, &date, &slice, sizes.0, sizes.1);
    let answer = {
        let Parts { log, waiting } = tested;
        archive.write_file(log, waiting, &date, &slice, sizes)
    };
    compare.call("write_file", number(&right), answer, right)?;
    buffer("the log", &tested.log, &second.log)?;
    buffer("the waiting part", &tested.waiting, &second.waiting)?;
    let (Ok(entry), false) = (right, slice.is_empty()) else {
        return Ok(());
    };
    trace.note(|| format!("read back through {}", hex(&entry)));
    let mut read = vec![0xaa; slice.len()];
    let Parts { log, waiting } = &*tested;
    let filled = archive.fill(log, waiting, &entry, 0, &mut read);
    compare.call("fill", 0, filled, (Ok(()), slice.len()))?;
    buffer("the slice read back", &read, &slice)
}
