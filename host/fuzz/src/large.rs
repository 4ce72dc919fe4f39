//! The longest blocks in trees: a directory, a pointer block and a leaf.

use second::log::{write, MOST_WAITING};
use second::message::{whole, LEAST_REPLY};
use second::sector::SECTOR;
use second::sha1::{sha1, Score, ZERO_SCORE};
use second::Session;

use crate::archive::Archive;
use crate::compare::{hex, number, Asked, Compare, Parts, Trace};
use crate::dates;
use crate::random::Random;
use crate::shape::Shape;

const LONGEST: usize = 57_344;

pub fn run(
    archive: &mut dyn Archive,
    compare: &mut Compare,
    random: &mut Random,
    trace: &mut Trace,
) -> Result<(), String> {
    let mut log = vec![0; 450 * SECTOR];
    let mut used = 0;
    let mut editions = [0; 4].map(|_| dates::edition(random)).into_iter();
    let mut store = |kind: u8, data: &[u8]| -> Score {
        let edition = editions.next().expect("one for each block");
        write(&mut log, used, edition, kind, data);
        used += edition.sectors_for(data.len());
        sha1(data)
    };

    let leaf = store(13, &random.bytes(LONGEST));
    let mut pointers = ZERO_SCORE.repeat(LONGEST / 20);
    for _ in 0..3 {
        let at = random.below(LONGEST / 20) * 20;
        pointers[at..at + 20].copy_from_slice(&leaf);
    }
    let end = pointers.len();
    pointers[end - 20..].copy_from_slice(&leaf);
    let top = store(3, &pointers);
    let shape = Shape {
        psize: LONGEST,
        dsize: LONGEST,
        directory: false,
        depth: 1,
    };
    let entry = shape.bytes(&top, (end / 20 * LONGEST) as u64);

    // The directory ends inside an entry: what its score lacks is zero bytes.
    let mut directory = vec![0; LONGEST];
    let at = random.below(LONGEST / 40) * 40;
    let small = Shape { depth: 0, ..shape };
    directory[at..at + 40].copy_from_slice(&small.bytes(&leaf, 1));
    if random.percent(50) {
        let last = LONGEST / 40 * 40;
        directory[last..].copy_from_slice(&small.bytes(&leaf, 1)[..LONGEST - last]);
    }
    let mut root = vec![0, 2];
    root.resize(258, 0);
    root.extend(store(2, &directory));
    let root = store(1, &root);

    let border = match random.below(2) {
        0 => log.len() / SECTOR,
        _ => random.between(used.saturating_sub(MOST_WAITING), used),
    };
    let mut waiting = log.split_off(border * SECTOR);
    waiting.truncate(MOST_WAITING * SECTOR);
    let lent = Parts { log, waiting };
    let page = vec![0; random.pick(&[1, 60_000])];
    for _ in 0..4 {
        let pointer = match random.below(3) {
            0 => end / 20 - 1,
            _ => random.below(end / 20),
        };
        let offset = (pointer * LONGEST + random.below(LONGEST)) as u64;
        trace.note(|| format!("locate {} at {offset}", hex(&entry)));
        let Parts { log, waiting } = &lent;
        let right = second::tree::locate(log, waiting, &page, &entry, offset);
        let answer = archive.locate(log, waiting, &page, &entry, offset);
        compare.call("locate", number(&right), answer, right)?;
    }
    walk_and_read(archive, compare, random, trace, lent, &root)
}

/// Walks from the root and reads a block that nobody stored, half the time after damage past sector
/// 255: the first doubtful sector then needs more than two digits.
fn walk_and_read(
    archive: &mut dyn Archive,
    compare: &mut Compare,
    random: &mut Random,
    trace: &mut Trace,
    mut lent: Parts,
    root: &Score,
) -> Result<(), String> {
    if random.percent(50) {
        let settled = lent.log.len();
        let at = random.between(256 * SECTOR, settled + lent.waiting.len() - 1);
        let byte = match at.checked_sub(settled) {
            None => &mut lent.log[at],
            Some(at) => &mut lent.waiting[at],
        };
        *byte ^= random.mark();
        trace.note(|| format!("byte {at} changed"));
    }
    trace.note(|| format!("walk {}", hex(root)));
    let right = second::walk::walk(&lent.log, &lent.waiting, root, 100);
    let answer = archive.walk(&lent.log, &lent.waiting, root, 100);
    compare.call("walk", number(&right.0), answer, right)?;
    let never = whole(12, 9, &[&random.score()[..], &[13, 0, 0, 9]].concat());
    trace.note(|| format!("message of {}: {}", never.len(), hex(&never)));
    let mut second = lent.clone();
    let asked = Asked {
        session: Session::Ready,
        message: &never,
        date: &dates::lent(random),
        index: &[],
        reply_len: LEAST_REPLY,
    };
    let lent = (&mut lent, &mut second);
    compare.request(archive, asked, lent, None)?;
    Ok(())
}
