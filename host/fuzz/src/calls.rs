//! Calls without a log, and logs at the limits of their length.

use second::log::MOST_WAITING;
use second::message::{whole, LEAST_REPLY};
use second::sector::SECTOR;
use second::sha1::ZERO_SCORE;
use second::Session;

use crate::archive::Archive;
use crate::compare::{buffer, hex, number, Asked, Compare, Parts, Trace};
use crate::dates;
use crate::messages::Pool;
use crate::random::Random;

pub fn run(
    archive: &mut dyn Archive,
    compare: &mut Compare,
    random: &mut Random,
    trace: &mut Trace,
) -> Result<(), String> {
    for _ in 0..3 {
        cut_and_pad(archive, compare, random, trace)?;
    }

    let enumerated = match random.below(4) {
        0 => random.number() >> random.below(64),
        _ => random.below(20) as u64,
    };
    trace.note(|| format!("wire type of {enumerated}"));
    let right = second::kind::wire_type(enumerated);
    let answer = archive.wire_type(enumerated);
    compare.call("wire_type", number(&right), answer, right)?;

    let count = random.below(200);
    let bytes = random.bytes(count);
    trace.note(|| format!("digests of {count} bytes: {}", hex(&bytes)));
    let right = second::sha1::sha1(&bytes);
    compare.call("sha1", 0, archive.sha1(&bytes), right)?;
    let right = second::crc32::crc32(&bytes);
    compare.call("crc32", 0, archive.crc32(&bytes), right)?;

    let log = vec![0; random.pick(&[0, 1, 511, 512, 513, 1024])];
    let length = random.pick(&[0, 127, 128, 129, 200]);
    trace.note(|| format!("report of {} zeros, buffer of {length}", log.len()));
    let mut tested = vec![0xaa; length];
    let mut second = vec![0xaa; length];
    let right = second::report::report(&log, &mut second);
    let answer = archive.report(&log, &mut tested);
    compare.call("report", number(&right), answer, right)?;
    buffer("the report's buffer", &tested, &second)?;

    let sector = random.pick(&[0, 1, 2, usize::MAX]);
    trace.note(|| format!("the sound block at sector {sector} of {}", log.len()));
    let right = second::log::asked_at(&log, sector);
    let answer = archive.sound_at(&log, sector);
    compare.call("sound_at", number(&right), answer, right)
}

fn cut_and_pad(
    archive: &mut dyn Archive,
    compare: &mut Compare,
    random: &mut Random,
    trace: &mut Trace,
) -> Result<(), String> {
    let kind = random.pick(&[1, 2, 3, 5, 9, 13, 13, 3, 0, 10, 12, 14, 255]);
    let mut block = Vec::new();
    for _ in 0..random.below(6) {
        match random.below(4) {
            0 => block.extend(ZERO_SCORE),
            1 => block.extend([0; 20]),
            2 => block.extend(random.score()),
            _ => block.extend(vec![0; random.below(25)]),
        }
    }
    if random.percent(60) {
        block.truncate(block.len() / 20 * 20);
    }
    if random.percent(40) {
        block.extend(ZERO_SCORE.repeat(random.below(3)));
    }
    trace.note(|| format!("cut type {kind}: {}", hex(&block)));
    let right = second::zeros::cut(kind, &block);
    let answer = archive.cut(kind, &block);
    compare.call("cut", number(&right), answer, right)?;

    let block_len = block.len();
    let room = random.pick(&[0, 20, 40, 100, 101]);
    block.resize(block_len + room, 0x55);
    let target = match random.below(6) {
        0 => random.below(300),
        1 => block_len,
        2 => block_len + room + 1,
        3 => block_len.saturating_sub(random.pick(&[1, 20])),
        _ => block_len + room.min(20 * random.below(5)),
    };
    trace.note(|| {
        format!(
            "pad type {kind} from {block_len} to {target}: {}",
            hex(&block)
        )
    });
    let mut second = block.clone();
    let right = second::zeros::pad(kind, &mut second, block_len, target);
    let answer = archive.pad(kind, &mut block, block_len, target);
    compare.call("pad", right, answer, right)?;
    buffer("the padded buffer", &block, &second)
}

/// Logs and waiting parts of the most sectors allowed and of one more.
pub fn limits(
    archive: &mut dyn Archive,
    compare: &mut Compare,
    random: &mut Random,
    trace: &mut Trace,
) -> Result<(), String> {
    let pool = Pool::new(random);
    let sectors = second::log::MOST_SECTORS;
    for (length, waiting, full) in [
        (SECTOR, MOST_WAITING + 1, false),
        ((sectors + 1) * SECTOR, 1, false),
        (sectors * SECTOR, MOST_WAITING, false),
        (sectors * SECTOR, MOST_WAITING, true),
    ] {
        trace.note(|| {
            format!("a blank log of {length} bytes, waiting {waiting}, last byte set: {full}")
        });
        let lend = || {
            let mut log = vec![0; length];
            log[length - 1] = u8::from(full);
            let waiting = vec![0; waiting * SECTOR];
            Parts { log, waiting }
        };
        let (mut tested, mut second) = (lend(), lend());
        let sync = whole(16, 0, &[]);
        for message in [pool.write(random), pool.read(random), sync] {
            trace.note(|| format!("message of {}: {}", message.len(), hex(&message)));
            let asked = Asked {
                session: Session::Ready,
                message: &message,
                date: &dates::lent(random),
                index: &[],
                reply_len: LEAST_REPLY,
            };
            let lent = (&mut tested, &mut second);
            compare.request(archive, asked, lent, None)?;
        }
        let Parts { log, waiting } = &tested;
        let mut text = ([0; 128], [0; 128]);
        let right = second::report::report(log, &mut text.1);
        let answer = archive.report(log, &mut text.0);
        compare.call("report", number(&right), answer, right)?;
        buffer("the report's buffer", &text.0, &text.1)?;
        let right = second::walk::walk(log, waiting, &ZERO_SCORE, 3);
        compare.call(
            "walk",
            number(&right.0),
            archive.walk(log, waiting, &ZERO_SCORE, 3),
            right,
        )?;
        // the same log as the second one of a copy
        let parts: (&[u8], &[u8]) = (&[], &[]);
        let (log, date) = (&mut second.log, dates::lent(random));
        let right = second::copy::copy(parts.0, parts.1, log, &date, &ZERO_SCORE, 3);
        let log = &mut tested.log;
        let answer = archive.copy(parts, log, &date, &ZERO_SCORE, 3);
        compare.call("copy", number(&right.0), answer, right)?;
    }
    Ok(())
}
