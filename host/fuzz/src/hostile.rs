//! Logs and waiting parts that nobody wrote honestly: labels that lie, blocks that overlap or lie across
//! the border, sectors out of place, parts that do not belong together.

use second::kind::KINDS;
use second::log::MOST_WAITING;
use second::message::{whole, LEAST_REPLY};
use second::sector::{check, encode, Label, CHECK, SECTOR};
use second::{Edition, Session};

use crate::archive::Archive;
use crate::compare::{buffer, hex, number, Asked, Compare, Parts, Trace};
use crate::dates;
use crate::indexes;
use crate::messages::Pool;
use crate::random::Random;

pub fn run(
    archive: &mut dyn Archive,
    compare: &mut Compare,
    random: &mut Random,
    trace: &mut Trace,
) -> Result<(), String> {
    let mut pool = Pool::new(random);
    let mut tested = parts_lent(random, &mut pool, trace);
    let mut second = tested.clone();
    report(archive, compare, &tested.log, trace)?;
    let mut index = indexes::any(random, &pool.names(), tested.log.len() / SECTOR);
    for _ in 0..random.between(2, 8) {
        let message = match random.below(20) {
            0..=10 => pool.read(random),
            11..=16 => pool.write(random),
            17 => whole(16, random.byte(), &[]),
            _ => pool.message(random),
        };
        trace.note(|| {
            let index = indexes::shown(&index);
            format!("message of {}, {index}: {}", message.len(), hex(&message))
        });
        let asked = Asked {
            session: Session::Ready,
            message: &message,
            date: &dates::lent(random),
            index: &index,
            reply_len: LEAST_REPLY,
        };
        let lent = (&mut tested, &mut second);
        compare.request(archive, asked, lent, None)?;
        index = match random.percent(80) && archive.takes_index() {
            true => compare.index.clone(),
            false => indexes::any(random, &pool.names(), tested.log.len() / SECTOR),
        };
    }
    for _ in 0..2 {
        by_index(archive, compare, random, trace, &pool, &tested)?;
    }
    for _ in 0..2 {
        let entry = leaf_entry(random, &pool);
        let offset = random.below(1000) as u64;
        trace.note(|| format!("locate and fill {} at {offset}", hex(&entry)));
        let page = [0; 100];
        let Parts { log, waiting } = &tested;
        let right = second::tree::locate(log, waiting, &page, &entry, offset);
        let answer = archive.locate(log, waiting, &page, &entry, offset);
        compare.call("locate", number(&right), answer, right)?;

        let mut filled = ([0xaa; 600], [0xaa; 600]);
        let right = second::tree::fill(log, waiting, &entry, offset, &mut filled.1);
        let answer = archive.fill(log, waiting, &entry, offset, &mut filled.0);
        compare.call("fill", number(&right.0), answer, right)?;
        buffer("the filled buffer", &filled.0, &filled.1)?;

        let (root, _) = pool.score(random);
        trace.note(|| format!("walk {}", hex(&root)));
        let right = second::walk::walk(log, waiting, &root, 9);
        let answer = archive.walk(log, waiting, &root, 9);
        compare.call("walk", number(&right.0), answer, right)?;
    }
    for _ in 0..3 {
        let sector = random.below(tested.log.len() / SECTOR + 1);
        trace.note(|| format!("the sound block at sector {sector}"));
        let right = second::log::asked_at(&tested.log, sector);
        let answer = archive.sound_at(&tested.log, sector);
        compare.call("sound_at", number(&right), answer, right)?;
    }
    report(archive, compare, &tested.log, trace)
}

/// Look-up by an index, and an index made anew.
fn by_index(
    archive: &mut dyn Archive,
    compare: &mut Compare,
    random: &mut Random,
    trace: &mut Trace,
    pool: &Pool,
    Parts { log, waiting }: &Parts,
) -> Result<(), String> {
    let mut index = indexes::any(random, &pool.names(), log.len() / SECTOR);
    let (mut kind, mut score) = (pool.kind(random), pool.score(random).0);
    if random.percent(70) {
        (kind, score) = random.pick(&pool.names());
    }
    trace.note(|| {
        let index = indexes::shown(&index);
        format!("look up type {kind}, {}, {index}", hex(&score))
    });
    let right = second::index::asked(log, waiting, &index, kind, &score);
    let answer = archive.look_up_by(log, waiting, &index, kind, &score);
    compare.call("look_up_by", number(&right), answer, right)?;
    trace.note(|| "the index made anew".to_string());
    let mut other = index.clone();
    let right = second::index::rebuild(log, &mut other);
    compare.call("rebuild", right, archive.rebuild(log, &mut index), right)?;
    buffer("the index", &index, &other)
}

/// A log and a waiting part: one run of sectors that is cut somewhere, or two that have nothing to do
/// with each other.
pub fn parts_lent(random: &mut Random, pool: &mut Pool, trace: &mut Trace) -> Parts {
    let mut log = sectors_laid(random, pool, trace);
    let mut waiting = match random.below(20) {
        0..=4 => Vec::new(),
        5 | 6 => vec![0; random.between(1, 6) * SECTOR],
        7 | 8 => sectors_laid(random, pool, trace),
        9 => {
            let count = random.between(1, 4);
            random.bytes(count * SECTOR)
        }
        _ => {
            let border = random.below(log.len() / SECTOR + 1);
            log.split_off(border * SECTOR)
        }
    };
    if random.percent(60) {
        log.resize(log.len() + random.between(1, 12) * SECTOR, 0);
        waiting.resize(waiting.len() + random.below(5) * SECTOR, 0);
    }
    match random.below(100) {
        0 => waiting.resize(MOST_WAITING * SECTOR, 0),
        1 => waiting.resize((MOST_WAITING + 1) * SECTOR, 0),
        2 => waiting.push(random.byte()),
        _ => {}
    }
    trace.note(|| format!("a log of {}, waiting {}", log.len(), waiting.len()));
    Parts { log, waiting }
}

fn report(
    archive: &mut dyn Archive,
    compare: &mut Compare,
    log: &[u8],
    trace: &mut Trace,
) -> Result<(), String> {
    trace.note(|| "report".to_string());
    let mut tested = [0xaa; 200];
    let mut second = [0xaa; 200];
    let right = second::report::report(log, &mut second);
    let answer = archive.report(log, &mut tested);
    compare.call("report", number(&right), answer, right)?;
    buffer("the report's buffer", &tested, &second)
}

/// An entry of depth 0 whose score is the pool's.
fn leaf_entry(random: &mut Random, pool: &Pool) -> Vec<u8> {
    let (score, _) = pool.score(random);
    let mut bytes = vec![0; 4];
    bytes.extend([0, 40, 5, 120, random.pick(&[1, 1, 3]), 0, 0, 0, 0, 0]);
    bytes.extend([0, 0, 0, 0, 4, 0]);
    bytes.extend(score);
    bytes
}

/// A few sectors, laid out piece by piece, numbered from 0.
fn sectors_laid(random: &mut Random, pool: &mut Pool, trace: &mut Trace) -> Vec<u8> {
    let sectors = random.between(1, 16);
    let mut log = vec![0; sectors * SECTOR];
    let used = random.between(1, sectors);
    let mut at = 0;
    while at < used {
        let (data, score) = pool.blocks[random.below(pool.blocks.len())].clone();
        let kind = random.pick(&pool.kinds);
        let edition = dates::edition(random);
        pool.stored.push((kind, data.clone(), score));
        let choice = random.below(12);
        trace.note(|| format!("sector {at}: piece {choice}, {} bytes", data.len()));
        let piece = match choice {
            0..=3 => honest(at, edition, kind, &data),
            4..=8 => lying(random, pool, at, edition, kind, &data),
            9 => vec![[0; SECTOR]],
            10 => vec![garbage(random)],
            _ => {
                let mut piece = honest(at, edition, kind, &data);
                piece[0].rotate_right(random.between(1, SECTOR - 1));
                piece
            }
        };
        for (sector, room) in piece.iter().zip(log[at * SECTOR..].chunks_mut(SECTOR)) {
            room.copy_from_slice(sector);
        }
        // Sometimes the next piece starts inside this one.
        at += if random.percent(12) { 1 } else { piece.len() };
    }
    if random.percent(20) {
        let at = random.below(log.len());
        log[at] ^= 1 << random.below(8);
    }
    log
}

fn garbage(random: &mut Random) -> [u8; SECTOR] {
    let mut sector = [0; SECTOR];
    sector.copy_from_slice(&random.bytes(SECTOR));
    if random.percent(50) {
        refit(&mut sector);
    }
    sector
}

fn refit(sector: &mut [u8; SECTOR]) {
    let line = check(&sector[..CHECK]);
    sector[CHECK..].copy_from_slice(&line);
}

/// The labels and payloads of a block.
fn parts(at: usize, edition: Edition, kind: u8, data: &[u8]) -> Vec<(Label, Vec<u8>)> {
    let head = Label {
        edition,
        rec: at as u32,
        part: 0,
        of: edition.sectors_for(data.len()) as u16,
        kind,
        size: data.len() as u16,
        score: second::sha1::sha1(data),
    };
    data.chunks(edition.payload())
        .enumerate()
        .map(|(part, payload)| {
            let part = part as u16;
            (Label { part, ..head }, payload.to_vec())
        })
        .collect()
}

fn sectors(parts: &[(Label, Vec<u8>)]) -> Vec<[u8; SECTOR]> {
    parts
        .iter()
        .map(|(label, payload)| encode(label, payload))
        .collect()
}

fn honest(at: usize, edition: Edition, kind: u8, data: &[u8]) -> Vec<[u8; SECTOR]> {
    sectors(&parts(at, edition, kind, data))
}

/// How many lies there are.
const LIES: usize = 19;

/// A block with one lie, in one of its sectors or in all.
fn lying(
    random: &mut Random,
    pool: &Pool,
    at: usize,
    edition: Edition,
    kind: u8,
    data: &[u8],
) -> Vec<[u8; SECTOR]> {
    let mut parts = parts(at, edition, kind, data);
    let one = random.below(parts.len());
    let all = random.percent(60);
    let lie = random.below(LIES);
    let step = random.pick(&[1, 0xffff]);
    let other = random.pick(&KINDS);
    let odd = random.pick(&[0, 10, 11, 12, 14, 255]);
    let score = match random.below(3) {
        0 => random.score(),
        1 => second::sha1::ZERO_SCORE,
        _ => pool.score(random).0,
    };
    let size = random.pick(&[0, 1, 389, 390, 403, 404, 57_344, 57_345, 65_535]);
    let neighbour = dates::other(random, edition);
    if lie == 8 {
        // One sector more than the size needs, or one less.
        if random.percent(50) {
            let (mut label, _) = parts[0].clone();
            label.part = parts.len() as u16;
            parts.push((label, Vec::new()));
        } else if parts.len() > 1 {
            parts.pop();
        }
    }
    let count = parts.len();
    for (i, (label, payload)) in parts.iter_mut().enumerate() {
        if !all && i != one {
            continue;
        }
        match lie {
            0 => label.rec = label.rec.wrapping_add(random.pick(&[1, u32::MAX, 0x100])),
            1 => label.part = label.part.wrapping_add(step),
            2 => label.of = label.of.wrapping_add(step),
            3 => label.size = label.size.wrapping_add(step),
            4 => label.size = size,
            5 => label.kind = other,
            6 => label.kind = odd,
            7 => label.score = score,
            8 => label.of = count as u16,
            9 => label.score[i % 20] ^= 1,
            10 => {
                let room = edition.payload();
                payload.resize(room, 0);
                payload[room - 1] ^= random.mark();
            }
            12 => label.edition = neighbour,
            13 => {
                label.edition = match edition {
                    Edition::First => neighbour,
                    Edition::Second(_) => Edition::First,
                }
            }
            11 => {
                let at = random.below(payload.len().max(1));
                payload.resize(payload.len().max(1), 0);
                payload[at] ^= 1 << random.below(8);
            }
            _ => {}
        }
    }
    let mut sectors = sectors(&parts);
    for (i, sector) in sectors.iter_mut().enumerate() {
        if lie < 14 || (!all && i != one) {
            continue;
        }
        let lines = &mut sector[edition.front()..edition.label()];
        match lie {
            14 => lines.make_ascii_uppercase(),
            15 => {
                // Capital digits, the names as they are.
                for digit in lines[55..95].iter_mut() {
                    digit.make_ascii_uppercase();
                }
            }
            16 => {
                let any = random.below(96);
                let at = random.pick(&[0, 3, 12, 22, 30, 38, 48, 95, any]);
                lines[at] = random.pick(b" \r\n=0aR");
            }
            17 => dates::spoil(random, sector),
            _ => {
                sector[CHECK..].make_ascii_uppercase();
                continue;
            }
        }
        if random.percent(85) {
            refit(sector);
        }
    }
    if random.percent(8) {
        let last = sectors.len() - 1;
        sectors[one.min(last)][random.between(CHECK, SECTOR - 1)] ^= 1;
    }
    sectors
}
