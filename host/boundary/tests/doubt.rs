//! Where the doubt is: refusal 12 with the log's first doubtful sector, in a reply's text, in reading
//! a file and in a walk; the same where the doubt is among the waiting sectors.

use boundary::{fill, locate, serve, sha1, walk, Filled, Refusal, Run, Session, Walked};

const SECTOR: usize = 512;
/// Bytes in a dated label.
const LABEL: usize = 110;
/// The sectors of the longest block.
const PARTS: usize = 148;

fn message(kind: u8, body: &[u8]) -> Vec<u8> {
    let size = (body.len() + 2) as u16;
    [&size.to_be_bytes()[..], &[kind, 9], body].concat()
}

/// Serves one message of tag 9 with nothing waiting; gives the outcome and the reply.
fn ask(log: &mut [u8], message: &[u8]) -> (Result<(), Refusal>, Vec<u8>) {
    ask_both(log, &mut [], message)
}

fn ask_both(log: &mut [u8], waiting: &mut [u8], message: &[u8]) -> (Result<(), Refusal>, Vec<u8>) {
    let mut reply = vec![0xee; 57_348];
    let served = serve(
        Session::Greeted,
        message,
        b"20261116",
        log,
        waiting,
        &mut [],
        &mut reply,
    );
    let size = 2 + usize::from(reply[0]) * 256 + usize::from(reply[1]);
    assert!(reply[size..].iter().all(|byte| *byte == 0xee));
    reply.truncate(size);
    (served.outcome, reply)
}

/// Stores a block and settles it.
fn write(log: &mut [u8], kind: u8, data: &[u8]) -> [u8; 20] {
    let mut waiting = vec![0; PARTS * SECTOR];
    let score = write_waiting(log, &mut waiting, kind, data);
    let synced = ask_both(log, &mut waiting, &message(16, b""));
    assert_eq!(synced, (Ok(()), vec![0, 2, 17, 9]));
    score
}

fn write_waiting(log: &mut [u8], waiting: &mut [u8], kind: u8, data: &[u8]) -> [u8; 20] {
    let write = message(14, &[&[kind, 0, 0, 0], data].concat());
    assert_eq!(ask_both(log, waiting, &write).0, Ok(()));
    sha1(data)
}

fn read(kind: u8, score: &[u8; 20]) -> Vec<u8> {
    message(12, &[&score[..], &[kind, 0, 0xff, 0xff]].concat())
}

/// A data entry of depth 0 with one leaf of at most 1,000 bytes.
fn entry(score: &[u8; 20]) -> Vec<u8> {
    let mut entry = vec![0; 40];
    entry[5] = 40;
    entry[6..8].copy_from_slice(&1000_u16.to_be_bytes());
    entry[8] = 1;
    entry[19] = 9;
    entry[20..].copy_from_slice(score);
    entry
}

/// A root over a directory of these entries.
fn root(log: &mut [u8], entries: &[u8]) -> [u8; 20] {
    let mut root = vec![0; 300];
    root[1] = 2;
    root[258..278].copy_from_slice(&write(log, 2, entries));
    write(log, 1, &root)
}

#[test]
fn the_papers_reply() {
    let mut log = vec![0; 100 * SECTOR];
    for block in 0..42 {
        write(&mut log, 13, &[block]);
    }
    log[42 * SECTOR..44 * SECTOR].fill(7);
    let (outcome, reply) = ask(&mut log, &read(13, &[9; 20]));
    assert_eq!(outcome, Err(Refusal::NotKnown { sector: 42 }));
    let expected = b"\x00\x16\x01\x09\x00\x12why=12 at=0000002a";
    assert_eq!(reply, expected);
    log[SECTOR + 200] ^= 1;
    let (outcome, reply) = ask(&mut log, &read(13, &[9; 20]));
    assert_eq!(outcome, Err(Refusal::NotKnown { sector: 1 }));
    assert!(reply.ends_with(b"at=00000001"));
}

/// The same sector in a reply, in reading and in a walk, wherever the doubt begins; blank sectors
/// before the end of the used part are doubtful too.
#[test]
fn everywhere_the_same() {
    let mut log = vec![0; 30 * SECTOR];
    let leaf = write(&mut log, 13, &[5; 700]);
    let lost = sha1(b"lost");
    let files = [entry(&leaf), entry(&lost)];
    let top = root(&mut log, &files.concat());
    let whole = log.clone();
    let used = 4; // the leaf has two sectors
    for doubtful in 0..30 {
        log.clone_from(&whole);
        log[doubtful * SECTOR + 50] ^= 1;
        let sector = match doubtful {
            0 | 1 => 0, // the leaf is in no sound block any more
            _ => doubtful.min(used),
        };
        let refusal = Err(Refusal::NotKnown { sector });
        assert_eq!(ask(&mut log, &read(13, &lost)).0, refusal);
        assert_eq!(locate(&log, &[], &[0], &files[1], 3).map(|_| ()), refusal);
        let visits = match doubtful {
            0 | 1 => 3,
            2 => 2,
            3 => 1,
            _ => 4,
        };
        let outcome = refusal;
        assert_eq!(walk(&log, &[], &top, 1_000_000), Walked { outcome, visits });
    }
    assert_eq!(ask(&mut log.clone(), &read(13, &leaf)).0, Ok(()));
    assert_eq!(
        ask(&mut whole.clone(), &read(13, &lost)).0,
        Err(Refusal::NotHeld)
    );
    let outcome = Err(Refusal::NotHeld);
    assert_eq!(walk(&whole, &[], &top, 9), Walked { outcome, visits: 4 });
}

/// The longest blocks one after the other, and damage behind them: a sector of five digits.
#[test]
fn past_many_sectors() {
    const BLOCKS: usize = 521;
    let sector = PARTS * BLOCKS;
    let mut log = vec![0; (sector + 9) * SECTOR];
    let mut block = vec![7; 57_344];
    for number in 0..BLOCKS {
        block[..8].copy_from_slice(&number.to_be_bytes());
        write(&mut log, 13, &block);
    }
    let never = [9; 20];
    assert_eq!(ask(&mut log, &read(13, &never)).0, Err(Refusal::NotHeld));
    log[sector * SECTOR] = 1;
    let refusal = Err(Refusal::NotKnown { sector });
    let (outcome, reply) = ask(&mut log, &read(13, &never));
    assert_eq!(outcome, refusal);
    assert!(reply.ends_with(b"why=12 at=00012d34"));
    let file = entry(&never);
    assert_eq!(locate(&log, &[], &[0], &file, 0).map(|_| ()), refusal);
    let (outcome, visits) = (refusal, 1);
    assert_eq!(
        walk(&log, &[], &never, 1_000_000),
        Walked { outcome, visits }
    );
}

/// A file whose leaf is settled and whose root waits; then damage in each sector of both parts.
#[test]
fn in_both_parts() {
    let mut log = vec![0; 30 * SECTOR];
    let mut waiting = vec![0; 6 * SECTOR];
    let leaf = write(&mut log, 13, &[5; 700]);
    let lost = sha1(b"lost");
    let next = write_waiting(&mut log, &mut waiting, 13, &[6; 500]);
    let files = [entry(&leaf), entry(&next), entry(&lost)];
    let mut root = vec![0; 300];
    root[1] = 2;
    let directory = write_waiting(&mut log, &mut waiting, 2, &files.concat());
    root[258..278].copy_from_slice(&directory);
    let top = write_waiting(&mut log, &mut waiting, 1, &root);
    let run = |log: &[u8], waiting: &[u8], file: usize, offset| {
        locate(log, waiting, &[0; 9], &files[file], offset)
    };
    let settled = Run::Log {
        at: LABEL + 3,
        length: 6,
    };
    assert_eq!(run(&log, &waiting, 0, 3), Ok(settled));
    let waits = Run::Waiting {
        at: LABEL + 3,
        length: 6,
    };
    assert_eq!(run(&log, &waiting, 1, 3), Ok(waits));
    let mut filled = [9; 12];
    let done = Filled {
        count: 6,
        outcome: Ok(()),
    };
    assert_eq!(fill(&log, &waiting, &files[1], 3, &mut filled), done);
    assert_eq!(filled, [6, 6, 6, 6, 6, 6, 9, 9, 9, 9, 9, 9]);
    let outcome = Err(Refusal::NotHeld);
    let walked = Walked { outcome, visits: 5 };
    assert_eq!(walk(&log, &waiting, &top, 9), walked);
    // two sectors are settled, then wait two of the leaf, the directory, the root and two blank ones
    for doubtful in 0..8 {
        let (mut log, mut waiting) = (log.clone(), waiting.clone());
        match doubtful {
            0 | 1 => log[doubtful * SECTOR + 50] ^= 1,
            _ => waiting[(doubtful - 2) * SECTOR + 50] ^= 1,
        }
        let sector = [0, 0, 2, 2, 4, 5, 6, 6][doubtful];
        let refusal = Err(Refusal::NotKnown { sector });
        let asked = ask_both(&mut log, &mut waiting, &read(13, &lost));
        assert_eq!(asked.0, refusal, "{doubtful}");
        assert_eq!(run(&log, &waiting, 2, 3).map(|_| ()), refusal);
        let outcome = refusal;
        let visits = [3, 3, 4, 4, 2, 1, 5, 5][doubtful];
        let walked = Walked { outcome, visits };
        assert_eq!(walk(&log, &waiting, &top, 9), walked, "{doubtful}");
    }
}
