//! The index beside the log: entering, rebuilding, look-up by it and requests that are lent one.

use second::index::{asked, enter, hint, places, rebuild, BUCKETS, HINT};
use second::log::write;
use second::message::whole;
use second::request::{serve, serve_by};
use second::sector::{check, CHECK, SECTOR};
use second::sha1::{sha1, Score, ZERO_SCORE};
use second::{Edition, Refusal, Session};

const EDITION: Edition = Edition::Second(*b"20261116");
/// An index with one place in each bucket.
const ONE: usize = BUCKETS * HINT;

/// A log of so many sectors with some small blocks of data, a sector each.
fn log_of(sectors: usize, blocks: &[&[u8]]) -> Vec<u8> {
    let mut log = vec![0; sectors * SECTOR];
    for (first, data) in blocks.iter().enumerate() {
        write(&mut log, first, EDITION, 13, data);
    }
    log
}

/// The place of an entry in an index.
fn place(index: &[u8], score: &Score, number: usize) -> usize {
    HINT * (usize::from(score[0]) * places(index.len()) + number)
}

/// Puts an entry into a place of a score's bucket.
fn put(index: &mut [u8], score: &Score, number: usize, entry: &[u8; HINT]) {
    let start = place(index, score, number);
    index[start..start + HINT].copy_from_slice(entry);
}

fn block(kind: u8, data: &[u8]) -> Vec<u8> {
    whole(14, 9, &[&[kind, 0, 0, 0], data].concat())
}

fn read(kind: u8, score: &Score, count: u16) -> Vec<u8> {
    let count = count.to_be_bytes();
    whole(12, 9, &[&score[..], &[kind, 0], &count].concat())
}

/// One request: its number and reply buffer.
fn ask(
    log: &mut [u8],
    waiting: &mut [u8],
    index: &mut [u8],
    session: Session,
    message: &[u8],
) -> (u8, Vec<u8>) {
    let mut reply = vec![0; 57_348];
    let date = Some(&b"20261116"[..]);
    let lent = Some(waiting);
    let (number, _) = serve_by(session, message, date, log, lent, index, &mut reply);
    (number, reply)
}

/// k entries in each bucket, and the bytes left over: 0, 6,399, 6,400, 12,799, 12,800 and 12,807 bytes.
#[test]
fn lengths() {
    let expected = [
        (0, 0),
        (6_399, 0),
        (6_400, 1),
        (12_799, 1),
        (12_800, 2),
        (12_807, 2),
    ];
    for (length, count) in expected {
        assert_eq!(places(length), count);
        let mut index = vec![0; length];
        for first in 0..=255 {
            for number in 0..3 {
                enter(&mut index, &[first; 20], 13, number);
            }
        }
        let (buckets, left) = index.split_at(ONE * count);
        assert!(left.iter().all(|&byte| byte == 0));
        for (number, entry) in buckets.chunks(HINT).enumerate() {
            let score = [(number / count) as u8; 20];
            assert_eq!(entry, hint(&score, 13, number % count));
        }
    }
    let entry = hint(&[7; 20], 13, 0x12_3456);
    assert_eq!(entry[20..], [13, 0, 0x12, 0x34, 0x56]);
}

/// A full bucket stays as it is; a free place between others is taken first; equal entries count for nothing.
#[test]
fn entering() {
    let mut index = vec![0; 3 * ONE + 7];
    let score = [5; 20];
    put(&mut index, &score, 1, &hint(&score, 13, 9));
    enter(&mut index, &score, 13, 9);
    let start = place(&index, &score, 0);
    assert_eq!(index[start..start + HINT], hint(&score, 13, 9));
    enter(&mut index, &score, 2, 8);
    let full = index.clone();
    enter(&mut index, &score, 13, 7);
    assert_eq!(index, full);
    let third = place(&index, &score, 2);
    assert_eq!(index[third..third + HINT], hint(&score, 2, 8));
    // one byte that isn't zero takes the place
    let mut index = vec![0; ONE];
    let last = place(&index, &score, 0) + HINT - 1;
    index[last] = 1;
    let before = index.clone();
    enter(&mut index, &score, 13, 7);
    assert_eq!(index, before);
}

/// The buckets are cleared, the bytes left over are not, and two copies of a block are two entries.
#[test]
fn rebuilding() {
    let log = log_of(9, &[b"one", b"two", b"one", b"bad"]);
    let mut bad = log.clone();
    bad[3 * SECTOR + 120] ^= 1;
    for length in [0, 6_399, 6_400, 12_807] {
        let mut index = vec![0xaa; length];
        assert_eq!(rebuild(&bad, &mut index), 0);
        let cleared = ONE * places(length);
        let mut expected = vec![0; cleared];
        expected.resize(length, 0xaa);
        for (first, data) in [&b"one"[..], b"two", b"one"].iter().enumerate() {
            enter(&mut expected, &sha1(data), 13, first);
        }
        assert_eq!(index, expected);
        let entries = index[..cleared]
            .chunks(HINT)
            .filter(|place| place[20] == 13);
        assert_eq!(entries.count(), [0, 2, 3][places(length)]);
    }
    for odd in [&log[1..], &vec![0; 1_048_577 * SECTOR]] {
        let mut index = vec![0xaa; ONE];
        assert_eq!(rebuild(odd, &mut index), 3);
        assert_eq!(index, vec![0xaa; ONE]);
    }
}

/// The first entry that holds true decides; stale, foreign and far ones are passed over.
#[test]
fn look_up() {
    let log = log_of(9, &[b"one", b"two", b"one"]);
    let score = sha1(b"one");
    let mut index = vec![0; 6 * ONE];
    let at = |index: &[u8], kind, score| asked(&log, &[], index, kind, score);
    assert_eq!(at(&index, 13, &score), Ok(Some(0)));
    let passed = [
        // another block, a blank sector, past the end, far past it
        hint(&score, 13, 1),
        hint(&score, 13, 5),
        hint(&score, 13, 9),
        hint(&score, 13, 0xffff_ffff),
        // another type
        hint(&score, 2, 0),
    ];
    for (number, entry) in passed.iter().enumerate() {
        put(&mut index, &score, number, entry);
    }
    assert_eq!(at(&index, 13, &score), Ok(Some(0)));
    put(&mut index, &score, 5, &hint(&score, 13, 2));
    assert_eq!(at(&index, 13, &score), Ok(Some(2)));
    put(&mut index, &score, 1, &hint(&score, 13, 0));
    assert_eq!(at(&index, 13, &score), Ok(Some(0)));
    // an entry in a foreign bucket is not seen
    let mut foreign = vec![0; ONE];
    let other: Score = std::array::from_fn(|k| score[k] ^ u8::from(k == 0));
    put(&mut foreign, &other, 0, &hint(&score, 13, 2));
    assert_eq!(at(&foreign, 13, &score), Ok(Some(0)));

    assert_eq!(at(&index, 13, &ZERO_SCORE), Ok(None));
    assert_eq!(at(&index, 2, &score), Err(11.into()));
    assert_eq!(at(&index, 12, &score), Err(9.into()));
    assert_eq!(asked(&log[1..], &[], &index, 12, &score), Err(3.into()));
    assert_eq!(asked(&log, &[0], &index, 13, &score), Err(3.into()));
    let mut doubtful = log.clone();
    doubtful[SECTOR] ^= 1;
    assert_eq!(
        asked(&doubtful, &[], &index, 13, &[1; 20]),
        Err(Refusal::not_known(1))
    );
    assert_eq!(asked(&doubtful, &[], &index, 13, &score), Ok(Some(0)));
}

/// An entry leads to the head of a block, never into the midst of it.
#[test]
fn a_hint_into_a_block() {
    let mut log = vec![0; 5 * SECTOR];
    let data = vec![7; 1_000];
    write(&mut log, 0, EDITION, 13, &data);
    let score = sha1(&data);
    let mut index = vec![0; ONE];
    put(&mut index, &score, 0, &hint(&score, 13, 1));
    assert_eq!(asked(&log, &[], &index, 13, &score), Ok(Some(0)));
    let last = &mut log[2 * SECTOR..3 * SECTOR];
    last[120] ^= 1;
    let fitting = check(&last[..CHECK]);
    last[CHECK..].copy_from_slice(&fitting);
    put(&mut index, &score, 0, &hint(&score, 13, 0));
    let gone = asked(&log, &[], &index, 13, &score);
    assert_eq!(gone, Err(Refusal::not_known(0)));
}

/// A write enters the block that it stores, by its number in both parts, and nothing else changes the index.
#[test]
fn kept_by_writes() {
    let mut log = log_of(6, &[b"settled"]);
    let mut waiting = vec![0; 2 * SECTOR];
    let mut index = vec![0; 2 * ONE + 7];
    let before = index.clone();
    let (one, settled) = (sha1(b"one"), sha1(b"settled"));
    let still = [
        (Session::Fresh, block(13, b"one"), 7),
        (Session::Ready, block(13, b""), 0),
        (Session::Ready, block(13, b"settled"), 0),
        (Session::Ready, block(12, b"one"), 9),
        (Session::Ready, block(13, &[0; 57_345]), 10),
        (Session::Ready, block(13, &[7; 900]), 14),
        (Session::Ready, read(13, &settled, 9), 0),
        (Session::Ready, read(13, &settled, 1), 13),
        (Session::Ready, read(13, &one, 9), 11),
        (Session::Ready, whole(16, 9, &[]), 0),
        (Session::Ready, whole(2, 9, &[]), 0),
        (Session::Fresh, whole(6, 9, &[]), 0),
    ];
    for (session, message, number) in &still {
        let answer = ask(&mut log, &mut waiting, &mut index, *session, message);
        assert_eq!((answer.0, &index), (*number, &before));
    }
    let ready = Session::Ready;
    let stored = ask(
        &mut log,
        &mut waiting,
        &mut index,
        ready,
        &block(13, b"one"),
    );
    assert_eq!(stored.0, 0);
    let mut expected = before;
    enter(&mut expected, &one, 13, 1);
    assert_eq!(index, expected);
    // it holds before and after the sync, and is passed over after a stop
    assert_eq!(asked(&log, &waiting, &index, 13, &one), Ok(Some(1)));
    let unsettled = log.clone();
    for message in [whole(16, 9, &[]), block(13, b"one")] {
        let answer = ask(&mut log, &mut waiting, &mut index, ready, &message);
        assert_eq!((answer.0, &index), (0, &expected));
    }
    assert_eq!(asked(&log, &waiting, &index, 13, &one), Ok(Some(1)));
    assert_eq!(asked(&unsettled, &[], &index, 13, &one), Err(11.into()));
    // without a waiting part, too
    let (mut log, mut index) = (log_of(2, &[b"settled"]), vec![0; ONE]);
    let (message, reply) = (block(13, b"one"), &mut vec![0; 57_348]);
    serve_by(ready, &message, None, &mut log, None, &mut index, reply);
    let mut expected = vec![0; ONE];
    enter(&mut expected, &one, 13, 1);
    assert_eq!(index, expected);
}

/// A read by any index gives the scan's reply; 13 is tested on the block found.
#[test]
fn reads_as_the_scan() {
    let blocks: [&[u8]; 3] = [b"one", b"two", b"three"];
    let mut state = 1_u32;
    let mut random = move || {
        state = state.wrapping_mul(1_664_525).wrapping_add(1_013_904_223);
        (state >> 24) as u8
    };
    let (mut log, mut waiting) = (log_of(6, &blocks), vec![0; SECTOR]);
    for round in 0..300 {
        let length = [0, 6_399, ONE, 2 * ONE + 7, 5 * ONE][round % 5];
        let mut index: Vec<u8> = (0..length).map(|_| random()).collect();
        for data in blocks {
            let score = sha1(data);
            for number in 0..places(length) {
                let entry = hint(&score, 13, usize::from(random() % 5));
                put(&mut index, &score, number, &entry);
            }
            let lent = index.clone();
            let message = read(13, &score, u16::from(random() % 8));
            let mut reply = vec![0; 57_348];
            let date = Some(&b"20261116"[..]);
            let parts = (&mut log[..], Some(&mut waiting[..]));
            let scan = serve(Session::Ready, &message, date, parts.0, parts.1, &mut reply);
            let by = ask(&mut log, &mut waiting, &mut index, Session::Ready, &message);
            assert_eq!((by.0, by.1), (scan.0, reply));
            assert_eq!(index, lent);
        }
    }
}
