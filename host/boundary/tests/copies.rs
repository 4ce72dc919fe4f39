//! All that a root reaches, copied into another log: whole, in two runs, into a log that is full, and
//! from a log that lacks a block.

use boundary::{copy, serve, sha1, sound_at, walk, Refusal, Session, Walked};

const SECTOR: usize = 512;
const DATE: &[u8] = b"20261116";

/// Stores a block in a log and settles it; gives its score.
fn write(log: &mut [u8], kind: u8, data: &[u8]) -> [u8; 20] {
    let mut waiting = vec![0; 4 * SECTOR];
    let body = [&[14, 9, kind, 0, 0, 0], data].concat();
    for body in [&body[..], &[16, 9]] {
        let size = body.len() as u16;
        let message = [&size.to_be_bytes()[..], body].concat();
        let mut reply = vec![0; 57_348];
        let served = serve(
            Session::Greeted,
            &message,
            DATE,
            log,
            &mut waiting,
            &mut [],
            &mut reply,
        );
        assert_eq!(served.outcome, Ok(()));
    }
    sha1(data)
}

/// A data entry of depth 0 with one leaf of at most 1,000 bytes.
fn entry(score: &[u8; 20]) -> Vec<u8> {
    let mut entry = vec![0; 40];
    entry[5] = 40;
    entry[6..8].copy_from_slice(&1000_u16.to_be_bytes());
    entry[8] = 1;
    entry[19] = 9;
    entry[20..].copy_from_slice(score);
    entry
}

/// A log with a root over two leaves, of which the second is left out where `lacks`; and its score.
fn tree(lacks: bool) -> (Vec<u8>, [u8; 20]) {
    let mut log = vec![0; 20 * SECTOR];
    let mut root = vec![0; 300];
    root[1] = 2;
    let first = entry(&write(&mut log, 13, b"first"));
    let second = if lacks {
        entry(&sha1(b"second"))
    } else {
        entry(&write(&mut log, 13, b"second"))
    };
    let directory = write(&mut log, 2, &[first, second].concat());
    root[258..278].copy_from_slice(&directory);
    let score = write(&mut log, 1, &root);
    (log, score)
}

/// The used sectors of a log.
fn used(log: &[u8]) -> usize {
    log.chunks(SECTOR)
        .rposition(|sector| sector.iter().any(|byte| *byte != 0))
        .map_or(0, |last| last + 1)
}

fn stopped(refusal: Refusal, visits: u64) -> Walked {
    Walked {
        outcome: Err(refusal),
        visits,
    }
}

fn done(visits: u64) -> Walked {
    Walked {
        outcome: Ok(()),
        visits,
    }
}

#[test]
fn children_before_parents_and_the_walk_ends_alike() {
    let (log, score) = tree(false);
    let mut second = vec![0; 20 * SECTOR];
    assert_eq!(copy(&log, &[], &mut second, DATE, &score, 4), done(4));
    assert_eq!(walk(&second, &[], &score, 4), done(4));
    // The tree was written in this order too, so the logs are equal.
    assert_eq!(second, log);
    // A second run stores nothing.
    assert_eq!(copy(&log, &[], &mut second, DATE, &score, 4), done(4));
    assert_eq!(second, log);
}

#[test]
fn a_refusal_keeps_what_was_copied() {
    let (log, score) = tree(false);
    let mut second = vec![0; 20 * SECTOR];
    let spent = copy(&log, &[], &mut second, DATE, &score, 3);
    assert_eq!(spent, stopped(Refusal::Spent, 3));
    assert_eq!(used(&second), 1);
    assert_eq!(second[..SECTOR], log[..SECTOR]);
    assert!(sound_at(&second, 0).is_ok());
    // It goes on from there.
    assert_eq!(copy(&log, &[], &mut second, DATE, &score, 4), done(4));
    assert_eq!(second, log);
}

#[test]
fn a_full_second_log_is_14_and_a_missing_leaf_11() {
    let (log, score) = tree(false);
    let mut second = vec![0; SECTOR];
    let full = copy(&log, &[], &mut second, DATE, &score, 4);
    assert_eq!(full, stopped(Refusal::NoRoom, 4));
    assert_eq!(second, log[..SECTOR]);

    let (log, score) = tree(true);
    let mut second = vec![0; 20 * SECTOR];
    let missing = copy(&log, &[], &mut second, DATE, &score, 4);
    assert_eq!(missing, stopped(Refusal::NotHeld, 4));
    assert_eq!(used(&second), 1);
}

#[test]
fn tests_3_24_and_23_write_nothing() {
    let (log, score) = tree(false);
    let mut second = vec![0; 20 * SECTOR];
    let cases = [
        copy(&log, &[], &mut second, b"2026111x", &score, 1_000_001),
        copy(&log, &[], &mut second, DATE, &score, 1_000_001),
    ];
    assert_eq!(cases[0], stopped(Refusal::Date, 0));
    assert_eq!(cases[1], stopped(Refusal::Allowance, 0));
    assert_eq!(used(&second), 0);
    let ragged = copy(&log, &[], &mut second[..513], b"2026111x", &score, 4);
    assert_eq!(ragged, stopped(Refusal::LogLength, 0));
    assert_eq!(used(&second), 0);
}
