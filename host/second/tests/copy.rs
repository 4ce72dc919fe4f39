//! A copy of what a root reaches to another log.

use second::copy::copy;
use second::log::{used, write, Contents};
use second::sector::SECTOR;
use second::sha1::{sha1, Score, ZERO_SCORE};
use second::store::store;
use second::walk::walk;
use second::writer::write_file;
use second::{Edition, Refusal};

const DATE: &[u8] = b"20261116";
const LATER: &[u8] = b"20270101";
const FIRST: Edition = Edition::First;
const EDITION: Edition = Edition::Second(*b"20261116");
const COPIED: Edition = Edition::Second(*b"20270101");
const ALLOWANCE: u64 = 1_000;

fn put(log: &mut [u8], kind: u8, data: &[u8]) -> Score {
    let stored = store(log, None, EDITION, kind, data).expect("room");
    stored.score
}

fn entry(depth: u8, directory: bool, size: u64, score: &Score) -> Vec<u8> {
    let mut bytes = vec![0, 0, 0, 0, 0, 60, 1, 0x90];
    bytes.push(1 + 2 * u8::from(directory) + 4 * depth);
    bytes.extend([0; 5]);
    bytes.extend(&size.to_be_bytes()[2..]);
    bytes.extend(score);
    bytes
}

fn root(score: &Score) -> Vec<u8> {
    let mut bytes = vec![0; 300];
    bytes[1] = 2;
    bytes[258..278].copy_from_slice(score);
    bytes
}

/// A tree over a log of 60 sectors: a file of two leaves met twice, a file of zeros, a directory in the
/// directory. Gives the root's score and the blocks in the order of the copy.
fn tree(log: &mut [u8]) -> (Score, Vec<(u8, Vec<u8>)>) {
    let leaves = [vec![7; 400], vec![9; 30]];
    let scores = leaves.each_ref().map(|leaf| put(log, 13, leaf));
    let pointers = scores.concat();
    let file = entry(1, false, 430, &put(log, 3, &pointers));
    let zeros = entry(1, false, 1_000, &ZERO_SCORE);
    let inner = file.clone();
    let inside = entry(0, true, 40, &put(log, 2, &inner));
    let inactive = [0; 40];
    let directory = [&file[..], &zeros, &inactive, &file, &inside].concat();
    let top = put(log, 2, &directory);
    let root = root(&top);
    let score = put(log, 1, &root);
    let [one, other] = leaves;
    let order = vec![
        (13, one),
        (13, other),
        (3, pointers),
        (2, inner),
        (2, directory),
        (1, root),
    ];
    (score, order)
}

/// Types and data of the sound blocks, all copied with the call's date.
fn blocks(log: &[u8]) -> Vec<(u8, Vec<u8>)> {
    let contents = Contents::of(log);
    let block = |block: &second::log::Block| {
        assert_eq!(block.edition, COPIED);
        (block.kind, block.data(log))
    };
    contents.blocks.iter().map(block).collect()
}

#[test]
fn children_before_parents() {
    let mut log = vec![0; 60 * SECTOR];
    let (score, order) = tree(&mut log);
    let mut second = vec![0; 60 * SECTOR];
    let before = log.clone();
    let answer = copy(&log, &[], &mut second, LATER, &score, ALLOWANCE);
    assert_eq!(log, before);
    assert_eq!(blocks(&second), order);
    // root, directory, the file twice and once more inside, the zeros, the directory inside
    assert_eq!(answer, (Ok(()), 2 + 3 * 3 + 1 + 1));
    assert_eq!(answer, walk(&log, &[], &score, ALLOWANCE));
    assert_eq!(answer, walk(&second, &[], &score, ALLOWANCE));
    // again: all are duplicates
    let after = second.clone();
    assert_eq!(
        copy(&log, &[], &mut second, DATE, &score, ALLOWANCE),
        answer
    );
    assert_eq!(second, after);
}

/// Blocks of the first edition and blocks that wait are copied as all others.
#[test]
fn both_editions_and_what_waits() {
    let (mut log, mut waiting) = (vec![0; 40 * SECTOR], vec![0; 40 * SECTOR]);
    let old = vec![3; 900];
    write(&mut log, 0, FIRST, 13, &old);
    let file = write_file(&mut log, &mut waiting, DATE, &old, 900, 40).expect("room");
    assert_eq!(used(&waiting), 0, "a duplicate");
    let top = sha1(&file);
    for (kind, data) in [(2, &file[..]), (1, &root(&top))] {
        store(&mut log, Some(&mut waiting), EDITION, kind, data).expect("room");
    }
    let score = sha1(&root(&top));
    let mut second = vec![0; 40 * SECTOR];
    let answer = copy(&log, &waiting, &mut second, LATER, &score, 3);
    assert_eq!(answer, (Ok(()), 3));
    let expected = [(13, old), (2, file.to_vec()), (1, root(&top))];
    assert_eq!(blocks(&second), expected);
}

/// 3 for each lent part, 24, 23: nothing is written.
#[test]
fn tests_in_order() {
    let mut log = vec![0; 60 * SECTOR];
    let (score, _) = tree(&mut log);
    let odd = vec![0; 1_048_577 * SECTOR];
    let mut second = vec![0; 60 * SECTOR];
    let mut refused = |log: &[u8], waiting: &[u8], length: usize, date: &[u8], allowance| {
        let answer = copy(log, waiting, &mut second[..length], date, &score, allowance);
        assert_eq!(used(&second), 0);
        assert_eq!(answer.1, 0);
        answer.0.expect_err("refused").number
    };
    let whole = 60 * SECTOR;
    assert_eq!(refused(&log[1..], &[], whole, b"", 1_000_001), 3);
    assert_eq!(refused(&odd, &[], whole, b"", 1_000_001), 3);
    assert_eq!(refused(&log, &[0], whole, b"", 1_000_001), 3);
    assert_eq!(
        refused(&log, &odd[..257 * SECTOR], whole, b"", 1_000_001),
        3
    );
    assert_eq!(refused(&log, &[], whole - 1, b"", 1_000_001), 3);
    assert_eq!(refused(&log, &[], whole, b"", 1_000_001), 24);
    assert_eq!(refused(&log, &[], whole, DATE, 1_000_001), 23);
    assert_eq!(refused(&log, &[], whole, DATE, 0), 21);
    let mut long = odd;
    let answer = copy(&log, &[], &mut long, DATE, &score, 1);
    assert_eq!(answer, (Err(3.into()), 0));
}

/// Each number of sectors in the second log: what fits, in order, is there; the visits are those up to the
/// block that found no room.
#[test]
fn room_runs_out() {
    let mut log = vec![0; 60 * SECTOR];
    let (score, order) = tree(&mut log);
    let mut spent = Vec::new();
    for sectors in 0..=8 {
        let mut second = vec![0; sectors * SECTOR];
        let (ended, visits) = copy(&log, &[], &mut second, LATER, &score, ALLOWANCE);
        let mut room = 0;
        let fitting = order.iter().take_while(|(_, data)| {
            room += COPIED.sectors_for(data.len());
            room <= sectors
        });
        let fitting: Vec<_> = fitting.cloned().collect();
        assert_eq!(blocks(&second), fitting);
        let whole = fitting.len() == order.len();
        assert_eq!(ended, if whole { Ok(()) } else { Err(14.into()) });
        spent.push(visits);
    }
    // of 2, 1, 1, 1, 1, 1 sectors: a leaf's 14 comes before the next leaf's visit
    assert_eq!(spent, [4, 4, 5, 5, 13, 13, 13, 13, 13]);
}

/// The walk's refusals stop the copy and keep what was copied; 12 tells of the first log.
#[test]
fn refusals_keep_what_was_copied() {
    let mut log = vec![0; 60 * SECTOR];
    let (score, order) = tree(&mut log);
    for allowance in 0..14 {
        let mut second = vec![0; 60 * SECTOR];
        let (ended, visits) = copy(&log, &[], &mut second, LATER, &score, allowance);
        assert_eq!((ended, visits), walk(&log, &[], &score, allowance));
        let there = blocks(&second);
        assert_eq!(there, order[..there.len()]);
        // the root is there only at the end; each other one with all below it
        assert_eq!(there.len() == order.len(), ended.is_ok());
    }
    // the second leaf is damaged: it starts at sector 2
    log[2 * SECTOR + 120] ^= 1;
    let mut second = vec![0; 60 * SECTOR];
    // the second log's own doubt, at its sector 0, refuses nothing and is never told
    second[0] = 1;
    let answer = copy(&log, &[], &mut second, LATER, &score, ALLOWANCE);
    assert_eq!(answer, (Err(Refusal::not_known(2)), 5));
    assert_eq!(blocks(&second), order[..1]);
    let absent = copy(&log[..SECTOR], &[], &mut second, LATER, &[1; 20], 1);
    assert_eq!(absent, (Err(Refusal::not_known(0)), 1));
    let zero = copy(&log, &[], &mut second, LATER, &ZERO_SCORE, 9);
    assert_eq!(zero, (Err(16.into()), 1));
}

/// A block that the second log holds but can't show soundly is stored again.
#[test]
fn a_damaged_second_log() {
    let mut log = vec![0; 60 * SECTOR];
    let (score, order) = tree(&mut log);
    let mut second = vec![0; 60 * SECTOR];
    copy(&log, &[], &mut second, LATER, &score, ALLOWANCE)
        .0
        .expect("room");
    let sectors = used(&second);
    second[120] ^= 1;
    let answer = copy(&log, &[], &mut second, LATER, &score, ALLOWANCE);
    assert_eq!(answer, (Ok(()), 13));
    let mut expected = order[1..].to_vec();
    expected.push(order[0].clone());
    assert_eq!(blocks(&second), expected);
    assert_eq!(used(&second), sectors + 2);
    assert_eq!(walk(&second, &[], &score, ALLOWANCE), answer);
}
