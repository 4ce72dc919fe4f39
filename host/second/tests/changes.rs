//! What changed: small blocks and trees, with the answers worked out by hand.

use second::changes::{difference, differences, Compared, Part, Side};
use second::log::{used, write};
use second::sector::SECTOR;
use second::sha1::{sha1, ZERO_SCORE};
use second::{Edition, Refusal, Score};

/// An active entry: a directory if so, of psize 40 and dsize 80.
fn entry(directory: bool, depth: u8, score: &Score) -> Vec<u8> {
    let flags = 1 + 2 * u8::from(directory) + 4 * depth;
    let mut bytes = vec![0, 0, 0, 0, 0, 40, 0, 80, flags];
    bytes.resize(20, 0);
    bytes.extend(score);
    bytes
}

fn file(seed: u8) -> Vec<u8> {
    entry(false, 0, &[seed; 20])
}

fn put(log: &mut [u8], kind: u8, data: &[u8]) -> Score {
    let first = used(log);
    write(log, first, Edition::Second(*b"20261116"), kind, data);
    sha1(data)
}

fn refused(number: u8, count: u64, units: u64) -> Compared {
    Compared {
        ended: Err(number.into()),
        count,
        units,
    }
}

fn done(count: u64, units: u64) -> Compared {
    Compared {
        ended: Ok(()),
        count,
        units,
    }
}

#[test]
fn the_first_difference() {
    let part = |side, start| Ok(Some(Part { side, start }));
    let (a, b, mut inactive) = (file(1), file(2), file(3));
    inactive[8] = 0;
    let both = [&a[..], &b].concat();
    assert_eq!(difference(&[], &[]), Ok(None));
    assert_eq!(difference(&both, &both), Ok(None));
    assert_eq!(difference(&both, &a), part(Side::First, 40));
    assert_eq!(difference(&a, &both), part(Side::Second, 40));
    assert_eq!(difference(&a, &[&a[..], &inactive].concat()), Ok(None));
    assert_eq!(difference(&inactive, &a), part(Side::Second, 0));
    let mut younger = a.clone();
    younger[3] = 1;
    assert_eq!(difference(&a, &younger), part(Side::First, 0));
    assert_eq!(difference(&a[..39], &a), Err(16));
    assert_eq!(difference(&[0; 57_320], &[]), Ok(None));
    assert_eq!(difference(&[0; 57_360], &[]), Err(16));
    assert_eq!(difference(&[], &[0; 57_344]), Err(16));
}

#[test]
fn the_differences_of_two_trees() {
    let mut log = vec![0; 20 * SECTOR];
    let leaf = |files: &[u8]| {
        files
            .iter()
            .flat_map(|seed| file(*seed))
            .collect::<Vec<_>>()
    };
    let one = put(&mut log, 2, &leaf(&[1, 2]));
    let two = put(&mut log, 2, &leaf(&[1, 3]));
    let three = put(&mut log, 2, &leaf(&[1]));
    let first = put(&mut log, 3, &[one, two].concat());
    let second = put(&mut log, 3, &[two, two].concat());
    let short = put(&mut log, 3, &three);
    let compare = |x: &[u8], y: &[u8], units| differences(&log, &[], x, y, units);
    let tree = |score: &Score| entry(true, 1, score);

    assert_eq!(compare(&tree(&first), &tree(&first), 0), done(0, 0));
    assert_eq!(compare(&tree(&first), &tree(&second), 9), done(1, 2));
    assert_eq!(compare(&tree(&first), &tree(&short), 9), done(3, 3));
    assert_eq!(compare(&tree(&first), &tree(&ZERO_SCORE), 9), done(4, 3));
    assert_eq!(compare(&tree(&first), &tree(&short), 2), refused(21, 1, 2));
    assert_eq!(
        compare(&tree(&first), &tree(&[7; 20]), 9),
        refused(11, 0, 1)
    );
    assert_eq!(compare(&tree(&first), &entry(true, 0, &one), 0), done(1, 0));
    assert_eq!(compare(&tree(&first), &file(1), 0), refused(16, 0, 0));
    assert_eq!(
        compare(&tree(&first), &tree(&first), 1_000_001),
        refused(23, 0, 0)
    );
    let sized = differences(&log[1..], &[], &[], &[], u64::MAX);
    assert_eq!(sized, refused(3, 0, 0));

    // The second tree's blocks wait; a byte of theirs changed is "not known", with its sector.
    let (settled, mut waiting) = (log[..4 * SECTOR].to_vec(), log[4 * SECTOR..].to_vec());
    let compare = |waiting: &[u8]| differences(&settled, waiting, &tree(&first), &tree(&second), 9);
    assert_eq!(compare(&waiting), done(1, 2));
    waiting[200] ^= 1;
    let not_known = Compared {
        ended: Err(Refusal::not_known(4)),
        ..refused(12, 0, 1)
    };
    assert_eq!(compare(&waiting), not_known);
}

#[test]
fn entries_that_are_ill_formed_or_nested_too_deep() {
    let mut log = vec![0; 40 * SECTOR];
    let mut ill_formed = file(1);
    ill_formed[9] = 1;
    let a = put(&mut log, 2, &[&ill_formed[..], &file(1)].concat());
    let b = put(&mut log, 2, &[&ill_formed[..], &file(2)].concat());
    let c = put(&mut log, 2, &[&file(3)[..], &file(2)].concat());
    let top = |score: &Score| entry(true, 0, score);
    assert_eq!(differences(&log, &[], &top(&a), &top(&b), 9), done(1, 1));
    assert_eq!(
        differences(&log, &[], &top(&b), &top(&c), 9),
        refused(16, 0, 1)
    );

    let (mut x, mut y) = (a, b);
    for nest in 2..=17 {
        x = put(&mut log, 2, &top(&x));
        y = put(&mut log, 2, &top(&y));
        let right = match nest {
            17 => refused(20, 0, 16),
            _ => done(1, nest),
        };
        assert_eq!(differences(&log, &[], &top(&x), &top(&y), 99), right);
    }
}
