//! The writer of files: its tests, blocks, entry, and reading back.

use second::ledger::{Ledger, Origin};
use second::log::{used, write, Contents};
use second::message::{whole, Lent};
use second::sector::{check, CHECK, SECTOR};
use second::sha1::{sha1, ZERO_SCORE};
use second::tree::{entry, fill, locate};
use second::writer::{file, write_file};
use second::Edition;

const DATE: &[u8] = b"20261116";
const EDITION: Edition = Edition::Second(*b"20261116");

/// A log and a waiting part, both of so many sectors.
fn blank(sectors: usize) -> (Vec<u8>, Vec<u8>) {
    (
        vec![0; sectors * SECTOR],
        vec![0; sectors.min(256) * SECTOR],
    )
}

fn bytes(length: usize) -> Vec<u8> {
    (0..length).map(|at| (at % 251) as u8 + 1).collect()
}

/// Reads a file back, run by run and by filling.
fn back(log: &[u8], waiting: &[u8], bytes: &[u8; 40]) -> Vec<u8> {
    let size = entry(bytes).expect("well-formed").size as usize;
    let mut filled = vec![0xaa; size];
    if size > 0 {
        let answer = fill(log, waiting, bytes, 0, &mut filled);
        assert_eq!(answer, (Ok(()), size));
    }
    let mut at = 0;
    while at < size {
        let run = locate(log, waiting, &[0; 100], bytes, at as u64).expect("a run");
        at += run.len;
    }
    assert_eq!(at, size);
    filled
}

/// Writes a slice, reads it back and gives the types and sizes of the blocks stored, in log order.
fn written(slice: &[u8], dsize: usize, psize: usize) -> ([u8; 40], Vec<(u8, usize)>) {
    let (mut log, mut waiting) = blank(256);
    let entry = write_file(&mut log, &mut waiting, DATE, slice, dsize, psize).expect("room");
    assert_eq!(used(&log), 0, "the writer never settles");
    assert_eq!(back(&log, &waiting, &entry), slice);
    let blocks = Contents::of(&waiting).blocks;
    let stored = blocks.iter().map(|block| (block.kind, block.size));
    (entry, stored.collect())
}

#[test]
fn entries() {
    let (empty, stored) = written(&[], 1_024, 60);
    let expected = [&[0, 0, 0, 0, 0, 60, 4, 0, 1][..], &[0; 11], &ZERO_SCORE].concat();
    assert_eq!((&empty[..], stored), (&expected[..], vec![]));

    let slice = bytes(3 * 1_024 + 1);
    let (entry, stored) = written(&slice, 1_024, 60);
    assert_eq!(entry[..9], [0, 0, 0, 0, 0, 60, 4, 0, 1 + 4 * 2]);
    assert_eq!(entry[9..20], [0, 0, 0, 0, 0, 0, 0, 0, 0, 12, 1]);
    let leaves = [(13, 1_024), (13, 1_024), (13, 1_024), (13, 1)];
    assert_eq!(stored[..4], leaves);
    assert_eq!(stored[4..], [(3, 60), (3, 20), (4, 40)]);
    let leaf = sha1(&slice[3 * 1_024..]);
    let top = [sha1(&scores(&slice[..3 * 1_024])), sha1(&leaf)].concat();
    assert_eq!(entry[20..], sha1(&top));
}

/// The scores of leaves of 1,024 bytes.
fn scores(slice: &[u8]) -> Vec<u8> {
    slice.chunks(1_024).flat_map(sha1).collect()
}

/// The least depth at its borders: p 2 and dsize 1 up to depth 7; one byte more is 16.
#[test]
fn least_depth() {
    for (length, depth) in [
        (0, 0),
        (1, 0),
        (2, 1),
        (3, 2),
        (4, 2),
        (5, 3),
        (64, 6),
        (65, 7),
        (128, 7),
    ] {
        let (entry, _) = written(&bytes(length), 1, 40);
        assert_eq!(entry[8], 1 + 4 * depth, "{length}");
    }
    assert_eq!(file(&bytes(129), 1, 40), Err(16));
    assert_eq!(file(&bytes(129), 1, 59), Err(16));
    assert!(file(&bytes(129), 1, 60).is_ok());
    // the widest tree: three levels of 2,867 scores hold any slice
    let wide = file(&bytes(57_344), 1, 57_344).expect("depth 2");
    assert_eq!(wide.entry[8], 1 + 4 * 2);
    assert_eq!(wide.blocks.len(), 57_344 + 21 + 1);
}

/// Slices of zeros, and leaves that end with zeros: cut, never stored where nothing is left.
#[test]
fn zeros() {
    let (entry, stored) = written(&[0; 5_000], 1_000, 40);
    assert!(stored.is_empty());
    assert_eq!((entry[8], &entry[20..]), (1 + 4 * 3, &ZERO_SCORE[..]));
    assert_eq!(entry[18..20], [0x13, 0x88]);

    let mut slice = vec![0; 4_000];
    slice[0] = 7;
    let (_, stored) = written(&slice, 1_000, 40);
    // a leaf of one byte, the pointer blocks cut to one score
    assert_eq!(stored, [(13, 1), (3, 20), (4, 20)]);
    slice.rotate_right(1_000);
    let (_, stored) = written(&slice, 1_000, 40);
    assert_eq!(stored, [(13, 1), (3, 40), (4, 20)]);
    slice.rotate_right(2_000);
    let (_, stored) = written(&slice, 1_000, 40);
    assert_eq!(stored, [(13, 1), (3, 40), (4, 40)]);
}

/// Equal leaves and equal pointer blocks are duplicates; a leaf that is a pointer block's bytes is not.
#[test]
fn duplicates() {
    let (_, stored) = written(&[7; 4_000], 1_000, 40);
    assert_eq!(stored, [(13, 1_000), (3, 40), (4, 40)]);
    let leaf = bytes(20);
    let pointers = [sha1(&leaf); 2].concat();
    let slice = [&leaf[..], &leaf, &pointers].concat();
    let (_, stored) = written(&slice, 20, 60);
    // the last two leaves are the score of the first, which is no pointer block
    assert_eq!(stored, [(13, 20), (13, 20), (3, 60), (3, 20), (4, 40)]);
}

/// 3, 24, 10, 16, in this order, before anything is written.
#[test]
fn tests_in_order() {
    let long = vec![7; 57_345];
    let odd = b"2026111x";
    let refused = |log: usize, waiting: usize, date: &[u8], slice: &[u8], dsize, psize| {
        let (mut log, mut waiting) = (vec![0; log], vec![0; waiting]);
        let answer = write_file(&mut log, &mut waiting, date, slice, dsize, psize);
        assert!(log.iter().chain(&waiting).all(|&byte| byte == 0));
        answer.expect_err("refused")
    };
    let (log, waiting) = (300 * SECTOR, 256 * SECTOR);
    assert_eq!(refused(log + 1, waiting, odd, &long, 0, 0), 3);
    assert_eq!(refused(log, waiting + 1, odd, &long, 0, 0), 3);
    assert_eq!(refused(log, 257 * SECTOR, odd, &long, 0, 0), 3);
    assert_eq!(refused(log, waiting, odd, &long, 0, 0), 24);
    assert_eq!(refused(log, waiting, DATE, &long, 0, 0), 10);
    let short = &long[..2];
    for (dsize, psize) in [(0, 40), (57_345, 40), (1, 39), (1, 57_345), (0, 0)] {
        assert_eq!(refused(log, waiting, DATE, short, dsize, psize), 16);
        assert_eq!(refused(log, waiting, DATE, &[], dsize, psize), 16);
    }
    assert_eq!(refused(log, waiting, DATE, &long[..129], 1, 40), 16);
    let (_, stored) = written(&long[..57_344], 57_344, 40);
    assert_eq!(stored, [(13, 57_344)]);
}

/// Room that runs out at each block: those before it stay, and the same call goes on after a sync.
#[test]
fn room_runs_out() {
    let slice = bytes(3 * 400 + 7);
    let whole = file(&slice, 400, 40).expect("depth 2");
    let sectors: Vec<usize> = whole
        .blocks
        .iter()
        .map(|(_, data)| EDITION.sectors_for(data.len()))
        .collect();
    let needed: usize = sectors.iter().sum();
    for room in 0..=needed {
        for (log_sectors, waiting_sectors) in [(room, needed), (needed, room)] {
            let mut log = vec![0; log_sectors * SECTOR];
            let mut waiting = vec![0; waiting_sectors * SECTOR];
            let answer = write_file(&mut log, &mut waiting, DATE, &slice, 400, 40);
            let mut expected = vec![0; waiting.len()];
            let mut at = 0;
            for ((kind, data), taken) in whole.blocks.iter().zip(&sectors) {
                if at + taken > room {
                    break;
                }
                write(&mut expected, at, EDITION, *kind, data);
                at += taken;
            }
            assert_eq!(waiting, expected);
            assert_eq!(
                answer,
                if at == needed {
                    Ok(whole.entry)
                } else {
                    Err(14)
                }
            );
        }
    }
    // half of it, a sync, and again
    let mut log = vec![0; needed * SECTOR];
    let mut waiting = vec![0; (needed - 2) * SECTOR];
    let first = write_file(&mut log, &mut waiting, DATE, &slice, 400, 40);
    assert_eq!(first, Err(14));
    let settled = used(&waiting) * SECTOR;
    log[..settled].copy_from_slice(&waiting[..settled]);
    waiting.fill(0);
    let again = write_file(&mut log, &mut waiting, DATE, &slice, 400, 40);
    assert_eq!(again, Ok(whole.entry));
    assert_eq!(back(&log, &waiting, &whole.entry), slice);
}

/// Damage in the log refuses nothing.
#[test]
fn damage() {
    let slice = bytes(1_000);
    let mut log = vec![0; 40 * SECTOR];
    write(&mut log, 0, EDITION, 13, b"torn");
    log[120] ^= 1;
    let mut waiting = vec![0; 30 * SECTOR];
    let entry = write_file(&mut log, &mut waiting, DATE, &slice, 400, 60).expect("room");
    assert_eq!(back(&log, &waiting, &entry), slice);
    // a leaf that the log can't show soundly is stored again
    let mut log = vec![0; 40 * SECTOR];
    write(&mut log, 0, EDITION, 13, &slice[..400]);
    log[150] ^= 1;
    let sector = &mut log[..SECTOR];
    let fitting = check(&sector[..CHECK]);
    sector[CHECK..].copy_from_slice(&fitting);
    let mut waiting = vec![0; 30 * SECTOR];
    let entry = write_file(&mut log, &mut waiting, DATE, &slice, 400, 60).expect("room");
    assert_eq!(back(&log, &waiting, &entry), slice);
}

/// To the ledger it is the list of its writes.
#[test]
fn the_ledgers_writes() {
    let hello = [0, 0x0b, 4, 0, 0, 2, 0x30, 0x32, 0, 0, 0, 0, 0];
    let slice = [bytes(900), vec![0; 300], bytes(500)].concat();
    for room in 0..14 {
        let (mut log, mut waiting) = (vec![0; 20 * SECTOR], vec![0; room * SECTOR]);
        let lent = Lent {
            log: log.len(),
            waiting: Some(waiting.len()),
        };
        let mut ledger = Ledger::new();
        ledger.request(Origin::Fresh, &hello, Some(DATE), 57_348, lent);
        let mut number = 0;
        for (kind, data) in file(&slice, 300, 60).expect("lawful").blocks {
            let message = whole(14, 0, &[&[kind, 0, 0, 0], &data[..]].concat());
            let origin = Origin::After(0);
            number = ledger
                .request(origin, &message, Some(DATE), 57_348, lent)
                .number;
            if number != 0 {
                break;
            }
        }
        let answer = write_file(&mut log, &mut waiting, DATE, &slice, 300, 60);
        assert_eq!(answer.map_or_else(|number| number, |_| 0), number);
        let mut expected = vec![0; waiting.len()];
        for row in ledger.waiting_rows() {
            write(&mut expected, row.first, row.edition, row.kind, &row.data);
        }
        assert_eq!(waiting, expected);
    }
}
