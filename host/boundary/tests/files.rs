//! A slice written as a file: read back, with room that runs out, and refused.

use boundary::{fill, sha1, write_file, Refusal, FILE_SCORES};

const SECTOR: usize = 512;
const DATE: &[u8] = b"20261116";

/// The bytes of a slice that has no two equal leaves.
fn slice(length: usize) -> Vec<u8> {
    (0..length)
        .map(|at| (at * 7 + at / 251) as u8 | 1)
        .collect()
}

/// What an entry leads to.
fn read(log: &[u8], waiting: &[u8], entry: &[u8], length: usize) -> Vec<u8> {
    let mut bytes = vec![0xaa; length];
    let filled = fill(log, waiting, entry, 0, &mut bytes);
    assert_eq!((filled.outcome, filled.count), (Ok(()), length));
    bytes
}

#[test]
fn it_reads_back() {
    let log = vec![0; 1000 * SECTOR];
    let mut scores = vec![0; FILE_SCORES];
    let cases = [
        (1, 57_344, 57_344, 0),
        (57_344, 57_344, 57_344, 0),
        (57_344, 1024, 57_344, 1),
        (57_344, 1024, 100, 3),
        (7 * 128, 7, 40, 7),
    ];
    for (length, dsize, psize, depth) in cases {
        let mut waiting = vec![0; 256 * SECTOR];
        let slice = slice(length);
        let sizes = (dsize, psize);
        let entry = write_file(&log, &mut waiting, DATE, &slice, sizes, &mut scores).unwrap();
        assert_eq!(entry[8], 1 + 4 * depth, "{length} {sizes:?}");
        assert_eq!(read(&log, &waiting, &entry, length), slice);
        assert!(scores.iter().all(|byte| *byte == 0));
    }
}

#[test]
fn zeros_are_cut_off() {
    let log = vec![0; 9 * SECTOR];
    let mut waiting = vec![0; 9 * SECTOR];
    let mut scores = vec![0; FILE_SCORES];
    let mut write = |slice: &[u8], waiting: &mut [u8]| {
        write_file(&log, waiting, DATE, slice, (57_344, 57_344), &mut scores).unwrap()
    };
    assert_eq!(write(b"", &mut waiting)[20..], sha1(b""));
    assert_eq!(write(&[0; 900], &mut waiting)[20..], sha1(b""));
    assert!(waiting.iter().all(|byte| *byte == 0));
    let entry = write(b"bytes\0\0\0", &mut waiting);
    assert_eq!((entry[19], &entry[20..]), (8, &sha1(b"bytes")[..]));
    assert_eq!(read(&log, &waiting, &entry, 8), b"bytes\0\0\0");
}

/// The blocks before the refused one stay, and the same call goes on once there is room.
#[test]
fn no_room_among_what_waits() {
    let mut log = vec![0; 20 * SECTOR];
    let mut waiting = vec![0; 3 * SECTOR];
    let mut scores = vec![0; FILE_SCORES];
    let (slice, sizes) = (slice(1500), (300, 100));
    let mut write =
        |log: &[u8], waiting: &mut [u8]| write_file(log, waiting, DATE, &slice, sizes, &mut scores);
    let mut settled = 0;
    let entry = loop {
        match write(&log, &mut waiting) {
            Ok(entry) => break entry,
            Err(refusal) => assert_eq!(refusal, Refusal::NoRoom),
        }
        // All that waits, settled as a sync does it.
        let start = settled * SECTOR;
        log[start..start + waiting.len()].copy_from_slice(&waiting);
        waiting.fill(0);
        settled += 3;
        assert!(settled < 18);
    };
    assert_eq!(settled, 3);
    assert_eq!(read(&log, &waiting, &entry, 1500), slice);
}

#[test]
fn refused_before_anything_is_written() {
    let log = vec![0; 20 * SECTOR];
    let mut waiting = vec![0; 9 * SECTOR];
    let mut scores = vec![0; FILE_SCORES];
    let long = slice(57_345);
    let cases = [
        (&b"2026111x"[..], &long[..], (0, 0), Refusal::Date),
        (DATE, &long, (0, 0), Refusal::DataLength),
        (DATE, &long[..9], (0, 40), Refusal::Entry),
        (DATE, &long[..9], (7, 39), Refusal::Entry),
        (DATE, &long[..897], (7, 40), Refusal::Entry),
    ];
    for (date, slice, sizes, refusal) in cases {
        let written = write_file(&log, &mut waiting, date, slice, sizes, &mut scores);
        assert_eq!(written, Err(refusal));
    }
    let short = &mut scores[1..];
    let written = write_file(&log, &mut waiting, DATE, b"bytes", (7, 40), short);
    assert_eq!(written, Err(Refusal::Buffer));
    assert!(waiting.iter().all(|byte| *byte == 0));
}
