//! Examples of the index, the writer of files and the copy, each on the proved archive and on the second
//! program: their borders, and two blocks of one score.

use second::index::{enter, hint, HINT};
use second::log::{used, write, write_in, Contents};
use second::message::whole;
use second::sector::SECTOR;
use second::sha1::{sha1, ZERO_SCORE};
use second::{Refusal, Session};

use crate::archive::{Archive, Buffers};
use crate::collision;
use crate::examples::{on_both, DATE, DATED, SYNC};

fn block(data: &[u8]) -> Vec<u8> {
    whole(14, 9, &[&[13, 0, 0, 0], data].concat())
}

fn read(data: &[u8]) -> Vec<u8> {
    whole(12, 9, &[&sha1(data)[..], &[13, 0, 0xff, 0xff]].concat())
}

/// One request with an index: the number and the reply buffer.
fn ask_by(
    archive: &mut dyn Archive,
    (log, waiting): (&mut [u8], &mut [u8]),
    index: &mut [u8],
    message: &[u8],
) -> (u8, Vec<u8>) {
    let mut reply = vec![0xaa; 57_348];
    let lent = Buffers {
        log,
        waiting,
        index,
    };
    let (number, after) = archive.serve_by(Session::Ready, message, DATE, lent, &mut reply);
    assert_eq!(after, Session::Ready);
    (number, reply)
}

/// Indexes of 0, 6,399, 6,400 and 12,807 bytes: what a write enters, and what stays.
#[test]
fn lengths_of_an_index() {
    on_both(|archive| {
        for length in [0, 1, 6_399, 6_400, 12_799, 12_800, 12_807] {
            let (mut log, mut waiting) = (vec![0; 9 * SECTOR], vec![0; 9 * SECTOR]);
            let mut index = vec![0; length];
            let mut expected = index.clone();
            let left = length / 6_400 * 6_400;
            index[left..].fill(0xaa);
            expected[left..].fill(0xaa);
            for (number, data) in [&b"one"[..], b"two", b"one", b""].iter().enumerate() {
                let parts = (&mut log[..], &mut waiting[..]);
                let answer = ask_by(archive, parts, &mut index, &block(data));
                assert_eq!(answer.0, 0);
                if number < 2 {
                    enter(&mut expected, &sha1(data), 13, number);
                }
                assert_eq!(index, expected);
            }
            for message in [SYNC.to_vec(), read(b"one"), read(b"never")] {
                let parts = (&mut log[..], &mut waiting[..]);
                ask_by(archive, parts, &mut index, &message);
                assert_eq!(index, expected);
            }
            let mut anew = vec![0xaa; length];
            assert_eq!(archive.rebuild(&log, &mut anew), 0);
            assert_eq!(anew, expected);
            assert_eq!(archive.rebuild(&log[1..], &mut anew), 3);
            assert_eq!(anew, expected);
        }
    });
}

/// Where sound blocks of one score and type differ, the first true entry decides for a read, and the scan
/// for a write.
#[test]
fn an_index_among_blocks_of_one_score() {
    on_both(|archive| {
        let (one, other) = collision::pair();
        let score = sha1(&one);
        let (mut log, mut waiting) = (vec![0; 9 * SECTOR], vec![0; 2 * SECTOR]);
        write(&mut log, 0, DATED, 13, &one);
        write_in(&mut waiting, 1, DATED, 13, &other);
        for (sectors, expected) in [
            (&[][..], &one),
            (&[0], &one),
            (&[1], &other),
            (&[5, 1, 0], &other),
        ] {
            let mut index = vec![0; 3 * 6_400];
            for (number, sector) in sectors.iter().enumerate() {
                let start = HINT * (3 * usize::from(score[0]) + number);
                index[start..start + HINT].copy_from_slice(&hint(&score, 13, *sector));
            }
            let first = sectors.iter().find(|sector| **sector < 2).copied();
            let place = archive.look_up_by(&log, &waiting, &index, 13, &score);
            assert_eq!(place, Ok(Some(first.unwrap_or(0))));
            let parts = (&mut log[..], &mut waiting[..]);
            let answer = ask_by(archive, parts, &mut index, &read(&one));
            assert_eq!((answer.0, &answer.1[4..4 + 320]), (0, &expected[..]));
            let before = index.clone();
            for (data, number) in [(&one, 0), (&other, 15)] {
                let parts = (&mut log[..], &mut waiting[..]);
                let answer = ask_by(archive, parts, &mut index, &block(data));
                assert_eq!((answer.0, &index), (number, &before));
            }
        }
        let none = archive.look_up_by(&log, &waiting, &[], 2, &score);
        assert_eq!(none, Err(11.into()));
        assert_eq!(
            archive.look_up_by(&log, &waiting, &[], 13, &ZERO_SCORE),
            Ok(None)
        );
        assert_eq!(
            archive.look_up_by(&log, &waiting, &[], 12, &score),
            Err(9.into())
        );
    });
}

/// 15 at any leaf of a file: the blocks before it stay, and there is no entry.
#[test]
fn a_clash_in_a_file() {
    on_both(|archive| {
        let (one, other) = collision::pair();
        for at in 0..4_u8 {
            let mut slice: Vec<u8> = (0..4).flat_map(|leaf| vec![leaf + 1; 320]).collect();
            let start = 320 * usize::from(at);
            slice[start..start + 320].copy_from_slice(&one);
            let mut log = vec![0; 20 * SECTOR];
            write(&mut log, 0, DATED, 13, &other);
            let mut waiting = vec![0; 12 * SECTOR];
            let answer = archive.write_file(&mut log, &mut waiting, DATE, &slice, (320, 40));
            assert_eq!(answer, Err(15));
            let mut expected = vec![0; 12 * SECTOR];
            for (place, leaf) in (0..at).enumerate() {
                let room = &mut expected[place * SECTOR..];
                write_in(room, 1 + place, DATED, 13, &[leaf + 1; 320]);
            }
            assert_eq!(waiting, expected);
            assert_eq!(used(&log), 1);
        }
        // twice in one slice: the one that came first is there
        let (mut log, mut waiting) = (vec![0; 9 * SECTOR], vec![0; 9 * SECTOR]);
        let slice = [&one[..], &other].concat();
        let answer = archive.write_file(&mut log, &mut waiting, DATE, &slice, (320, 40));
        assert_eq!((answer, used(&waiting)), (Err(15), 1));
    });
}

/// 14 at every block of a file of three levels, in the log and among what waits: those before it stay.
#[test]
fn no_room_at_every_block() {
    on_both(|archive| {
        let slice: Vec<u8> = (0..7).flat_map(|leaf| vec![leaf + 1; 100]).collect();
        // seven leaves, then four, two and one pointer blocks
        let kinds: Vec<u8> = [vec![13; 7], vec![3; 4], vec![4; 2], vec![5]].concat();
        for (log, waiting) in (0..=14).flat_map(|room| [(room, 20), (20, room)]) {
            let room = log.min(waiting);
            let (mut log, mut waiting) = (vec![0; log * SECTOR], vec![0; waiting * SECTOR]);
            let answer = archive.write_file(&mut log, &mut waiting, DATE, &slice, (100, 40));
            assert_eq!(answer.err(), (room < 14).then_some(14), "{room} sectors");
            let blocks = Contents::of(&waiting).blocks;
            let stored: Vec<u8> = blocks.iter().map(|block| block.kind).collect();
            assert_eq!(stored, kinds[..room]);
            assert_eq!(used(&log), 0);
        }
    });
}

/// 15 of a second log that holds another block of a leaf's score, and 14 of one that has no room.
#[test]
fn a_clash_in_the_second_log() {
    on_both(|archive| {
        let (one, other) = collision::pair();
        let (mut log, mut waiting) = (vec![0; 40 * SECTOR], vec![0; 20 * SECTOR]);
        let slice = [&vec![7; 320][..], &one].concat();
        let entry = archive.write_file(&mut log, &mut waiting, DATE, &slice, (320, 40));
        let directory = entry.expect("room").to_vec();
        let mut root = vec![0; 300];
        root[1] = 2;
        root[258..278].copy_from_slice(&sha1(&directory));
        for (kind, data) in [(2, &directory), (1, &root)] {
            let first = used(&waiting);
            write_in(&mut waiting[first * SECTOR..], first, DATED, kind, data);
        }
        let score = sha1(&root);
        let walked = archive.walk(&log, &waiting, &score, 9);
        assert_eq!(walked, (Ok(()), 5));

        let mut second = vec![0; 40 * SECTOR];
        write(&mut second, 0, DATED, 13, &other);
        let parts = (&log[..], &waiting[..]);
        let copied = archive.copy(parts, &mut second, b"20270101", &score, 9);
        assert_eq!(copied, (Err(Refusal::from(15)), 5));
        let kinds = |log: &[u8]| -> Vec<(u8, usize)> {
            let blocks = Contents::of(log).blocks;
            blocks
                .iter()
                .map(|block| (block.kind, block.size))
                .collect()
        };
        assert_eq!(kinds(&second), [(13, 320), (13, 320)]);

        let order = [(13, 320), (13, 320), (3, 40), (2, 40), (1, 300)];
        for room in 0..=5 {
            let mut second = vec![0; room * SECTOR];
            let copied = archive.copy(parts, &mut second, b"20270101", &score, 9);
            let (ended, visits) = match room {
                0 => (Err(Refusal::from(14)), 4),
                5 => (Ok(()), 5),
                _ => (Err(Refusal::from(14)), 5),
            };
            assert_eq!(copied, (ended, visits), "{room} sectors");
            assert_eq!(kinds(&second), order[..room]);
        }
    });
}
