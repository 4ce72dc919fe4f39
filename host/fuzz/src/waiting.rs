//! Examples with a waiting part, each on the proved archive and on the second program.

use second::log::{write, write_in};
use second::message::whole;
use second::sector::SECTOR;
use second::sha1::{sha1, ZERO_SCORE};
use second::tree::{Place, Run};
use second::{Edition, Refusal, Session};

use crate::archive::Archive;
use crate::examples::{ask_waiting, on_both, DATE, DATED, SYNC};

fn block(data: &[u8]) -> Vec<u8> {
    whole(14, 9, &[&[13, 0, 0, 0], data].concat())
}

fn read(data: &[u8]) -> Vec<u8> {
    let body = [&sha1(data)[..], &[13, 0], &[0xff, 0xff]].concat();
    whole(12, 9, &body)
}

/// Serves one message in a session after a hello; gives the number.
fn ask(archive: &mut dyn Archive, log: &mut [u8], waiting: &mut [u8], message: &[u8]) -> u8 {
    ask_waiting(archive, log, waiting, message).0
}

fn is_blank(part: &[u8]) -> bool {
    part.iter().all(|&byte| byte == 0)
}

/// A block goes to the waiting part, numbered on from the log's used part, and sync moves it.
#[test]
fn a_write_waits_until_the_sync() {
    on_both(|archive| {
        let (mut log, mut waiting) = (vec![0; 4 * SECTOR], vec![0; 2 * SECTOR]);
        write(&mut log, 0, Edition::First, 13, b"settled");
        let before = log.clone();
        let mut after = log.clone();
        write(&mut after, 1, DATED, 13, b"one");
        assert_eq!(ask(archive, &mut log, &mut waiting, &block(b"one")), 0);
        for data in [&b"settled"[..], b"one", b""] {
            assert_eq!(ask(archive, &mut log, &mut waiting, &read(data)), 0);
        }
        assert_eq!(ask(archive, &mut log, &mut waiting, &block(b"one")), 0);
        assert_eq!(log, before);
        assert_eq!(waiting[..SECTOR], after[SECTOR..2 * SECTOR]);
        assert!(is_blank(&waiting[SECTOR..]));

        let answer = ask_waiting(archive, &mut log, &mut waiting, &SYNC);
        assert_eq!(answer, (0, vec![0, 2, 17, 9]));
        assert_eq!(log, after);
        assert!(is_blank(&waiting));
        assert_eq!(ask(archive, &mut log, &mut waiting, &read(b"one")), 0);
    });
}

/// 14 by the log's sectors beyond the used ones of both parts, and by the waiting part's blank ones.
#[test]
fn room_in_both_parts() {
    on_both(|archive| {
        for (sectors, waiting, fits) in [(2, 2, 2), (2, 5, 2), (5, 2, 2), (5, 0, 0), (0, 5, 0)] {
            let mut log = vec![0; sectors * SECTOR];
            let mut waiting = vec![0; waiting * SECTOR];
            for number in 0..fits {
                assert_eq!(ask(archive, &mut log, &mut waiting, &block(&[number])), 0);
            }
            assert_eq!(ask(archive, &mut log, &mut waiting, &block(b"more")), 14);
            assert_eq!(ask(archive, &mut log, &mut waiting, &block(b"")), 0);
            assert_eq!(ask(archive, &mut log, &mut waiting, &SYNC), 0);
            let left = sectors > usize::from(fits) && !waiting.is_empty();
            let again = ask(archive, &mut log, &mut waiting, &block(b"more"));
            assert_eq!(again, if left { 0 } else { 14 });
        }
    });
}

/// Sectors of the waiting part that have no room in the log: 14, and nothing is moved. Whatever they
/// hold, they are moved where they have room.
#[test]
fn a_sync_of_any_sectors() {
    on_both(|archive| {
        let mut waiting = vec![0; 3 * SECTOR];
        waiting[2 * SECTOR - 1] = 7;
        for (sectors, number) in [(2, 14), (3, 0), (4, 0)] {
            let mut log = vec![0; sectors * SECTOR];
            write(&mut log, 0, Edition::First, 13, b"settled");
            let before = (log.clone(), waiting.clone());
            let mut waiting = waiting.clone();
            assert_eq!(ask(archive, &mut log, &mut waiting, &SYNC), number);
            if number == 14 {
                assert_eq!((log, waiting), before);
            } else {
                assert_eq!(log[..SECTOR], before.0[..SECTOR]);
                assert_eq!(log[SECTOR..3 * SECTOR], before.1[..2 * SECTOR]);
                assert!(is_blank(&waiting) && is_blank(&log[3 * SECTOR..]));
            }
        }
    });
}

#[test]
fn lengths_of_the_waiting_part() {
    on_both(|archive| {
        for (sectors, more, number) in [(0, 0, 0), (1, 0, 0), (0, 511, 3), (256, 0, 0), (257, 0, 3)]
        {
            let lent = vec![1; sectors * SECTOR + more];
            let mut waiting = lent.clone();
            let mut reply = vec![0; 57_348];
            let message = read(b"");
            let answer = archive.serve(
                Session::Ready,
                &message,
                DATE,
                &mut [],
                &mut waiting,
                &mut reply,
            );
            assert_eq!(answer, (number, Session::Ready));
            assert_eq!(waiting, lent);
            let absent = match (number, sectors) {
                (3, _) => Refusal::from(3),
                (_, 0) => Refusal::from(11),
                _ => Refusal::not_known(0),
            };
            let visits = u64::from(number != 3);
            let walked = archive.walk(&[], &lent, &[1; 20], 1);
            assert_eq!(walked, (Err(absent), visits));
            let entry = entry(5, &[1; 20]);
            let run = archive.locate(&[], &lent, &[0], &entry, 0);
            assert_eq!(run, Err(absent));
            let filled = archive.fill(&[], &lent, &entry, 0, &mut [0; 9]);
            assert_eq!(filled, (Err(absent), 0));
        }
    });
}

/// An entry of depth 0 and dsize 1,024.
fn entry(size: u64, score: &[u8; 20]) -> Vec<u8> {
    let mut bytes = vec![0, 0, 0, 0, 0, 40, 4, 0, 1, 0, 0, 0, 0, 0];
    bytes.extend(&size.to_be_bytes()[2..]);
    bytes.extend(score);
    bytes
}

/// A block may lie across the border of the parts; each of its runs lies in one of them.
#[test]
fn a_block_across_the_border() {
    on_both(|archive| {
        let data: Vec<u8> = (0..1000).map(|at| at as u8).collect();
        let mut whole = vec![0; 3 * SECTOR];
        write(&mut whole, 0, DATED, 13, &data);
        let entry = entry(1000, &sha1(&data));
        for border in 0..=3 {
            let mut log = whole[..border * SECTOR].to_vec();
            log.resize(4 * SECTOR, 0);
            let mut waiting = whole[border * SECTOR..].to_vec();
            for sector in 0..3 {
                let (place, number) = if sector < border {
                    (Place::Log, sector)
                } else {
                    (Place::Waiting, sector - border)
                };
                let run = Run {
                    place,
                    start: number * SECTOR + 110,
                    len: [389, 389, 222][sector],
                };
                let offset = 389 * sector as u64;
                let answer = archive.locate(&log, &waiting, &[0], &entry, offset);
                assert_eq!(answer, Ok(run));
            }
            let mut buffer = vec![0; 1000];
            let filled = archive.fill(&log, &waiting, &entry, 0, &mut buffer);
            assert_eq!(filled, (Ok(()), 1000));
            assert_eq!(buffer, data);
            assert_eq!(ask(archive, &mut log, &mut waiting, &read(&data)), 0);
            // Alone the log has only doubtful sectors of it.
            let (mut text, doubtful) = ([0; 128], if border == 3 { 0 } else { border });
            let length = archive.report(&log, &mut text).unwrap();
            let text = std::str::from_utf8(&text[..length]).unwrap();
            assert!(text.contains(&format!("\ndoubtful={doubtful}\n")), "{text}");
        }
    });
}

/// Sectors that were numbered for another log are doubtful: 12, not 11. A block goes behind them all the
/// same; a blank sector before it is doubtful too.
#[test]
fn parts_that_do_not_belong_together() {
    on_both(|archive| {
        let mut log = vec![0; 6 * SECTOR];
        let mut waiting = vec![0; 5 * SECTOR];
        write(&mut log, 0, DATED, 13, b"one");
        write_in(&mut waiting[SECTOR..], 1, DATED, 13, b"two");
        assert_eq!(ask(archive, &mut log, &mut waiting, &read(b"one")), 0);
        let not_known = ask_waiting(archive, &mut log, &mut waiting, &read(b"two"));
        assert_eq!(not_known.0, 12);
        assert!(not_known.1.ends_with(b"why=12 at=00000001"));
        assert_eq!(ask(archive, &mut log, &mut waiting, &block(b"two")), 0);
        assert_eq!(ask(archive, &mut log, &mut waiting, &read(b"two")), 0);
        assert_eq!(
            &waiting[2 * SECTOR..2 * SECTOR + 27],
            b"date=20261116\nrec=00000003\n"
        );
        let walked = archive.walk(&log, &waiting, &ZERO_SCORE, 1);
        assert_eq!(walked, (Err(16.into()), 1));
    });
}
