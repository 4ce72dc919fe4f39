//! Examples with dates and with both editions, each on the proved archive and on the second program.

use second::log::{write, Contents};
use second::message::whole;
use second::sector::{check, CHECK, SECTOR};
use second::sha1::sha1;
use second::tree::{Place, Run};
use second::{Edition, Session};

use crate::archive::Archive;
use crate::examples::{ask_waiting, on_both, DATE, DATED, SYNC};

fn block(data: &[u8]) -> Vec<u8> {
    whole(14, 9, &[&[13, 0, 0, 0], data].concat())
}

fn read(data: &[u8]) -> Vec<u8> {
    whole(12, 9, &[&sha1(data)[..], &[13, 0, 0xff, 0xff]].concat())
}

/// One message with a date: the number, the session and the reply buffer.
fn ask_on(
    archive: &mut dyn Archive,
    (session, date): (Session, &[u8]),
    log: &mut [u8],
    waiting: &mut [u8],
    message: &[u8],
) -> (u8, Session, Vec<u8>) {
    let mut reply = vec![0xaa; 57_348];
    let (number, after) = archive.serve(session, message, date, log, waiting, &mut reply);
    (number, after, reply)
}

/// Every byte in every place of a date, and every length: lawful is eight of 0x30 to 0x39.
#[test]
fn every_byte_of_a_date() {
    on_both(|archive| {
        let ping = [0, 2, 2, 7];
        let mut number = |date: &[u8]| {
            let before = vec![0xaa; 57_348];
            let session = Session::Ready;
            let (number, after, reply) = ask_on(archive, (session, date), &mut [], &mut [], &ping);
            assert_eq!(after, session);
            assert!(number == 0 || reply == before);
            number
        };
        for at in 0..8 {
            for byte in 0..=255_u8 {
                let mut date = *b"20261116";
                date[at] = byte;
                let expected = if byte.is_ascii_digit() { 0 } else { 24 };
                assert_eq!(number(&date), expected, "{date:?}");
            }
        }
        for length in 0..40 {
            let expected = if length == 8 { 0 } else { 24 };
            assert_eq!(number(&vec![b'0'; length]), expected);
        }
    });
}

/// 24 for every message, after 4 and before 5: no reply, and all stays as it was.
#[test]
fn where_24_comes() {
    on_both(|archive| {
        let (mut log, mut waiting) = (vec![0; 2 * SECTOR], vec![0; 2 * SECTOR]);
        ask_waiting(archive, &mut log, &mut waiting, &block(b"waits"));
        let before = (log.clone(), waiting.clone());
        let hello = [0, 0x0b, 4, 0, 0, 2, 0x30, 0x32, 0, 0, 0, 0, 0];
        let messages = [
            hello.to_vec(),
            block(b"x"),
            block(b"waits"),
            read(b"waits"),
            whole(2, 9, b""),
            whole(2, 9, b"body"),
            whole(6, 9, b""),
            whole(16, 9, b""),
            whole(3, 9, b""),
            whole(99, 9, b""),
        ];
        for message in &messages {
            for session in [Session::Fresh, Session::Ready, Session::Closed] {
                let given = (session, &b"2026111"[..]);
                let (number, after, reply) =
                    ask_on(archive, given, &mut log, &mut waiting, message);
                let expected = if session == Session::Closed { 4 } else { 24 };
                assert_eq!((number, after), (expected, session));
                assert!(reply.iter().all(|&byte| byte == 0xaa));
                assert_eq!((&log, &waiting), (&before.0, &before.1));
            }
        }
        let given = (Session::Ready, &b""[..]);
        let framed = ask_on(archive, given, &mut log, &mut waiting, &[0, 3, 2, 7]);
        assert_eq!(framed.0, 1, "1 before 24");
        let ragged = ask_on(archive, given, &mut log[1..], &mut waiting, &messages[0]);
        assert_eq!(ragged.0, 3, "3 before 24");
    });
}

/// The sizes of the description: 57,344 bytes take 148 sectors, the last with 161.
#[test]
fn the_longest_block() {
    on_both(|archive| {
        let (mut log, mut waiting) = (vec![0; 148 * SECTOR], vec![0; 148 * SECTOR]);
        let data = vec![7; 57_344];
        let written = ask_waiting(archive, &mut log, &mut waiting, &block(&data));
        assert_eq!(written.0, 0);
        let last = &waiting[147 * SECTOR..];
        assert!(last.starts_with(b"date=20261116\nrec=00000000\npart=0093\nof=0094\n"));
        assert_eq!(last[110..110 + 161], [7; 161]);
        assert!(last[110 + 161..499].iter().all(|&byte| byte == 0));
        let short = &mut waiting.clone()[..147 * SECTOR];
        short.fill(0);
        assert_eq!(ask_waiting(archive, &mut log, short, &block(&data)).0, 14);
    });
}

/// A log with both editions: duplicates of either keep what they have, runs end by the block's own
/// payload, and what is new is dated.
#[test]
fn both_editions() {
    on_both(|archive| {
        let mut log = vec![0; 12 * SECTOR];
        let old: Vec<u8> = (0..900).map(|at| at as u8).collect();
        write(&mut log, 0, Edition::First, 13, &old);
        let mut waiting = vec![0; 6 * SECTOR];
        let new: Vec<u8> = old.iter().map(|byte| byte ^ 0x55).collect();
        for data in [&old, &new, &old, &new] {
            let answer = ask_waiting(archive, &mut log, &mut waiting, &block(data));
            assert_eq!(answer.0, 0);
        }
        assert_eq!(ask_waiting(archive, &mut log, &mut waiting, &SYNC).0, 0);
        let editions: Vec<_> = Contents::of(&log)
            .blocks
            .iter()
            .map(|block| (block.first, block.edition))
            .collect();
        assert_eq!(editions, [(0, Edition::First), (3, DATED)]);
        let other = (Session::Ready, &b"19991231"[..]);
        let before = log.clone();
        for data in [&old, &new] {
            let again = ask_on(archive, other, &mut log, &mut waiting, &block(data));
            assert_eq!(again.0, 0);
        }
        assert!(log == before && waiting.iter().all(|&byte| byte == 0));

        for (data, first, label, payload) in [(&old, 0, 96, 403), (&new, 3, 110, 389)] {
            let mut entry = vec![0, 0, 0, 0, 0, 40, 4, 0, 1, 0, 0, 0, 0, 0];
            entry.extend(&900_u64.to_be_bytes()[2..]);
            entry.extend(sha1(data));
            for part in 0..3 {
                let offset = part * payload;
                let run = Run {
                    place: Place::Log,
                    start: (first + part) * SECTOR + label,
                    len: payload.min(900 - offset),
                };
                let answer = archive.locate(&log, &[], &[0], &entry, offset as u64);
                assert_eq!(answer, Ok(run));
            }
            let mut filled = vec![0; 900];
            let answer = archive.fill(&log, &[], &entry, 0, &mut filled);
            assert_eq!((answer, &filled), ((Ok(()), 900), data));
        }
    });
}

/// One date and one edition in all sectors of a block; the line of a date as it is written.
#[test]
fn labels_that_do_not_agree() {
    on_both(|archive| {
        let mut good = vec![0; 3 * SECTOR];
        let data = vec![7; 900];
        write(&mut good, 0, DATED, 13, &data);
        assert_eq!(archive.sound_at(&good, 0), Ok(900));
        let change = |sectors: &[usize], line: &[u8]| {
            let mut log = good.clone();
            for &number in sectors {
                let sector = &mut log[number * SECTOR..(number + 1) * SECTOR];
                sector[..14].copy_from_slice(line);
                let fitting = check(&sector[..CHECK]);
                sector[CHECK..].copy_from_slice(&fitting);
            }
            log
        };
        let other = b"date=20261117\n";
        assert_eq!(archive.sound_at(&change(&[0, 1, 2], other), 0), Ok(900));
        for sectors in [&[0][..], &[1], &[2], &[0, 1], &[1, 2], &[0, 2]] {
            assert_eq!(archive.sound_at(&change(sectors, other), 0), Ok(0));
        }
        let lines: [&[u8; 14]; 7] = [
            b"date=2026111a\n",
            b"date=2026111/\n",
            b"date=2026111:\n",
            b"date=20261116 ",
            b"Date=20261116\n",
            b"date 20261116\n",
            b"\0\0\0\0\0\0\0\0\0\0\0\0\0\0",
        ];
        for line in lines {
            let log = change(&[0, 1, 2], line);
            assert_eq!(archive.sound_at(&log, 0), Ok(0), "{}", line.escape_ascii());
        }
        let mut log = change(&[0, 1, 2], other);
        log.resize(8 * SECTOR, 0);
        let mut waiting = vec![0; 4 * SECTOR];
        let held = ask_waiting(archive, &mut log, &mut waiting, &read(&data));
        assert_eq!(held.0, 0, "a date is no part of a block's identity");
        let again = (Session::Ready, DATE);
        let again = ask_on(archive, again, &mut log, &mut waiting, &block(&data));
        assert_eq!(again.0, 0);
        assert!(waiting.iter().all(|&byte| byte == 0), "a duplicate");
    });
}
