//! Writers that are killed, and logs as a crash leaves them.

use std::io::{BufRead, BufReader, Write};
use std::ops::Range;
use std::os::unix::fs::symlink;
use std::process::Command;
use std::thread;
use std::time::Duration;

use crate::common::{self, *};

/// A log with one block, then the same with a second of 5 sectors at sector 2.
fn before_and_after() -> (Place, [Vec<u8>; 2], Vec<u8>, String) {
    let place = Place::with_log(16);
    let blocks = [block(1, 600), block(2, 1900)];
    place.put(&blocks[0]);
    let before = (place.file("log"), place.file("log.mark"));
    place.put(&blocks[1]);
    let after = place.file("log");
    place.write("log", before.0);
    let before = String::from_utf8(before.1).unwrap();
    (place, blocks, after, before)
}

/// Puts some bytes of the second append into the log as it was before, with the mark as it was.
fn tear(place: &Place, before: &[u8], after: &[u8], mark: &str, written: Range<usize>) {
    let mut log = before.to_vec();
    log[written.clone()].copy_from_slice(&after[written]);
    place.write("log", log);
    place.write("log.mark", mark);
}

/// The torn block is not known, the earlier one reads, and storing it again heals it.
#[track_caller]
fn torn(place: &Place, blocks: &[Vec<u8>; 2]) {
    let [first, second] = [score(&blocks[0]), score(&blocks[1])];
    place.not_known(&second);
    place.not_known(&score(b"never stored"));
    place.reads(&first, &blocks[0]);
    place.run(&["report", "log"]).with(32);
    assert_eq!(place.put(&blocks[1]), second);
    place.reads(&second, &blocks[1]);
    place.reads(&first, &blocks[0]);
}

#[test]
fn the_first_sectors_of_an_append() {
    let (place, blocks, after, mark) = before_and_after();
    let before = place.file("log");
    let start = 2 * SECTOR;
    for sectors in 1..5 {
        tear(
            &place,
            &before,
            &after,
            &mark,
            start..start + sectors * SECTOR,
        );
        torn(&place, &blocks);
    }
    for length in [1, 100, 511, 513, 4 * SECTOR + 500] {
        tear(&place, &before, &after, &mark, start..start + length);
        torn(&place, &blocks);
    }

    tear(&place, &before, &after, &mark, start..start);
    place.not_held(&score(&blocks[1]));
}

/// A crash between the log and its mark: who comes next renews the mark, so that a block that was
/// read once is never lost unseen.
#[test]
fn a_whole_append_without_its_mark() {
    let (place, blocks, after, mark) = before_and_after();
    let before = place.file("log");
    let second = score(&blocks[1]);
    let whole = || tear(&place, &before, &after, &mark, 2 * SECTOR..7 * SECTOR);
    let renewed = common::mark(16, 7);
    whole();
    place.put(&blocks[0]);
    assert_eq!(place.file("log.mark"), renewed.as_bytes(), "by a writer");
    whole();
    place.reads(&second, &blocks[1]);
    assert_eq!(place.file("log.mark"), renewed.as_bytes(), "by a reader");
    place.damage(|log| log[2 * SECTOR..].fill(0));
    place
        .get(&second)
        .fails(65, "the last 5 used sectors are lost");

    place.write("log", &before);
    place.write("log.mark", &mark);
    let mut server = place.serve();
    assert_eq!(server.ask(&HELLO), HELLO_REPLY);
    whole();
    place.reads(&second, &blocks[1]);
    assert_eq!(place.file("log.mark"), mark.as_bytes(), "beside a writer");
    server.end();
}

/// A disk may write later sectors first.
#[test]
fn the_last_sectors_of_an_append() {
    let (place, blocks, after, mark) = before_and_after();
    let before = place.file("log");
    for first in 3..7 {
        tear(&place, &before, &after, &mark, first * SECTOR..7 * SECTOR);
        torn(&place, &blocks);
    }
}

/// A crash inside the replacement of the mark leaves the old one, and perhaps a piece of the new.
#[test]
fn a_piece_of_a_new_mark() {
    let (place, blocks, after, mark) = before_and_after();
    let before = place.file("log");
    tear(&place, &before, &after, &mark, 2 * SECTOR..7 * SECTOR);
    place.write("log.mark.7-7.new", "sectors=0000");
    place.reads(&score(&blocks[1]), &blocks[1]);
    place.put(b"next");
    assert_eq!(place.file("log.mark"), common::mark(16, 8).as_bytes());
    assert!(
        only(&place.folder, &["log", "log.mark"]),
        "no piece is left"
    );
}

/// The next writer removes the pieces that dead ones left, and no other file.
#[test]
fn pieces_of_dead_writers() {
    let place = Place::with_log(8);
    let pieces = [
        "log.mark.1-2.new",
        "log.mark.4194304-1700000000123456789.new",
    ];
    let others = [
        "log",
        "log.mark",
        "log.mark.1-2.new.old",
        "log.mark.new",
        "log.mark.one-two.new",
        "other.mark.1-2.new",
    ];
    for name in pieces.iter().chain(&others[2..]) {
        place.write(name, "sectors=0000");
    }
    let server = place.greeted(&[]);
    assert!(only(&place.folder, &others));
    for name in pieces {
        place.write(name, "this may be the writer's own");
    }
    place
        .feed(&["put", "log"], b"card")
        .fails(75, "another writer");
    place.not_held(&score(b"card"));
    for name in pieces {
        assert!(place.path(name).exists(), "only who holds the lock removes");
    }
    server.end();
    place.put(b"card");
    assert!(only(&place.folder, &others));
}

/// What has the name of such a piece but cannot be one is left alone.
#[test]
fn no_pieces_of_writers() {
    let place = Place::with_log(8);
    place.write("log.mark.1-2.new", [b'x'; 4141]);
    place.write("other", "sectors=0000");
    symlink("other", place.path("log.mark.3-4.new")).unwrap();
    place.write("log.mark.5-6.new", [b'x'; 4140]);
    place.put(b"card");
    let left = [
        "log",
        "log.mark",
        "log.mark.1-2.new",
        "log.mark.3-4.new",
        "other",
    ];
    assert!(only(&place.folder, &left));
}

/// Kills a server that is busy with writes and syncs, again and again on one log. Every block that a
/// sync answered for is there; any other is whole, not held or not known.
#[test]
fn killed_while_appending() {
    let rounds = 16;
    let each = 24;
    let place = Place::with_log(rounds * each * 4);
    let mut known: Vec<Vec<u8>> = Vec::new();
    let (mut cut_short, mut lost) = (0, 0);
    for round in 0..rounds {
        let blocks: Vec<_> = (0..each)
            .map(|i| block(round * each + i, 1 + (round * 397 + i * 811) % 1600))
            .collect();
        let sync_after = 1 + round % 5;
        let (answered, synced) = kill_after(&place, &blocks, round % each, sync_after);
        cut_short += usize::from(answered < each);
        known.extend_from_slice(&blocks[..synced]);
        lost += check(&place, &known, &blocks[synced..answered]);
        check(&place, &known, &blocks[answered..]);
    }
    assert!(cut_short > 0, "no kill came in time");
    assert!(lost > 0, "no answered block was waiting");
    assert!(only(&place.folder, &["log", "log.mark"]));
}

/// Sends all writes, with a sync after so many of them and a ping after each sync, which has it answered by itself.
/// Waits for replies to so many writes, kills the server, and counts the writes that it answered, and those of them
/// that it answered a sync after.
fn kill_after(
    place: &Place,
    blocks: &[Vec<u8>],
    replies: usize,
    sync_after: usize,
) -> (usize, usize) {
    let mut server = place.serve();
    assert_eq!(server.ask(&HELLO), HELLO_REPLY);
    let mut input = server.input.take().unwrap();
    let (mut sent, mut expected) = (Vec::new(), Vec::new());
    for (number, block) in (1..).zip(blocks) {
        sent.extend(write_message(1, block));
        expected.push((write_reply(1, block), number, 0));
        if number % sync_after == 0 {
            sent.extend([sync_message(2), message(2, 3, b"")].concat());
            expected.push((sync_reply(2), number, number));
            expected.push((message(3, 3, b""), number, number));
        }
    }
    let sender = thread::spawn(move || input.write_all(&sent).is_ok());
    let mut expected = expected.into_iter();
    let (mut answered, mut synced, mut killed) = (0, 0, false);
    loop {
        if answered >= replies && !killed {
            killed = true;
            server.child.kill().unwrap();
            server.child.wait().unwrap();
        }
        let Some(reply) = server.reply() else {
            break;
        };
        let (right, writes, syncs) = expected.next().unwrap();
        assert_eq!(reply, right);
        (answered, synced) = (writes, synced.max(syncs));
    }
    sender.join().unwrap();
    (answered, synced)
}

/// Asks for all of these blocks in one session. How many of the others are not held.
fn check(place: &Place, known: &[Vec<u8>], others: &[Vec<u8>]) -> usize {
    let asked = known.iter().chain(others).map(|b| read_message(1, b));
    let sent = [HELLO.to_vec(), asked.collect::<Vec<_>>().concat()].concat();
    let answer = place.feed(&["serve", "log"], &sent).with(0);
    let mut rest = &answer.out[HELLO_REPLY.len()..];
    let mut next = || {
        let size = 2 + usize::from(u16::from_be_bytes([rest[0], rest[1]]));
        let (reply, left) = rest.split_at(size);
        rest = left;
        reply.to_vec()
    };
    for block in known {
        assert!(next() == message(13, 1, block), "a synced block is lost");
    }
    let mut not_held = 0;
    for block in others {
        let reply = next();
        let lawful = [message(13, 1, block), error_reply(1, 11)];
        let not_known = &not_known_reply(1, 0)[..16]; // whatever the sector
        let lawful = lawful.contains(&reply) || reply.starts_with(not_known) && reply.len() == 24;
        assert!(lawful, "wrong bytes");
        not_held += usize::from(reply == error_reply(1, 11));
    }
    assert!(rest.is_empty());
    not_held
}

/// Kills a `put` of many files when it has printed some scores: each of them is there.
#[test]
fn killed_in_put() {
    let files = 40;
    let lengths = [57_344, 300, 20_000, 1];
    let mut cut_short = 0;
    for round in 0..8 {
        let place = Place::with_log(4000);
        let mut words = vec!["put".to_string(), "log".to_string()];
        let mut blocks = Vec::new();
        for file in 0..files {
            let name = format!("file{file:02}");
            blocks.push(block(100 * round + file, lengths[file % 4]));
            place.write(&name, &blocks[file]);
            words.push(name);
        }
        let mut child = place.command(&words).spawn().unwrap();
        let mut lines = BufReader::new(child.stdout.take().unwrap()).lines();
        let mut scores: Vec<String> = Vec::new();
        while let Some(Ok(line)) = lines.next() {
            scores.push(line);
            if scores.len() == 1 + 4 * round {
                child.kill().unwrap();
            }
        }
        child.wait().unwrap();
        cut_short += usize::from(scores.len() < files);
        for (line, block) in scores.iter().zip(&blocks) {
            assert_eq!(line[..40], score(block));
            place.reads(&line[..40], block);
        }
    }
    assert!(cut_short > 0, "no kill came in time");
}

/// Runs a command and kills it after so many milliseconds; whether that came before its end.
fn killed(place: &Place, words: &[&str], delay: u64) -> bool {
    let mut child = place.command(words).spawn().unwrap();
    thread::sleep(Duration::from_millis(delay));
    child.kill().unwrap();
    child.wait().unwrap().code().is_none()
}

const LONG: usize = 40_000;

/// A log is there with its mark, or is not served.
#[test]
fn killed_in_init() {
    let sectors = LONG.to_string();
    let init = ["init", "log", "--sectors", &sectors];
    let mut kills = 0;
    for delay in 0..12 {
        let place = Place::new();
        kills += usize::from(killed(&place, &init, delay));
        let answer = place.get(&score(b"any"));
        if answer.status == 11 {
            assert!(place.file("log") == vec![0; LONG * SECTOR]);
            assert_eq!(place.file("log.mark"), mark(LONG, 0).as_bytes());
        } else {
            let log = place.path("log").exists();
            let words = if log {
                "log has no mark"
            } else {
                "no such log: log"
            };
            answer.fails(66, words);
        }
    }
    assert!(kills > 0, "no kill came in time");
}

/// Ctrl-C leaves a whole log with its mark, or nothing.
#[test]
fn interrupted_in_init() {
    let sectors = "131072"; // long enough to be in time
    let mut interrupted = 0;
    // Where the program is slow to begin, the signal has to wait for it.
    let late = (0..40).map(|k| 60 + 4 * k * k);
    for delay in (0..60).step_by(3).chain(late) {
        let place = Place::new();
        let init = ["init", "log", "--sectors", sectors];
        let child = place.command(&init).spawn().unwrap();
        thread::sleep(Duration::from_millis(delay));
        let signal = ["-INT", &child.id().to_string()];
        Command::new("kill").args(signal).status().unwrap();
        let output = child.wait_with_output().unwrap();
        match output.status.code() {
            Some(0) => assert!(only(&place.folder, &["log", "log.mark"])),
            Some(130) => {
                let told = String::from_utf8(output.stderr).unwrap();
                assert!(
                    told.contains("interrupted; nothing is left half made"),
                    "{told}"
                );
                assert!(only(&place.folder, &[]));
                interrupted += 1;
            }
            // The signal came before anything was begun.
            None => assert!(only(&place.folder, &[])),
            other => panic!("{other:?}"),
        }
        if interrupted == 3 {
            return;
        }
    }
    assert!(interrupted > 0, "no signal came in time");
}

/// What was lost is "not known" or the log is not served, and `doubt` can be run again.
#[test]
fn killed_in_doubt() {
    let place = Place::with_log(LONG);
    let lost = place.put(&block(1, 1000));
    let mut kills = 0;
    for delay in 0..12 {
        place.write("log", b"");
        kills += usize::from(killed(&place, &["doubt", "log"], delay));
        match place.get(&lost).status {
            12 => place.not_known(&lost),
            _ => drop(
                place
                    .get(&lost)
                    .fails(65, "the last 3 used sectors are lost"),
            ),
        }
        place.run(&["doubt", "log"]).with(0);
        place.not_known(&lost);
        assert_eq!(place.file("log").len(), LONG * SECTOR);
    }
    assert!(kills > 0, "no kill came in time");
}
