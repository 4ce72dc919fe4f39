//! One writer at a time; readers are never held up.

use std::fs;
use std::io::Write;
use std::process::{Command, Stdio};
use std::thread;
use std::time::Duration;

use crate::common::*;

#[test]
fn a_second_writer_fails_at_once() {
    let place = Place::with_log(8);
    let first = place.put(b"first");
    let mut server = place.serve();
    assert_eq!(server.ask(&HELLO), HELLO_REPLY);

    let adopt = ["get", "log", &first, "--adopt"];
    let writers: [&[&str]; 4] = [
        &["put", "log"],
        &["serve", "log"],
        &["doubt", "log"],
        &adopt,
    ];
    for writer in writers {
        place.run(writer).fails(75, "another writer holds log");
    }
    place.reads(&first, b"first");
    place.run(&["report", "log"]).with(0);

    server.store(1, b"second");
    place.reads(&score(b"second"), b"second");
    assert_eq!(server.end(), (0, String::new()));
    place.put(b"third");
    place.reads(&score(b"third"), b"third");
}

/// A block that is slow to come is waited for without the lock.
#[test]
fn waiting_for_a_block_holds_up_nobody() {
    for words in [&["put", "log"][..], &["put", "log", "-"]] {
        let place = Place::with_log(8);
        let mut command = place.command(words);
        let mut slow = command.stdin(Stdio::piped()).spawn().unwrap();
        slow.stdin.as_mut().unwrap().write_all(b"slow").unwrap();
        thread::sleep(Duration::from_millis(50));
        place.put(b"quick");
        let output = slow.wait_with_output().unwrap();
        assert!(output.status.success(), "{output:?}");
        place.reads(&score(b"slow"), b"slow");
    }
}

/// Another log in the same folder has a lock of its own.
#[test]
fn another_log_is_free() {
    let place = Place::with_log(8);
    place.run(&["init", "other", "--sectors", "8"]).with(0);
    let mut server = place.serve();
    assert_eq!(server.ask(&HELLO), HELLO_REPLY);
    place.feed(&["put", "other"], b"x").with(0);
    server.end();
}

/// While a writer appends, readers see each earlier block, and never a loss.
#[test]
fn readers_beside_a_writer() {
    let place = Place::with_log(400);
    let first = place.put(b"first");
    let mut server = place.serve();
    assert_eq!(server.ask(&HELLO), HELLO_REPLY);
    for seed in 0..40 {
        let data = block(seed, 3000);
        server.send(&[write_message(1, &data), sync_message(2)].concat());
        place.reads(&first, b"first");
        assert_eq!(server.reply(), Some(write_reply(1, &data)));
        assert_eq!(server.reply(), Some(sync_reply(2)));
    }
    assert_eq!(server.end().0, 0);
    place.run(&["report", "log"]).with(0);
}

/// A server that has stored one block.
fn busy(place: &Place) -> Server {
    let mut server = place.serve();
    assert_eq!(server.ask(&HELLO), HELLO_REPLY);
    server.store(1, b"first");
    server
}

/// The server ends without a reply to a sync of this block.
#[track_caller]
fn unanswered(mut server: Server, block: &[u8], words: &str) {
    server.send(&[write_message(2, block), sync_message(3)].concat());
    let answered = server.reply();
    assert!(answered.is_none_or(|reply| reply == write_reply(2, block)));
    assert_eq!(server.reply(), None);
    told_to_store_again(server, words);
}

/// The server fails with these words, and says which blocks may be lost.
#[track_caller]
fn told_to_store_again(server: Server, words: &str) {
    let (status, told) = server.end();
    assert_eq!(status, 74, "{told}");
    assert!(told.contains(words), "{told}");
    let advice = ". Store again what no sync was answered for: it may not be on disk.\n";
    assert!(told.ends_with(advice), "{told}");
}

const REPLACED: &str = "log was replaced while this program was writing it";

/// The lock is on the file: what is written to one that nobody finds is not acknowledged.
#[test]
fn a_log_replaced_under_a_writer() {
    for next in [&b"first"[..], b"second"] {
        let place = Place::with_log(8);
        let older = place.file("log");
        let server = busy(&place);
        place.write("copy", older);
        fs::rename(place.path("copy"), place.path("log")).unwrap();
        unanswered(server, next, REPLACED);
        assert_eq!(place.file("log.mark"), mark(8, 1).as_bytes());
        place.get(&score(b"first")).fails(65, "is lost");
    }
}

#[test]
fn a_log_moved_away_under_a_writer() {
    for next in [&b"first"[..], b"second"] {
        let place = Place::with_log(8);
        let server = busy(&place);
        fs::create_dir(place.path("away")).unwrap();
        for name in ["log", "log.mark"] {
            fs::rename(place.path(name), place.path("away").join(name)).unwrap();
        }
        unanswered(server, next, REPLACED);
        assert!(only(&place.folder, &["away"]), "no mark without a log");
        let get = place.run(&["get", "away/log", &score(b"first")]).with(0);
        assert_eq!(get.out, b"first");
    }
}

/// A write was answered, and then the log is gone: at a sync as at the end of input it is told that
/// the block may be lost.
#[test]
fn a_log_moved_away_after_an_answer() {
    for end in [&sync_message(2)[..], b""] {
        let place = Place::with_log(8);
        let mut server = busy(&place);
        let reply = server.ask(&write_message(1, b"second"));
        assert_eq!(reply, write_reply(1, b"second"));
        fs::rename(place.path("log"), place.path("away")).unwrap();
        server.send(end);
        drop(server.input.take());
        assert_eq!(server.reply(), None);
        told_to_store_again(server, REPLACED);
        // What a sync was answered for is marked, and no more.
        assert_eq!(place.file("log.mark"), mark(8, 1).as_bytes());
    }
}

/// `put` prints no score then, of the blocks before neither, and says so.
#[test]
fn a_log_moved_away_under_put() {
    let place = Place::with_log(8);
    place.write("first", b"first");
    let made = Command::new("mkfifo").arg(place.path("slow")).status();
    assert!(made.unwrap().success());
    let put = place.command(&["put", "log", "first", "slow"]).spawn();
    // It is opened once the first block waits.
    let slow = fs::OpenOptions::new().write(true).open(place.path("slow"));
    fs::rename(place.path("log"), place.path("away")).unwrap();
    slow.unwrap().write_all(b"slow").unwrap();
    let put = put.unwrap().wait_with_output().unwrap();
    assert_eq!(put.status.code(), Some(74), "{put:?}");
    assert!(put.stdout.is_empty(), "{put:?}");
    let told = String::from_utf8(put.stderr).unwrap();
    assert!(told.contains(REPLACED), "{told}");
    let advice = ". Store again what no score was printed for: it may not be on disk.\n";
    assert!(told.ends_with(advice), "{told}");
}

/// The mark's place is another then, though the working folder went along.
#[test]
fn a_folder_moved_away_under_a_writer() {
    let place = Place::new();
    fs::create_dir(place.path("here")).unwrap();
    let init = ["init", "here/log", "--sectors", "8"];
    place.run(&init).with(0);
    let mut command = place.command(&["serve", "log"]);
    command.current_dir(place.path("here"));
    let mut server = Server::start(command);
    assert_eq!(server.ask(&HELLO), HELLO_REPLY);
    fs::rename(place.path("here"), place.path("away")).unwrap();
    fs::create_dir(place.path("here")).unwrap();
    place.run(&init).with(0);
    unanswered(server, b"card", REPLACED);
    assert_eq!(place.file("here/log.mark"), mark(8, 0).as_bytes());
}

/// Changes in place are seen before a write would go over them.
#[test]
fn a_log_changed_in_place_under_a_writer() {
    let changes: [fn(&mut Vec<u8>); 3] = [
        |log| log[2 * SECTOR + 511] = 1, // in the second of the next two sectors
        |log| log.truncate(3 * SECTOR - 1),
        |log| log.clear(),
    ];
    for change in changes {
        let place = Place::with_log(8);
        let server = busy(&place);
        place.damage(change);
        let before = place.file("log");
        unanswered(server, &block(1, 500), "log was changed by another program");
        assert_eq!(place.file("log"), before);
        assert_eq!(place.file("log.mark"), mark(8, 1).as_bytes());
    }
}
