//! `serve --read-only` and `serve --wait`: many clients of one log.

use std::fs;
use std::net::{TcpListener, TcpStream};
use std::os::fd::OwnedFd;
use std::os::unix::fs::MetadataExt;
use std::process::Stdio;
use std::thread;
use std::time::{Duration, Instant};

use crate::common::*;

/// The bytes of the log and of its mark, and which files they are and when they were changed.
fn all(place: &Place) -> Vec<(Vec<u8>, u64, i64, i64)> {
    let of = |name: &str| {
        let found = fs::metadata(place.path(name)).unwrap();
        let changed = (found.ino(), found.ctime(), found.ctime_nsec());
        (place.file(name), changed.0, changed.1, changed.2)
    };
    ["log", "log.mark"].map(of).to_vec()
}

/// Three at once beside a writer. New blocks are refused with 14, and nothing is written.
#[test]
fn many_that_only_read() {
    let place = Place::with_log(8);
    place.put(b"first");
    let mut writer = place.greeted(&[]);
    let before = all(&place);
    let mut readers = [0; 3].map(|_| place.greeted(&["--read-only"]));
    for reader in &mut readers {
        assert_eq!(
            reader.ask(&read_message(1, b"first")),
            message(13, 1, b"first")
        );
        assert_eq!(reader.ask(&read_message(2, b"never")), error_reply(2, 11));
        assert_eq!(reader.ask(&write_message(3, b"new")), error_reply(3, 14));
        assert_eq!(
            reader.ask(&write_message(4, b"first")),
            write_reply(4, b"first")
        );
        assert_eq!(reader.ask(&message(16, 5, b"")), message(17, 5, b""));
    }
    assert_eq!(all(&place), before);
    assert!(only(&place.folder, &["log", "log.mark"]));
    assert_eq!(
        writer.ask(&write_message(6, b"new")),
        write_reply(6, b"new")
    );
    for reader in readers {
        assert_eq!(reader.end(), (0, String::new()));
    }
    assert_eq!(writer.end(), (0, String::new()));
}

/// What a writer has synced is found at once, never "not held"; also what it heals. What waits is not.
#[test]
fn readers_follow_the_writer() {
    let place = Place::with_log(64);
    let mut writer = place.greeted(&[]);
    let mut reader = place.greeted(&["--read-only"]);
    for seed in 0..8 {
        let data = block(seed, 1 + seed * 300);
        assert_eq!(reader.ask(&read_message(1, &data)), error_reply(1, 11));
        assert_eq!(writer.ask(&write_message(1, &data)), write_reply(1, &data));
        assert_eq!(reader.ask(&read_message(2, &data)), error_reply(2, 11));
        writer.sync();
        assert_eq!(reader.ask(&read_message(2, &data)), message(13, 2, &data));
    }
    assert_eq!(writer.end(), (0, String::new()));
    place.damage(|log| log.resize(80 * SECTOR, 0));
    let next = place.put(b"next");
    assert_eq!(
        reader.ask(&read_message(3, b"next")),
        message(13, 3, b"next")
    );
    assert_eq!(reader.ask(&write_message(4, b"new")), error_reply(4, 14));
    place.reads(&next, b"next");
    assert_eq!(reader.end(), (0, String::new()));
}

/// A block whose sectors were damaged meanwhile is not acknowledged, and there is no room to heal it.
#[test]
fn a_reader_acknowledges_no_damaged_block() {
    let place = Place::with_log(8);
    place.put(&block(1, 1000));
    let mut reader = place.greeted(&["--read-only"]);
    place.damage(|log| log[2 * SECTOR + 9] ^= 1);
    let damaged = place.file("log");
    let again = write_message(1, &block(1, 1000));
    assert_eq!(reader.ask(&again), error_reply(1, 14));
    assert_eq!(place.file("log"), damaged);
    assert!(reader
        .end()
        .1
        .contains("sectors 0 to 2 of log were damaged on disk"));
}

/// What a crash left behind the mark is read, but nobody can tell whether it is on disk: a write of
/// it is not acknowledged, until a writer has marked it.
#[test]
fn a_reader_acknowledges_only_what_is_marked() {
    let place = Place::with_log(8);
    place.put(b"first");
    let older = place.file("log.mark");
    let second = block(2, 500);
    place.put(&second);
    place.write("log.mark", &older);
    let mut reader = place.greeted(&["--read-only"]);
    assert_eq!(reader.ask(&write_message(1, &second)), error_reply(1, 14));
    assert_eq!(
        reader.ask(&write_message(2, b"first")),
        write_reply(2, b"first")
    );
    assert_eq!(
        reader.ask(&read_message(3, &second)),
        message(13, 3, &second)
    );
    place.put(b"first"); // which renews the mark
    assert_eq!(
        reader.ask(&write_message(4, &second)),
        write_reply(4, &second)
    );
    assert_eq!(reader.end(), (0, String::new()));
}

/// The mark that a crash left behind stays as it is.
#[test]
fn a_reader_renews_no_mark() {
    let place = Place::with_log(8);
    place.put(b"first");
    let older = place.file("log.mark");
    place.put(b"second");
    place.write("log.mark", &older);
    let before = all(&place);
    let mut reader = place.greeted(&["--read-only"]);
    assert_eq!(
        reader.ask(&read_message(1, b"second")),
        message(13, 1, b"second")
    );
    assert_eq!(reader.end(), (0, String::new()));
    assert_eq!(all(&place), before);
}

/// A log that lost its tail, or that was replaced by an older one, is no longer answered for.
#[test]
fn a_log_that_is_lost_under_a_reader() {
    let place = Place::with_log(8);
    let older = place.file("log");
    place.put(b"first");
    let mut reader = place.greeted(&["--read-only"]);
    assert_eq!(
        reader.ask(&read_message(1, b"first")),
        message(13, 1, b"first")
    );
    place.write("copy", older);
    fs::rename(place.path("copy"), place.path("log")).unwrap();
    reader.send(&read_message(2, b"first"));
    assert_eq!(reader.reply(), None);
    let (status, told) = reader.end();
    assert_eq!(status, 65, "{told}");
    assert!(told.contains("the last used sector is lost"), "{told}");
}

#[test]
fn options_that_contradict_each_other() {
    let place = Place::with_log(8);
    let serve = |words: &[&str]| place.run(&[&["serve", "log"], words].concat());
    serve(&["--read-only", "--adopt"]).fails(64, "--read-only writes nothing");
    serve(&["--read-only", "--wait", "1"]).fails(64, "--read-only takes no lock");
    serve(&["--wait", "soon"]).fails(64, "--wait takes a decimal number");
    fs::remove_file(place.path("log.mark")).unwrap();
    serve(&["--read-only"]).fails(66, "log has no mark");
    assert!(only(&place.folder, &["log"]));
}

/// The second writer waits for the first, and no longer than it was told to.
#[test]
fn waiting_for_the_lock() {
    let place = Place::with_log(8);
    let mut first = place.greeted(&[]);
    place
        .run(&["serve", "log", "--wait", "0"])
        .fails(75, "another writer holds log");
    let start = Instant::now();
    place
        .run(&["serve", "log", "--wait=1"])
        .fails(75, "another writer holds log");
    assert!(start.elapsed() >= Duration::from_secs(1));

    let mut second = place.serve_with(&["--wait", "60"]);
    second.send(&HELLO);
    assert_eq!(
        first.ask(&write_message(1, b"card")),
        write_reply(1, b"card")
    );
    thread::sleep(Duration::from_millis(100));
    assert_eq!(second.child.try_wait().unwrap(), None, "it waits");
    assert_eq!(first.end(), (0, String::new()));
    assert_eq!(second.reply().unwrap(), HELLO_REPLY);
    assert_eq!(
        second.ask(&read_message(2, b"card")),
        message(13, 2, b"card")
    );
    assert_eq!(second.end(), (0, String::new()));
}

/// As an inetd starts it: the connection is its standard input and output.
#[test]
fn over_a_socket() {
    let place = Place::with_log(8);
    place.put(b"card");
    let listener = TcpListener::bind("127.0.0.1:0").unwrap();
    let address = listener.local_addr().unwrap();
    let mut clients = Vec::new();
    for _ in 0..3 {
        let client = TcpStream::connect(address).unwrap();
        let (server, _) = listener.accept().unwrap();
        let output = OwnedFd::from(server.try_clone().unwrap());
        let mut command = place.command(&["serve", "log", "--read-only"]);
        command.stdin(Stdio::from(OwnedFd::from(server)));
        command.stdout(Stdio::from(output));
        clients.push((client, command.spawn().unwrap()));
    }
    for (client, _) in &mut clients {
        let sent = [&HELLO[..], &read_message(9, b"card"), &goodbye()].concat();
        std::io::Write::write_all(client, &sent).unwrap();
    }
    for (mut client, mut server) in clients {
        let mut got = Vec::new();
        assert!(server.wait().unwrap().success());
        std::io::Read::read_to_end(&mut client, &mut got).unwrap();
        assert_eq!(got, [&HELLO_REPLY[..], &message(13, 9, b"card")].concat());
    }
}

/// An inetd makes the connection standard error too: nothing comes between the replies.
#[test]
fn standard_error_on_the_same_socket() {
    let place = Place::with_log(8);
    let talk = |options: &[&str], sent: &[u8]| {
        let listener = TcpListener::bind("127.0.0.1:0").unwrap();
        let mut client = TcpStream::connect(listener.local_addr().unwrap()).unwrap();
        let (server, _) = listener.accept().unwrap();
        let end = || Stdio::from(OwnedFd::from(server.try_clone().unwrap()));
        let mut command = place.command(&[&["serve", "log"], options].concat());
        command.stdin(end()).stdout(end()).stderr(end());
        let mut child = command.spawn().unwrap();
        drop((command, server));
        std::io::Write::write_all(&mut client, sent).unwrap();
        client.shutdown(std::net::Shutdown::Write).unwrap();
        let mut got = Vec::new();
        std::io::Read::read_to_end(&mut client, &mut got).unwrap();
        (child.wait().unwrap().code(), got)
    };
    // A message that gets no reply is told of; so is input that is torn.
    let sent = [&HELLO[..], &[0, 1, 2], &message(2, 7, b""), &[0]].concat();
    let replies = [&HELLO_REPLY[..], &message(3, 7, b"")].concat();
    assert_eq!(talk(&["--read-only"], &sent), (Some(1), replies));
    let ours = b"venti-02-skywimple\n".to_vec();
    assert_eq!(talk(&["--handshake"], b"venti-99-x\n"), (Some(76), ours));
}
