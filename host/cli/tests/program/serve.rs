//! `serve` as a process: framing, replies, statuses.

use std::fs;
use std::io::{Read, Write};
use std::os::fd::OwnedFd;
use std::os::unix::net::UnixDatagram;
use std::process::{Command, Stdio};

use crate::common::*;

#[test]
fn a_conversation() {
    let place = Place::with_log(8);
    let sent = [
        message(2, 3, b""),
        HELLO.to_vec(),
        message(2, 7, b""),
        write_message(1, b"card"),
        write_message(2, b"card"),
        read_message(3, b"card"),
        read_message(4, b"never"),
        message(16, 5, b""),
        message(99, 6, b"odd"),
        goodbye(),
        message(2, 8, b""),
    ];
    let answer = place.feed(&["serve", "log"], &sent.concat()).with(0);
    let replies = [
        error_reply(3, 7),
        HELLO_REPLY.to_vec(),
        message(3, 7, b""),
        write_reply(1, b"card"),
        write_reply(2, b"card"),
        message(13, 3, b"card"),
        error_reply(4, 11),
        message(17, 5, b""),
        error_reply(6, 5),
    ];
    assert_eq!(answer.out, replies.concat());
    assert_eq!(answer.err, "");
    assert_eq!(place.file("log.mark"), mark(8, 1).as_bytes());
    place.reads(&score(b"card"), b"card");
}

/// Each reply comes before the next request is sent; that of a write while its block waits, that of
/// a sync when all of them are on disk.
#[test]
fn a_sync_means_that_it_is_stored() {
    let place = Place::with_log(64);
    let mut server = place.serve();
    assert_eq!(server.ask(&HELLO), HELLO_REPLY);
    let mut end = 0;
    for (tag, length) in [1, 389, 390, 5000].into_iter().enumerate() {
        let before = place.file("log");
        let pair = [block(tag, length), block(tag + 10, length)];
        for data in &pair {
            let reply = server.ask(&write_message(tag as u8, data));
            assert_eq!(reply, write_reply(tag as u8, data));
            let reply = server.ask(&read_message(tag as u8, data));
            assert_eq!(reply, message(13, tag as u8, data));
        }
        assert!(place.file("log") == before, "nothing is written yet");
        assert_eq!(place.file("log.mark"), mark(64, end).as_bytes());
        place.not_held(&score(&pair[0]));
        server.sync();
        end += 2 * length.div_ceil(PAYLOAD);
        assert_eq!(place.file("log.mark"), mark(64, end).as_bytes());
        for data in &pair {
            place.reads(&score(data), data);
        }
    }
    let before = (place.file("log"), place.file("log.mark"));
    server.sync();
    assert_eq!(before, (place.file("log"), place.file("log.mark")));
    assert_eq!(server.end(), (0, String::new()));
}

/// A sync is not held back for what has come in part: a client may wait for it before it sends the rest.
#[test]
fn a_message_that_comes_in_parts() {
    let place = Place::with_log(64);
    let mut server = place.greeted(&[]);
    let next = [write_message(2, b"next"), sync_message(9)].concat();
    for cut in 0..next.len() {
        let card = block(cut, 9);
        let sent = [&write_message(1, &card)[..], &sync_message(7), &next[..cut]].concat();
        server.send(&sent);
        assert_eq!(server.reply(), Some(write_reply(1, &card)));
        assert_eq!(server.reply(), Some(sync_reply(7)));
        place.reads(&score(&card), &card);
        server.send(&next[cut..]);
        assert_eq!(server.reply(), Some(write_reply(2, b"next")));
        assert_eq!(server.reply(), Some(sync_reply(9)));
    }
    assert_eq!(server.end(), (0, String::new()));
}

/// Writes and syncs that are sent at once are answered in their order, and all of them are there.
#[test]
fn many_syncs_at_once() {
    let place = Place::with_log(2_000);
    let (mut sent, mut replies) = (HELLO.to_vec(), HELLO_REPLY.to_vec());
    let blocks: Vec<_> = (0..300).map(|seed| block(seed, 1 + 7 * seed)).collect();
    for (tag, data) in blocks.iter().enumerate() {
        sent.extend([write_message(tag as u8, data), sync_message(tag as u8)].concat());
        replies.extend([write_reply(tag as u8, data), sync_reply(tag as u8)].concat());
    }
    let answer = place.feed(&["serve", "log"], &sent).with(0);
    assert!(answer.out == replies);
    assert_eq!(answer.err, "");
    let used = blocks
        .iter()
        .map(|block| block.len().div_ceil(PAYLOAD))
        .sum();
    assert_eq!(place.file("log.mark"), mark(2_000, used).as_bytes());
    for data in blocks.iter().step_by(37) {
        place.reads(&score(data), data);
    }
}

/// However a conversation ends, all that was answered for is there.
#[test]
fn a_client_that_never_syncs() {
    let ends: [(&[u8], i32); 4] = [
        (b"", 0),
        (&goodbye(), 0),
        (&[0, 9, 14], 1),
        (&[&goodbye()[..], b"more"].concat(), 0),
    ];
    for (end, status) in ends {
        let place = Place::with_log(64);
        let blocks = [block(1, 900), block(2, 3)];
        let writes = blocks.iter().map(|b| write_message(1, b));
        let sent = [&HELLO[..], &writes.collect::<Vec<_>>().concat(), end].concat();
        place.feed(&["serve", "log"], &sent).with(status);
        for block in &blocks {
            place.reads(&score(block), block);
        }
        assert_eq!(place.file("log.mark"), mark(64, 4).as_bytes());
    }
}

/// Asked to end by a signal, it settles first, also inside a message.
#[test]
fn a_server_that_is_asked_to_end() {
    for (signal, status) in [("-HUP", 129), ("-INT", 130), ("-TERM", 143)] {
        for rest in [&b""[..], &[0, 9, 14]] {
            let place = Place::with_log(8);
            let mut server = place.greeted(&[]);
            let reply = server.ask(&write_message(1, b"card"));
            assert_eq!(reply, write_reply(1, b"card"));
            server.send(rest);
            let id = server.child.id().to_string();
            Command::new("kill").args([signal, &id]).status().unwrap();
            let mut told = String::new();
            let mut stderr = server.child.stderr.take().unwrap();
            stderr.read_to_string(&mut told).unwrap();
            assert_eq!(server.child.wait().unwrap().code(), Some(status));
            assert!(told.contains("all that was answered for is on disk"));
            place.reads(&score(b"card"), b"card");
        }
    }
}

/// Nobody reads the replies: what was answered before is there all the same.
#[test]
fn a_client_that_goes_away() {
    let place = Place::with_log(64);
    let mut server = place.greeted(&[]);
    let reply = server.ask(&write_message(1, b"card"));
    assert_eq!(reply, write_reply(1, b"card"));
    let mut input = server.input.take().unwrap();
    drop(server.output);
    while input.write_all(&message(2, 3, b"")).is_ok() {}
    assert_eq!(server.child.wait().unwrap().code(), Some(74));
    place.reads(&score(b"card"), b"card");
}

/// A log many times as long as a waiting part, filled to its last sector without a sync: 14 comes
/// only when the file has no room.
#[test]
fn a_waiting_part_that_is_full() {
    let sectors = 1500;
    let place = Place::with_log(sectors);
    let mut server = place.greeted(&[]);
    let lengths = [57_344, 1, 20_000, 389, 390, 57_344, 50_000];
    let (mut used, mut stored) = (0, Vec::new());
    for (seed, length) in lengths.into_iter().cycle().enumerate() {
        let data = block(seed, length.min((sectors - used) * PAYLOAD));
        assert_eq!(server.ask(&write_message(1, &data)), write_reply(1, &data));
        used += data.len().div_ceil(PAYLOAD);
        stored.push(data);
        if used == sectors {
            break;
        }
        let long = block(9000 + seed, (sectors - used) * PAYLOAD + 1);
        if long.len() <= 57_344 {
            let reply = server.ask(&write_message(2, &long));
            assert_eq!(reply, error_reply(2, 14));
        }
        let first = &stored[0];
        assert_eq!(server.ask(&read_message(3, first)), message(13, 3, first));
    }
    assert_eq!(server.ask(&write_message(2, b"one")), error_reply(2, 14));
    assert_eq!(server.end(), (0, String::new()));
    assert_eq!(place.file("log.mark"), mark(sectors, sectors).as_bytes());
    place.run(&["report", "log"]).with(0);
    for data in &stored {
        place.reads(&score(data), data);
    }
}

#[test]
fn an_unanswered_message_is_told_and_the_next_one_answered() {
    let place = Place::with_log(1);
    let sent = [&HELLO[..], &[0, 0], &[0, 1, 2], &message(2, 9, b"")].concat();
    let answer = place.feed(&["serve", "log"], &sent).with(0);
    assert_eq!(answer.out, [&HELLO_REPLY[..], &message(3, 9, b"")].concat());
    for number in [2, 3] {
        let told = format!("message {number} was not answered: ill-framed message (1)");
        assert!(answer.err.contains(&told), "{answer:?}");
    }
}

#[test]
fn input_that_ends_inside_a_message() {
    let place = Place::with_log(4);
    let whole = [&HELLO[..], &write_message(1, b"torn off")].concat();
    for length in HELLO.len() + 1..whole.len() {
        let answer = place.feed(&["serve", "log"], &whole[..length]).with(1);
        assert_eq!(answer.out, HELLO_REPLY);
        assert!(answer.err.contains("ended inside a message"), "{answer:?}");
    }
    place.not_held(&score(b"torn off"));
    let nothing = place.feed(&["serve", "log"], b"").with(0);
    assert_eq!((nothing.out, nothing.err), (Vec::new(), String::new()));
}

#[test]
fn the_longest_messages() {
    let place = Place::with_log(300);
    let longest = block(1, 57_344);
    let too_long = block(2, 65_529);
    let sent = [
        HELLO.to_vec(),
        write_message(1, &longest),
        write_message(2, &too_long),
        read_message(3, &longest),
        message(250, 4, &[7; 65_533]),
    ];
    let answer = place.feed(&["serve", "log"], &sent.concat()).with(0);
    let replies = [
        HELLO_REPLY.to_vec(),
        write_reply(1, &longest),
        error_reply(2, 10),
        message(13, 3, &longest),
        error_reply(4, 5),
    ];
    assert!(answer.out == replies.concat());
}

/// A damaged log is served: "not known" over the wire, and healed over it.
#[test]
fn not_known_over_the_wire() {
    let place = Place::with_log(8);
    place.put(b"card");
    place.damage(|log| log[100] ^= 1);
    let sent = [
        HELLO.to_vec(),
        read_message(1, b"card"),
        read_message(2, b"never"),
        write_message(3, b"card"),
        read_message(4, b"card"),
        read_message(5, b"never"),
    ];
    let answer = place.feed(&["serve", "log"], &sent.concat()).with(0);
    let replies = [
        HELLO_REPLY.to_vec(),
        not_known_reply(1, 0),
        not_known_reply(2, 0),
        write_reply(3, b"card"),
        message(13, 4, b"card"),
        not_known_reply(5, 0),
    ];
    assert_eq!(answer.out, replies.concat());
}

/// Over a socket that keeps writes apart: each reply is one, also where its bytes look like lines, and where it was
/// held back.
#[test]
fn a_reply_is_one_write() {
    let place = Place::with_log(200);
    let lines = b"line\n".repeat(8000);
    let (ours, theirs) = UnixDatagram::pair().unwrap();
    let sent = [
        &HELLO[..],
        &write_message(10, &lines),
        &read_message(10, &lines),
        &sync_message(11),
        &write_message(12, b"next"),
        &sync_message(13),
    ]
    .concat();
    place.write("sent", sent);
    let mut command = place.command(&["serve", "log"]);
    command.stdin(fs::File::open(place.path("sent")).unwrap());
    command.stdout(Stdio::from(OwnedFd::from(theirs)));
    assert!(command.status().unwrap().success());
    ours.set_nonblocking(true).unwrap();
    let mut buffer = vec![0; 70_000];
    let mut next = || {
        ours.recv(&mut buffer)
            .map(|count| buffer[..count].to_vec())
            .ok()
    };
    for reply in [
        HELLO_REPLY.to_vec(),
        write_reply(10, &lines),
        message(13, 10, &lines),
        sync_reply(11),
        write_reply(12, b"next"),
        sync_reply(13),
    ] {
        assert!(next() == Some(reply));
    }
    assert_eq!(next(), None);
}

type Damage = fn(&mut [u8]);

/// A log of 12 sectors with blocks in 0 and 1, 2 to 4 and 5, and a server that has read it.
fn running() -> (Place, Server, [Vec<u8>; 3]) {
    let place = Place::with_log(12);
    let blocks = [block(1, 500), block(2, 1000), block(3, 10)];
    place.put(&blocks[0]);
    let mut server = place.serve();
    assert_eq!(server.ask(&HELLO), HELLO_REPLY);
    for block in &blocks[1..] {
        assert_eq!(server.ask(&write_message(1, block)), write_reply(1, block));
    }
    server.sync();
    (place, server, blocks)
}

/// Damage that falls on the disk while `serve` runs: a write that is acknowledged heals it there.
#[test]
fn a_write_heals_what_was_damaged_meanwhile() {
    let kinds: [(&str, Damage); 3] = [
        ("a flipped bit", |sector| sector[300] ^= 0x10),
        ("a zeroed sector", |sector| sector.fill(0)),
        ("a sector written over", |sector| sector.fill(0xa5)),
    ];
    for (name, damage) in kinds {
        for (which, sector, end) in [(0, 1, 8), (1, 2, 9), (1, 4, 9), (2, 5, 7)] {
            let (place, mut server, blocks) = running();
            let lost = &blocks[which];
            place.damage(|log| damage(&mut log[sector * SECTOR..][..SECTOR]));
            let before = place.get(&score(lost)).status;
            // The last used sector zeroed is a lost tail, which the mark tells.
            let zeroed_tail = sector == 5 && name == "a zeroed sector";
            assert_eq!(before, if zeroed_tail { 65 } else { 12 }, "{name}");
            for tag in [7, 8] {
                server.store(tag, lost);
            }
            let (status, told) = server.end();
            assert_eq!(status, 0, "{told}");
            assert!(told.contains("damaged on disk"), "{told}");
            for block in &blocks {
                place.reads(&score(block), block);
            }
            place.not_known(&score(b"never stored"));
            assert_eq!(place.file("log.mark"), mark(12, end).as_bytes(), "{name}");
        }
    }
}

/// Damage that a write finds is taken in with nothing waiting: what waited is on disk by then.
#[test]
fn damage_found_while_a_block_waits() {
    let (place, mut server, blocks) = running();
    let reply = server.ask(&write_message(1, b"waits"));
    assert_eq!(reply, write_reply(1, b"waits"));
    place.damage(|log| log[SECTOR] ^= 1);
    let reply = server.ask(&write_message(2, &blocks[0]));
    assert_eq!(reply, write_reply(2, &blocks[0]));
    place.reads(&score(b"waits"), b"waits");
    place.not_known(&score(&blocks[0]));
    server.sync();
    for block in blocks.iter().map(|block| &block[..]).chain([&b"waits"[..]]) {
        place.reads(&score(block), block);
    }
    let (status, told) = server.end();
    assert_eq!(status, 0, "{told}");
    assert!(told.contains("damaged on disk"), "{told}");
}

/// Where there is no room to heal it the write is refused, and not acknowledged.
#[test]
fn what_was_damaged_meanwhile_and_has_no_room() {
    let (place, mut server, blocks) = running();
    let rest = block(9, 6 * PAYLOAD);
    server.store(1, &rest);
    place.damage(|log| log[SECTOR] ^= 1);
    assert_eq!(
        server.ask(&write_message(2, &blocks[0])),
        error_reply(2, 14)
    );
    let reply = server.ask(&read_message(3, &blocks[0]));
    assert_eq!(reply, not_known_reply(3, 0));
    server.end();
    place.not_known(&score(&blocks[0]));
}

/// A duplicate that is sound on disk is not written again; one in a log that was cut is not answered.
#[test]
fn duplicates_on_disk() {
    let (place, mut server, blocks) = running();
    let before = place.file("log");
    for block in &blocks {
        assert_eq!(server.ask(&write_message(1, block)), write_reply(1, block));
    }
    assert_eq!(place.file("log"), before);
    place.damage(|log| log.truncate(5 * SECTOR + 100));
    let reply = server.ask(&write_message(2, &blocks[2]));
    assert_eq!(reply, write_reply(2, &blocks[2]), "stored anew, and waits");
    server.send(&sync_message(3));
    assert_eq!(server.reply(), None);
    let (status, told) = server.end();
    assert_eq!(status, 74, "{told}");
    assert!(
        told.contains("log was changed by another program"),
        "{told}"
    );
}
