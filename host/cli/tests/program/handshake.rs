//! `serve --handshake`: the opening lines.

use std::io::Read;
use std::time::{Duration, Instant};

use crate::common::*;

const LINE: &[u8] = b"venti-02-skywimple\n";
const SERVE: [&str; 3] = ["serve", "log", "--handshake"];

#[test]
fn lines_then_messages() {
    let place = Place::with_log(8);
    let longest = [b"venti-02-", &[b'x'; 1014][..], b"\n"].concat();
    assert_eq!(longest.len(), 1024);
    for line in [b"venti-02-libventi\n", &b"venti-04:02-\n"[..], &longest] {
        let sent = [line, &HELLO, &write_message(1, b"card"), &goodbye()].concat();
        let answer = place.feed(&SERVE, &sent).with(0);
        let replies = [LINE, &HELLO_REPLY, &write_reply(1, b"card")];
        assert_eq!(answer.out, replies.concat());
        assert_eq!(answer.err, "");
    }
    let read_only = [&SERVE[..], &["--read-only"]].concat();
    let sent = [b"venti-02-x\n", &HELLO[..], &read_message(2, b"card")].concat();
    let answer = place.feed(&read_only, &sent).with(0);
    assert_eq!(
        answer.out,
        [LINE, &HELLO_REPLY, &message(13, 2, b"card")].concat()
    );
}

#[test]
fn lines_that_are_refused() {
    let place = Place::with_log(8);
    let long = [b'x'; 1025];
    let cases = [
        (&b""[..], "ended inside the client's opening line"),
        (b"venti-02-x", "ended inside the client's opening line"),
        (&long, "more than 1024 bytes"),
        (b"venti-02\n", "not venti-VERSIONS-COMMENT: venti-02"),
        (
            b"GET / HTTP/1.1\n",
            "not venti-VERSIONS-COMMENT: GET / HTTP/1.1",
        ),
        (b"venti-01:03-old\n", "no version 02, but 01:03"),
    ];
    for (line, words) in cases {
        let sent = [line, b"\n", &HELLO, &write_message(1, b"card")].concat();
        let sent = if words.starts_with("ended") {
            line
        } else {
            &sent
        };
        let answer = place.feed(&SERVE, sent).with(76);
        assert_eq!(answer.out, LINE);
        assert!(answer.err.contains(words), "{answer:?}");
    }
    place.not_held(&score(b"card"));
}

/// The server speaks first; a client that never does is left after some seconds, and meanwhile the
/// log is free.
#[test]
fn a_client_that_says_nothing() {
    let place = Place::with_log(8);
    let start = Instant::now();
    let mut server = place.serve_with(&["--handshake"]);
    let mut line = vec![0; LINE.len()];
    server.output.read_exact(&mut line).unwrap();
    assert_eq!(line, LINE);
    server.send(b"venti-02-slow");
    place.put(b"card");
    assert_eq!(server.reply(), None);
    assert!(start.elapsed() >= Duration::from_secs(5));
    assert!(start.elapsed() < Duration::from_secs(30));
    let (status, told) = server.end();
    assert_eq!(status, 76);
    assert!(told.contains("did not come within 5 s"), "{told}");
}

/// Without the flag the same bytes are messages, as ever.
#[test]
fn without_the_flag() {
    let place = Place::with_log(8);
    let answer = place.feed(&["serve", "log"], b"venti-02-x\n").with(1);
    assert!(answer.out.is_empty());
    let answer = place.feed(&["serve", "log"], &HELLO).with(0);
    assert_eq!(answer.out, HELLO_REPLY);
}
