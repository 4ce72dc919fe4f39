//! The second program's own parts, and the standard's vectors. The description's examples are in
//! `fuzz/src/examples.rs`, where both programs run them.

use second::crc32::crc32;
use second::ledger::{Ledger, Origin};
use second::message::{whole, Lent};
use second::report::print;
use second::request::serve;
use second::sector::{encode, fits, label, Label, SECTOR};
use second::sha1::{sha1, ZERO_SCORE};
use second::tree::entry;
use second::{Edition, Session};

const DATED: Edition = Edition::Second(*b"20261116");

const HELLO: [u8; 13] = [0, 0x0b, 4, 0, 0, 2, 0x30, 0x32, 0, 0, 0, 0, 0];

fn hex(bytes: &[u8]) -> String {
    bytes.iter().map(|byte| format!("{byte:02x}")).collect()
}

/// Serves one message in a session after a hello; gives the number and the reply's front.
fn ask(log: &mut [u8], message: &[u8]) -> (u8, Vec<u8>) {
    let mut reply = vec![0xaa; 57_348];
    let (number, session) = serve(Session::Ready, message, None, log, None, &mut reply);
    assert_eq!(session, Session::Ready);
    let size = usize::from(reply[0]) * 256 + usize::from(reply[1]) + 2;
    assert!(reply[size..].iter().all(|&byte| byte == 0xaa));
    reply.truncate(size);
    (number, reply)
}

fn write(kind: u8, data: &[u8]) -> Vec<u8> {
    whole(14, 9, &[&[kind, 0, 0, 0], data].concat())
}

fn read(kind: u8, data: &[u8], count: u16) -> Vec<u8> {
    let body = [&sha1(data)[..], &[kind, 0], &count.to_be_bytes()].concat();
    whole(12, 9, &body)
}

#[test]
fn sectors_of_blocks() {
    let sectors = |edition: Edition| [389, 390, 403, 404, 57_344].map(|n| edition.sectors_for(n));
    assert_eq!(sectors(Edition::First), [1, 1, 1, 2, 143]);
    assert_eq!(sectors(DATED), [1, 2, 2, 2, 148]);
    assert_eq!((Edition::First.payload(), DATED.payload()), (403, 389));
    assert_eq!(57_344 - 147 * 389, 161);
}

/// An entry with psize 60, so 3 pointers, and dsize 1,024.
fn entry_bytes(flags: u8, size: u64) -> Vec<u8> {
    let mut bytes = vec![0; 4];
    bytes.extend([0, 60, 4, 0, flags, 0, 0, 0, 0, 0]);
    bytes.extend(&size.to_be_bytes()[2..]);
    bytes.extend(ZERO_SCORE);
    bytes
}

#[test]
fn entry_sizes() {
    assert!(entry(&entry_bytes(5, 3072)).is_ok());
    assert_eq!(entry(&entry_bytes(5, 3073)), Err(16));
    let deep = entry(&entry_bytes(9, 9216)).unwrap();
    assert_eq!(deep.fan(), 3);
    assert_eq!((deep.index(4096, 2), deep.index(4096, 1)), (1, 1));
}

#[test]
fn printed_reports() {
    let expected = "sectors=2\nused=0\nrecords=0\ndoubtful=0\nverdict=sound\n";
    assert_eq!(print(&[0; 1024]), expected);
    assert_eq!(print(&[0; 128 * SECTOR]), "why=03\n");
    assert_eq!(print(&[0; 511]), "why=03\n");
    assert!(print(&[]).starts_with("sectors=0\n"));
}

#[test]
fn sectors_and_their_checks() {
    for edition in [Edition::First, DATED] {
        let label_in = Label {
            edition,
            rec: 0x1_ab00,
            part: 1,
            of: 2,
            kind: 13,
            size: 404,
            score: ZERO_SCORE,
        };
        let mut sector = encode(&label_in, b"x");
        assert_eq!(label(&sector), Some(label_in));
        assert!(fits(&sector));
        assert_eq!(sector[edition.label()], b'x');
        assert_eq!(sector[499..503], *b"crc=");
        sector[edition.front() + 7] = b'A';
        assert_eq!(label(&sector), None);
        assert!(!fits(&sector));
    }
    assert_eq!(crc32(b"123456789"), 0xcbf4_3926);
}

#[test]
fn ledger_and_archive_agree_after_damage() {
    let mut log = vec![0; 3 * SECTOR];
    let mut reply = vec![0; 57_348];
    let mut ledger = Ledger::new();
    let lent = Lent {
        log: log.len(),
        waiting: None,
    };
    let mut session = Session::Fresh;
    let mut origin = Origin::Fresh;
    let list = [
        HELLO.to_vec(),
        write(13, b"one"),
        write(13, b"two"),
        read(13, b"one", 3),
        write(2, b"one"),
        write(13, b"three"),
    ];
    for (i, message) in list.iter().enumerate() {
        let expected = ledger.request(origin, message, None, reply.len(), lent);
        let (number, after) = serve(session, message, None, &mut log, None, &mut reply);
        assert_eq!((number, after), (expected.number, expected.session));
        assert_eq!(reply[..expected.reply.len()], expected.reply);
        session = after;
        origin = Origin::After(i);
    }
    log[2 * SECTOR - 1] = 7;
    ledger.damage([1].into());
    let message = read(13, b"two", 3);
    let expected = ledger.request(origin, &message, None, 57_348, lent);
    assert_eq!(expected.number, 12);
    assert!(expected.reply.ends_with(b"why=12 at=00000001"));
    assert_eq!(ask(&mut log, &message), (12, expected.reply));
}

#[test]
fn vectors() {
    let long = "abcdbcdecdefdefgefghfghighijhijkijkljklmklmnlmnomnopnopq";
    assert_eq!(sha1(b""), ZERO_SCORE);
    assert_eq!(
        hex(&sha1(b"abc")),
        "a9993e364706816aba3e25717850c26c9cd0d89d"
    );
    assert_eq!(
        hex(&sha1(long.as_bytes())),
        "84983e441c3bd26ebaae4aa1f95129e5e54670f1"
    );
    assert_eq!(
        hex(&sha1(&vec![b'a'; 1_000_000])),
        "34aa973cd4c4daa4f61eeb2bdbad27316534016f"
    );
}
