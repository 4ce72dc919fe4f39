//! The description's checked examples, each on the proved archive and on the second program.

use second::message::whole;
use second::sector::SECTOR;
use second::sha1::{sha1, ZERO_SCORE};
use second::tree::{Place, Run};
use second::{Edition, Refusal, Session};

use crate::archive::{Archive, Second};
use crate::under_test;

const HELLO: [u8; 13] = [0, 0x0b, 4, 0, 0, 2, 0x30, 0x32, 0, 0, 0, 0, 0];

pub const SYNC: [u8; 4] = [0, 2, 16, 9];

/// The date of the examples, and the edition of their blocks.
pub const DATE: &[u8] = b"20261116";
pub const DATED: Edition = Edition::Second(*b"20261116");

/// Tries an example on both programs.
pub fn on_both(example: fn(&mut dyn Archive)) {
    example(&mut *under_test::archive());
    example(&mut Second);
}

/// Serves one message in a session after a hello; gives the number and the reply.
pub fn ask_waiting(
    archive: &mut dyn Archive,
    log: &mut [u8],
    waiting: &mut [u8],
    message: &[u8],
) -> (u8, Vec<u8>) {
    let mut reply = vec![0xaa; 57_348];
    let (number, session) = archive.serve(Session::Ready, message, DATE, log, waiting, &mut reply);
    assert_eq!(session, Session::Ready);
    let size = usize::from(reply[0]) * 256 + usize::from(reply[1]) + 2;
    assert!(reply[size..].iter().all(|&byte| byte == 0xaa));
    reply.truncate(size);
    (number, reply)
}

/// Serves one message with a waiting part that has room for any block, and settles what it stored.
fn ask(archive: &mut dyn Archive, log: &mut [u8], message: &[u8]) -> (u8, Vec<u8>) {
    let mut waiting = vec![0; 256 * SECTOR];
    let answer = ask_waiting(archive, log, &mut waiting, message);
    let settled = ask_waiting(archive, log, &mut waiting, &SYNC);
    assert_eq!(settled, (0, vec![0, 2, 17, 9]));
    assert!(waiting.iter().all(|&byte| byte == 0));
    answer
}

/// A refusal that tells of no sector.
fn no<T>(number: u8) -> Result<T, Refusal> {
    Err(number.into())
}

fn write(kind: u8, data: &[u8]) -> Vec<u8> {
    whole(14, 9, &[&[kind, 0, 0, 0], data].concat())
}

fn read(kind: u8, data: &[u8], count: u16) -> Vec<u8> {
    let body = [&sha1(data)[..], &[kind, 0], &count.to_be_bytes()].concat();
    whole(12, 9, &body)
}

#[test]
fn ping_after_hello() {
    on_both(|archive| {
        let mut reply = vec![0; 57_348];
        let (number, session) =
            archive.serve(Session::Fresh, &HELLO, DATE, &mut [], &mut [], &mut reply);
        assert_eq!((number, session), (0, Session::Ready));
        assert_eq!(reply[..8], [0, 6, 5, 0, 0, 0, 0, 0]);
        assert_eq!(ask(archive, &mut [], &[0, 2, 2, 7]), (0, vec![0, 2, 3, 7]));
    });
}

#[test]
fn refusal_11() {
    on_both(|archive| {
        let expected = [0, 10, 1, 9, 0, 6, b'w', b'h', b'y', b'=', b'1', b'1'];
        let answer = ask(archive, &mut [], &read(13, b"x", 1));
        assert_eq!(answer, (11, expected.to_vec()));
    });
}

/// `crates/examples/specs/Messages.antt`, its four examples byte for byte.
#[test]
fn reads_and_writes_byte_by_byte() {
    const ZERO: &str = "da39a3ee5e6b4b0d3255bfef95601890afd80709";
    const ABC: &str = "a9993e364706816aba3e25717850c26c9cd0d89d";
    on_both(|archive| {
        let mut serve = |log: &mut [u8], message: &str| {
            let (number, reply) = ask(archive, log, &bytes(message));
            (number, hex(&reply))
        };
        for sectors in [0, 1, 2] {
            let mut log = vec![0; sectors * SECTOR];
            let answer = serve(&mut log, &format!("001a0c07{ZERO}0d000000"));
            assert_eq!(answer, (0, "00020d07".into()));
            assert!(log.iter().all(|&byte| byte == 0));
        }
        let mut log = vec![0; SECTOR];
        let answer = serve(&mut log, "00090e010d000000616263");
        assert_eq!(answer, (0, format!("00160f01{ABC}")));
        let label = format!(
            "date=20261116\nrec=00000000\npart=0000\nof=0001\ntype=0d\nsize=0003\nscore={ABC}\n"
        );
        let sector = [label.as_bytes(), b"abc", &[0; 386], b"crc=45e75732\n"].concat();
        assert_eq!(log, sector);
        let answer = serve(&mut [], "00060e070d000000");
        assert_eq!(answer, (0, format!("00160f07{ZERO}")));
        let answer = serve(&mut [], "00070e070d00000061");
        assert_eq!(answer, (14, format!("000a01070006{}", hex(b"why=14"))));
    });
}

/// The bytes that hexadecimal digits stand for.
fn bytes(digits: &str) -> Vec<u8> {
    (0..digits.len())
        .step_by(2)
        .map(|at| u8::from_str_radix(&digits[at..at + 2], 16).unwrap())
        .collect()
}

fn hex(bytes: &[u8]) -> String {
    bytes.iter().map(|byte| format!("{byte:02x}")).collect()
}

/// The first doubtful sector, in the text of a reply, in reading a file and in a walk.
#[test]
fn refusal_12() {
    on_both(|archive| {
        let mut log = vec![0; 60 * SECTOR];
        for block in 0..42 {
            assert_eq!(ask(archive, &mut log, &write(13, &[block])).0, 0);
        }
        let sound = log.clone();
        let asked = |archive: &mut dyn Archive, log: &mut [u8]| {
            let file = entry(1, 9, &[1; 20]);
            let not_known = archive.locate(log, &[], &[0], &file, 0).unwrap_err();
            assert_eq!(archive.walk(log, &[], &[1; 20], 5), (Err(not_known), 1));
            let (number, reply) = ask(archive, log, &read(13, b"never stored", 1));
            assert_eq!((number, not_known.number), (12, 12));
            (not_known.at.unwrap(), reply)
        };
        log[45 * SECTOR..46 * SECTOR].fill(1); // and so 42 to 44, which are blank, are doubtful too
        let reply = b"\x00\x16\x01\x09\x00\x12why=12 at=0000002a".to_vec();
        assert_eq!(asked(archive, &mut log), (42, reply));
        log[31 * SECTOR + 100] ^= 1;
        log[10 * SECTOR + 100] ^= 1;
        let reply = b"\x00\x16\x01\x09\x00\x12why=12 at=0000000a".to_vec();
        assert_eq!(asked(archive, &mut log), (10, reply));
        log[10 * SECTOR + 100] ^= 1;
        assert_eq!(asked(archive, &mut log).0, 31);
        log.copy_from_slice(&sound);
        let never = read(13, b"never stored", 1);
        assert_eq!(ask(archive, &mut log, &never).0, 11);
    });
}

#[test]
fn sectors_of_blocks() {
    on_both(|archive| {
        for (size, sectors) in [(389, 1), (390, 2), (57_344, 148)] {
            let data = vec![7; size];
            let mut log = vec![0; (sectors - 1) * SECTOR];
            assert_eq!(ask(archive, &mut log, &write(13, &data)).0, 14);
            log.extend([0; SECTOR]);
            assert_eq!(ask(archive, &mut log, &write(13, &data)).0, 0);
            assert_eq!(archive.sound_at(&log, 0), Ok(size));
            assert_eq!(archive.sound_at(&log, sectors), Ok(0));
            let last = &log[(sectors - 1) * SECTOR..];
            let of = format!("part={:04x}\nof={sectors:04x}\n", sectors - 1);
            assert_eq!(last[27..27 + of.len()], *of.as_bytes());
            let payload = size - (sectors - 1) * 389;
            assert!(last[110..110 + payload].iter().all(|&byte| byte == 7));
            assert!(last[110 + payload..499].iter().all(|&byte| byte == 0));
        }
        let mut log = vec![0; 149 * SECTOR];
        assert_eq!(ask(archive, &mut log, &write(13, &[7; 57_345])).0, 10);
        assert!(log.iter().all(|&byte| byte == 0));
    });
}

#[test]
fn cutting() {
    on_both(|archive| {
        let block = [&b"hello world"[..], &[0; 1013]].concat();
        assert_eq!(archive.cut(13, &block), Ok(11));
        assert_eq!(archive.cut(13, &[0; 1024]), Ok(0));
        assert_eq!(archive.cut(3, &[1; 41]), Err(22));
        assert_eq!(archive.cut(10, &[]), Err(9));
        assert_eq!(archive.cut(3, &ZERO_SCORE.repeat(3)), Ok(0));
        assert_eq!(archive.cut(3, &[0; 40]), Ok(40));
    });
}

#[test]
fn padding() {
    on_both(|archive| {
        let mut buffer = [1; 70];
        assert_eq!(archive.pad(3, &mut buffer, 20, 60), 0);
        assert_eq!(buffer[..20], [1; 20]);
        assert_eq!(buffer[20..60], ZERO_SCORE.repeat(2));
        assert_eq!(buffer[60..], [1; 10]);
        let before = buffer;
        assert_eq!(archive.pad(3, &mut buffer, 20, 61), 22);
        assert_eq!(archive.pad(13, &mut buffer, 20, 71), 22);
        assert_eq!(archive.pad(13, &mut buffer, 20, 19), 22);
        assert_eq!(archive.pad(0, &mut buffer, 20, 19), 9);
        assert_eq!(buffer, before);
    });
}

/// An entry with psize 60, so 3 pointers, and dsize 1,024.
fn entry(flags: u8, size: u64, score: &[u8; 20]) -> Vec<u8> {
    let mut bytes = vec![0; 4];
    bytes.extend([0, 60, 4, 0, flags, 0, 0, 0, 0, 0]);
    bytes.extend(&size.to_be_bytes()[2..]);
    bytes.extend(score);
    bytes
}

#[test]
fn sizes_of_files() {
    on_both(|archive| {
        let page = [0; 1024];
        let zeros = |len| {
            Ok(Run {
                place: Place::Page,
                start: 0,
                len,
            })
        };
        let fits = entry(5, 3072, &ZERO_SCORE);
        assert_eq!(archive.locate(&[], &[], &page, &fits, 3071), zeros(1));
        assert_eq!(archive.locate(&[], &[], &page, &fits, 3072), no(17));
        let over = entry(5, 3073, &ZERO_SCORE);
        assert_eq!(archive.locate(&[], &[], &page, &over, 0), no(16));
    });
}

/// Depth 2, offset 4,096: the second pointer, then the second. All other pointers lead nowhere.
#[test]
fn second_then_second() {
    on_both(|archive| {
        let mut log = vec![0; 5 * SECTOR];
        let leaf = vec![7; 1024];
        let nowhere = [1; 20];
        let low = [nowhere, sha1(&leaf), nowhere].concat();
        let high = [nowhere, sha1(&low), nowhere].concat();
        for (kind, block) in [(13, &leaf), (3, &low), (4, &high)] {
            assert_eq!(ask(archive, &mut log, &write(kind, block)).0, 0);
        }
        let file = entry(9, 9216, &sha1(&high));
        let run = Run {
            place: Place::Log,
            start: 110,
            len: 389,
        };
        let page = [0; 10];
        assert_eq!(archive.locate(&log, &[], &page, &file, 4096), Ok(run));
        assert_eq!(archive.locate(&log, &[], &page, &file, 3072), no(11));
        assert_eq!(archive.locate(&log, &[], &page, &file, 0), no(11));
    });
}

/// Each byte of a read's and a write's pad: 6, whatever the block type, and before the hello too.
#[test]
fn pads_of_messages() {
    on_both(|archive| {
        let mut log = vec![0; SECTOR];
        let mut reply = vec![0; 57_348];
        let mut pads = vec![(read(13, b"x", 1), 25)];
        pads.extend([5, 6, 7].map(|at| (write(13, b"x"), at)));
        for (good, at) in pads {
            for byte in 1..=255 {
                let mut message = good.clone();
                message[at] = byte;
                let error = [0, 10, 1, 9, 0, 6, b'w', b'h', b'y', b'=', b'0', b'6'];
                assert_eq!(ask(archive, &mut log, &message), (6, error.to_vec()));
                let answer = archive.serve(
                    Session::Fresh,
                    &message,
                    DATE,
                    &mut log,
                    &mut [],
                    &mut reply,
                );
                assert_eq!(answer, (6, Session::Fresh));
                let kind = if message[2] == 12 { 24 } else { 4 };
                message[kind] = 0;
                assert_eq!(ask(archive, &mut log, &message).0, 6);
                message[at] = 0;
                assert_eq!(ask(archive, &mut log, &message).0, 9);
            }
        }
        assert!(log.iter().all(|&byte| byte == 0));
    });
}

/// Each byte of an active entry's pad: 16, in reading and in a walk. Gen, and what an inactive
/// entry has, are anything.
#[test]
fn pads_of_entries() {
    on_both(|archive| {
        let walk = |archive: &mut dyn Archive, entry: &[u8]| {
            let mut log = vec![0; 2 * SECTOR];
            let mut root = vec![0, 2];
            root.resize(258, 0);
            root.extend(sha1(entry));
            assert_eq!(ask(archive, &mut log, &write(2, entry)).0, 0);
            assert_eq!(ask(archive, &mut log, &write(1, &root)).0, 0);
            archive.walk(&log, &[], &sha1(&root), 9)
        };
        let page = [0; 10];
        let good = entry(1, 5, &ZERO_SCORE);
        assert!(archive.locate(&[], &[], &page, &good, 0).is_ok());
        assert_eq!(walk(archive, &good), (Ok(()), 3));
        for at in 0..40 {
            for byte in [1, 128, 255] {
                let mut entry = good.clone();
                entry[at] = byte;
                let pad = (9..14).contains(&at);
                if pad || at < 4 {
                    let run = archive.locate(&[], &[], &page, &entry, 0);
                    assert_eq!(run.err(), pad.then_some(16.into()), "byte {at}");
                    let answer = if pad { (no(16), 2) } else { (Ok(()), 3) };
                    assert_eq!(walk(archive, &entry), answer, "byte {at}");
                }
                entry[8] = 0;
                assert_eq!(archive.locate(&[], &[], &page, &entry, 0), no(16));
                assert_eq!(walk(archive, &entry), (Ok(()), 2), "inactive, byte {at}");
            }
        }
    });
}

#[test]
fn counts_and_full_logs() {
    on_both(|archive| {
        let mut log = vec![0; SECTOR];
        let hello = b"hello world";
        assert_eq!(ask(archive, &mut log, &write(13, hello)).0, 0);
        let (number, reply) = ask(archive, &mut log, &read(13, hello, 11));
        assert_eq!((number, &reply[4..]), (0, &hello[..]));
        assert_eq!(ask(archive, &mut log, &read(13, hello, 10)).0, 13);
        assert_eq!(ask(archive, &mut [], &write(13, b"")).0, 0);
        assert_eq!(ask(archive, &mut [], &write(13, b"x")).0, 14);
    });
}

#[test]
fn report_of_a_blank_log() {
    on_both(|archive| {
        let expected = "sectors=2\nused=0\nrecords=0\ndoubtful=0\nverdict=sound\n";
        let mut buffer = [0xaa; 128];
        assert_eq!(archive.report(&[0; 1024], &mut buffer), Ok(expected.len()));
        assert_eq!(&buffer[..expected.len()], expected.as_bytes());
        assert!(buffer[expected.len()..].iter().all(|&byte| byte == 0xaa));
        assert_eq!(archive.report(&[0; 1024], &mut [0; 127]), Err(2));
        assert_eq!(archive.report(&[0; 1023], &mut buffer), Err(3));
    });
}

#[test]
fn enumeration() {
    on_both(|archive| {
        let types: Vec<u8> = (0..17).map(|n| archive.wire_type(n).unwrap()).collect();
        assert_eq!(types, [13, 3, 4, 5, 6, 7, 8, 9, 2, 3, 4, 5, 6, 7, 8, 9, 1]);
        assert_eq!(archive.wire_type(17), Err(9));
        assert_eq!(archive.wire_type(256), Err(9));
        assert_eq!(archive.wire_type(u64::MAX), Err(9));
    });
}

#[test]
fn runs_of_a_file() {
    on_both(|archive| {
        let mut log = vec![0; 4 * SECTOR];
        let data = vec![5; 500];
        assert_eq!(ask(archive, &mut log, &write(13, &data)).0, 0);
        let file = entry(1, 1000, &sha1(&data));
        let run = |place, start, len| Ok(Run { place, start, len });
        let page = [0; 300];
        for (offset, expected) in [
            (0, run(Place::Log, 110, 389)),
            (388, run(Place::Log, 498, 1)),
            (389, run(Place::Log, 512 + 110, 111)),
            (499, run(Place::Log, 512 + 220, 1)),
            (500, run(Place::Page, 0, 300)),
            (900, run(Place::Page, 0, 100)),
            (1000, no(17)),
        ] {
            assert_eq!(archive.locate(&log, &[], &page, &file, offset), expected);
        }
        assert_eq!(archive.locate(&log, &[], &[], &file, 0), no(19));
        assert_eq!(archive.locate(&log, &[], &page, &file[1..], 0), no(16));
        log[700] ^= 1;
        let not_known = Err(Refusal::not_known(0));
        assert_eq!(archive.locate(&log, &[], &page, &file, 0), not_known);
    });
}

/// A buffer filled across a leaf's payloads and its zeros, up to its own end and to the file's; at a
/// hole with what comes before it; and as it was lent where a test refuses.
#[test]
fn a_file_into_a_buffer() {
    on_both(|archive| {
        let mut log = vec![0; 4 * SECTOR];
        let data = vec![5; 500];
        assert_eq!(ask(archive, &mut log, &write(13, &data)).0, 0);
        let file = entry(1, 1000, &sha1(&data));
        let fill = |archive: &mut dyn Archive, log: &[u8], entry: &[u8], offset, size| {
            let mut buffer = vec![0xaa; size];
            let (ended, count) = archive.fill(log, &[], entry, offset, &mut buffer);
            assert!(buffer[count..].iter().all(|&byte| byte == 0xaa));
            buffer.truncate(count);
            (ended, buffer)
        };
        let leaf = [&data[..], &[0; 524]].concat();
        for (offset, size) in [(0, 1000), (0, 1001), (385, 7), (499, 2), (999, 9), (3, 0)] {
            let right = &leaf[offset..(offset + size).min(1000)];
            let filled = fill(archive, &log, &file, offset as u64, size);
            assert_eq!(filled, (Ok(()), right.to_vec()));
        }
        assert_eq!(fill(archive, &log, &file, 1000, 9), (no(17), vec![]));
        assert_eq!(fill(archive, &log, &file[1..], 0, 9), (no(16), vec![]));
        assert_eq!(fill(archive, &log[1..], &file, 0, 9), (no(3), vec![]));

        let pointers = [sha1(&data), [1; 20]].concat();
        assert_eq!(ask(archive, &mut log, &write(3, &pointers)).0, 0);
        let mut holed = entry(1, 1600, &sha1(&pointers));
        holed[8] |= 1 << 2;
        assert_eq!(fill(archive, &log, &holed, 0, 2000), (no(11), leaf));
        log[700] ^= 1;
        let not_known = Err(Refusal::not_known(0));
        assert_eq!(fill(archive, &log, &file, 0, 9), (not_known, vec![]));
    });
}

#[test]
fn sizes_of_logs() {
    on_both(|archive| {
        let mut reply = vec![0; 57_348];
        let mut log = vec![0; 1_048_577 * SECTOR];
        let greet = |archive: &mut dyn Archive, log: &mut [u8], reply: &mut [u8]| {
            archive
                .serve(Session::Fresh, &HELLO, DATE, log, &mut [], reply)
                .0
        };
        assert_eq!(greet(archive, &mut log, &mut reply), 3);
        assert_eq!(archive.walk(&log, &[], &ZERO_SCORE, 9), (no(3), 0));
        assert_eq!(archive.sound_at(&log, 0), Err(3));
        for sectors in [1_048_576, 131_073, 0] {
            log.truncate(sectors * SECTOR);
            assert_eq!(greet(archive, &mut log, &mut reply), 0);
        }
    });
}

#[test]
fn walks() {
    on_both(|archive| {
        let mut log = vec![0; 8 * SECTOR];
        assert_eq!(archive.walk(&log, &[], &ZERO_SCORE, 5), (no(16), 1));
        assert_eq!(archive.walk(&log, &[], &ZERO_SCORE, 0), (no(21), 0));
        assert_eq!(archive.walk(&log, &[], &[1; 20], 5), (no(11), 1));
        assert_eq!(archive.walk(&log, &[], &ZERO_SCORE, 1_000_001), (no(23), 0));
        let directory = entry(1, 0, &ZERO_SCORE);
        let mut root = vec![0, 2];
        root.resize(258, 0);
        root.extend(sha1(&directory));
        assert_eq!(ask(archive, &mut log, &write(2, &directory)).0, 0);
        assert_eq!(ask(archive, &mut log, &write(1, &root)).0, 0);
        assert_eq!(archive.walk(&log, &[], &sha1(&root), 5), (Ok(()), 3));
        assert_eq!(archive.walk(&log, &[], &sha1(&root), 2), (no(21), 2));
        assert_eq!(archive.walk(&log[1..], &[], &sha1(&root), 5), (no(3), 0));
    });
}

#[test]
fn digests() {
    on_both(|archive| {
        assert_eq!(archive.sha1(b""), ZERO_SCORE);
        assert_eq!(archive.sha1(b"abc")[..4], [0xa9, 0x99, 0x3e, 0x36]);
        assert_eq!(archive.crc32(b"123456789"), 0xcbf4_3926);
    });
}
