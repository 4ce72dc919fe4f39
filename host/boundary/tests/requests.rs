//! The paper's examples about messages, and each refusal of a request, through the proved call.

use boundary::Session::{self, Closed, Fresh, Greeted};
use boundary::{crc32, serve, sha1, Refusal, MOST_SECTORS, MOST_WAITING};

const REPLY: usize = 57_348;
const DATE: &[u8] = b"20261116";

/// A log, its waiting part and a reply buffer, with the session that the last request left.
struct Archive {
    log: Vec<u8>,
    waiting: Vec<u8>,
    reply: Vec<u8>,
    session: Session,
}

impl Archive {
    fn new(sectors: usize) -> Archive {
        Archive {
            log: vec![0; 512 * sectors],
            waiting: vec![0; 512 * 8],
            reply: vec![0xee; REPLY],
            session: Fresh,
        }
    }

    fn greeted(sectors: usize) -> Archive {
        let mut a = Archive::new(sectors);
        assert_eq!(a.ask(&HELLO), 0);
        a
    }

    /// The number of the answer. The reply buffer is filled anew before.
    fn ask(&mut self, message: &[u8]) -> u8 {
        self.ask_on(DATE, message)
    }

    fn ask_on(&mut self, date: &[u8], message: &[u8]) -> u8 {
        self.reply.fill(0xee);
        let served = serve(
            self.session,
            message,
            date,
            &mut self.log,
            &mut self.waiting,
            &mut [],
            &mut self.reply,
        );
        self.session = served.session;
        served.outcome.map_or_else(Refusal::number, |()| 0)
    }

    /// Moves what waits into the log.
    fn sync(&mut self) {
        assert_eq!(self.ask(&message(16, 6, b"")), 0);
        assert_eq!(self.answer(), message(17, 6, b""));
        assert!(self.waiting.iter().all(|b| *b == 0));
    }

    /// The reply, by its size; nothing past it was written.
    fn answer(&self) -> &[u8] {
        let size = 2 + usize::from(self.reply[0]) * 256 + usize::from(self.reply[1]);
        assert!(self.reply[size..].iter().all(|b| *b == 0xee));
        &self.reply[..size]
    }

    fn untouched(&self) -> bool {
        self.reply.iter().all(|b| *b == 0xee)
    }
}

const HELLO: [u8; 13] = [0, 11, 4, 0, 0, 2, 0x30, 0x32, 0, 0, 0, 0, 0];

fn message(kind: u8, tag: u8, body: &[u8]) -> Vec<u8> {
    let size = (body.len() + 2) as u16;
    [&size.to_be_bytes()[..], &[kind, tag], body].concat()
}

fn write(kind: u8, tag: u8, data: &[u8]) -> Vec<u8> {
    message(14, tag, &[&[kind, 0, 0, 0], data].concat())
}

fn read(kind: u8, tag: u8, score: [u8; 20], count: u16) -> Vec<u8> {
    message(
        12,
        tag,
        &[&score[..], &[kind, 0], &count.to_be_bytes()].concat(),
    )
}

fn refused(tag: u8, number: u8) -> Vec<u8> {
    let digits = [b'0' + number / 10, b'0' + number % 10];
    message(1, tag, &[&[0, 6][..], b"why=", &digits].concat())
}

#[test]
fn marked_examples() {
    let mut a = Archive::new(1);
    assert_eq!(a.ask(&HELLO), 0);
    assert_eq!(a.answer(), [0, 6, 5, 0, 0, 0, 0, 0]);
    assert_eq!(a.ask(&[0, 2, 2, 7]), 0);
    assert_eq!(a.answer(), [0, 2, 3, 7]);
    assert_eq!(a.ask(&read(13, 9, [7; 20], 100)), 11);
    assert_eq!(
        a.answer(),
        [0, 0x0a, 1, 9, 0, 6, 0x77, 0x68, 0x79, 0x3d, 0x31, 0x31]
    );
}

#[test]
fn count_and_length() {
    let mut a = Archive::greeted(4);
    assert_eq!(a.ask(&write(13, 1, b"hello world")), 0);
    let score = sha1(b"hello world");
    assert_eq!(a.answer(), message(15, 1, &score));
    assert_eq!(a.ask(&read(13, 2, score, 11)), 0);
    assert_eq!(a.answer(), message(13, 2, b"hello world"));
    assert_eq!(a.ask(&read(13, 3, score, 10)), 13);
    assert_eq!(a.answer(), refused(3, 13));
    assert_eq!(a.ask(&read(2, 3, score, 11)), 11, "another type");
}

#[test]
fn a_log_of_no_sectors() {
    let mut a = Archive::greeted(0);
    assert_eq!(a.ask(&write(13, 1, b"")), 0);
    assert_eq!(a.answer(), message(15, 1, &sha1(b"")));
    assert_eq!(a.ask(&write(13, 1, b"x")), 14);
    assert_eq!(a.ask(&read(13, 1, sha1(b""), 0)), 0);
    assert_eq!(a.answer(), message(13, 1, b""));
}

#[test]
fn refusals_without_a_reply() {
    let mut a = Archive::greeted(1);
    for bad in [&b""[..], &[0, 1, 2], &[0, 3, 2, 7], &[0, 1, 2, 7]] {
        assert_eq!(a.ask(bad), 1);
        assert!(a.untouched() && a.session == Greeted);
    }
    a.reply.truncate(REPLY - 1);
    assert_eq!(a.ask(&[0, 2, 2, 7]), 2);
    assert!(a.untouched());
    assert_eq!(a.ask(&[0, 3, 2, 7]), 1, "1 before 2");
    a.log.push(0);
    assert_eq!(a.ask(&[0, 2, 2, 7]), 2, "2 before 3");
    a.reply.resize(REPLY, 0xee);
    assert_eq!(a.ask(&[0, 2, 2, 7]), 3);
    assert!(a.untouched() && a.session == Greeted);
    a.session = Closed;
    assert_eq!(a.ask(&[0, 2, 2, 7]), 3, "3 before 4");
    a.log = vec![0; 512 * (MOST_SECTORS + 1)];
    assert_eq!(a.ask(&[0, 2, 2, 7]), 3, "over the limit");
    a.log.truncate(512 * MOST_SECTORS);
    assert_eq!(a.ask(&[0, 2, 2, 7]), 4, "as many as there may be");
    a.log.truncate(512);
    for waiting in [1, 511, 513, 512 * (MOST_WAITING + 1)] {
        a.waiting = vec![0; waiting];
        assert_eq!(a.ask(&[0, 2, 2, 7]), 3, "{waiting} bytes that wait");
        assert!(a.untouched());
    }
    a.waiting = vec![0; 512 * MOST_WAITING];
    assert_eq!(a.ask(&[0, 2, 99, 7]), 4, "4 before 5");
    assert!(a.untouched() && a.session == Closed);
}

#[test]
fn refusals_by_order() {
    let mut a = Archive::new(1);
    let asked = [
        (message(3, 5, b""), 5),
        (message(99, 5, b"body"), 5),
        (message(2, 5, b"b"), 6),
        (message(6, 5, b"b"), 6),
        (read(13, 5, [1; 20], 1)[..27].to_vec(), 1),
        (message(12, 5, &[0; 23]), 6),
        (message(12, 5, &[0; 25]), 6),
        (message(14, 5, &[0; 3]), 6),
        (message(4, 5, &[0, 2, b'0', 0, 0, 0, 0, 0, 0]), 6),
        (message(4, 5, &[0, 2, b'0', b'2', 0, 0, 0, 0]), 6),
        (message(4, 5, &[0, 2, b'0', b'2', 0, 0, 0, 0, 0, 0]), 6),
        (message(4, 5, &[0, 2, 0xc0, 0x80, 0, 0, 0, 0, 0]), 6),
        (message(12, 5, &[&[1; 20][..], &[13, 9, 0, 1]].concat()), 6),
        (message(14, 5, &[13, 0, 0, 3]), 6),
        (message(2, 5, b""), 7),
        (message(16, 5, b""), 7),
        (read(99, 5, [1; 20], 1), 7),
        (write(99, 5, &[0; 57_345]), 7),
        (message(4, 5, &[0, 2, b'0', b'3', 0, 0, 0, 0, 0]), 8),
        (message(4, 5, &[0, 0, 0, 0, 0, 0, 0]), 8),
    ];
    for (m, number) in asked {
        assert_eq!(a.ask(&m), number, "{m:02x?}");
        assert_eq!(a.session, Fresh);
        if number == 1 {
            assert!(a.untouched());
        } else {
            assert_eq!(a.answer(), refused(5, number));
        }
    }
    assert_eq!(a.ask(&HELLO), 0);
    let asked = [
        (HELLO.to_vec(), 8, 0),
        (message(4, 5, &[0, 2, b'0', b'3', 0, 0, 0, 0, 0]), 8, 5),
        (message(4, 5, &[9]), 6, 5),
        (read(0, 5, [1; 20], 1), 9, 5),
        (read(10, 5, sha1(b""), 1), 9, 5),
        (write(12, 5, b""), 9, 5),
        (write(14, 5, &[0; 57_345]), 9, 5),
        (write(13, 5, &[0; 57_345]), 10, 5),
        (write(13, 5, &[1; 404]), 14, 5),
        (read(13, 5, [1; 20], 1), 11, 5),
    ];
    for (m, number, tag) in asked {
        assert_eq!(a.ask(&m), number);
        assert_eq!(
            (a.answer(), a.session),
            (&refused(tag, number)[..], Greeted)
        );
    }
    let mut both = a.log.iter().chain(&a.waiting);
    assert!(both.all(|b| *b == 0), "nothing was stored");
    assert_eq!(a.ask(&message(16, 5, b"")), 0);
    assert_eq!(a.answer(), message(17, 5, b""));
    assert_eq!(a.ask(&message(6, 5, b"")), 0);
    assert!(a.untouched() && a.session == Closed);
    assert_eq!(a.ask(&message(2, 5, b"")), 4);
}

/// Three blocks, damage of each allowed kind, and what is answered then.
#[test]
fn a_history_with_damage() {
    let mut a = Archive::greeted(12);
    let blocks: [&[u8]; 3] = [&[1; 390], &[2; 10], &[3; 389]];
    for b in blocks {
        assert_eq!(a.ask(&write(13, 1, b)), 0);
    }
    a.sync();
    let before = a.log.clone();
    assert_eq!(a.ask(&write(13, 1, blocks[1])), 0, "a duplicate");
    a.sync();
    assert_eq!(a.log, before, "adds nothing");
    assert_eq!(a.ask(&read(13, 1, [9; 20], 1)), 11, "not held");
    a.log[512 + 300] ^= 1; // within four neighbouring bytes of the first block's second sector
    a.log[512 * 5..512 * 6].fill(7); // a blank sector that now fits no check
    assert_eq!(a.ask(&read(13, 1, sha1(blocks[0]), 999)), 12, "lost");
    assert_eq!(a.ask(&read(13, 1, [9; 20], 1)), 12, "never stored");
    assert_eq!(
        a.ask(&read(13, 1, sha1(b""), 0)),
        0,
        "the empty block stays known"
    );
    for b in &blocks[1..] {
        assert_eq!(a.ask(&read(13, 1, sha1(b), 999)), 0);
        assert_eq!(a.answer(), message(13, 1, b));
    }
    assert_eq!(a.ask(&write(13, 1, blocks[0])), 0, "stored again");
    let first = b"date=20261116\nrec=00000006\n";
    assert!(a.waiting.starts_with(first), "after the changed sectors");
    a.sync();
    assert!(a.log[512 * 6..].starts_with(first));
    assert_eq!(a.ask(&read(13, 1, sha1(blocks[0]), 999)), 0, "healed");
    assert_eq!(a.answer(), message(13, 1, blocks[0]));
    assert_eq!(
        a.ask(&read(13, 1, [9; 20], 1)),
        12,
        "not known while a sector is doubtful"
    );
}

/// One sector as the paper has it, byte for byte.
#[test]
fn sector_bytes() {
    let mut a = Archive::greeted(1);
    assert_eq!(a.ask(&write(2, 1, b"abc")), 0);
    let label = b"date=20261116\nrec=00000000\npart=0000\nof=0001\ntype=02\nsize=0003\nscore=a9993e364706816aba3e25717850c26c9cd0d89d\n";
    let body = [&label[..], b"abc", &[0; 386]].concat();
    let check = format!("crc={:08x}\n", crc32(&body));
    let sector = [&body[..], check.as_bytes()].concat();
    assert_eq!(a.waiting[..512], sector);
    assert_eq!(a.log, [0; 512], "not before a sync");
    a.sync();
    assert_eq!(a.log, sector);
}

/// A block is found while it waits, and where it is moved to; nothing else moves it.
#[test]
fn what_waits_is_held() {
    let mut a = Archive::greeted(12);
    assert_eq!(a.ask(&write(13, 1, b"settled")), 0);
    a.sync();
    let settled = a.log.clone();
    let waits = [5; 1000];
    assert_eq!(a.ask(&write(13, 2, &waits)), 0);
    let first = b"date=20261116\nrec=00000001\n";
    assert!(a.waiting.starts_with(first), "behind the log's");
    let both = a.waiting.clone();
    for m in [
        write(13, 3, &waits),
        write(13, 3, b"settled"),
        message(2, 3, b""),
    ] {
        assert_eq!(a.ask(&m), 0);
        assert!(a.log == settled && a.waiting == both);
    }
    assert_eq!(a.ask(&read(13, 4, sha1(&waits), 1000)), 0);
    assert_eq!(a.answer(), message(13, 4, &waits));
    a.sync();
    assert_eq!(a.log[..512], settled[..512]);
    assert_eq!(a.log[512..4 * 512], both[..3 * 512]);
    assert_eq!(a.ask(&read(13, 4, sha1(&waits), 1000)), 0);
    assert_eq!(a.answer(), message(13, 4, &waits));
}

/// 14 by either part: the waiting part is full, or the log has no room beyond what waits.
#[test]
fn no_room_in_either_part() {
    let mut a = Archive::greeted(12);
    for block in 0..8 {
        assert_eq!(a.ask(&write(13, 1, &[block])), 0);
    }
    let full = (a.log.clone(), a.waiting.clone());
    assert_eq!(a.ask(&write(13, 2, b"ninth")), 14);
    assert_eq!(a.answer(), refused(2, 14));
    assert_eq!((&a.log, &a.waiting), (&full.0, &full.1));
    a.sync();
    assert_eq!(a.ask(&write(13, 2, b"ninth")), 0);
    assert_eq!(a.ask(&write(13, 2, &[9; 4 * 389])), 14, "three are left");
    assert_eq!(a.ask(&write(13, 2, &[9; 3 * 389])), 0);
    assert_eq!(a.ask(&write(13, 2, b"thirteenth")), 14);
    a.sync();
    assert_eq!(a.ask(&write(13, 2, b"thirteenth")), 14);
    let mut none = Archive::greeted(12);
    none.waiting.clear();
    assert_eq!(none.ask(&write(13, 1, b"x")), 14, "nothing is lent to wait");
    none.sync();
}

/// 24 for every message, after 4 and before 5: no reply, and all stays as it was.
#[test]
fn dates_that_are_none() {
    let bad: [&[u8]; 8] = [
        b"",
        b"2026111",
        b"202611160",
        b"2026111a",
        b"2026111/",
        b"2026111:",
        b"\xb2026111",
        b"20261116\n",
    ];
    let mut a = Archive::greeted(2);
    assert_eq!(a.ask(&write(13, 1, b"waits")), 0);
    let before = (a.log.clone(), a.waiting.clone());
    for date in bad {
        for m in [
            HELLO.to_vec(),
            write(13, 2, b"x"),
            read(13, 2, sha1(b"waits"), 9),
            message(2, 2, b""),
            message(6, 2, b""),
            message(16, 2, b""),
            message(99, 2, b""),
            write(99, 2, &[0; 57_345]),
        ] {
            a.session = Greeted;
            assert_eq!(a.ask_on(date, &m), 24, "{date:?} {m:02x?}");
            assert!(a.untouched() && a.session == Greeted);
            a.session = Closed;
            assert_eq!(a.ask_on(date, &m), 4, "4 before 24");
            assert!(a.untouched());
        }
        assert_eq!((&a.log, &a.waiting), (&before.0, &before.1));
    }
    a.session = Greeted;
    for date in [b"00000000", b"99999999", b"20240230"] {
        assert_eq!(a.ask_on(date, &message(2, 2, b"")), 0);
    }
    assert_eq!(a.ask_on(b"", b""), 1, "1 before 24");
}

/// A duplicate of any date is a duplicate: the block keeps the date of its write, through a sync too.
#[test]
fn a_block_keeps_its_date() {
    let mut a = Archive::greeted(4);
    assert_eq!(a.ask_on(b"19991231", &write(13, 1, b"first")), 0);
    let waits = a.waiting.clone();
    assert!(waits.starts_with(b"date=19991231\nrec=00000000\n"));
    assert_eq!(a.ask_on(b"20000101", &write(13, 1, b"first")), 0);
    assert_eq!(a.waiting, waits);
    assert_eq!(a.ask_on(b"20000102", &message(16, 1, b"")), 0);
    assert_eq!(a.log[..512], waits[..512]);
    assert_eq!(a.ask_on(b"20000103", &write(13, 1, b"first")), 0);
    assert!(a.waiting.iter().all(|b| *b == 0));
    assert_eq!(a.ask_on(b"20000103", &write(2, 1, b"first")), 0);
    assert!(a.waiting.starts_with(b"date=20000103\nrec=00000001\n"));
}

/// The sector that the earlier program wrote for this block, without a date.
fn first_edition(sector: usize, data: &[u8]) -> Vec<u8> {
    let score: String = sha1(data).iter().map(|b| format!("{b:02x}")).collect();
    let size = data.len();
    let label =
        format!("rec={sector:08x}\npart=0000\nof=0001\ntype=0d\nsize={size:04x}\nscore={score}\n");
    let mut body = [label.as_bytes(), data].concat();
    body.resize(499, 0);
    let check = format!("crc={:08x}\n", crc32(&body));
    [&body[..], check.as_bytes()].concat()
}

/// A log that was written before goes on: its blocks are held, and are duplicates.
#[test]
fn a_log_of_the_first_edition_goes_on() {
    let mut a = Archive::greeted(4);
    let (one, two) = ([7; 403], b"two");
    a.log[..512].copy_from_slice(&first_edition(0, &one));
    a.log[512..1024].copy_from_slice(&first_edition(1, two));
    let before = a.log.clone();
    assert_eq!(a.ask(&read(13, 1, sha1(&one), 403)), 0);
    assert_eq!(a.answer(), message(13, 1, &one));
    assert_eq!(a.ask(&write(13, 1, &one)), 0);
    a.sync();
    assert_eq!(a.log, before, "a duplicate");
    assert_eq!(a.ask(&read(13, 1, [9; 20], 1)), 11, "all is sound");
    assert_eq!(a.ask(&write(13, 1, &[8; 403])), 0);
    a.sync();
    assert_eq!(a.log[..1024], before[..1024]);
    assert!(a.log[1024..].starts_with(b"date=20261116\nrec=00000002\npart=0000\nof=0002\n"));
    assert_eq!(a.ask(&read(13, 1, sha1(&[8; 403]), 403)), 0);
    assert_eq!(a.answer(), message(13, 1, &[8; 403]));
}
