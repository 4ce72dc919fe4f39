//! A date on each block: histories of both editions, by the archive and by the ledger. Examples of
//! single requests are in `fuzz/src/dates.rs`, where both programs run them.

use second::account::Account;
use second::ledger::Origin;
use second::log::{asked_at, sound_at, Contents};
use second::message::{whole, Lent};
use second::request::serve;
use second::sector::{check, label, CHECK, SECTOR};
use second::sha1::sha1;
use second::{Edition, Session};

const HELLO: [u8; 13] = [0, 0x0b, 4, 0, 0, 2, 0x30, 0x32, 0, 0, 0, 0, 0];
const ONE: &[u8] = b"20261116";
const OTHER: &[u8] = b"20261117";

fn block(data: &[u8]) -> Vec<u8> {
    whole(14, 9, &[&[13, 0, 0, 0], data].concat())
}

fn read(data: &[u8]) -> Vec<u8> {
    whole(12, 9, &[&sha1(data)[..], &[13, 0], &[0xff, 0xff]].concat())
}

/// A log of so many sectors with no waiting part, after its hello, and its account.
struct History {
    account: Account,
    log: Vec<u8>,
}

impl History {
    fn new(sectors: usize) -> History {
        let mut account = Account::new(Lent {
            log: sectors * SECTOR,
            waiting: None,
        });
        account.request(Origin::Fresh, &HELLO, None, 57_348);
        let log = account.log().to_vec();
        History { account, log }
    }

    fn ask(&mut self, date: Option<&[u8]>, message: &[u8]) -> u8 {
        let origin = Origin::After(0);
        let expected = self.account.request(origin, message, date, 57_348);
        let mut reply = vec![0xaa; 57_348];
        let log = &mut self.log;
        let answer = serve(Session::Ready, message, date, log, None, &mut reply);
        assert_eq!(answer, (expected.number, expected.session));
        let (front, rest) = reply.split_at(expected.reply.len());
        assert_eq!(front, expected.reply);
        assert!(rest.iter().all(|&byte| byte == 0xaa));
        assert_eq!(self.log, self.account.log());
        answer.0
    }

    fn editions(&self) -> Vec<(usize, Edition)> {
        let blocks = Contents::of(&self.log).blocks;
        let rows = self.account.ledger.rows().iter();
        let rows: Vec<_> = rows.map(|row| (row.first, row.edition)).collect();
        let blocks: Vec<_> = blocks.iter().map(|b| (b.first, b.edition)).collect();
        assert_eq!(rows, blocks);
        blocks
    }
}

fn dated(date: &[u8]) -> Edition {
    Edition::of(Some(date)).unwrap()
}

/// Undated up to some request, dated from there on; a duplicate of either edition keeps what it has.
#[test]
fn both_editions_in_one_log() {
    let mut history = History::new(9);
    let long = vec![7; 403];
    assert_eq!(history.ask(None, &block(&long)), 0);
    assert_eq!(history.ask(None, &block(b"one")), 0);
    assert_eq!(history.ask(Some(ONE), &block(&[8; 403])), 0);
    assert_eq!(history.ask(Some(OTHER), &block(b"two")), 0);
    let all = [
        (0, Edition::First),
        (1, Edition::First),
        (2, dated(ONE)),
        (4, dated(OTHER)),
    ];
    assert_eq!(history.editions(), all);
    for (date, data) in [
        (OTHER, &long[..]),
        (ONE, b"one"),
        (OTHER, &[8; 403]),
        (ONE, b"two"),
    ] {
        assert_eq!(history.ask(Some(date), &block(data)), 0);
        assert_eq!(history.ask(Some(date), &read(data)), 0);
    }
    assert_eq!(history.editions(), all);
    assert_eq!(asked_at(&history.log, 2), Ok(403));
    assert_eq!(asked_at(&history.log, 3), Ok(0));
}

/// Room goes by 389: nine sectors take 3,501 bytes with a date, 3,627 without.
#[test]
fn room() {
    for (date, most) in [(Some(ONE), 9 * 389), (None, 9 * 403)] {
        let mut history = History::new(9);
        assert_eq!(history.ask(date, &block(&vec![7; most + 1])), 14);
        assert_eq!(history.ask(date, &block(&vec![7; most])), 0);
        assert_eq!(history.ask(date, &block(b"x")), 14);
    }
}

/// 24 for every message, after 4 and before 5, without a reply.
#[test]
fn dates_that_are_none() {
    let bad: [&[u8]; 9] = [
        b"",
        b"2026111",
        b"202611160",
        b"2026111a",
        b" 2026111",
        b"2026-1-1",
        b"2026111/",
        b"2026111:",
        b"20261116\n",
    ];
    let messages = [
        HELLO.to_vec(),
        block(b"x"),
        read(b"x"),
        whole(2, 9, &[]),
        whole(6, 9, &[]),
        whole(16, 9, &[]),
        whole(99, 9, &[]),
    ];
    let mut history = History::new(2);
    for date in bad {
        for message in &messages {
            assert_eq!(history.ask(Some(date), message), 24);
            let mut reply = vec![0; 57_348];
            let log = &mut history.log;
            let closed = serve(Session::Closed, message, Some(date), log, None, &mut reply);
            assert_eq!(closed, (4, Session::Closed));
        }
    }
    for date in [b"00000000", b"99999999", b"20240230"] {
        assert_eq!(history.ask(Some(date), &whole(2, 9, &[])), 0);
    }
    assert_eq!(history.ask(Some(ONE), &whole(99, 9, &[])), 5);
}

/// A sector of another date, or of the other edition, makes a block no block; a changed date of a
/// block of one sector only changes the date.
#[test]
fn one_edition_and_one_date() {
    let mut history = History::new(6);
    assert_eq!(history.ask(Some(ONE), &block(&[7; 700])), 0);
    assert_eq!(history.ask(Some(ONE), &block(b"one")), 0);
    let redate = |log: &mut [u8], number: usize, date: &[u8]| {
        let sector = &mut log[number * SECTOR..(number + 1) * SECTOR];
        sector[5..13].copy_from_slice(date);
        let line = check(&sector[..CHECK]);
        sector[CHECK..].copy_from_slice(&line);
    };
    let mut log = history.log.clone();
    redate(&mut log, 1, OTHER);
    assert_eq!(sound_at(&log, 0), None);
    redate(&mut log, 0, OTHER);
    assert_eq!(sound_at(&log, 0).unwrap().edition, dated(OTHER));
    redate(&mut log, 2, b"99999999");
    assert_eq!(sound_at(&log, 2).unwrap().edition, dated(b"99999999"));
    redate(&mut log, 2, b"9999999a");
    assert_eq!(sound_at(&log, 2), None);
    assert_eq!(label(&log[2 * SECTOR..]), None);
}
