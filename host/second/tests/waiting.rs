//! Histories with a waiting part, stops and damage that comes again: by the archive and by the ledger.
//! Examples of single requests are in `fuzz/src/waiting.rs`, where both programs run them.

use second::account::Account;
use second::ledger::{Effect, Origin};
use second::message::{whole, Lent};
use second::request::serve;
use second::sector::SECTOR;
use second::sha1::sha1;
use second::Session;

const HELLO: [u8; 13] = [0, 0x0b, 4, 0, 0, 2, 0x30, 0x32, 0, 0, 0, 0, 0];

fn block(data: &[u8]) -> Vec<u8> {
    whole(14, 9, &[&[13, 0, 0, 0], data].concat())
}

fn read(data: &[u8]) -> Vec<u8> {
    let body = [&sha1(data)[..], &[13, 0], &[0xff, 0xff]].concat();
    whole(12, 9, &body)
}

fn sync() -> Vec<u8> {
    whole(16, 9, &[])
}

/// A history after its hello: each answer of the archive is compared with the account's.
struct History {
    account: Account,
    log: Vec<u8>,
    waiting: Option<Vec<u8>>,
}

impl History {
    fn new(log: usize, waiting: Option<usize>) -> History {
        let lent = Lent {
            log: log * SECTOR,
            waiting: waiting.map(|sectors| sectors * SECTOR),
        };
        let mut account = Account::new(lent);
        assert_eq!(
            account.request(Origin::Fresh, &HELLO, None, 57_348).number,
            0
        );
        History {
            log: account.log().to_vec(),
            waiting: account.waiting().map(<[u8]>::to_vec),
            account,
        }
    }

    fn ask(&mut self, message: &[u8]) -> u8 {
        let date = Some(&b"20261116"[..]);
        let expected = self
            .account
            .request(Origin::After(0), message, date, 57_348);
        let mut reply = vec![0; 57_348];
        let waiting = self.waiting.as_deref_mut();
        let log = &mut self.log;
        let answer = serve(Session::Ready, message, date, log, waiting, &mut reply);
        assert_eq!(answer, (expected.number, expected.session));
        assert_eq!(reply[..expected.reply.len()], expected.reply);
        assert_eq!(self.log, self.account.log());
        assert_eq!(self.waiting.as_deref(), self.account.waiting());
        answer.0
    }

    fn stop(&mut self, waiting: Option<usize>) {
        self.account.stop(waiting.map(|sectors| sectors * SECTOR));
        self.waiting = self.account.waiting().map(<[u8]>::to_vec);
    }

    /// Changes a byte of the log, and tells of it.
    fn flip(&mut self, at: usize) {
        self.log[at] ^= 1;
        self.account.damage(&self.log);
    }
}

/// What was answered but not synced is not held after a stop; what was synced is.
#[test]
fn a_stop() {
    let mut history = History::new(6, Some(3));
    for message in [block(b"one"), sync(), block(b"two"), read(b"two")] {
        assert_eq!(history.ask(&message), 0);
    }
    history.stop(Some(1));
    assert_eq!(history.ask(&read(b"one")), 0);
    assert_eq!(history.ask(&read(b"two")), 11);
    assert_eq!(history.ask(&block(b"two")), 0);
    history.stop(None);
    assert_eq!(history.ask(&block(b"three")), 0);
    history.stop(Some(0));
    assert_eq!(history.ask(&read(b"three")), 0);
    assert_eq!(history.ask(&block(b"four")), 14);
}

/// Blocks of requests without a waiting part are settled at once.
#[test]
fn before_the_first_lending() {
    let mut history = History::new(3, None);
    for message in [block(b"one"), sync(), block(b"two")] {
        assert_eq!(history.ask(&message), 0);
    }
    history.stop(Some(2));
    for message in [read(b"two"), block(b"three"), read(b"three")] {
        assert_eq!(history.ask(&message), 0);
    }
    assert_eq!(history.ask(&block(b"four")), 14);
    history.account.grow(4 * SECTOR);
    history.log.resize(4 * SECTOR, 0);
    assert_eq!(history.ask(&block(b"four")), 0);
}

/// Damage and healing: the changed sectors are told anew each time.
#[test]
fn damage_that_comes_again() {
    let mut history = History::new(6, Some(6));
    for message in [block(b"one"), block(b"two"), sync()] {
        assert_eq!(history.ask(&message), 0);
    }
    history.flip(100);
    assert_eq!(history.ask(&read(b"one")), 12);
    assert_eq!(history.ask(&block(b"one")), 0);
    assert_eq!(history.ask(&sync()), 0);
    history.flip(100);
    assert!(history.account.ledger.changed().is_empty());
    assert_eq!(history.ask(&read(b"never")), 11);
    history.flip(2 * SECTOR + 5);
    assert_eq!(history.ask(&read(b"one")), 0);
    assert_eq!(history.ask(&read(b"never")), 12);
    assert_eq!(history.account.ledger.changed(), &[2].into());
}

/// A blank gap that stays behind healing is doubtful, though no sector is changed.
#[test]
fn a_gap() {
    let mut history = History::new(6, Some(6));
    history.flip(SECTOR);
    assert_eq!(history.ask(&block(b"one")), 0);
    assert_eq!(history.ask(&sync()), 0);
    history.flip(SECTOR);
    assert!(history.account.ledger.changed().is_empty());
    assert_eq!(history.ask(&read(b"never")), 12);
    assert_eq!(history.ask(&read(b"one")), 0);
}

/// Of three blocks on their way one arrived whole, one in part and one not at all.
#[test]
fn a_stop_inside_a_sync() {
    let mut history = History::new(9, Some(9));
    assert_eq!(history.ask(&block(b"settled")), 0);
    assert_eq!(history.ask(&sync()), 0);
    let long = vec![6; 500];
    for data in [&b"whole"[..], &long, b"gone"] {
        assert_eq!(history.ask(&block(data)), 0);
    }
    let sectors = history.account.on_their_way();
    let numbers: Vec<usize> = sectors.iter().map(|(number, _)| *number).collect();
    assert_eq!(numbers, [1, 2, 3, 4]);
    for (number, bytes) in &sectors[..2] {
        let start = number * SECTOR;
        history.log[start..start + SECTOR].copy_from_slice(bytes);
    }
    let told = (&[1, 2].into(), &[].into());
    let blank = Some(5 * SECTOR);
    history.account.crash(&history.log, told.0, told.1, blank);
    history.stop(Some(5));
    assert_eq!(history.ask(&read(b"settled")), 0);
    assert_eq!(history.ask(&read(b"whole")), 0);
    assert_eq!(history.ask(&read(&long)), 12);
    assert_eq!(history.ask(&read(b"gone")), 12);
    assert_eq!(history.account.ledger.changed(), &[2].into());
    assert_eq!(history.account.changed_in(&history.log), [2].into());
    assert_eq!(history.ask(&block(&long)), 0);
    assert_eq!(history.ask(&read(&long)), 0);
}

/// The write that was under way adds its row; where nothing of it arrived it was never there.
#[test]
fn a_stop_inside_a_write() {
    let mut history = History::new(4, None);
    assert_eq!(history.ask(&block(b"settled")), 0);
    let begun = history
        .account
        .begin(Origin::After(0), &block(b"x"), None, 57_348);
    assert_eq!(begun.effect, Effect::Adds);
    assert_eq!(history.account.on_their_way().len(), 1);
    let log = history.log.clone();
    history.account.crash(&log, &[].into(), &[].into(), None);
    assert_eq!(history.ask(&read(b"x")), 11);
    assert_eq!(history.ask(&block(b"x")), 0);
}
