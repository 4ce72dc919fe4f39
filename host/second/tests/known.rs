//! Requests by what is said to be known: where it was learned, as with the index alone; where it is made up,
//! as it is said, if it can be.

use second::index::{BUCKETS, HINT};
use second::known::{learn, Known};
use second::known_request::{serve, Parts};
use second::message::{whole, LEAST_REPLY};
use second::request::serve_by;
use second::sector::SECTOR;
use second::sha1::{sha1, Score};
use second::Session;

const DATE: &[u8] = b"20261117";

/// A log, its waiting part and an index.
#[derive(Clone, Debug, PartialEq, Eq)]
struct Lent {
    log: Vec<u8>,
    waiting: Vec<u8>,
    index: Vec<u8>,
}

impl Lent {
    fn new(sectors: usize, waiting: usize, places: usize) -> Lent {
        Lent {
            log: vec![0; sectors * SECTOR],
            waiting: vec![0; waiting * SECTOR],
            index: vec![0; places * BUCKETS * HINT],
        }
    }

    fn learned(&self) -> Known {
        learn(&self.log, &self.waiting, &self.index)
    }

    /// The number and the reply of a request by what is said to be known.
    fn ask(&mut self, known: &mut Known, message: &[u8]) -> (u8, Vec<u8>) {
        let mut reply = vec![0; LEAST_REPLY];
        let parts = Parts {
            log: &mut self.log,
            waiting: &mut self.waiting,
            index: &mut self.index,
        };
        let (number, _) = serve(known, Session::Ready, message, DATE, parts, &mut reply);
        (number, reply)
    }

    /// The same with the index alone.
    fn ask_by(&mut self, message: &[u8]) -> (u8, Vec<u8>) {
        let mut reply = vec![0; LEAST_REPLY];
        let waiting = Some(&mut self.waiting[..]);
        let (log, index) = (&mut self.log, &mut self.index);
        let (number, _) = serve_by(
            Session::Ready,
            message,
            Some(DATE),
            log,
            waiting,
            index,
            &mut reply,
        );
        (number, reply)
    }
}

fn block(data: &[u8]) -> Vec<u8> {
    whole(14, 9, &[&[13, 0, 0, 0], data].concat())
}

fn read(score: &Score) -> Vec<u8> {
    whole(12, 9, &[&score[..], &[13, 0, 0xe0, 0]].concat())
}

fn sync() -> Vec<u8> {
    whole(16, 9, &[])
}

/// What is known after each request is what would be learned, with an index that has room, that overflows and
/// that is none; past the end of either part, and with damage, after which it is learned.
#[test]
fn what_was_learned() {
    for places in [0, 1, 8] {
        let mut known_by = Lent::new(30, 5, places);
        let mut alone = known_by.clone();
        let mut known = known_by.learned();
        for step in 0..200_usize {
            let data = vec![(step * 7 % 23) as u8; step * 131 % 900];
            let message = match step % 6 {
                0 | 1 => block(&data),
                2 | 3 => read(&sha1(&data)),
                4 => read(&[step as u8; 20]),
                _ => sync(),
            };
            let answer = known_by.ask(&mut known, &message);
            assert_eq!(
                answer,
                alone.ask_by(&message),
                "step {step}, {places} places"
            );
            assert_eq!(known_by, alone, "step {step}, {places} places");
            assert_eq!(known, alone.learned(), "step {step}, {places} places");
            if step % 61 == 60 {
                for lent in [&mut known_by, &mut alone] {
                    lent.log[step * 40] ^= 1;
                }
                known = known_by.learned();
            }
        }
    }
}

/// What can be known of such parts is taken at its word; what cannot is learned.
#[test]
fn what_is_made_up() {
    let mut lent = Lent::new(8, 4, 1);
    let mut known = lent.learned();
    for message in [block(b"one"), sync(), block(b"two")] {
        assert_eq!(lent.ask(&mut known, &message).0, 0);
    }
    let learned = Known {
        used: 1,
        waits: 1,
        doubt: None,
        exact: true,
    };
    assert_eq!(known, learned);
    let absent = read(&[7; 20]);
    let said = |doubt| Known { doubt, ..learned };

    // a doubt before the end is told, and kept; one at the end or behind it cannot be
    let mut known = said(Some(1));
    let (number, reply) = lent.ask(&mut known, &absent);
    assert_eq!((number, &reply[6..22]), (12, &b"why=12 at=000000"[..]));
    assert_eq!(known, said(Some(1)));
    for doubt in [2, 3, usize::MAX - 1] {
        let mut known = said(Some(doubt));
        assert_eq!(lent.ask(&mut known, &absent).0, 11);
        assert_eq!(known, learned);
    }
    // so it is with the used sectors of either part; a ping does not look
    for wrong in [
        Known { used: 9, ..learned },
        Known {
            waits: 5,
            ..learned
        },
    ] {
        let mut known = wrong;
        assert_eq!(lent.ask(&mut known, &whole(2, 9, &[])).0, 0);
        assert_eq!(known, wrong);
        // a type that is not lawful is refused after it was learned
        let mut message = absent.clone();
        message[24] = 200;
        assert_eq!(lent.ask(&mut known, &message).0, 9);
        assert_eq!(known, learned);
    }
    // an index that is called exact decides a read and a write
    lent.index.fill(0);
    assert_eq!(lent.ask(&mut said(None), &read(&sha1(b"two"))).0, 11);
    let mut known = Known {
        exact: false,
        ..learned
    };
    assert_eq!(lent.ask(&mut known, &read(&sha1(b"two"))).0, 0);
    let before = lent.clone();
    assert_eq!(lent.ask(&mut known, &block(b"two")).0, 0);
    assert_eq!(lent, before, "a duplicate");
    // a block goes to the end that is known, over what stands there
    let mut known = Known {
        waits: 0,
        ..learned
    };
    assert_eq!(lent.ask(&mut known, &block(b"three")).0, 0);
    assert_eq!(known, learned, "exact, as it was said");
    assert_eq!(&lent.waiting[..SECTOR], &sector_of(b"three")[..]);
    assert_eq!(lent.ask(&mut known, &read(&sha1(b"two"))).0, 11);
    // and a sync moves as many as are known to wait
    let mut known = Known {
        used: 0,
        waits: 4,
        ..learned
    };
    assert_eq!(lent.ask(&mut known, &sync()).0, 0);
    assert_eq!((known.used, known.waits), (4, 0));
    assert_eq!(&lent.log[..SECTOR], &sector_of(b"three")[..]);
    assert!(lent.waiting.iter().all(|&byte| byte == 0));
}

/// The sector of a short block that is written as the second one of a log.
fn sector_of(data: &[u8]) -> Vec<u8> {
    let mut lent = Lent::new(2, 1, 0);
    let mut known = Known {
        used: 1,
        ..lent.learned()
    };
    assert_eq!(lent.ask(&mut known, &block(data)).0, 0);
    lent.waiting
}
