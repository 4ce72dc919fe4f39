//! A request by what is known: the answer, and all that it leaves, is `serve`'s, and what is known
//! then is what would be learned.

use boundary::{serve, serve_known, sha1, Known, Refusal, Served, Session};

const DATE: &[u8] = b"20261116";
const HELLO: &[u8] = b"\0\x0a\x04\x01\0\x0202\0\0\0\0";
const SYNC: &[u8] = &[0, 2, 16, 3];

#[derive(Clone, Debug, PartialEq, Eq)]
struct Archive {
    log: Vec<u8>,
    waiting: Vec<u8>,
    index: Vec<u8>,
    reply: Vec<u8>,
}

impl Archive {
    fn blank(index: usize) -> Archive {
        Archive {
            log: vec![0; 12 * 512],
            waiting: vec![0; 6 * 512],
            index: vec![0; index],
            reply: vec![0; 57_348],
        }
    }

    fn learn(&self) -> Known {
        Known::learn(&self.log, &self.waiting, &self.index)
    }

    fn ask(&mut self, message: &[u8]) -> Served {
        let (log, waiting) = (&mut self.log, &mut self.waiting);
        let (index, reply) = (&mut self.index, &mut self.reply);
        serve(Session::Greeted, message, DATE, log, waiting, index, reply)
    }

    fn ask_known(&mut self, message: &[u8], known: &mut Known) -> Served {
        let (log, waiting) = (&mut self.log, &mut self.waiting);
        let (index, reply) = (&mut self.index, &mut self.reply);
        let session = Session::Greeted;
        serve_known(known, session, message, DATE, log, waiting, index, reply)
    }

    /// Asks both ways: the same comes of it, and what is known is what would be learned.
    fn ask_both(&mut self, message: &[u8], known: &mut Known) -> Served {
        let mut other = self.clone();
        let served = self.ask(message);
        assert_eq!(other.ask_known(message, known), served);
        assert_eq!(other, *self);
        assert_eq!(*known, self.learn());
        served
    }
}

fn write(data: &[u8]) -> Vec<u8> {
    let size = (6 + data.len()) as u16;
    [&size.to_be_bytes()[..], &[14, 1, 13, 0, 0, 0], data].concat()
}

fn read(data: &[u8]) -> Vec<u8> {
    [&[0, 26, 12, 2][..], &sha1(data), &[13, 0, 0xe0, 0]].concat()
}

#[test]
fn every_request_is_as_without_it() {
    // No index, one with a place in each bucket, and one with two.
    for index in [0, 6_400, 12_800] {
        let mut archive = Archive::blank(index);
        let mut known = archive.learn();
        for round in 0..4u8 {
            for size in [10, 400, 800] {
                let data = vec![round + 1; size];
                archive.ask_both(&write(&data), &mut known);
                archive.ask_both(&write(&data), &mut known);
                archive.ask_both(&read(&data), &mut known);
                archive.ask_both(&read(&data[1..]), &mut known);
            }
            archive.ask_both(SYNC, &mut known);
            archive.ask_both(HELLO, &mut known);
        }
        let full = archive.ask_both(&write(&[9; 500]), &mut known);
        assert_eq!(full.outcome, Err(Refusal::NoRoom));

        archive.log[512 + 200] ^= 1;
        known = archive.learn();
        let lost = archive.ask_both(&read(b"not there"), &mut known);
        assert!(matches!(lost.outcome, Err(Refusal::NotKnown { .. })));
    }
}

#[test]
fn what_cannot_belong_is_learned_anew() {
    let mut archive = Archive::blank(6_400);
    for n in 0..4u8 {
        archive.ask(&write(&[n; 300]));
        archive.ask(SYNC);
    }
    let mut known = archive.learn();
    let mut shorter = Archive::blank(6_400);
    shorter.log.truncate(3 * 512);
    assert_ne!(known, shorter.learn());
    shorter.ask_both(&write(b"a block"), &mut known);
}

#[test]
fn a_bucket_that_overflows() {
    // One place in each bucket: the second block of one bucket is not entered, and is found all the same.
    let mut archive = Archive::blank(6_400);
    let mut known = archive.learn();
    let blocks = (0..u32::MAX).map(u32::to_be_bytes);
    for block in blocks.filter(|block| sha1(block)[0] == 7).take(3) {
        archive.ask_both(&write(&block), &mut known);
        archive.ask_both(&read(&block), &mut known);
        archive.ask_both(&write(&block), &mut known);
    }
    let entries = archive.index.chunks(25);
    assert_eq!(
        entries
            .filter(|entry| entry[24] != 0 || entry[0] != 0)
            .count(),
        1
    );
}
