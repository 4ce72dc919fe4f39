//! The ordinary log beside the proved archive: the same bytes in the log, in the waiting part and in the
//! index, and the same answers, after each request.

use boundary::{serve, Refusal, Session};
use plain::index::length;
use plain::log::{read, settle, store, Refused, Stored};
use plain::random::Random;
use plain::sha1::sha1;

const DATE: [u8; 8] = *b"20261116";

fn message(kind: u8, body: &[u8]) -> Vec<u8> {
    let size = (body.len() + 2) as u16;
    [&size.to_be_bytes()[..], &[kind, 7], body].concat()
}

/// The number of what the ordinary log refuses, 0 where it does not.
fn number(refused: Option<Refused>) -> u8 {
    match refused {
        None => 0,
        Some(Refused::Number(number)) => number,
        Some(Refused::NotKnown(_)) => 12,
    }
}

#[test]
fn same_bytes() {
    for (seed, places) in [(1, 0), (2, 1), (3, 3)] {
        let mut random = Random::new(seed);
        let mut below = |limit: usize| (random.number() >> 32) as usize % limit;
        let mut bytes = Random::new(seed + 9);
        let blocks: Vec<Vec<u8>> = (0..40).map(|_| bytes.bytes(below(9_000))).collect();
        let mut ours = (
            vec![0; 900 * 512],
            vec![0; 60 * 512],
            vec![0; length(places) + 7],
        );
        let mut theirs = ours.clone();
        let mut reply = vec![0; 57_348];
        let mut out = vec![0; 57_344];
        for _ in 0..400 {
            let block = &blocks[below(blocks.len())];
            let (log, waiting, index) = (&mut theirs.0, &mut theirs.1, &mut theirs.2);
            let (asked, refused) = match below(8) {
                0 => (message(16, &[]), number(settle(log, waiting).err())),
                1..=3 => {
                    let body = [&[13, 0, 0, 0], &block[..]].concat();
                    let stored = store(log, waiting, index, DATE, 13, block);
                    let refused = match stored {
                        Stored::Refused(number) => number,
                        _ => 0,
                    };
                    (message(14, &body), refused)
                }
                _ => {
                    let score = sha1(block);
                    let body = [&score[..], &[13, 0, 0xe0, 0]].concat();
                    let answer = read(log, waiting, index, 13, &score, &mut out);
                    (message(12, &body), number(answer.err()))
                }
            };
            let (log, waiting, index) = (&mut ours.0, &mut ours.1, &mut ours.2);
            let session = Session::Greeted;
            let served = serve(session, &asked, &DATE, log, waiting, index, &mut reply);
            let number = served.outcome.map_or_else(Refusal::number, |()| 0);
            assert_eq!(number, refused);
            if number == 0 && asked[2] == 12 {
                assert_eq!(reply[4..4 + block.len()], out[..block.len()]);
            }
            assert!(ours == theirs, "the same bytes");
        }
    }
}
