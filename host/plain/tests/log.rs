//! The log beside the second program's: the same answers and the same bytes in both parts and in the
//! index.

use plain::index::{enter, rebuild};
use plain::log::{read, settle, store, Date, Refused, Stored};
use plain::random::Random;
use plain::sha1::sha1;
use second::message::whole;
use second::request::serve_by;
use second::Session;

/// The second program's log, waiting part and index.
struct Twin {
    log: Vec<u8>,
    waiting: Vec<u8>,
    index: Vec<u8>,
}

impl Twin {
    /// Its number and reply.
    fn ask(&mut self, message: &[u8], date: Option<&[u8]>) -> (u8, Vec<u8>) {
        let mut reply = vec![0; 57_348];
        let waiting = Some(&mut self.waiting[..]);
        let (log, index) = (&mut self.log, &mut self.index);
        let ready = Session::Ready;
        let (number, _) = serve_by(ready, message, date, log, waiting, index, &mut reply);
        let size = second::message::number(&reply[..2]) + 2;
        reply.truncate(size);
        (number, reply)
    }
}

#[test]
fn same_as_second() {
    let mut random = Random::new(7);
    let mut below = |limit: usize| (random.number() >> 32) as usize % limit;
    let mut bytes = Random::new(9);
    for _ in 0..300 {
        let mut log = vec![0; below(20) * 512];
        let mut waiting = vec![0; below(9) * 512];
        let mut index = vec![0; [0, 6_399, 6_400, 12_807][below(4)]];
        let mut twin = Twin {
            log: log.clone(),
            waiting: waiting.clone(),
            index: index.clone(),
        };
        let pool: Vec<Vec<u8>> = (0..5).map(|_| bytes.bytes(below(1300))).collect();
        // some blocks of the first edition
        for _ in 0..below(4) {
            let data = &pool[below(5)];
            twin.ask(&whole(14, 0, &[&[13, 0, 0, 0], &data[..]].concat()), None);
            twin.ask(&whole(16, 0, &[]), None);
        }
        log.copy_from_slice(&twin.log);
        waiting.copy_from_slice(&twin.waiting);
        index.copy_from_slice(&twin.index);
        for _ in 0..30 {
            let date = format!("2026{:04}", below(3));
            let date: Date = date.as_bytes().try_into().unwrap();
            let kind = [1, 2, 13, 13, 9, 12][below(6)];
            let data = &pool[below(5)];
            let count = if below(4) == 0 { below(1300) } else { 1300 };
            match below(11) {
                0..=2 => {
                    let message = whole(14, 0, &[&[kind, 0, 0, 0], &data[..]].concat());
                    let (number, _) = twin.ask(&message, Some(&date));
                    match store(&log, &mut waiting, &mut index, date, kind, data) {
                        Stored::New(score) | Stored::Held(score) => {
                            assert_eq!((number, score), (0, sha1(data)));
                        }
                        Stored::Refused(refused) => assert_eq!(number, refused),
                    }
                }
                3 => {
                    let (number, _) = twin.ask(&whole(16, 0, &[]), Some(&date));
                    let settled = match number {
                        0 => Ok(()),
                        number => Err(Refused::Number(number)),
                    };
                    assert_eq!(settle(&mut log, &mut waiting), settled);
                }
                4 if !log.is_empty() && below(4) == 0 => {
                    let at = below(log.len());
                    log[at] ^= 1 << below(8);
                    twin.log[at] = log[at];
                }
                5 if !waiting.is_empty() && below(8) == 0 => {
                    let at = below(waiting.len());
                    waiting[at] ^= 1 << below(8);
                    twin.waiting[at] = waiting[at];
                }
                // hints of any kind, and an index made anew
                6 => {
                    let first = [below(20), below(20), usize::MAX][below(3)];
                    enter(&mut index, kind, &sha1(data), first);
                    second::index::enter(&mut twin.index, &sha1(data), kind, first);
                }
                7 if below(3) == 0 => {
                    assert_eq!(rebuild(&log, &mut index), Ok(()));
                    assert_eq!(second::index::rebuild(&twin.log, &mut twin.index), 0);
                }
                _ => {
                    let score = sha1(data);
                    let end = [kind, 0, (count >> 8) as u8, count as u8];
                    let asked = whole(12, 0, &[&score[..], &end].concat());
                    let (number, reply) = twin.ask(&asked, Some(&date));
                    let mut out = vec![0; count];
                    match read(&log, &waiting, &index, kind, &score, &mut out) {
                        Ok(size) => {
                            assert_eq!(number, 0);
                            assert_eq!(out[..size], reply[4..]);
                        }
                        Err(Refused::Number(refused)) => assert_eq!(number, refused),
                        Err(Refused::NotKnown(sector)) => {
                            assert_eq!(number, 12);
                            let text = format!("why=12 at={sector:08x}");
                            assert_eq!(reply[6..], *text.as_bytes());
                        }
                    }
                }
            }
            assert!(log == twin.log && waiting == twin.waiting && index == twin.index);
        }
    }
}
