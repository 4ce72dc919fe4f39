//! A request that is lent an index: whatever its bytes, the reply is the scan's.

use boundary::{look_up_by, rebuild, serve, sha1, Place, Refusal, Session};

const SYNC: [u8; 4] = [0, 2, 16, 3];

struct Archive {
    log: Vec<u8>,
    waiting: Vec<u8>,
}

impl Archive {
    fn ask(&mut self, message: &[u8], index: &mut [u8]) -> Vec<u8> {
        let mut reply = vec![0; 57_348];
        let (log, waiting) = (&mut self.log, &mut self.waiting);
        serve(
            Session::Greeted,
            message,
            b"20261116",
            log,
            waiting,
            index,
            &mut reply,
        );
        reply
    }
}

fn write(data: &[u8]) -> Vec<u8> {
    let size = (6 + data.len()) as u16;
    [&size.to_be_bytes()[..], &[14, 1, 13, 0, 0, 0], data].concat()
}

fn read(score: &[u8; 20]) -> Vec<u8> {
    [&[0, 26, 12, 2][..], score, &[13, 0, 0xe0, 0]].concat()
}

#[test]
fn any_index_reads_as_the_scan() {
    let mut archive = Archive {
        log: vec![0; 64 * 512],
        waiting: vec![0; 16 * 512],
    };
    // One place in each bucket, and seven bytes left over.
    let mut index = vec![0; 6_407];
    index[6_400..].fill(0xee);
    let blocks: Vec<Vec<u8>> = (1..8u8).map(|n| vec![n; usize::from(n) * 100]).collect();
    for (at, block) in blocks.iter().enumerate() {
        let before = index.clone();
        archive.ask(&write(block), &mut index);
        assert_ne!(before, index, "block {at} is entered");
        let kept = index.clone();
        archive.ask(&write(block), &mut index);
        assert_eq!(kept, index, "a duplicate is not");
    }
    assert_eq!(index[6_400..], [0xee; 7]);

    let mut others = [vec![], vec![0; 6_400], vec![0xa5; 70_001], index.clone()];
    others[3].rotate_left(25);
    for block in &blocks {
        let message = read(&sha1(block));
        let scan = archive.ask(&message, &mut []);
        assert_eq!(scan[4..4 + block.len()], block[..]);
        for other in others.iter_mut().chain([&mut index]) {
            let kept = other.clone();
            assert_eq!(archive.ask(&message, other), scan);
            assert_eq!(*other, kept, "a read changes no index");
        }
    }

    let kept = index.clone();
    archive.ask(&SYNC, &mut index);
    assert_eq!(kept, index, "nor does a sync");
    let mut again = vec![0xff; 6_407];
    again[6_400..].fill(0xee);
    assert_eq!(rebuild(&archive.log, &mut again), Ok(()));
    assert_eq!(again, index);

    let place = Place {
        sector: 0,
        size: 100,
    };
    let look = |index: &[u8], score: [u8; 20]| {
        look_up_by(&archive.log, &archive.waiting, index, 13, &score)
    };
    assert_eq!(look(&index, sha1(&blocks[0])), Ok(place));
    assert_eq!(look(&[], sha1(&blocks[0])), Ok(place));
    assert_eq!(look(&index, [7; 20]), Err(Refusal::NotHeld));
}
