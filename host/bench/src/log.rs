//! Storing and reading dated blocks, by scan and by index, beside an ordinary Rust log with the same checks
//! and the same bytes. A sync comes after every ten writes.

use boundary::Refusal;
use plain::index;
use plain::log as ordinary;
use plain::random::Random;

use crate::parts::{read_message, time, write_message, Parts, BLOCK, DATA, DATE, PARTS, SYNC};

const BLOCKS: usize = 1000;
/// The sectors of the log that the absent block is looked for in.
const SOUND: usize = 20_000;
/// The writes before a sync.
const BATCH: usize = 10;
/// The places in each bucket of the index: 1,000 blocks find room.
const PLACES: usize = 16;
const ROUNDS: usize = 5;

/// Seconds that ours and the ordinary log took, of several rounds the median of the ratio's.
struct Measured {
    name: &'static str,
    bytes: usize,
    rounds: Vec<[f64; 2]>,
}

/// What is stored and read.
struct Blocks {
    data: Vec<Vec<u8>>,
    writes: Vec<Vec<u8>>,
    scores: Vec<[u8; 20]>,
    reads: Vec<Vec<u8>>,
}

impl Blocks {
    fn new() -> Blocks {
        let mut random = Random::new(2);
        let data: Vec<Vec<u8>> = (0..BLOCKS).map(|_| random.bytes(BLOCK)).collect();
        let scores: Vec<[u8; 20]> = data.iter().map(|b| plain::sha1::sha1(b)).collect();
        Blocks {
            writes: data.iter().map(|b| write_message(b)).collect(),
            reads: scores.iter().map(read_message).collect(),
            data,
            scores,
        }
    }

    /// Stores all of them in both, and compares the bytes.
    fn store(&self, ours: &mut Parts, theirs: &mut Parts) -> [f64; 2] {
        let our_time = time(|| {
            for batch in self.writes.chunks(BATCH) {
                for message in batch.iter().map(|m| &m[..]).chain([&SYNC[..]]) {
                    assert_eq!(ours.ask(message), Ok(()));
                }
            }
        });
        let their_time = time(|| {
            for batch in self.data.chunks(BATCH) {
                for data in batch {
                    let stored = ordinary::store(
                        &theirs.log,
                        &mut theirs.waiting,
                        &mut theirs.index,
                        DATE,
                        DATA,
                        data,
                    );
                    assert!(matches!(stored, ordinary::Stored::New(_)));
                }
                let settled = ordinary::settle(&mut theirs.log, &mut theirs.waiting);
                assert_eq!(settled, Ok(()));
            }
        });
        let same = ours.log == theirs.log && ours.waiting == theirs.waiting;
        assert!(same && ours.index == theirs.index, "the same bytes");
        [our_time, their_time]
    }

    /// Reads all of them in both.
    fn read(&self, ours: &mut Parts, theirs: &mut Parts) -> [f64; 2] {
        let our_time = time(|| {
            for message in &self.reads {
                assert_eq!(ours.ask(message), Ok(()));
            }
        });
        let their_time = time(|| {
            for score in &self.scores {
                assert_eq!(theirs.ordinary_read(score), Ok(BLOCK));
            }
        });
        [our_time, their_time]
    }
}

/// Looks for a block that is absent from a part of both logs, ten times.
fn absent(ours: &mut Parts, theirs: &mut Parts) -> [f64; 2] {
    let whole = SOUND / PARTS * PARTS * 512;
    let message = read_message(&[7; 20]);
    ours.log.truncate(whole);
    theirs.log.truncate(whole);
    let our_time = time(|| {
        for _ in 0..10 {
            assert_eq!(ours.ask(&message), Err(Refusal::NotHeld));
        }
    });
    let their_time = time(|| {
        for _ in 0..10 {
            let answer = theirs.ordinary_read(&[7; 20]);
            assert_eq!(answer, Err(ordinary::Refused::Number(11)));
        }
    });
    [our_time, their_time]
}

/// The figures of each round: storing and reading by scan, then with an index.
const FOUR: [&str; 4] = ["store", "read", "store, index", "read, index"];
/// And those that are measured besides.
const MORE: [&str; 2] = ["waiting", "absent"];

/// Storing and reading alone.
pub fn four() {
    print_head();
    print(&measure(false));
}

/// The same, a read with some blocks waiting, and a block that is absent.
pub fn run() {
    print_head();
    println!(
        "waiting: read with the last {BATCH} not settled; absent: from {} sound sectors",
        SOUND / PARTS * PARTS
    );
    print(&measure(true));
}

fn measure(more: bool) -> Vec<Measured> {
    let blocks = Blocks::new();
    let names = FOUR.iter().chain(MORE.iter().filter(|_| more));
    let mut measured: Vec<Measured> = names
        .map(|&name| Measured {
            name,
            bytes: match name {
                "absent" => 10 * (SOUND / PARTS * PARTS * 512),
                _ => BLOCKS * BLOCK,
            },
            rounds: Vec::new(),
        })
        .collect();
    for _ in 0..ROUNDS {
        let mut rounds = Vec::new();
        let mut ours = Parts::new(BLOCKS * PARTS, 0);
        let mut theirs = Parts::new(BLOCKS * PARTS, 0);
        rounds.push(blocks.store(&mut ours, &mut theirs));
        rounds.push(blocks.read(&mut ours, &mut theirs));
        let scanned = (ours, theirs);

        let mut ours = Parts::new(BLOCKS * PARTS, index::length(PLACES));
        let mut theirs = Parts::new(BLOCKS * PARTS, index::length(PLACES));
        rounds.push(blocks.store(&mut ours, &mut theirs));
        rounds.push(blocks.read(&mut ours, &mut theirs));

        if more {
            let (mut ours, mut theirs) = scanned;
            for parts in [&mut ours, &mut theirs] {
                parts.unsettle((BLOCKS - BATCH) * PARTS);
            }
            rounds.push(blocks.read(&mut ours, &mut theirs));
            for parts in [&mut ours, &mut theirs] {
                parts.waiting.fill(0);
            }
            rounds.push(absent(&mut ours, &mut theirs));
        }
        for (measured, round) in measured.iter_mut().zip(rounds) {
            measured.rounds.push(round);
        }
    }
    measured
}

fn print_head() {
    println!(
        "\n{BLOCKS} different dated blocks of {BLOCK} bytes, a log of {} bytes, a sync after every {BATCH} writes; \
         with an index of {} bytes, which writes keep and reads go by; medians of {ROUNDS} rounds by turns",
        BLOCKS * PARTS * 512,
        index::length(PLACES)
    );
}

fn print(measured: &[Measured]) {
    println!(
        "{:12} {:>10} {:>16} {:>7}",
        "name", "ours MB/s", "plain Rust MB/s", "ratio"
    );
    for m in measured {
        let ratio = crate::median(m.rounds.iter().map(|r| r[0] / r[1]));
        let speed = |k: usize| m.bytes as f64 / 1e6 / crate::median(m.rounds.iter().map(|r| r[k]));
        println!(
            "{:12} {:>10.0} {:>16.0} {ratio:>7.2}",
            m.name,
            speed(0),
            speed(1)
        );
    }
}
