//! What a request costs in logs of several sizes that are full of blocks, beside the ordinary log: with the
//! index, by scan, and by what is known from the last request.

use boundary::Refusal;
use plain::index;
use plain::log as ordinary;

use crate::parts::{read_message, time, write_message, Parts, BLOCK, DATA, DATE, PARTS};

/// The blocks that are read by index, by scan, stored and looked for in vain.
const BY_INDEX: usize = 1000;
const BY_SCAN: usize = 20;
const STORED: usize = 10;
const ABSENT: usize = 2;
/// How often all of it is measured.
const ROUNDS: usize = 3;

/// The data of a block by its number.
fn data(number: usize) -> Vec<u8> {
    let mut data = vec![0x5a; BLOCK];
    data[..8].copy_from_slice(&(number as u64).to_be_bytes());
    data
}

/// Blocks looked for in vain by what is known.
const ABSENT_KNOWN: usize = 1000;

/// Both programs' seconds for a request.
struct Cost {
    name: &'static str,
    rounds: Vec<[f64; 2]>,
}

/// A log of so many sectors with room for the blocks that are stored, and an index of twice the places
/// that an even spread would need, with eight more.
fn full(sectors: usize) -> (Parts, Vec<[u8; 20]>) {
    let blocks = sectors / PARTS - STORED;
    let mut parts = Parts::new(sectors, index::length(blocks / 128 + 8));
    let mut scores = Vec::with_capacity(blocks);
    for number in 0..blocks {
        let (first, data) = (number * PARTS, data(number));
        ordinary::write_block(&mut parts.log[first * 512..], first, DATE, DATA, &data);
        scores.push(plain::sha1::sha1(&data));
        index::enter(&mut parts.index, DATA, &scores[number], first);
    }
    (parts, scores)
}

/// Reads so many blocks, evenly spread over the log.
fn read(parts: &mut Parts, scores: &[[u8; 20]], count: usize) -> [f64; 2] {
    let spread: Vec<&[u8; 20]> = (0..count)
        .map(|k| &scores[k * scores.len() / count])
        .collect();
    let messages: Vec<Vec<u8>> = spread.iter().map(|score| read_message(score)).collect();
    let ours = time(|| {
        for message in &messages {
            assert_eq!(parts.ask(message), Ok(()));
        }
    });
    let theirs = time(|| {
        for score in spread {
            assert_eq!(parts.ordinary_read(score), Ok(BLOCK));
        }
    });
    [ours, theirs].map(|seconds| seconds / count as f64)
}

/// Stores some blocks in the waiting part, first by the one and then by the other.
fn store(parts: &mut Parts, from: usize) -> [f64; 2] {
    let blocks: Vec<Vec<u8>> = (from..from + STORED).map(data).collect();
    let messages: Vec<Vec<u8>> = blocks.iter().map(|data| write_message(data)).collect();
    let index = parts.index.clone();
    let ours = time(|| {
        for message in &messages {
            assert_eq!(parts.ask(message), Ok(()));
        }
    });
    let stored = std::mem::replace(&mut parts.waiting, vec![0; 256 * 512]);
    let entered = std::mem::replace(&mut parts.index, index);
    let theirs = time(|| {
        for data in &blocks {
            let (log, waiting, index) = (&parts.log, &mut parts.waiting, &mut parts.index);
            let stored = ordinary::store(log, waiting, index, DATE, DATA, data);
            assert!(matches!(stored, ordinary::Stored::New(_)));
        }
    });
    assert!(parts.waiting == stored && parts.index == entered);
    parts.waiting.fill(0);
    [ours, theirs].map(|seconds| seconds / STORED as f64)
}

/// Looks for a block that is not there, so many times by ours.
fn absent(parts: &mut Parts, count: usize) -> [f64; 2] {
    let message = read_message(&[7; 20]);
    let ours = time(|| {
        for _ in 0..count {
            assert_eq!(parts.ask(&message), Err(Refusal::NotHeld));
        }
    });
    let theirs = time(|| {
        for _ in 0..ABSENT {
            let answer = parts.ordinary_read(&[7; 20]);
            assert_eq!(answer, Err(ordinary::Refused::Number(11)));
        }
    });
    [ours / count as f64, theirs / ABSENT as f64]
}

/// The costs in a log of so many sectors.
fn measure(sectors: usize) -> Vec<Cost> {
    let names = [
        "read by index",
        "read by scan",
        "store",
        "absent",
        "learn",
        "read, known",
        "store, known",
        "absent, known",
    ];
    let mut costs = names.map(|name| Cost {
        name,
        rounds: Vec::new(),
    });
    let (mut parts, scores) = full(sectors);
    for _ in 0..ROUNDS {
        let index = parts.index.clone();
        costs[0].rounds.push(read(&mut parts, &scores, BY_INDEX));
        parts.index = Vec::new();
        costs[1].rounds.push(read(&mut parts, &scores, BY_SCAN));
        parts.index = index.clone();
        costs[2].rounds.push(store(&mut parts, scores.len()));
        parts.index = index.clone();
        costs[3].rounds.push(absent(&mut parts, ABSENT));

        // Ordinary Rust learns nothing: its look at the whole log stands beside it.
        let absent_by_scan = costs[3].rounds.last().map_or(0.0, |round| round[1]);
        costs[4]
            .rounds
            .push([time(|| parts.learn()), absent_by_scan]);
        let known = parts.known;
        assert!(known.is_some_and(|known| known.is_exact()));
        costs[5].rounds.push(read(&mut parts, &scores, BY_INDEX));
        costs[6].rounds.push(store(&mut parts, scores.len()));
        (parts.index, parts.known) = (index, known);
        costs[7].rounds.push(absent(&mut parts, ABSENT_KNOWN));
        parts.known = None;
    }
    costs.into()
}

/// Prints lines for each of these lengths, in sectors.
pub fn run(lengths: &[usize]) {
    println!(
        "\nmilliseconds a request in logs that are full of blocks of {BLOCK} bytes, with an index kept; known: ours by what \
         is known, ordinary Rust as before; learn: learned once, beside ordinary Rust's look for an absent block"
    );
    println!(
        "{:>9} {:14} {:>9} {:>11} {:>7}",
        "MiB", "request", "ours", "plain Rust", "ratio"
    );
    for &sectors in lengths {
        for cost in measure(sectors) {
            let each = |k: usize| 1e3 * crate::median(cost.rounds.iter().map(|r| r[k]));
            println!(
                "{:>9} {:14} {:>9.4} {:>11.4} {:>7.4}",
                sectors / 2048,
                cost.name,
                each(0),
                each(1),
                crate::median(cost.rounds.iter().map(|r| r[0] / r[1]))
            );
        }
    }
}
