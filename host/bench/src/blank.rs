//! What a request costs in a log that is mostly blank: 100 blocks at its front, nothing after them.

use boundary::Refusal;
use plain::random::Random;

use crate::parts::{read_message, time, write_message, Parts, BLOCK, SYNC};

const BLOCKS: usize = 100;
const ROUNDS: usize = 5;

/// Prints a line for each of these lengths, in sectors.
pub fn run(lengths: &[usize]) {
    println!("\nmilliseconds a request, {BLOCKS} blocks of {BLOCK} bytes at the front of a log that is blank from there on");
    println!(
        "{:>9} {:>9} {:>9} {:>9} {:>9} {:>9} {:>9}",
        "sectors", "ping", "read", "absent", "write", "sync", "again"
    );
    for &sectors in lengths {
        let mut random = Random::new(3);
        let mut parts = Parts::new(sectors, 0);
        let mut ask = |message: &[u8], expected: Result<(), Refusal>| {
            let mut answer = Ok(());
            let spent = time(|| answer = parts.ask(message));
            assert_eq!(answer, expected);
            1e3 * spent
        };
        let mut rounds = vec![];
        for round in 0..ROUNDS {
            let count = if round == 0 { BLOCKS } else { 1 };
            let mut last = vec![];
            let (mut write, mut sync) = (0.0, 0.0);
            for _ in 0..count {
                last = random.bytes(BLOCK);
                write = ask(&write_message(&last), Ok(()));
                sync = ask(&SYNC, Ok(()));
            }
            let score = plain::sha1::sha1(&last);
            rounds.push([
                ask(&[0, 2, 2, 7], Ok(())),
                ask(&read_message(&score), Ok(())),
                ask(&read_message(&[7; 20]), Err(Refusal::NotHeld)),
                write,
                sync,
                ask(&write_message(&last), Ok(())),
            ]);
        }
        let cost = |k: usize| crate::median(rounds.iter().map(|round| round[k]));
        println!(
            "{sectors:>9} {:>9.3} {:>9.2} {:>9.2} {:>9.2} {:>9.2} {:>9.2}",
            cost(0),
            cost(1),
            cost(2),
            cost(3),
            cost(4),
            cost(5)
        );
    }
}
