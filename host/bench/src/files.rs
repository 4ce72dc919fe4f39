//! Writing a file by the writing call, beside the same blocks as write messages: the same log, the same
//! waiting part, and the same bytes in it afterwards. Both are the proved archive's.

use boundary::{write_file, FILE_SCORES};
use plain::random::Random;

use crate::parts::{time, Parts, DATA, DATE};

/// The file: its bytes, and the sizes of its leaves and of a pointer block.
const SLICE: usize = 57_344;
const DSIZE: usize = 1_024;
const PSIZE: usize = 8_192;
/// The type of a pointer block of level 1.
const POINTER: u8 = 3;

/// The write message of a block of any type.
fn message(kind: u8, data: &[u8]) -> Vec<u8> {
    let size = (data.len() + 6) as u16;
    [&size.to_be_bytes()[..], &[14, 1, kind, 0, 0, 0], data].concat()
}

/// The blocks of the file as messages: its leaves, and the pointer block over their scores.
fn messages(slice: &[u8]) -> Vec<Vec<u8>> {
    let leaves = slice.chunks(DSIZE);
    let scores: Vec<u8> = leaves.clone().flat_map(plain::sha1::sha1).collect();
    assert!(scores.len() <= PSIZE, "one pointer block");
    leaves
        .map(|leaf| message(DATA, leaf))
        .chain([message(POINTER, &scores)])
        .collect()
}

/// The median of both, in milliseconds, and of their ratio, in a blank log of so many sectors.
fn measure(sectors: usize, rounds: usize) -> (f64, f64, f64) {
    let mut slice = Random::new(3).bytes(SLICE);
    for leaf in slice.chunks_mut(DSIZE) {
        // no zero at the end: nothing is cut
        leaf[DSIZE - 1] |= 1;
    }
    let messages = messages(&slice);
    let mut called = Parts::new(sectors, 0);
    let mut asked = Parts::new(sectors, 0);
    let mut scores = vec![0; FILE_SCORES];
    let rounds: Vec<[f64; 2]> = (0..rounds)
        .map(|_| {
            called.waiting.fill(0);
            asked.waiting.fill(0);
            let call = time(|| {
                let (log, waiting) = (&called.log, &mut called.waiting);
                let written = write_file(log, waiting, &DATE, &slice, (DSIZE, PSIZE), &mut scores);
                assert!(written.is_ok());
            });
            let writes = time(|| {
                for message in &messages {
                    assert_eq!(asked.ask(message), Ok(()));
                }
            });
            assert!(called.waiting == asked.waiting, "the same bytes");
            [call, writes]
        })
        .collect();
    let each = |k: usize| 1e3 * crate::median(rounds.iter().map(|r| r[k]));
    let ratio = crate::median(rounds.iter().map(|r| r[0] / r[1]));
    (each(0), each(1), ratio)
}

/// Prints a line for each of these lengths, in sectors, each measured so often.
pub fn run(lengths: &[(usize, usize)]) {
    println!(
        "\nmilliseconds to write a file of {SLICE} bytes, leaves of {DSIZE}, by the writing call and as write messages \
         of the same blocks, in blank logs without an index; ratio: the call's time over the messages'"
    );
    println!(
        "{:>9} {:>9} {:>9} {:>7}",
        "sectors", "call", "messages", "ratio"
    );
    for &(sectors, rounds) in lengths {
        let (call, writes, ratio) = measure(sectors, rounds);
        println!("{sectors:>9} {call:>9.3} {writes:>9.3} {ratio:>7.2}");
    }
}
