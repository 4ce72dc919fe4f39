//! The speed of the proved functions beside ordinary Rust: same machine, same input, both built for
//! release. Prints a table, and stops before it where two results differ.

mod blank;
mod durable;
mod files;
mod log;
mod parts;
mod sizes;

use plain::random::Random;
use std::fmt::Debug;
use std::hint::black_box;
use std::process::ExitCode;
use std::time::Instant;

const BLOCK: usize = 8192;
/// How often both are measured, by turns, and how long each time, in seconds.
const SAMPLES: usize = 201;
const SAMPLE: f64 = 0.005;

const HELP: &str = "\
bench [checks | four | durable FOLDER] [--help]

Measures the proved functions beside ordinary Rust, both built for release, by turns on the same
input, and prints tables. Where two results differ it stops before that.

Without a word it measures the first two of these, and what a request costs in logs of 2 to 512 MiB, mostly
blank and full, by scan, by index and by what is known: two to three minutes, and 540 MiB of memory.

checks   SHA-1 and CRC-32 alone: four seconds
four     storing and reading 1,000 blocks, by scan and with an index: ten to twenty seconds
durable  blocks that are on disk when they are answered for, in a new folder below FOLDER (or below this
         one): through `skywimple serve`, which has to be built beside this program, and through `sqlite3`.
         About a minute, by the disk
";

fn main() -> ExitCode {
    match std::env::args().nth(1).as_deref() {
        None => measure(),
        Some("checks") => checks(),
        Some("four") => log::four(),
        Some("--help" | "-h") => print!("{HELP}"),
        Some("durable") => {
            let folder = std::env::args_os().nth(2).unwrap_or_else(|| ".".into());
            if let Err(e) = durable::run(folder.as_ref()) {
                eprintln!("bench: {e}");
                return ExitCode::FAILURE;
            }
        }
        Some(word) => {
            eprintln!("bench: {word} isn't known. `bench --help` says what it takes.");
            return ExitCode::from(2);
        }
    }
    ExitCode::SUCCESS
}

fn measure() {
    checks();
    log::run();
    blank::run(&[4_096, 131_072, 1_048_576]);
    files::run(&[(1_024, 401), (16_384, 15)]);
    sizes::run(&[32_768, 131_072, 1_048_576]);
}

fn checks() {
    println!(
        "blocks of {BLOCK} bytes; medians of {SAMPLES} samples; ratio: our time over plain Rust's; best: of the best samples"
    );
    println!(
        "{:8} {:>10} {:>16} {:>7} {:>7}",
        "name", "ours MB/s", "plain Rust MB/s", "ratio", "best"
    );
    compare("sha1", boundary::sha1, plain::sha1::sha1);
    compare("crc32", boundary::crc32, plain::crc32::crc32);
}

/// Compares the results on random inputs, then the speed.
fn compare<R: PartialEq + Debug>(name: &str, ours: fn(&[u8]) -> R, plain: fn(&[u8]) -> R) {
    let mut random = Random::new(1);
    for length in (0..300).chain([BLOCK - 1, BLOCK, 57_344]) {
        let input = random.bytes(length);
        assert_eq!(
            ours(&input),
            plain(&input),
            "{name} of {length} bytes: {input:02x?}"
        );
    }

    let input = random.bytes(BLOCK);
    let mut calls = 1;
    while time(plain, &input, calls) < SAMPLE {
        calls *= 2;
    }
    let samples: Vec<[f64; 2]> = (0..SAMPLES)
        .map(|_| [time(ours, &input, calls), time(plain, &input, calls)])
        .collect();
    let speed =
        |of: fn(&[f64; 2]) -> f64| (calls * BLOCK) as f64 / 1e6 / median(samples.iter().map(of));
    let ratio = median(samples.iter().map(|s| s[0] / s[1]));
    let best = |of: fn(&[f64; 2]) -> f64| samples.iter().map(of).fold(f64::MAX, f64::min);
    println!(
        "{name:8} {:>10.0} {:>16.0} {ratio:>7.2} {:>7.2}",
        speed(|s| s[0]),
        speed(|s| s[1]),
        best(|s| s[0]) / best(|s| s[1])
    );
}

/// How many seconds so many calls take.
fn time<R>(f: fn(&[u8]) -> R, input: &[u8], calls: usize) -> f64 {
    let start = Instant::now();
    for _ in 0..calls {
        black_box(f(black_box(input)));
    }
    start.elapsed().as_secs_f64()
}

fn median(numbers: impl Iterator<Item = f64>) -> f64 {
    let mut sorted: Vec<f64> = numbers.collect();
    sorted.sort_by(f64::total_cmp);
    sorted[sorted.len() / 2]
}
