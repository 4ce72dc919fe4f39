//! Blocks that are on disk when they are answered for: through the program, and through sqlite on the same
//! disk. Each is one process that is fed all of them from a file; a sync, or a commit, comes after every ten
//! blocks, or after each. And once more after each, by a client of ours that waits for every answer.

use std::fs::{self, File};
use std::io::{self, ErrorKind, Read, Write};
use std::path::Path;
use std::process::{Command, Stdio};

use plain::random::Random;

use crate::parts::{time, write_message, BLOCK, DATA, PARTS, SYNC};

const BLOCKS: usize = 1000;
const ROUNDS: usize = 5;
const HELLO: [u8; 13] = [0, 11, 4, 0, 0, 2, b'0', b'2', 0, 0, 0, 0, 0];
const TABLE: &str = "PRAGMA journal_mode=WAL; \
    CREATE TABLE block (type INTEGER, score BLOB, data BLOB, PRIMARY KEY (type, score));";
/// What sqlite takes the blocks from: as text they would cost more to parse than to store.
const SOURCE: &str = "CREATE TABLE given (number INTEGER PRIMARY KEY, score BLOB, data BLOB);\n";

const WHAT: &str = "\
skywimple: `serve` reads write messages, computes each SHA-1, looks for a duplicate, answers;
           the log is synced, then its mark beside it, before a sync is answered; syncs that have come one
           behind the other go to disk together, but where the client waits for each answer (1, waited for)
sqlite:    `sqlite3` with a write-ahead log and synchronous=FULL copies the blocks and their scores from another
           database, a transaction at a time; it computes no SHA-1
Neither `init` nor CREATE TABLE is timed; the start and the end of the process are.";

/// Measures in a new folder below this one.
pub fn run(folder: &Path) -> io::Result<()> {
    let folder = folder.join(format!("durable-{}", std::process::id()));
    fs::create_dir(&folder)?;
    let measured = measure(&folder);
    fs::remove_dir_all(&folder)?;
    measured
}

fn measure(folder: &Path) -> io::Result<()> {
    let mut random = Random::new(3);
    let blocks: Vec<Vec<u8>> = (0..BLOCKS).map(|_| random.bytes(BLOCK)).collect();
    fs::write(folder.join("given.sql"), given(&blocks))?;
    let mut command = sqlite3(folder, "given.db");
    run_fed(&mut command, Some(&folder.join("given.sql")))?;
    println!(
        "{BLOCKS} different blocks of {BLOCK} bytes on disk, seconds; of {ROUNDS} rounds by turns the median; ratio: \
         skywimple's time over sqlite's\n{WHAT}"
    );
    println!(
        "{:>13} {:>9} {:>9} {:>7}",
        "blocks/sync", "skywimple", "sqlite", "ratio"
    );
    let fed = |program: &Path, log: &Path| {
        let mut serve = Command::new(program);
        run_fed(serve.arg("serve").arg(log), Some(&folder.join("messages")))
    };
    let waited_for = |program: &Path, log: &Path| asked(program, log, &blocks);
    let ways: [(&str, usize, &Feed); 3] = [
        ("10", 10, &fed),
        ("1", 1, &fed),
        ("1, waited for", 1, &waited_for),
    ];
    for (name, batch, feed) in ways {
        fs::write(folder.join("messages"), messages(&blocks, batch))?;
        fs::write(folder.join("script"), script(batch))?;
        let mut rounds = Vec::new();
        for _ in 0..ROUNDS {
            rounds.push([ours(folder, feed)?, sqlite(folder)?]);
        }
        let of = |k: usize| crate::median(rounds.iter().map(|round| round[k]));
        let ratio = crate::median(rounds.iter().map(|round| round[0] / round[1]));
        println!("{name:>13} {:>9.3} {:>9.3} {ratio:>7.2}", of(0), of(1));
    }
    Ok(())
}

/// How long a program takes for the blocks in a log.
type Feed<'a> = dyn Fn(&Path, &Path) -> io::Result<f64> + 'a;

/// Asks for each block and its sync, and waits for the answers before the next.
fn asked(program: &Path, log: &Path, blocks: &[Vec<u8>]) -> io::Result<f64> {
    let mut done = Ok(());
    let seconds = time(|| done = ask_each(program, log, blocks));
    done.map(|()| seconds)
}

fn ask_each(program: &Path, log: &Path, blocks: &[Vec<u8>]) -> io::Result<()> {
    let mut serve = Command::new(program);
    serve.arg("serve").arg(log);
    let mut server = serve.stdin(Stdio::piped()).stdout(Stdio::piped()).spawn()?;
    let (input, output) = (server.stdin.take(), server.stdout.take());
    let (Some(mut input), Some(mut output)) = (input, output) else {
        return Err(ErrorKind::BrokenPipe.into());
    };
    let mut reply = [0; 8 + 24 + 4];
    input.write_all(&HELLO)?;
    output.read_exact(&mut reply[..8])?;
    for block in blocks {
        input.write_all(&[&write_message(block)[..], &SYNC].concat())?;
        output.read_exact(&mut reply[8..])?;
    }
    drop(input);
    match server.wait()?.success() {
        true => Ok(()),
        false => Err(io::Error::other("serve failed")),
    }
}

fn messages(blocks: &[Vec<u8>], batch: usize) -> Vec<u8> {
    let batches = blocks.chunks(batch).flat_map(|blocks| {
        let writes = blocks.iter().map(|block| write_message(block));
        writes.chain([SYNC.to_vec()])
    });
    [HELLO.to_vec()]
        .into_iter()
        .chain(batches)
        .flatten()
        .collect()
}

/// The other database, with the blocks by their numbers.
fn given(blocks: &[Vec<u8>]) -> String {
    let rows = blocks.iter().enumerate().map(|(number, block)| {
        let (score, data) = (hex(&plain::sha1::sha1(block)), hex(block));
        format!("INSERT INTO given VALUES ({number}, x'{score}', x'{data}');\n")
    });
    format!("{SOURCE}BEGIN;\n{}COMMIT;\n", rows.collect::<String>())
}

fn script(batch: usize) -> String {
    let batches = (0..BLOCKS).step_by(batch).map(|first| {
        let last = first + batch - 1;
        format!(
            "BEGIN;\nINSERT OR IGNORE INTO block SELECT {DATA}, score, data FROM given \
             WHERE number BETWEEN {first} AND {last};\nCOMMIT;\n"
        )
    });
    let begin = "PRAGMA synchronous=FULL;\nATTACH 'given.db' AS other;\n";
    begin.to_string() + &batches.collect::<String>()
}

fn hex(bytes: &[u8]) -> String {
    bytes.iter().map(|byte| format!("{byte:02x}")).collect()
}

/// The program beside this one.
fn ours(folder: &Path, feed: &Feed) -> io::Result<f64> {
    let program = std::env::current_exe()?.with_file_name("skywimple");
    let log = folder.join("log");
    let sectors = (BLOCKS * PARTS).to_string();
    let mut init = Command::new(&program);
    run_fed(
        init.arg("init").arg(&log).args(["--sectors", &sectors]),
        None,
    )?;
    let seconds = feed(&program, &log)?;
    let mut report = Command::new(&program);
    holds(report.arg("report").arg(&log), &format!("records={BLOCKS}"))?;
    remove(folder, &["log", "log.mark", "log.index"])?;
    Ok(seconds)
}

fn sqlite(folder: &Path) -> io::Result<f64> {
    let mut create = sqlite3(folder, "blocks.db");
    run_fed(create.arg(TABLE), None)?;
    let mut insert = sqlite3(folder, "blocks.db");
    let seconds = run_fed(&mut insert, Some(&folder.join("script")))?;
    let mut count = sqlite3(folder, "blocks.db");
    let wanted = format!("{BLOCKS}\n");
    holds(count.arg("SELECT count(*) FROM block;"), &wanted)?;
    remove(folder, &["blocks.db", "blocks.db-wal", "blocks.db-shm"])?;
    Ok(seconds)
}

fn sqlite3(folder: &Path, database: &str) -> Command {
    let mut command = Command::new("sqlite3");
    command.arg("-bail").arg(database).current_dir(folder);
    command
}

fn remove(folder: &Path, names: &[&str]) -> io::Result<()> {
    for name in names {
        match fs::remove_file(folder.join(name)) {
            Err(e) if e.kind() != ErrorKind::NotFound => return Err(e),
            _ => {}
        }
    }
    Ok(())
}

/// How long a command takes, which has to succeed.
fn run_fed(command: &mut Command, input: Option<&Path>) -> io::Result<f64> {
    let input = input.map_or(Ok(Stdio::null()), |path| File::open(path).map(Stdio::from))?;
    command.stdin(input).stdout(Stdio::null());
    let mut done = Ok(false);
    let seconds = time(|| done = command.status().map(|status| status.success()));
    match done? {
        true => Ok(seconds),
        false => Err(io::Error::other(format!("{command:?} failed"))),
    }
}

/// That all blocks are there: what a command prints has these words.
fn holds(command: &mut Command, words: &str) -> io::Result<()> {
    let printed = command.output()?.stdout;
    match String::from_utf8_lossy(&printed).contains(words) {
        true => Ok(()),
        false => Err(io::Error::other(format!("{command:?} has not {words}"))),
    }
}
