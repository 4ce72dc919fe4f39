//! A folder of its own for each test, the program run in it, and messages for `serve`.

pub mod saved;
pub mod terminal;

use std::ffi::OsStr;
use std::fs;
use std::io::{Read, Write};
use std::os::fd::AsRawFd;
use std::os::raw::{c_int, c_short, c_ulong};
use std::os::unix::fs::{chown, MetadataExt};
use std::os::unix::process::CommandExt;
use std::path::{Path, PathBuf};
use std::process::{Child, ChildStdin, ChildStdout, Command, Stdio};
use std::sync::atomic::{AtomicUsize, Ordering};

pub const PROGRAM: &str = env!("CARGO_BIN_EXE_skywimple");
/// A user that is nobody here.
pub const OTHER_USER: u32 = 4700;

pub const SECTOR: usize = 512;
/// The payload of a dated sector.
pub const PAYLOAD: usize = 389;
/// The day on which the program is run, as far as it knows, and that moment in seconds since 1970.
pub const DATE: [u8; 8] = *b"20261116";
pub const EPOCH: &str = "1794787200";
/// The most sectors a log may have.
pub const MOST_SECTORS: usize = boundary::MOST_SECTORS;

/// What the program answered.
#[derive(Debug)]
pub struct Answer {
    pub status: i32,
    pub out: Vec<u8>,
    pub err: String,
}

impl Answer {
    /// Standard output as text, without the last line's end.
    pub fn text(&self) -> String {
        let text = String::from_utf8(self.out.clone()).expect("text");
        text.trim_end().to_string()
    }

    /// Fails unless the status is this.
    #[track_caller]
    pub fn with(self, status: i32) -> Answer {
        assert_eq!(self.status, status, "{self:?}");
        self
    }

    /// Fails unless it is a failure with this status, these words, and nothing on standard output.
    #[track_caller]
    pub fn fails(self, status: i32, words: &str) -> Answer {
        assert_eq!(self.status, status, "{self:?}");
        assert!(self.out.is_empty(), "{self:?}");
        assert!(self.err.starts_with("skywimple: "), "{self:?}");
        assert!(self.err.contains(words), "{words}: {self:?}");
        self
    }
}

/// A temporary folder, removed at the end.
pub struct Place {
    pub folder: PathBuf,
    /// The user that the program is run by, where it is not the one who runs the tests, and the
    /// folder that its copy of the program is in.
    other: Option<(u32, PathBuf)>,
}

/// Copies a program, in a process of its own: were the copy written by this one, a program that
/// another test starts meanwhile would hold it open for writing, and nobody could run it.
pub fn copy_program(from: &Path, to: &Path) {
    let copied = Command::new("cp").arg(from).arg(to).status();
    assert!(copied.expect("cp").success(), "a copy of {from:?}");
}

static PLACES: AtomicUsize = AtomicUsize::new(0);

impl Place {
    pub fn new() -> Place {
        let number = PLACES.fetch_add(1, Ordering::Relaxed);
        let name = format!("skywimple-test-{}-{number}", std::process::id());
        let folder = std::env::temp_dir().join(name);
        let _ = fs::remove_dir_all(&folder);
        fs::create_dir(&folder).expect("a temporary folder");
        Place {
            folder,
            other: None,
        }
    }

    /// From here on the program is run by someone who may not do everything: where that is not so
    /// already, by another user, who gets the folder and what is in it.
    pub fn plain_user(&mut self) {
        if !superuser() {
            return;
        }
        let program = PathBuf::from(format!("{}-program", self.folder.display()));
        let _ = fs::remove_dir_all(&program);
        fs::create_dir(&program).expect("a temporary folder");
        copy_program(Path::new(PROGRAM), &program.join("skywimple"));
        let files = fs::read_dir(&self.folder).expect("a folder");
        let files = files.map(|file| file.expect("a file").path());
        for path in files.chain([self.folder.clone()]) {
            chown(path, Some(OTHER_USER), Some(OTHER_USER)).expect("given away");
        }
        self.other = Some((OTHER_USER, program));
    }

    /// A folder with a log named `log`.
    pub fn with_log(sectors: usize) -> Place {
        let place = Place::new();
        let sectors = sectors.to_string();
        place.run(&["init", "log", "--sectors", &sectors]).with(0);
        place
    }

    pub fn path(&self, name: &str) -> PathBuf {
        self.folder.join(name)
    }

    /// Makes the library NAME.so of NAME.c beside this file, for LD_PRELOAD.
    pub fn preload(&self, name: &str) -> PathBuf {
        let folder = concat!(env!("CARGO_MANIFEST_DIR"), "/tests/program/common");
        let library = self.path(&format!("{name}.so"));
        let mut compiler = Command::new("cc");
        compiler.args("-std=gnu99 -Wall -Wextra -Werror -shared -fPIC -o".split(' '));
        let made = compiler.arg(&library).arg(format!("{folder}/{name}.c"));
        assert!(made.status().expect("a C compiler").success());
        library
    }

    pub fn file(&self, name: &str) -> Vec<u8> {
        fs::read(self.path(name)).expect(name)
    }

    pub fn write(&self, name: &str, bytes: impl AsRef<[u8]>) {
        fs::write(self.path(name), bytes).expect(name);
    }

    /// The program with these words, its working folder here.
    pub fn command<W: AsRef<OsStr>>(&self, words: &[W]) -> Command {
        let mut command = match &self.other {
            None => Command::new(PROGRAM),
            Some((user, program)) => {
                let mut command = Command::new(program.join("skywimple"));
                command.uid(*user).gid(*user);
                command
            }
        };
        command
            .args(words)
            .current_dir(&self.folder)
            .env_remove("COLUMNS")
            .env("SOURCE_DATE_EPOCH", EPOCH)
            .stdin(Stdio::null())
            .stdout(Stdio::piped())
            .stderr(Stdio::piped());
        command
    }

    pub fn run<W: AsRef<OsStr>>(&self, words: &[W]) -> Answer {
        let output = self.command(words).output().expect("the program runs");
        Answer {
            status: output.status.code().expect("no signal"),
            out: output.stdout,
            err: String::from_utf8(output.stderr).expect("words"),
        }
    }

    /// Runs it with bytes on standard input.
    pub fn feed<W: AsRef<OsStr>>(&self, words: &[W], input: &[u8]) -> Answer {
        let mut command = self.command(words);
        let mut child = command.stdin(Stdio::piped()).spawn().expect("it runs");
        let mut stdin = child.stdin.take().expect("piped");
        let output = std::thread::scope(|scope| {
            // The program may end before it has read everything.
            scope.spawn(move || stdin.write_all(input).is_ok());
            child.wait_with_output().expect("it ends")
        });
        Answer {
            status: output.status.code().expect("no signal"),
            out: output.stdout,
            err: String::from_utf8(output.stderr).expect("words"),
        }
    }

    /// Stores a block in `log` and gives its score.
    #[track_caller]
    pub fn put(&self, block: &[u8]) -> String {
        self.put_as("data", block)
    }

    #[track_caller]
    pub fn put_as(&self, kind: &str, block: &[u8]) -> String {
        let answer = self.feed(&["put", "log", "--type", kind], block).with(0);
        let score = answer.text();
        assert_eq!(score, hex(&boundary::sha1(block)));
        score
    }

    pub fn get(&self, score: &str) -> Answer {
        self.run(&["get", "log", score])
    }

    #[track_caller]
    pub fn reads(&self, score: &str, block: &[u8]) {
        let answer = self.get(score).with(0);
        assert_eq!(answer.out, block);
        assert_eq!(answer.err, "");
    }

    #[track_caller]
    pub fn not_held(&self, score: &str) {
        self.get(score).fails(11, "not held (11)");
    }

    /// Fails unless a block is not known, the first doubtful sector being this one.
    #[track_caller]
    pub fn not_known_at(&self, score: &str, sector: usize) {
        let byte = sector * SECTOR;
        let place = format!("the first doubtful sector is {sector}, at byte {byte} of the log");
        self.get(score).fails(12, &place);
    }

    #[track_caller]
    pub fn not_known(&self, score: &str) {
        let answer = self.get(score).fails(12, "not known (12)");
        assert!(!answer.err.contains("not held"), "{answer:?}");
    }

    /// Changes the bytes of `log`.
    pub fn damage(&self, change: impl FnOnce(&mut Vec<u8>)) {
        let mut log = self.file("log");
        change(&mut log);
        self.write("log", log);
    }

    /// `serve` over `log`, with pipes.
    pub fn serve(&self) -> Server {
        self.serve_with(&[])
    }

    pub fn serve_with(&self, options: &[&str]) -> Server {
        Server::start(self.command(&[&["serve", "log"], options].concat()))
    }

    /// The same, greeted.
    #[track_caller]
    pub fn greeted(&self, options: &[&str]) -> Server {
        let mut server = self.serve_with(options);
        assert_eq!(server.ask(&HELLO), HELLO_REPLY);
        server
    }
}

impl Drop for Place {
    fn drop(&mut self) {
        let _ = fs::remove_dir_all(&self.folder);
        if let Some((_, program)) = &self.other {
            let _ = fs::remove_dir_all(program);
        }
    }
}

/// A descriptor that is waited for, as poll(2) has it.
#[repr(C)]
struct Awaited {
    descriptor: c_int,
    events: c_short,
    told: c_short,
}

const READABLE: c_short = 1;

extern "C" {
    fn poll(awaited: *mut Awaited, count: c_ulong, milliseconds: c_int) -> c_int;
}

/// A running `serve`.
pub struct Server {
    pub child: Child,
    pub input: Option<ChildStdin>,
    pub output: ChildStdout,
}

impl Server {
    pub fn start(mut command: Command) -> Server {
        let mut child = command.stdin(Stdio::piped()).spawn().expect("it runs");
        Server {
            input: child.stdin.take(),
            output: child.stdout.take().expect("piped"),
            child,
        }
    }

    pub fn send(&mut self, message: &[u8]) {
        let input = self.input.as_mut().expect("open");
        input.write_all(message).expect("it listens");
    }

    /// Waits for output or its end. A server that holds a reply back is to fail its test, not to stop it.
    #[track_caller]
    fn has_answered(&mut self) {
        let mut output = Awaited {
            descriptor: self.output.as_raw_fd(),
            events: READABLE,
            told: 0,
        };
        // SAFETY: the pointer is to one such record, which `poll` writes while it runs.
        let ready = unsafe { poll(&mut output, 1, 60_000) };
        if ready == 0 {
            let _ = self.child.kill();
            panic!("no reply within a minute");
        }
    }

    /// The next reply, whole; none where the output ends.
    #[track_caller]
    pub fn reply(&mut self) -> Option<Vec<u8>> {
        self.has_answered();
        let mut reply = vec![0; 2];
        self.output.read_exact(&mut reply).ok()?;
        let size = u16::from_be_bytes([reply[0], reply[1]]);
        reply.resize(2 + usize::from(size), 0);
        self.has_answered();
        self.output.read_exact(&mut reply[2..]).ok()?;
        Some(reply)
    }

    #[track_caller]
    pub fn ask(&mut self, message: &[u8]) -> Vec<u8> {
        self.send(message);
        self.reply().expect("a reply")
    }

    /// Has what waits on disk.
    #[track_caller]
    pub fn sync(&mut self) {
        assert_eq!(self.ask(&sync_message(9)), sync_reply(9));
    }

    /// Waits until all that it does between two messages is done: by a ping.
    #[track_caller]
    pub fn rested(&mut self) {
        assert_eq!(self.ask(&message(2, 8, b"")), message(3, 8, b""));
    }

    /// Stores a block, and has it on disk.
    #[track_caller]
    pub fn store(&mut self, tag: u8, block: &[u8]) {
        let reply = self.ask(&write_message(tag, block));
        assert_eq!(reply, write_reply(tag, block));
        self.sync();
    }

    /// Closes its input and waits; its status and words.
    pub fn end(mut self) -> (i32, String) {
        drop(self.input.take());
        let mut err = String::new();
        let mut stderr = self.child.stderr.take().expect("piped");
        stderr.read_to_string(&mut err).expect("words");
        let status = self.child.wait().expect("it ends");
        (status.code().expect("no signal"), err)
    }
}

pub const HELLO: [u8; 13] = [0, 11, 4, 0, 0, 2, b'0', b'2', 0, 0, 0, 0, 0];
pub const HELLO_REPLY: [u8; 8] = [0, 6, 5, 0, 0, 0, 0, 0];

pub fn message(kind: u8, tag: u8, body: &[u8]) -> Vec<u8> {
    let size = (body.len() + 2) as u16;
    [&size.to_be_bytes()[..], &[kind, tag], body].concat()
}

pub fn write_message(tag: u8, data: &[u8]) -> Vec<u8> {
    message(14, tag, &[&[13, 0, 0, 0], data].concat())
}

pub fn write_reply(tag: u8, data: &[u8]) -> Vec<u8> {
    message(15, tag, &boundary::sha1(data))
}

pub fn read_message(tag: u8, data: &[u8]) -> Vec<u8> {
    let score = boundary::sha1(data);
    message(12, tag, &[&score[..], &[13, 0, 0xff, 0xff]].concat())
}

pub fn sync_message(tag: u8) -> Vec<u8> {
    message(16, tag, b"")
}

pub fn sync_reply(tag: u8) -> Vec<u8> {
    message(17, tag, b"")
}

/// The error reply of a refusal other than 12.
pub fn error_reply(tag: u8, number: u8) -> Vec<u8> {
    let text = format!("why={number:02}");
    message(1, tag, &[&[0, 6], text.as_bytes()].concat())
}

/// That of 12, with the first doubtful sector.
pub fn not_known_reply(tag: u8, sector: usize) -> Vec<u8> {
    let text = format!("why=12 at={sector:08x}");
    message(1, tag, &[&[0, 18], text.as_bytes()].concat())
}

pub fn goodbye() -> Vec<u8> {
    message(6, 0, b"")
}

pub fn hex(bytes: &[u8]) -> String {
    bytes.iter().map(|byte| format!("{byte:02x}")).collect()
}

pub fn used(log: &[u8]) -> usize {
    let used = |sector: &[u8]| sector.iter().any(|byte| *byte != 0);
    log.chunks(SECTOR)
        .rposition(used)
        .map_or(0, |last| last + 1)
}

/// The score of these bytes.
pub fn score(block: &[u8]) -> String {
    hex(&boundary::sha1(block))
}

/// Different bytes for each seed.
pub fn block(seed: usize, length: usize) -> Vec<u8> {
    let mut state = seed as u64 * 2 + 1;
    let mut next = || {
        state = state.wrapping_mul(6_364_136_223_846_793_005);
        state = state.wrapping_add(1_442_695_040_888_963_407);
        (state >> 56) as u8
    };
    (0..length).map(|_| next()).collect()
}

/// The first 320 bytes of the two files with one SHA-1, published in 2017.
pub fn collision() -> [Vec<u8>; 2] {
    let mut lines = include_str!("collision.txt").lines();
    [0, 1].map(|_| saved::unhex(lines.next().expect("two lines")))
}

/// A mark's file: its lines at the front and at byte 4,096.
pub fn mark(sectors: usize, used: usize) -> String {
    let lines = mark_lines(sectors, used);
    format!("{lines:\0<4096}{lines}")
}

/// The lines of a mark.
pub fn mark_lines(sectors: usize, used: usize) -> String {
    let lines = format!("sectors={sectors:08x}\nused={used:08x}\n");
    let crc = boundary::crc32(lines.as_bytes());
    format!("{lines}crc={crc:08x}\n")
}

/// Whether the tests are run by the superuser, who may do everything.
pub fn superuser() -> bool {
    fs::metadata("/proc/self").expect("a process").uid() == 0
}

/// Says that a part of a test was not run, also where the test passes.
pub fn skipped(what: &str) {
    // Not by a macro: their output is kept from view.
    let _ = writeln!(std::io::stderr(), "SKIPPED: {what}");
}

/// Whether a folder has only these files. The index of a log, which a writer leaves there, does not count
/// unless it is named.
pub fn only(folder: &Path, names: &[&str]) -> bool {
    let mut found: Vec<_> = fs::read_dir(folder)
        .expect("a folder")
        .map(|entry| entry.expect("an entry").file_name())
        .filter(|name| {
            !name.as_encoded_bytes().ends_with(b".index") || names.iter().any(|n| n == name)
        })
        .collect();
    found.sort();
    found == names
}
