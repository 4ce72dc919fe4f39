//! The program on a disk that fails at any step, and loses then what was not synced: nothing that a
//! sync acknowledged is lost.

use std::ffi::OsString;
use std::fs::{self, File};
use std::io;
use std::os::unix::fs::FileExt;
use std::path::{Path, PathBuf};
use std::thread;

use boundary::{sha1, Refusal};

use crate::command;
use crate::faults::Lost;
use crate::faults::{self, every_fault, on_failing_disk, on_good_disk};
use crate::faults::{How, LOSSES, UNREADABLE, UNREADABLE_MARK};
use crate::format::SECTOR;
use crate::hex;
use crate::mark::{self, Found, Mark};
use crate::reader::{self, Reader};
use crate::session::{Answers, Client};
use crate::status::Failure;
use crate::streams::Streams;
use crate::unique;
use crate::writer::Writer;

/// A folder of its own, removed at the end.
pub struct Folder(PathBuf);

impl Folder {
    pub fn new() -> Folder {
        let thread = format!("{:?}", thread::current().id());
        let name = format!("skywimple-fault-{}-{thread}", unique::name());
        // In memory where that is to be had: a disk takes its time to replace what isn't synced.
        let memory = PathBuf::from("/dev/shm");
        let base = if memory.is_dir() {
            memory
        } else {
            std::env::temp_dir()
        };
        let path = base.join(name);
        fs::create_dir(&path).unwrap();
        Folder(path)
    }

    /// A folder with a log of 24 sectors that has one of the blocks.
    pub fn with(at: usize) -> Folder {
        let folder = Folder::new();
        on_good_disk(|| {
            assert_eq!(folder.run("init", &["--sectors", "24"]), 0);
            quietly(|streams| {
                let mut writer = Writer::open(&folder.log(), false, streams).unwrap();
                let mut client = Client::greet_on_disk(&mut writer, streams).unwrap();
                let stored = client.store(&mut writer, 13, &blocks()[at], streams);
                assert!(stored.unwrap().is_ok());
                client.sync(&mut writer, streams).unwrap();
            });
        });
        folder
    }

    pub fn log(&self) -> PathBuf {
        self.0.join("log")
    }

    /// The status of a command on the log.
    pub fn run(&self, command: &str, more: &[&str]) -> u8 {
        let mut words = vec![OsString::from(command), self.log().into_os_string()];
        words.extend(more.iter().map(OsString::from));
        quietly(|streams| command::run(&words, streams))
    }

    pub fn files(&self) -> usize {
        fs::read_dir(&self.0).unwrap().count()
    }
}

impl Drop for Folder {
    fn drop(&mut self) {
        let _ = fs::remove_dir_all(&self.0);
    }
}

pub fn quietly<R>(act: impl FnOnce(&mut Streams) -> R) -> R {
    act(&mut Streams {
        input: &mut io::empty(),
        out: &mut io::sink(),
        err: &mut io::sink(),
        out_terminal: false,
        err_terminal: false,
        progress: false,
    })
}

fn block(seed: u8, length: usize) -> Vec<u8> {
    vec![seed; length]
}

/// The first is stored before anything fails, is damaged later and stored once more.
pub fn blocks() -> [Vec<u8>; 4] {
    [block(1, 500), block(2, 1000), block(3, 10), block(4, 404)]
}

/// Stores the blocks, in order 1, 2, 0, 3, with a sync after each two, until a step fails. Which were
/// acknowledged by a sync.
fn store(log: &Path) -> Result<Vec<usize>, (Vec<usize>, Failure)> {
    let mut acknowledged = vec![0];
    let stored = quietly(|streams| {
        let mut writer = Writer::open(log, false, streams)?;
        let mut client = Client::greet_on_disk(&mut writer, streams)?;
        for pair in [[1, 2], [0, 3]] {
            if pair[0] == 0 {
                damage_first(log);
                acknowledged.retain(|at| *at != 0);
            }
            for at in pair {
                let stored = client.store(&mut writer, 13, &blocks()[at], streams)?;
                assert_eq!(stored, Ok(sha1(&blocks()[at])));
            }
            client.sync(&mut writer, streams)?;
            acknowledged.extend(pair);
        }
        Ok(())
    });
    match stored {
        Ok(()) => Ok(acknowledged),
        Err(failure) => Err((acknowledged, failure)),
    }
}

/// Damage in the first block's second sector, on disk.
fn damage_first(log: &Path) {
    let file = File::options().write(true).open(log).unwrap();
    file.write_all_at(b"damage", SECTOR as u64 + 200).unwrap();
}

/// What a sync acknowledged is read; any other block is whole, not held or not known.
fn check(log: &Path, acknowledged: &[usize]) {
    check_blocks(log, &blocks(), acknowledged);
}

/// The same of these blocks.
pub fn check_blocks(log: &Path, blocks: &[Vec<u8>], acknowledged: &[usize]) {
    let mut bytes = quietly(|streams| reader::read(log, false, streams)).unwrap();
    let mut client = Client::greet(&mut bytes).unwrap();
    for (at, block) in blocks.iter().enumerate() {
        let read = client.read(&mut bytes, 13, &sha1(block), u16::MAX);
        match read {
            Ok(found) => assert_eq!(found, block),
            Err(refusal) => {
                assert!(!acknowledged.contains(&at), "block {at} is lost: {refusal}");
                assert!(matches!(
                    refusal,
                    Refusal::NotHeld | Refusal::NotKnown { .. }
                ));
            }
        }
    }
}

#[test]
fn nothing_acknowledged_is_lost() {
    every_fault(|step, how, lost| {
        let folder = Folder::with(0);
        let log = folder.log();
        let mut acknowledged = Vec::new();
        let failed = on_failing_disk(step, how, lost, || {
            let stored = store(&log);
            acknowledged = match stored {
                Ok(all) => all,
                Err((some, failure)) => {
                    assert_eq!(failure.status, 74, "{}", failure.words);
                    assert!(failure.words.contains("the disk failed"));
                    some
                }
            };
        });
        assert_eq!(failed, acknowledged.len() < 4, "a failed step ends it");
        // The mark is on disk too: were the tail lost besides, that would be seen.
        let end = match acknowledged[..] {
            [0] => 2,
            [0, ..] | [1, 2] => 6,
            _ => 10,
        };
        assert!(marked(&log) >= end, "{step} {how:?} {lost:?}");
        on_good_disk(|| {
            check(&log, &acknowledged);
            // And the log goes on, with nothing left over.
            store(&log).map_err(|(_, failure)| failure.words).unwrap();
            check(&log, &[0, 1, 2, 3]);
        });
        assert_eq!(folder.files(), 3, "log, mark and index");
        failed
    });
}

/// A place of the mark that cannot be read stops nobody, and the next writer has both again.
#[test]
fn an_unreadable_place_of_the_mark() {
    for place in [0, 4096] {
        let folder = Folder::with(0);
        let log = folder.log();
        on_good_disk(|| {
            UNREADABLE_MARK.set(Some(place));
            check(&log, &[0]);
            let stored = store(&log);
            UNREADABLE_MARK.set(None);
            stored.map_err(|(_, failure)| failure.words).unwrap();
            check(&log, &[0, 1, 2, 3]);
            for other in [0, 4096] {
                UNREADABLE_MARK.set(Some(other));
                assert_eq!(marked(&log), 10);
            }
            UNREADABLE_MARK.set(None);
        });
    }
}

/// A log that was lengthened, and a stop while its mark is renewed: it is served, by one mark or the other.
#[test]
fn a_longer_log_is_marked() {
    every_fault(|step, how, lost| {
        let folder = Folder::with(0);
        let log = folder.log();
        let file = File::options().write(true).open(&log).unwrap();
        file.set_len(48 * SECTOR as u64).unwrap();
        let failed = on_failing_disk(step, how, lost, || {
            let _ = store(&log);
        });
        on_good_disk(|| {
            store(&log).map_err(|(_, failure)| failure.words).unwrap();
            check(&log, &[0, 1, 2, 3]);
        });
        failed
    });
}

/// The next writer after one whose disk failed, before the machine stops: it finds in the file
/// what the disk may not have, and acknowledges nothing that can be lost.
#[test]
fn the_writer_after_a_failure() {
    every_fault(|step, how, lost| {
        let folder = Folder::with(0);
        let log = folder.log();
        let failed = on_failing_disk(step, how, lost, || {
            if store(&log).is_err() {
                store(&log).map_err(|(_, failure)| failure.words).unwrap();
            }
        });
        on_good_disk(|| check(&log, &[1, 2, 3]));
        failed
    });
}

/// The mark of a log.
pub fn marked(log: &Path) -> usize {
    match Mark::find(&mark::path_of(log)) {
        Ok(Found::Good(mark)) => mark.used,
        _ => panic!("no mark"),
    }
}

/// Stores a block in a log that is open.
fn store_one(log: &mut dyn Answers, block: &[u8]) -> Result<(), Refusal> {
    quietly(|streams| {
        let mut client = Client::greet_on_disk(log, streams).unwrap();
        let stored = client.store(log, 13, block, streams).unwrap();
        stored.map(|score| assert_eq!(score, sha1(block)))
    })
}

/// A log with a block in sectors 0 and 1, and behind its mark another of three sectors that a crash
/// left there, written and not synced. Opened while a sector cannot be read; then a write of the
/// second block, and how it was answered, and the marks before and after it.
fn opened_with_unreadable(log: &Path, sector: u64) -> (Result<(), Refusal>, [usize; 2]) {
    let left = {
        let mut bytes = fs::read(log).unwrap();
        let mut client = Client::greet(&mut bytes).unwrap();
        client.write(&mut bytes, 13, &blocks()[1]).unwrap();
        bytes[2 * SECTOR..5 * SECTOR].to_vec()
    };
    let file = File::options().read(true).write(true).open(log).unwrap();
    let written = faults::write(&file, &left, 2 * SECTOR as u64);
    written.unwrap().unwrap();
    UNREADABLE.set(Some(sector));
    let mut writer = quietly(|streams| Writer::open(log, false, streams)).unwrap();
    let before = marked(log);
    let stored = store_one(&mut writer, &blocks()[1]);
    UNREADABLE.set(None);
    (stored, [before, marked(log)])
}

/// What a crash left behind the mark is on disk, and marked, before it is acknowledged, wherever the
/// sector is that cannot be read.
#[test]
fn found_behind_the_mark_beside_an_unreadable_sector() {
    for lost in LOSSES {
        for (sector, seen) in [(0, 5), (3, 5), (4, 4), (5, 5), (20, 5)] {
            let folder = Folder::with(0);
            let log = folder.log();
            let mut answered = None;
            on_failing_disk(usize::MAX, How::Before, lost, || {
                answered = Some(opened_with_unreadable(&log, sector));
            });
            let (stored, marks) = answered.unwrap();
            assert_eq!(stored, Ok(()));
            assert_eq!(marks, [seen, seen], "nothing is marked that was not seen");
            // Where the second block could not be read it was stored anew, and waited.
            let found: &[usize] = match sector {
                3 | 4 => &[0],
                _ => &[0, 1],
            };
            on_good_disk(|| check(&log, found));
        }
    }
}

/// A sector that cannot be read for a while, in a log without room: nothing is acknowledged
/// meanwhile, and nothing is forgotten.
#[test]
fn an_unreadable_sector_that_passes() {
    let folder = Folder::with(0);
    on_good_disk(|| {
        let log = folder.log();
        let mut bytes = fs::read(&log).unwrap();
        bytes.truncate(2 * SECTOR);
        fs::write(&log, bytes).unwrap();
        let full = Mark {
            sectors: 2,
            used: 2,
        };
        fs::write(mark::path_of(&log), full.text()).unwrap();
        let reader = quietly(|streams| Reader::open(&log, streams)).unwrap();
        let writer = quietly(|streams| Writer::open(&log, false, streams)).unwrap();
        let logs: [Box<dyn Answers>; 2] = [Box::new(reader), Box::new(writer)];
        for mut log in logs {
            UNREADABLE.set(Some(1));
            let stored = store_one(&mut *log, &blocks()[0]);
            UNREADABLE.set(None);
            assert_eq!(stored, Err(Refusal::NoRoom));
            assert_eq!(store_one(&mut *log, &blocks()[0]), Ok(()));
        }
    });
}

/// Where the index leads to a block, `get` needs that block's sectors alone; one of its own that cannot be read is
/// "not known", and so is whatever is not found while any sector cannot be read.
#[test]
fn got_beside_an_unreadable_sector() {
    let folder = Folder::with(0);
    on_good_disk(|| {
        let mut writer = quietly(|streams| Writer::open(&folder.log(), false, streams)).unwrap();
        assert_eq!(store_one(&mut writer, &blocks()[1]), Ok(()));
        writer.settle().unwrap();
        drop(writer);
        let got = |unreadable, block: &[u8]| {
            UNREADABLE.set(unreadable);
            let status = folder.run("get", &[&hex::encode(&sha1(block))]);
            UNREADABLE.set(None);
            status
        };
        // The first block is in the sectors 0 and 1, the second in 2 to 4.
        let [first, second, absent, _] = blocks();
        let cases = [
            (None, [0, 0, 11]),
            (Some(1), [12, 0, 12]),
            (Some(3), [0, 12, 12]),
            (Some(20), [0, 0, 12]),
        ];
        for (unreadable, statuses) in cases {
            let found = [&first, &second, &absent].map(|block| got(unreadable, block));
            assert_eq!(found, statuses, "{unreadable:?}");
        }
    });
}

/// Where `init` fails it leaves nothing; where the machine stops then, at most a log that is not
/// served.
#[test]
fn a_log_is_made_or_not() {
    every_fault(|step, how, lost| {
        let folder = Folder::new();
        let mut status = 0;
        let failed = on_failing_disk(step, how, Lost::Nothing, || {
            status = folder.run("init", &["--sectors", "8"]);
        });
        assert_eq!(status, if failed { 74 } else { 0 });
        assert_eq!(folder.files(), if failed { 0 } else { 2 });

        let folder = Folder::new();
        on_failing_disk(usize::MAX, how, lost, || {
            assert_eq!(folder.run("init", &["--sectors", "8"]), 0);
        });
        let bytes = quietly(|streams| reader::read(&folder.log(), false, streams));
        assert_eq!(bytes.unwrap(), [0; 8 * SECTOR], "{lost:?}");
        failed
    });
}

/// A lost tail stays lost or becomes "not known", and never "not held".
#[test]
fn doubt_that_fails() {
    every_fault(|step, how, lost| {
        let folder = Folder::with(1);
        fs::write(folder.log(), b"").unwrap();
        let mut status = 0;
        let failed = on_failing_disk(step, how, lost, || status = folder.run("doubt", &[]));
        assert_eq!(status, if failed { 74 } else { 0 });
        let score = crate::hex::encode(&sha1(&blocks()[1]));
        on_good_disk(|| {
            let get = folder.run("get", &[&score]);
            assert!(get == 12 || failed && get == 65, "{get}");
            assert_eq!(folder.run("doubt", &[]), 0);
            assert_eq!(folder.run("get", &[&score]), 12);
        });
        failed
    });
}

/// Two files beside a log.
const FILES: [(&str, usize); 2] = [("first", 500), ("second", 100)];

/// Writes the two files into a folder.
fn write_files(folder: &Folder) {
    for (name, length) in FILES {
        fs::write(folder.0.join(name), block(7, length)).unwrap();
    }
}

/// The status of a command on the log, with paths in its folder, and what it printed.
fn answered(folder: &Folder, command: &str, word: Option<&str>, paths: &[&str]) -> (u8, String) {
    let mut words = vec![OsString::from(command), folder.log().into_os_string()];
    words.extend(word.map(OsString::from));
    words.extend(
        paths
            .iter()
            .map(|path| folder.0.join(path).into_os_string()),
    );
    let mut out = Vec::new();
    let status = command::run(
        &words,
        &mut Streams {
            input: &mut io::empty(),
            out: &mut out,
            err: &mut io::sink(),
            out_terminal: false,
            err_terminal: false,
            progress: false,
        },
    );
    (
        status,
        String::from_utf8(out).unwrap().trim_end().to_string(),
    )
}

/// The files that are whole in a folder, and how many others there are.
fn restored(folder: &Folder) -> (usize, usize) {
    let Ok(found) = fs::read_dir(folder.0.join("back")) else {
        return (0, 0);
    };
    let found = found.count();
    let whole = FILES.into_iter().filter(|(name, length)| {
        let bytes = fs::read(folder.0.join("back").join(name));
        bytes.is_ok_and(|bytes| bytes == block(7, *length))
    });
    let whole = whole.count();
    (whole, found - whole)
}

/// A root that was printed leads to its files, whatever is lost then; where a step fails, none is.
#[test]
fn a_printed_root_is_on_disk() {
    every_fault(|step, how, lost| {
        let folder = Folder::with(0);
        write_files(&folder);
        let mut answer = (0, String::new());
        let failed = on_failing_disk(step, how, lost, || {
            answer = answered(&folder, "save", None, &["first", "second"]);
        });
        let expected = if failed { (74, 0) } else { (0, 40) };
        assert_eq!((answer.0, answer.1.len()), expected);
        on_good_disk(|| {
            let root = match failed {
                true => answered(&folder, "save", None, &["first", "second"]).1,
                false => answer.1,
            };
            let back = answered(&folder, "restore", Some(&root), &["back"]);
            assert_eq!((back.0, restored(&folder)), (0, (2, 0)));
        });
        failed
    });
}

/// Where a copy is told to be done, its root leads to everything, whatever is lost then; where a step fails,
/// a root that is there does, and the next run goes on: in a blank log, and in one that is used.
#[test]
fn a_copied_root_has_all_below_it() {
    for used in [false, true] {
        every_fault(|step, how, lost| copied_on_failing_disk(used, step, how, lost));
    }
}

/// Copies a root on a disk that fails. Whether it failed.
fn copied_on_failing_disk(used: bool, step: usize, how: How, lost: Lost) -> bool {
    let folder = Folder::with(0);
    write_files(&folder);
    let path = |name: &str| folder.0.join(name).into_os_string();
    let on_second = |command: &str, words: &[OsString]| {
        let words = [&[OsString::from(command), path("second.log")], words].concat();
        quietly(|streams| command::run(&words, streams))
    };
    let root = on_good_disk(|| {
        assert_eq!(on_second("init", &["--sectors".into(), "40".into()]), 0);
        fs::write(folder.0.join("other"), block(8, 900)).unwrap();
        assert!(!used || on_second("put", &[path("other")]) == 0);
        answered(&folder, "save", None, &["first", "second"]).1
    });
    let copy = || answered(&folder, "copy", Some(&root), &["second.log"]).0;
    let walk = || on_second("walk", &[(&root).into()]);
    let mut status = 0;
    let failed = on_failing_disk(step, how, lost, || status = copy());
    assert_eq!(status, if failed { 74 } else { 0 });
    on_good_disk(|| {
        let held = on_second("get", &[(&root).into(), "--type".into(), "root".into()]);
        assert_eq!(walk(), held, "{used} {step} {how:?} {lost:?}");
        assert!(failed || held == 0);
        assert_eq!((copy(), walk()), (0, 0));
    });
    failed
}

/// A file is restored whole or not at all, and nothing else is left.
#[test]
fn a_file_is_restored_whole_or_not() {
    every_fault(|step, how, lost| {
        let folder = Folder::with(0);
        write_files(&folder);
        let (_, root) = on_good_disk(|| answered(&folder, "save", None, &["first", "second"]));
        let mut status = 0;
        let failed = on_failing_disk(step, how, lost, || {
            status = answered(&folder, "restore", Some(&root), &["back"]).0;
        });
        assert_eq!(status, if failed { 74 } else { 0 });
        let (whole, others) = restored(&folder);
        assert_eq!(others, 0, "{step} {how:?} {lost:?}");
        assert!(failed || whole == 2, "{step} {how:?} {lost:?}");
        failed
    });
}
