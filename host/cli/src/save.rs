//! `save`: stores files under a root, prints the root's score.

use std::ffi::{OsStr, OsString};
use std::fs::{self, File};
use std::path::Path;

use crate::arguments::Arguments;
use crate::block_store::{self, BlockStore, Subject};
use crate::escape;
use crate::format::Score;
use crate::hex;
use crate::names;
use crate::progress::Progress;
use crate::put_file;
use crate::reader;
use crate::saved::{self, MOST_FILES};
use crate::status::{Failure, DONE, INPUT_OUTPUT};
use crate::streams::Streams;
use crate::tree_writer::{Written, DIRECTORY, FILE};

/// What the parts of a root are called in words.
const DIRECTORY_NAME: &str = "the directory";

pub fn run(arguments: &Arguments, streams: &mut Streams) -> Result<u8, Failure> {
    let path = arguments.path(0);
    let dates = arguments.dates()?;
    let files = &arguments.words[1..];
    let names = checked_names(files)?;
    let slow = files.iter().map(|file| is_readable(file.as_ref()));
    let slow: Vec<bool> = slow.collect::<Result<_, _>>()?;
    let early = files.iter().zip(slow).map(|(file, slow)| early(file, slow));
    let early: Vec<_> = early.collect::<Result<_, _>>()?;

    let mut log = BlockStore::open(path, arguments.flag("--adopt"), dates, streams)?;
    let mut written = Vec::new();
    for (at, (file, early)) in files.iter().zip(early).enumerate() {
        let doing = format!("file {} of {}, {}", at + 1, files.len(), file.display());
        written.push(store_file(&mut log, file.as_ref(), early, &doing, streams)?);
    }
    let root = store_root(&mut log, &names, &written, streams)?;
    log.finish(streams)?;

    let mut log = reader::read(path, false, streams)?;
    reads_back(&mut log, &root, &names, &written, streams)?;
    streams.answer(format!("{}\n", hex::encode(&root)).as_bytes())?;
    Ok(DONE)
}

/// The files' names. Nothing is written where one is no name, or stands twice.
fn checked_names(files: &[OsString]) -> Result<Vec<&str>, Failure> {
    if files.len() > MOST_FILES {
        let words = format!(
            "a root has at most {MOST_FILES} files, and these are {}",
            files.len()
        );
        return Err(Failure::usage(words));
    }
    let name = |file| {
        let path: &Path = AsRef::<Path>::as_ref(file);
        let words = |why| Failure::usage(format!("{} cannot be saved: {why}", path.display()));
        names::of(path).map_err(words)
    };
    let names: Vec<_> = files.iter().map(name).collect::<Result<_, _>>()?;
    match names::twice(names.iter().copied()) {
        None => Ok(names),
        Some(name) => {
            let name = escape::visible(name);
            let words = format!("two files have the name {name}, and a root has each name once");
            Err(Failure::usage(words))
        }
    }
}

/// Fails where a file is not there or cannot be opened; of a pipe that shows only in reading. Whether it
/// is one.
fn is_readable(file: &Path) -> Result<bool, Failure> {
    let found = fs::metadata(file).map_err(|e| Failure::open(file, &e))?;
    if found.is_dir() {
        let words = format!("{} is a folder: give the files in it", file.display());
        return Err(Failure::usage(words));
    }
    if found.is_file() {
        File::open(file).map_err(|e| Failure::open(file, &e))?;
    }
    Ok(put_file::may_be_slow(&found))
}

/// What comes from a pipe, before the log's lock is asked for.
fn early(file: &OsStr, slow: bool) -> Result<Option<Vec<u8>>, Failure> {
    let file = Path::new(file);
    if !slow {
        return Ok(None);
    }
    let mut opened = File::open(file).map_err(|e| Failure::open(file, &e))?;
    put_file::taken_in(file, &mut opened).map(Some)
}

fn store_file(
    log: &mut BlockStore,
    file: &Path,
    early: Option<Vec<u8>>,
    doing: &str,
    streams: &mut Streams,
) -> Result<Written, Failure> {
    let subject = Subject { name: file, doing };
    if let Some(bytes) = early {
        return log.write(&FILE, &mut &bytes[..], subject, streams);
    }
    let mut source = File::open(file).map_err(|e| Failure::open(file, &e))?;
    log.write(&FILE, &mut source, subject, streams)
}

/// Stores the names, the directory of all entries, its block and the root. Gives the root's score.
fn store_root(
    log: &mut BlockStore,
    names: &[&str],
    files: &[Written],
    streams: &mut Streams,
) -> Result<Score, Failure> {
    let subject = Subject {
        name: Path::new(DIRECTORY_NAME),
        doing: DIRECTORY_NAME,
    };
    let text = names::text(names.iter().copied());
    let names = log.write(&FILE, &mut text.as_bytes(), subject, streams)?;
    let entries = [&names].into_iter().chain(files);
    let entries: Vec<u8> = entries.flat_map(|file| file.entry).collect();
    let directory = log.write(&DIRECTORY, &mut &entries[..], subject, streams)?;
    let block = log.store(2, &directory.entry, subject, streams)?;
    log.store(1, &saved::root(&block), subject, streams)
}

/// Whether the root leads to these names and files, each as it was.
fn reads_back(
    log: &mut [u8],
    root: &Score,
    names: &[&str],
    files: &[Written],
    streams: &mut Streams,
) -> Result<(), Failure> {
    let saved = saved::open(log, root)?.files;
    let same = saved.len() == files.len()
        && saved
            .iter()
            .zip(names)
            .zip(files)
            .all(|((saved, name), file)| {
                saved.name.as_deref() == Some(*name) && saved.entry == Ok(file.entry)
            });
    if !same {
        let words = "the directory was stored, but does not read back as it was: the log was \
                     damaged meanwhile. Run the command again.";
        return Err(Failure::new(INPUT_OUTPUT, words));
    }
    let mut progress = Progress::start();
    for (at, (name, file)) in (1..).zip(names.iter().zip(files)) {
        block_store::reads_back(log, file, Path::new(name), |bytes| {
            let all = files.len();
            progress.show_before(streams, || {
                format!("file {at} of {all}, {name}: {bytes} bytes read back")
            });
        })?;
    }
    streams.clear_progress();
    Ok(())
}
