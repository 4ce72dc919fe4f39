//! `put-file`: stores a file of any size, prints its entry.

use std::fs::{File, Metadata};
use std::io::{Cursor, Read};
use std::os::unix::fs::FileTypeExt;
use std::path::Path;

use crate::arguments::Arguments;
use crate::block_store::{self, BlockStore, Subject};
use crate::hex;
use crate::progress::Progress;
use crate::reader;
use crate::status::{Failure, DONE};
use crate::streams::Streams;
use crate::tree_writer::FILE;

pub fn run(arguments: &Arguments, streams: &mut Streams) -> Result<u8, Failure> {
    let (path, file) = (arguments.path(0), arguments.path(1));
    let dates = arguments.dates()?;
    let (name, mut source) = source(file, streams)?;
    let doing = format!("storing {}", name.display());
    let subject = Subject {
        name,
        doing: &doing,
    };
    let mut log = BlockStore::open(path, arguments.flag("--adopt"), dates, streams)?;
    let written = log.write(&FILE, &mut *source, subject, streams)?;
    log.finish(streams)?;
    let log = reader::read(path, false, streams)?;
    let mut progress = Progress::start();
    block_store::reads_back(&log, &written, name, |bytes| {
        progress.show_before(streams, || format!("{doing}: {bytes} bytes read back"));
    })?;
    streams.clear_progress();
    streams.answer(format!("{}\n", hex::encode(&written.entry)).as_bytes())?;
    Ok(DONE)
}

/// A file, or standard input, and its name.
fn source<'a>(file: &'a Path, streams: &mut Streams) -> Result<(&'a Path, Box<dyn Read>), Failure> {
    if file.as_os_str() != "-" {
        let opened = File::open(file).map_err(|e| Failure::open(file, &e))?;
        let waits = opened.metadata().is_ok_and(|found| may_be_slow(&found));
        let source: Box<dyn Read> = match waits {
            true => Box::new(Cursor::new(taken_in(file, &mut &opened)?)),
            false => Box::new(opened),
        };
        return Ok((file, source));
    }
    let name = Path::new("standard input");
    let bytes = taken_in(name, streams.input)?;
    Ok((name, Box::new(Cursor::new(bytes))))
}

/// Whether a file is a pipe, which others fill as they like. Devices are not taken in: some never end.
pub fn may_be_slow(found: &Metadata) -> bool {
    found.file_type().is_fifo()
}

/// All that someone may be slow to send. It is taken in before the log's lock is asked for, so that it
/// holds up no other writer.
pub fn taken_in(name: &Path, input: &mut dyn Read) -> Result<Vec<u8>, Failure> {
    let mut bytes = Vec::new();
    let read = input.read_to_end(&mut bytes);
    read.map_err(|e| Failure::disk("read", name, &e))?;
    Ok(bytes)
}
