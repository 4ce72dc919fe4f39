//! `put`: stores blocks and prints their scores.

use std::ffi::OsStr;
use std::fs::File;
use std::io::{self, Read};
use std::path::Path;

use boundary::Refusal;

use crate::arguments::Arguments;
use crate::escape;
use crate::format::{sectors_of, Score, MOST_DATA};
use crate::hex;
use crate::session::{Answers, Client};
use crate::status::{Failure, DONE};
use crate::streams::Streams;
use crate::words;
use crate::writer::Writer;

/// What is told where the log fails.
const UNSETTLED: &str = "Store again what no score was printed for: it may not be on disk.";

pub fn run(arguments: &Arguments, streams: &mut Streams) -> Result<u8, Failure> {
    let kind = arguments.kind()?;
    let dates = arguments.dates()?;
    let standard_input = [OsStr::new("-").to_os_string()];
    let files = match &arguments.words[1..] {
        [] => &standard_input[..],
        files => files,
    };
    // A block that someone may be slow to send holds up no other writer.
    let mut early = match files {
        [file] if file == "-" => Some(read_block(file, streams.input)),
        _ => None,
    };
    let log = Writer::open(arguments.path(0), arguments.flag("--adopt"), streams)?;
    let mut log = log.dated(dates);
    let mut client = Client::greet_on_disk(&mut log, streams)?;

    let mut status = DONE;
    // The scores of blocks that wait: they are told when the blocks are on disk.
    let mut lines = Vec::new();
    for file in files {
        let block = early.take();
        let block = block.unwrap_or_else(|| read_block(file, streams.input));
        let stored = match block {
            Ok(block) => {
                let stored = client.store(&mut log, kind, &block, streams);
                let stored = stored.map_err(|failure| failure.and(UNSETTLED))?;
                stored.map_err(|refusal| refused(refusal, file, &block, &log))
            }
            Err(failure) => Err(failure),
        };
        match stored {
            Ok(score) => lines.extend(line(&score, file, files.len() > 1)),
            Err(failure) => {
                streams.tell(&failure.words);
                if status == DONE {
                    status = failure.status;
                }
            }
        }
        if !log.takes_any() {
            tell_stored(&mut log, &mut lines, streams)?;
        }
    }
    tell_stored(&mut log, &mut lines, streams)?;
    Ok(status)
}

/// Has what waits on disk, then prints its scores.
fn tell_stored(
    log: &mut Writer,
    lines: &mut Vec<u8>,
    streams: &mut Streams,
) -> Result<(), Failure> {
    let settled = log.settle();
    settled.map_err(|failure| failure.and(UNSETTLED))?;
    streams.answer(lines)?;
    lines.clear();
    Ok(())
}

fn refused(refusal: Refusal, file: &OsStr, block: &[u8], log: &Writer) -> Failure {
    if refusal != Refusal::NoRoom {
        return Failure::refused_about(refusal, shown(file));
    }
    let (sectors, used) = log.sectors();
    let path = escape::quoted(log.path());
    let words = words::full(&path, sectors, used, sectors_of(block.len()));
    let words = format!("{}: {words}", shown(file).display());
    Failure::new(refusal.number(), words)
}

/// A file as it is called in words.
fn shown(file: &OsStr) -> &OsStr {
    if file == "-" {
        OsStr::new("standard input")
    } else {
        file
    }
}

/// The block that a file or standard input holds, and one byte more where it is too long.
fn read_block(file: &OsStr, input: &mut dyn Read) -> Result<Vec<u8>, Failure> {
    let mut block = Vec::new();
    let mut read = |input: &mut dyn Read| -> io::Result<usize> {
        input.take(MOST_DATA as u64 + 1).read_to_end(&mut block)
    };
    let path = Path::new(shown(file));
    if file == "-" {
        read(input).map_err(|e| Failure::disk("read", path, &e))?;
    } else {
        let mut opened = File::open(path).map_err(|e| Failure::open(path, &e))?;
        read(&mut opened).map_err(|e| Failure::disk("read", path, &e))?;
    }
    Ok(block)
}

/// The score, and the file's name where there are several.
fn line(score: &Score, file: &OsStr, named: bool) -> Vec<u8> {
    let mut line = hex::encode(score).into_bytes();
    if named {
        line.extend(b"  ");
        line.extend(file.as_encoded_bytes());
    }
    line.push(b'\n');
    line
}
