//! Skywimple's command-line program, over the proved archive.

mod arguments;
mod block_store;
mod blocks;
mod card;
mod card_text;
mod changes;
mod clock;
mod closed;
mod command;
mod contents;
#[cfg(test)]
mod conversations;
mod copy;
mod date;
mod demo;
mod diff;
mod disk;
mod doubt;
mod entry;
mod escape;
#[cfg(test)]
mod failing;
#[cfg(test)]
mod faults;
mod findings;
mod format;
mod gathered;
mod get;
mod handshake;
mod held;
mod help;
mod hex;
mod hinted;
mod index;
mod index_file;
mod init;
mod interrupt;
mod knowledge;
mod list;
mod lock;
mod log_file;
mod loss;
mod map;
mod mark;
mod mark_file;
mod markup;
mod names;
mod output_file;
mod page;
mod progress;
mod put;
mod put_file;
mod query;
mod read;
mod read_ahead;
mod reader;
mod report;
mod restore;
mod same;
mod save;
mod saved;
mod search;
mod sectors;
mod serve;
mod session;
mod status;
mod streams;
mod svg;
mod terminal;
#[cfg(test)]
mod torn;
mod trail;
mod tree_writer;
mod unique;
mod walk;
mod words;
mod writer;

use std::env;
use std::fs::File;
use std::io::{self, BufReader, BufWriter, IsTerminal, Read, Write};
use std::os::fd::AsFd;
use std::process::ExitCode;

use closed::Closed;
use status::{Failure, INPUT_OUTPUT};
use streams::Streams;

/// More than any reply has, and room for some messages.
const BUFFER: usize = 65_536;

fn main() -> ExitCode {
    let words: Vec<_> = env::args_os().skip(1).collect();
    let mut input: Box<dyn Read> = match closed::input() {
        true => Box::new(Closed),
        false => Box::new(BufReader::with_capacity(BUFFER, io::stdin().lock())),
    };
    let mut out = match output() {
        Ok(out) => out,
        Err(e) => {
            eprintln!("skywimple: {}", Failure::output(e).words);
            return ExitCode::from(INPUT_OUTPUT);
        }
    };
    let serves = words.first().is_some_and(|word| word == "serve");
    let mut err: Box<dyn Write> = match serves && same::socket() {
        true => Box::new(io::sink()),
        false => Box::new(io::stderr()),
    };
    let mut streams = Streams {
        input: &mut *input,
        out: &mut *out,
        err: &mut *err,
        out_terminal: io::stdout().is_terminal(),
        err_terminal: io::stderr().is_terminal(),
        progress: false,
    };
    ExitCode::from(command::run(&words, &mut streams))
}

/// Standard output. Not through `Stdout`, which would cut replies at each line's end: a reply is one
/// write.
fn output() -> io::Result<Box<dyn Write>> {
    if closed::output() {
        return Ok(Box::new(Closed));
    }
    let out = File::from(io::stdout().as_fd().try_clone_to_owned()?);
    Ok(Box::new(BufWriter::with_capacity(BUFFER, out)))
}
