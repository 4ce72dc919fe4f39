//! `card`: whether a file is a card, and what is wrong where.

use std::ffi::OsStr;
use std::fs::File;
use std::io::Read;
use std::path::Path;

use boundary::{is_card, Refusal};

use crate::arguments::Arguments;
use crate::card_text::{self, MOST};
use crate::escape;
use crate::status::{Failure, DONE};
use crate::streams::Streams;
use crate::words;

pub fn run(arguments: &Arguments, streams: &mut Streams) -> Result<u8, Failure> {
    let path = arguments.path(0);
    let (name, card) = read(path, streams.input)?;
    let name = name.display();
    if is_card(&card) {
        let lines = card.iter().filter(|byte| **byte == b'\n').count();
        let antigens = match lines {
            1 => "1 antigen".to_string(),
            lines => format!("{lines} antigens"),
        };
        let name = escape::visible(&name.to_string());
        streams.answer(format!("{name}: a card, {antigens}\n").as_bytes())?;
        return Ok(DONE);
    }
    let mut told = words::refusal(Refusal::Card);
    if let Some(fault) = card_text::fault(&card) {
        told = format!("{fault}. This is {told}");
    }
    Err(Failure::new(
        Refusal::Card.number(),
        format!("{name}: {told}"),
    ))
}

/// A file's name and bytes, or those of standard input; one more where they are too many for a card.
fn read<'a>(file: &'a Path, input: &mut dyn Read) -> Result<(&'a Path, Vec<u8>), Failure> {
    let mut bytes = Vec::new();
    let most = MOST as u64 + 1;
    if file.as_os_str() == OsStr::new("-") {
        let name = Path::new("standard input");
        let read = input.take(most).read_to_end(&mut bytes);
        read.map_err(|e| Failure::disk("read", name, &e))?;
        return Ok((name, bytes));
    }
    let opened = File::open(file).map_err(|e| Failure::open(file, &e))?;
    let read = opened.take(most).read_to_end(&mut bytes);
    read.map_err(|e| Failure::disk("read", file, &e))?;
    Ok((file, bytes))
}
