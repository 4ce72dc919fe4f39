//! `list`: each sound block of a log, and the doubtful sectors between them.

use std::io;

use crate::arguments::Arguments;
use crate::blocks::{self, Block, Piece};
use crate::format::{kind_name, Date, SECTOR};
use crate::hex;
use crate::reader;
use crate::status::{Failure, DONE, VERDICT_NOT_KNOWN};
use crate::streams::Streams;

pub fn run(arguments: &Arguments, streams: &mut Streams) -> Result<u8, Failure> {
    let log = reader::read(arguments.path(0), arguments.flag("--adopt"), streams)?;
    let pieces = blocks::pieces(&log).map_err(Failure::refused)?;
    let line = match arguments.flag("--json") {
        true => json,
        false => text,
    };
    let written = pieces
        .iter()
        .try_for_each(|piece| writeln!(streams.out, "{}", line(piece)));
    let written: io::Result<()> = written.and_then(|()| streams.out.flush());
    written.map_err(Failure::output)?;
    Ok(match pieces.iter().all(|piece| piece.block.is_some()) {
        true => DONE,
        false => VERDICT_NOT_KNOWN,
    })
}

/// Sector, type, size, date and score; of doubtful sectors their count, and the byte where they begin.
fn text(piece: &Piece) -> String {
    let Piece { sector, count, .. } = piece;
    match piece.block {
        Some(block) => {
            let Block { size, .. } = block;
            let (kind, score) = (kind_name(block.kind), hex::encode(&block.score));
            let date = digits(block.date).unwrap_or("-".to_string());
            format!("{sector:>8}  {kind:8}  {size:>5}  {date:8}  {score}")
        }
        None => {
            let byte = sector * SECTOR;
            format!("{sector:>8}  doubtful  {count:>5}  sectors, from byte {byte} on")
        }
    }
}

/// A date as it is read.
fn digits(date: Option<Date>) -> Option<String> {
    date.map(|date| String::from_utf8_lossy(&date).into_owned())
}

/// The same as a JSON object. No value needs escapes.
fn json(piece: &Piece) -> String {
    let Piece { sector, count, .. } = piece;
    match piece.block {
        Some(block) => {
            let Block { size, .. } = block;
            let (kind, score) = (kind_name(block.kind), hex::encode(&block.score));
            let date = digits(block.date).map_or("null".to_string(), |date| format!(r#""{date}""#));
            format!(
                r#"{{"sector":{sector},"type":"{kind}","size":{size},"date":{date},"score":"{score}"}}"#
            )
        }
        None => {
            let byte = sector * SECTOR;
            format!(r#"{{"sector":{sector},"count":{count},"byte":{byte}}}"#)
        }
    }
}
