//! `get`: a block's bytes.

use crate::arguments::Arguments;
use crate::format::MOST_DATA;
use crate::hinted;
use crate::index_file;
use crate::log_file::is_file;
use crate::reader;
use crate::session::Client;
use crate::status::{Failure, DONE};
use crate::streams::Streams;

pub fn run(arguments: &Arguments, streams: &mut Streams) -> Result<u8, Failure> {
    let score = arguments.score(1)?;
    let kind = arguments.kind()?;
    let count = arguments.number("--count")?.unwrap_or(MOST_DATA as u64);
    let count = u16::try_from(count).map_err(|_| Failure::usage("--count is 0 to 65535"))?;
    let path = arguments.path(0);
    let adopt = arguments.flag("--adopt");
    if !adopt {
        is_file(path)?;
        if let Some(block) = hinted::read(path, kind, &score, count) {
            streams.answer(&block)?;
            return Ok(DONE);
        }
    }
    let mut log = reader::read(path, adopt, streams)?;
    let hints = index_file::hints(path, kind, &score);
    let mut client = Client::greet(&mut log)?.with_hints(hints);
    let block = client.read(&mut log, kind, &score, count);
    streams.answer(block.map_err(Failure::refused)?)?;
    Ok(DONE)
}
