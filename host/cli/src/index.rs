//! `index`: makes the index beside a log anew.

use std::io::ErrorKind;

use crate::arguments::Arguments;
use crate::index_file;
use crate::status::{Failure, DONE, EXISTS};
use crate::streams::Streams;
use crate::writer::Writer;

pub fn run(arguments: &Arguments, streams: &mut Streams) -> Result<u8, Failure> {
    let path = arguments.path(0);
    let mut log = Writer::open(path, arguments.flag("--adopt"), streams)?;
    streams.working(&format!("making the index of {}", path.display()));
    let made = log.renew_index();
    streams.clear_progress();
    let file = index_file::path_of(path);
    let blocks = made.map_err(|e| match e.kind() {
        ErrorKind::AlreadyExists => {
            let words = format!(
                "{} is there already and no index, so it is not overwritten. Move it away.",
                file.display()
            );
            Failure::new(EXISTS, words)
        }
        _ => Failure::disk("write", &file, &e),
    })?;
    let told = match blocks {
        1 => "1 block".to_string(),
        blocks => format!("{blocks} blocks"),
    };
    streams.answer(format!("{told} in the index of {}\n", path.display()).as_bytes())?;
    Ok(DONE)
}
