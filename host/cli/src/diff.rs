//! `diff`: what changed between two saved roots.

use boundary::{differences, Compared};

use crate::arguments::Arguments;
use crate::changes::{Roots, Row};
use crate::contents;
use crate::entry::LENGTH as ENTRY;
use crate::reader;
use crate::saved;
use crate::status::{Failure, DIFFERENT, DONE, PARTLY};
use crate::streams::Streams;
use crate::words;

/// The most units that a comparison may be allowed: more than the directories of two roots have blocks.
const ALLOWANCE: u64 = 1_000_000;

pub fn run(arguments: &Arguments, streams: &mut Streams) -> Result<u8, Failure> {
    let (root1, root2) = (arguments.score(1)?, arguments.score(2)?);
    let mut log = reader::read(arguments.path(0), arguments.flag("--adopt"), streams)?;
    let first = saved::directory(&mut log, &root1)?;
    let second = saved::directory(&mut log, &root2)?;
    let compared = differences(&log, &[], &first, &second, ALLOWANCE);
    if are_one(&compared, &first, &second) {
        return Ok(DONE);
    }
    let unread_alike = compared.outcome.is_ok() && shape(&first) == shape(&second);
    let first = &saved::files(&log, &first, &root1)?;
    let second = &saved::files(&log, &second, &root2)?;
    let roots = Roots {
        first,
        second,
        unread_alike,
    };
    let rows = roots.rows();
    let line = match arguments.flag("--json") {
        true => Row::json,
        false => Row::text,
    };
    let text: String = rows.iter().map(line).collect();
    streams.answer(text.as_bytes())?;
    tell(&roots, &rows, streams);
    Ok(status(&rows))
}

/// Whether two directories are one: the proved call found no difference, and nothing to open.
fn are_one(compared: &Compared, first: &[u8; ENTRY], second: &[u8; ENTRY]) -> bool {
    let sizes = contents::size(first) == contents::size(second);
    compared.outcome.is_ok() && (compared.count, compared.units) == (0, 0) && sizes
}

/// psize, dsize and depth. Directories that have them in common are opened pairwise. Where that ends
/// without a refusal, each block that was not read stands in both, at one place.
fn shape(directory: &[u8; ENTRY]) -> &[u8] {
    &directory[4..9]
}

fn status(rows: &[Row]) -> u8 {
    let partly = |row: &Row| row.is_unreadable() || row.is_nameless();
    match rows {
        [] => DONE,
        rows if rows.iter().any(partly) => PARTLY,
        _ => DIFFERENT,
    }
}

const NO_ANSWER: &str = "may have changed or not. DO NOT READ THIS AS UNCHANGED. \
    `skywimple list LOG` shows the doubtful sectors, and how to restore them from a copy; saving the \
    same files again (`skywimple save`) heals them too.";

/// Tells what is lost, and what to do.
fn tell(roots: &Roots, rows: &[Row], streams: &mut Streams) {
    let nameless = rows.iter().any(Row::is_nameless);
    for (root, saved) in (1..).zip([roots.first, roots.second]) {
        if let Some(refusal) = saved.names_lost.filter(|_| nameless) {
            let why = words::brief(refusal);
            streams.tell(&format!(
                "names of ROOT{root} are lost: {why}. Those files are listed by their place."
            ));
        }
    }
    match rows.iter().filter(|row| row.is_unreadable()).count() {
        0 => {}
        1 => streams.tell(&format!("1 file could not be compared, and {NO_ANSWER}")),
        count => streams.tell(&format!(
            "{count} files could not be compared, and {NO_ANSWER}"
        )),
    }
}
