//! `copy`: all that a root reaches, or every sound block, to another log.

use std::collections::HashSet;
use std::fs;
use std::os::unix::fs::MetadataExt;
use std::path::Path;

use boundary::{walk, Refusal, Walked};

use crate::arguments::Arguments;
use crate::block_store::{BlockStore, Subject};
use crate::blocks::{self, Block, Piece};
use crate::clock::{self, Told};
use crate::date::Dates;
use crate::escape;
use crate::format::{sectors_of, Score, MOST_SECTORS, SECTOR};
use crate::init;
use crate::mark;
use crate::progress::Progress;
use crate::reader;
use crate::status::{Failure, DONE, INPUT_OUTPUT, VERDICT_NOT_KNOWN};
use crate::streams::Streams;
use crate::walk::{follow, refused, ALLOWANCE};
use crate::words;
use crate::writer::Writer;

/// The visits of a copy's first round, and by how much each has more than the one before. After a round
/// what it copied is on disk. Small trees have several rounds in this crate's own tests.
const FIRST_ROUND: u64 = if cfg!(test) { 3 } else { 4096 };
const LONGER: u64 = 4;

pub fn run(arguments: &Arguments, streams: &mut Streams) -> Result<u8, Failure> {
    let all = arguments.flag("--all");
    let last = arguments.words.len() - 1;
    match (all, last) {
        (true, 1) if arguments.value("--allowance").is_some() => {
            return Err(Failure::usage("--all has no --allowance"));
        }
        (true, 1) | (false, 2) => {}
        (true, _) => return Err(Failure::usage("--all takes LOG and LOG2, and no root")),
        (false, _) => return Err(Failure::usage("LOG2 is missing")),
    }
    let (from, to) = (arguments.path(0), arguments.path(last));
    if is_same(from, to) {
        return Err(Failure::usage("LOG and LOG2 are the same file"));
    }
    match all {
        true => copy_all(arguments, from, to, streams),
        false => copy_tree(arguments, from, to, streams),
    }
}

/// Whether two paths lead to one file.
fn is_same(one: &Path, other: &Path) -> bool {
    let identity = |path| fs::metadata(path).map(|file| (file.dev(), file.ino()));
    matches!((identity(one), identity(other)), (Ok(one), Ok(other)) if one == other)
}

/// Makes a log where there is none: as long as the one that is copied, and longer where its blocks, which
/// may be of the first edition, take more.
fn make_missing(path: &Path, from: &[u8], pieces: &[Piece]) -> Result<(), Failure> {
    let there = |path: &Path| fs::symlink_metadata(path).is_ok();
    if there(path) || there(&mark::path_of(path)) {
        return Ok(());
    }
    let needed: usize = blocks_of(pieces)
        .map(|(_, block)| sectors_of(block.size))
        .sum();
    let sectors = needed.max(from.len() / SECTOR).min(MOST_SECTORS);
    init::make(path, sectors)
}

/// The sound blocks, and where they start.
fn blocks_of(pieces: &[Piece]) -> impl Iterator<Item = (usize, Block)> + '_ {
    let block = |piece: &Piece| piece.block.map(|block| (piece.sector, block));
    pieces.iter().filter_map(block)
}

/// The log that is copied. It is only read, so `--adopt` is not for it.
fn first(path: &Path, streams: &mut Streams) -> Result<Vec<u8>, Failure> {
    reader::read(path, false, streams).map_err(|failure| Failure {
        words: failure.words.replace(
            "give --adopt to take it as it is",
            &format!(
                "take it as it is with `skywimple report {} --adopt`",
                escape::quoted(path)
            ),
        ),
        ..failure
    })
}

/// All that a root reaches.
fn copy_tree(
    arguments: &Arguments,
    from: &Path,
    to: &Path,
    streams: &mut Streams,
) -> Result<u8, Failure> {
    let root = arguments.score(1)?;
    // One date for all rounds, though a day may end between two: together they are one copy.
    let dates = Dates::Fixed(arguments.dates()?.now()?);
    let allowance = arguments.number("--allowance")?.unwrap_or(ALLOWANCE);
    if allowance > ALLOWANCE {
        return Err(Failure::refused(Refusal::Allowance));
    }
    let log = first(from, streams)?;
    // Where the root itself is refused, no log is made.
    let begun = walk(&log, &[], &root, allowance.min(1));
    let goes_on = |refusal| refusal == Refusal::Spent && allowance > 0;
    if begun.outcome.is_err_and(|refusal| !goes_on(refusal)) {
        return stopped(&log, &root, allowance, begun, streams);
    }
    let pieces = blocks::pieces(&log).map_err(Failure::refused)?;
    make_missing(to, &log, &pieces)?;
    let adopt = arguments.flag("--adopt");
    let mut second = Writer::open(to, adopt, streams)?.dated(dates);
    second.open_index(streams);
    let before = second.sectors().1;
    let copied = watched("copying", streams, |told| {
        let mut visits = None;
        in_rounds(&mut second, &log, &root, allowance, |round, used| {
            let all = || follow(&log, &root, allowance).map(|trail| trail.walked.visits);
            let visits = *visits.get_or_insert_with(all);
            told.come(so_far(round, visits, used - before));
        })
    })?;
    let (sectors, used) = second.sectors();
    let visits = copied.visits;
    match copied.outcome {
        Ok(()) => {}
        Err(refusal @ (Refusal::NoRoom | Refusal::Clash)) => {
            streams.answer(format!("visits={visits}\nsectors={}\n", used - before).as_bytes())?;
            let words = match refusal {
                Refusal::NoRoom => words::full_of_copies(&escape::quoted(to), sectors, used),
                other => words::midway(&words::refusal(other)),
            };
            let words = format!("{}: {words}", to.display());
            return Err(Failure::new(refusal.number(), words));
        }
        Err(_) => return stopped(&log, &root, allowance, copied, streams),
    }
    drop(second);
    let second = reader::read(to, false, streams)?;
    let found = watched("checking the copy", streams, |_| {
        walk(&second, &[], &root, allowance)
    });
    if found != copied {
        return Err(differs(to));
    }
    let answer = format!("visits={visits}\nsectors={}\ndone\n", used - before);
    streams.answer(answer.as_bytes())?;
    Ok(DONE)
}

/// Names the block of the first log that was refused, as `walk` does.
fn stopped(
    log: &[u8],
    root: &Score,
    allowance: u64,
    copied: Walked,
    streams: &mut Streams,
) -> Result<u8, Failure> {
    let Err(refusal) = copied.outcome else {
        return Ok(DONE);
    };
    let trail = follow(log, root, allowance).filter(|trail| trail.walked == copied);
    let stop = trail.map(|trail| trail.at);
    refused("copying", refusal, copied.visits, stop, streams)
}

/// Copies with an ever larger allowance. Where a long copy is ended, what the rounds so far settled stays. After
/// each but the last its visits and the sectors used are told.
fn in_rounds(
    second: &mut Writer,
    log: &[u8],
    root: &Score,
    allowance: u64,
    mut tell: impl FnMut(u64, usize),
) -> Result<Walked, Failure> {
    let mut round = FIRST_ROUND.min(allowance);
    loop {
        let copied = second.copy(log, root, round)?;
        if copied.outcome != Err(Refusal::Spent) || round == allowance {
            return Ok(copied);
        }
        tell(copied.visits, second.sectors().1);
        round = allowance.min(round * LONGER);
    }
}

/// How far a copy has come after a round: of how many visits, where that could be counted.
fn so_far(round: u64, visits: Option<u64>, sectors: usize) -> String {
    let of = visits.map_or(String::new(), |visits| format!(" of {visits}"));
    format!("{round}{of} visits, {sectors} sectors on disk")
}

/// Does the work, with a clock at a terminal.
fn watched<R>(doing: &str, streams: &Streams, work: impl FnOnce(&Told) -> R) -> R {
    match streams.err_terminal {
        true => clock::with_clock(doing, work),
        false => work(&Told::default()),
    }
}

/// Every sound block, in the order of the log.
fn copy_all(
    arguments: &Arguments,
    from: &Path,
    to: &Path,
    streams: &mut Streams,
) -> Result<u8, Failure> {
    let (dates, adopt) = (arguments.dates()?, arguments.flag("--adopt"));
    let log = first(from, streams)?;
    let pieces = blocks::pieces(&log).map_err(Failure::refused)?;
    make_missing(to, &log, &pieces)?;
    let mut second = BlockStore::open(to, adopt, dates, streams)?;
    let before = second.used();
    let (mut clashed, mut progress) = (None, Progress::start());
    let mut copied = Vec::new();
    for (sector, block) in blocks_of(&pieces) {
        let subject = Subject {
            name: to,
            doing: "copying",
        };
        let data = blocks::data(&log, sector, block.size);
        match second.store(block.kind, &data, subject, streams) {
            Ok(score) => copied.push((block.kind, score)),
            Err(clash) if clash.status == Refusal::Clash.number() => {
                streams.tell(&clash.words);
                clashed = Some(clash.status);
            }
            Err(failure) => return Err(failure),
        }
        let used = pieces.last().map_or(0, |last| last.sector + last.count);
        progress.show_before(streams, || format!("copying: sector {sector} of {used}"));
    }
    second.settle()?;
    let appended = second.used() - before;
    second.finish(streams)?;
    are_there(to, &copied, streams)?;
    let doubtful = pieces.iter().filter(|piece| piece.block.is_none());
    let doubtful: usize = doubtful.map(|piece| piece.count).sum();
    let blocks = copied.len();
    let done = if clashed.is_some() { "" } else { "done\n" };
    let answer = format!("blocks={blocks}\nsectors={appended}\ndoubtful={doubtful}\n{done}");
    streams.answer(answer.as_bytes())?;
    let mut status = DONE;
    if doubtful > 0 {
        streams.tell(&left_behind(from, to, doubtful));
        status = VERDICT_NOT_KNOWN;
    }
    Ok(clashed.unwrap_or(status))
}

/// Fails unless a log on disk has all these blocks.
fn are_there(path: &Path, copied: &[(u8, Score)], streams: &mut Streams) -> Result<(), Failure> {
    let log = reader::read(path, false, streams)?;
    let pieces = blocks::pieces(&log).map_err(Failure::refused)?;
    let held: HashSet<_> = blocks_of(&pieces)
        .map(|(_, block)| (block.kind, block.score))
        .collect();
    match copied.iter().all(|name| held.contains(name)) {
        true => Ok(()),
        false => Err(differs(path)),
    }
}

fn differs(path: &Path) -> Failure {
    let words = format!(
        "all was copied, but {} does not read back so: it was damaged meanwhile. Run the command again.",
        path.display()
    );
    Failure::new(INPUT_OUTPUT, words)
}

fn left_behind(from: &Path, to: &Path, doubtful: usize) -> String {
    let (from, to) = (from.display(), to.display());
    format!(
        "doubtful sectors of {from} left behind: {doubtful}. A block that was lost in them is \"not known\" in \
         {from}, and \"not held\" in {to}: keep {from}, or store again what was in them, until you know \
         that nothing is missed."
    )
}

#[cfg(test)]
mod tests {
    use super::so_far;

    #[test]
    fn how_far_a_copy_has_come() {
        let told = so_far(4096, Some(20_011), 5);
        assert_eq!(told, "4096 of 20011 visits, 5 sectors on disk");
        assert_eq!(so_far(3, None, 0), "3 visits, 0 sectors on disk");
    }
}
