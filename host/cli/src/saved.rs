//! What `save` makes of files: a root, over a directory block with one entry, that of the directory
//! of the files. The directory's first file holds the names of the others, one to a line.

use boundary::{fill, Refusal};

use crate::contents::{self, Stopped};
use crate::entry::{self, Entry};
use crate::format::{kind_name, Score, MOST_DATA};
use crate::hex;
use crate::names;
use crate::session::Client;
use crate::status::Failure;
use crate::words;

/// Bytes in a root, and what its type says.
const ROOT: usize = 300;
const TYPE: &[u8] = b"skywimple save";
/// The places of its type, score and block size.
const TYPE_AT: usize = 130;
const SCORE_AT: usize = 258;
const BLOCK_SIZE_AT: usize = 278;

/// The most files of a root: as many as a walk has visits.
pub const MOST_FILES: usize = 1_000_000;

/// A saved file as far as its root leads to it.
#[derive(Debug, PartialEq, Eq)]
pub struct SavedFile {
    /// None where it is lost.
    pub name: Option<String>,
    /// The refusal where the block that it stands in cannot be read.
    pub entry: Result<[u8; entry::LENGTH], Refusal>,
}

#[derive(Debug)]
pub struct Saved {
    /// The entry of the list of names.
    pub names: Result<[u8; entry::LENGTH], Refusal>,
    pub files: Vec<SavedFile>,
    /// Why names are lost, if any are.
    pub names_lost: Option<Refusal>,
}

/// The root over a directory block.
pub fn root(directory_block: &Score) -> [u8; ROOT] {
    let mut root = [0; ROOT];
    root[1] = 2;
    root[TYPE_AT..TYPE_AT + TYPE.len()].copy_from_slice(TYPE);
    root[SCORE_AT..SCORE_AT + 20].copy_from_slice(directory_block);
    root[BLOCK_SIZE_AT..BLOCK_SIZE_AT + 2].copy_from_slice(&(MOST_DATA as u16).to_be_bytes());
    root
}

/// The files of a root that `save` made, as many as its directory has, each with what can be read.
pub fn open(log: &mut [u8], score: &Score) -> Result<Saved, Failure> {
    let directory = directory(log, score)?;
    files(log, &directory, score)
}

/// The same, of a root whose directory's entry was read.
pub fn files(log: &[u8], directory: &[u8; entry::LENGTH], score: &Score) -> Result<Saved, Failure> {
    let mut entries = entries(log, directory, score)?;
    let count = entries.len() - 1;
    let list = entries.remove(0);
    let (names, names_lost) = match &list {
        Ok(entry) => read_names(log, entry, count, score)?,
        Err(refusal) => (Vec::new(), Some(*refusal)),
    };
    let names = names.into_iter().map(Some).chain((0..).map(|_| None));
    let files = names.zip(entries);
    Ok(Saved {
        names: list,
        files: files
            .map(|(name, entry)| SavedFile { name, entry })
            .collect(),
        names_lost,
    })
}

/// The directory's entry, by way of the root and its directory block.
pub fn directory(log: &mut [u8], score: &Score) -> Result<[u8; entry::LENGTH], Failure> {
    let mut client = Client::greet(log)?;
    let mut root = block(&mut client, log, 1, score, ROOT)?;
    root.resize(ROOT, 0);
    let kind = &root[TYPE_AT..SCORE_AT];
    let ours = kind.starts_with(TYPE) && kind[TYPE.len()..].iter().all(|byte| *byte == 0);
    if root[..2] != [0, 2] || !ours {
        return Err(not_saved(score, "its type is another"));
    }
    let mut top = [0; 20];
    top.copy_from_slice(&root[SCORE_AT..SCORE_AT + 20]);
    let mut listed = block(&mut client, log, 2, &top, MOST_DATA)?;
    listed.resize(listed.len().next_multiple_of(entry::LENGTH), 0);
    let entry: [u8; entry::LENGTH] = match listed.try_into() {
        Ok(entry) => entry,
        Err(_) => return Err(not_saved(score, "it has not one entry")),
    };
    match Entry::parse(&entry) {
        Some(Entry {
            directory: true,
            size,
            ..
        }) if size >= entry::LENGTH as u64
            && size.is_multiple_of(entry::LENGTH as u64)
            && size / entry::LENGTH as u64 <= MOST_FILES as u64 + 1 =>
        {
            Ok(entry)
        }
        _ => Err(not_saved(score, "its entry is no directory of files")),
    }
}

/// The directory's entries, the names' first. Those in a block that cannot be read have its refusal.
fn entries(
    log: &[u8],
    directory: &[u8],
    score: &Score,
) -> Result<Vec<Result<[u8; entry::LENGTH], Refusal>>, Failure> {
    let size = contents::size(directory) as usize;
    let leaf = Entry::parse(directory).map_or(entry::LENGTH, |entry| entry.count(0));
    let mut entries = Vec::new();
    let mut buffer = vec![0; leaf];
    for start in (0..size).step_by(leaf) {
        let buffer = &mut buffer[..leaf.min(size - start)];
        let filled = fill(log, &[], directory, start as u64, buffer);
        match filled.outcome {
            Ok(()) if filled.count == buffer.len() => {
                entries.extend(buffer.chunks_exact(entry::LENGTH).map(|entry| {
                    let mut bytes = [0; entry::LENGTH];
                    bytes.copy_from_slice(entry);
                    Ok(bytes)
                }))
            }
            Ok(()) => return Err(not_saved(score, "its directory ends early")),
            Err(refusal) => entries.extend(vec![Err(refusal); buffer.len() / entry::LENGTH]),
        }
    }
    Ok(entries)
}

/// The names of so many files, as far as they can be read, and why not further.
fn read_names(
    log: &[u8],
    entry: &[u8],
    count: usize,
    score: &Score,
) -> Result<(Vec<String>, Option<Refusal>), Failure> {
    if contents::size(entry) > (count * (names::MOST + 1)) as u64 {
        return Err(not_saved(score, "its names are too long"));
    }
    let mut bytes = Vec::new();
    let ended = contents::pieces(log, entry, |piece| {
        bytes.extend(piece);
        Ok(())
    })?;
    let names = match (names::parse(&bytes), ended) {
        (Some(names), None) if names.len() == count && bytes.last().is_none_or(is_end) => names,
        (Some(names), Some(_)) if names.len() <= count => names,
        _ => return Err(not_saved(score, "its first file is no list of names")),
    };
    let names = names.into_iter().map(String::from).collect();
    Ok((names, ended.map(|Stopped { refusal, .. }| refusal)))
}

fn is_end(byte: &u8) -> bool {
    *byte == b'\n'
}

/// A block that the root leads to.
fn block(
    client: &mut Client,
    log: &mut [u8],
    kind: u8,
    score: &Score,
    count: usize,
) -> Result<Vec<u8>, Failure> {
    let read = client.read(log, kind, score, count as u16);
    let read = read.map(<[u8]>::to_vec);
    read.map_err(|refusal| {
        let words = words::refusal_in_tree(refusal, Some((kind, score)));
        let words = format!(
            "the {} block {}: {words}",
            kind_name(kind),
            hex::encode(score)
        );
        Failure::new(refusal.number(), words)
    })
}

/// A root of another make.
fn not_saved(score: &Score, why: &str) -> Failure {
    let words = format!(
        "{} is no root that `skywimple save` made ({why}). `skywimple walk` visits any root.",
        hex::encode(score)
    );
    Failure::new(Refusal::Entry.number(), words)
}
