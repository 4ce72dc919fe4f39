//! `restore`: writes the files of a root back into a folder.

use std::collections::HashSet;
use std::fs;
use std::io::ErrorKind;
use std::path::{Path, PathBuf};

use boundary::Refusal;

use crate::arguments::Arguments;
use crate::contents::{self, Stopped};
use crate::disk;
use crate::entry::{self, Entry};
use crate::escape;
use crate::hex;
use crate::interrupt::Held;
use crate::mark;
use crate::output_file;
use crate::progress::Progress;
use crate::reader;
use crate::saved::{self, SavedFile};
use crate::status::{Failure, DONE, EXISTS, PARTLY};
use crate::streams::Streams;
use crate::unique;
use crate::words;

const INTERRUPTED: &str = "interrupted; the files that were restored before are whole";

/// The most bytes of all files together, unless another limit is given: eight times those of the longest
/// log. A tree may lead to far more, since its blocks may stand in it many times.
const LIMIT: u64 = 1 << 32;

/// Where files are restored to.
struct Target<'a> {
    folder: &'a Path,
    overwrite: bool,
    limit: u64,
    /// The bytes of the files restored so far.
    bytes: u64,
    held: Held,
    progress: Progress,
}

pub fn run(arguments: &Arguments, streams: &mut Streams) -> Result<u8, Failure> {
    let root = arguments.score(1)?;
    let path = arguments.path(0);
    let limit = arguments.number("--limit")?.unwrap_or(LIMIT);
    let mut log = reader::read(path, arguments.flag("--adopt"), streams)?;
    let saved = saved::open(&mut log, &root)?;
    let names = names_for(&saved.files);
    let mut target = Target {
        folder: arguments.path(2),
        overwrite: arguments.flag("--overwrite"),
        limit,
        bytes: 0,
        held: Held::start(),
        progress: Progress::start(),
    };
    target.is_free(&names, path)?;
    target.make()?;

    let (mut lost, all) = (0, names.len());
    for (at, (name, file)) in names.iter().zip(&saved.files).enumerate() {
        let shown = escape::visible(name);
        let doing = format!("file {} of {all}, {shown}", at + 1);
        if let Some(why) = target.restore(&mut log, file, name, &doing, streams)? {
            streams.tell(&format!("{shown} is not restored: {why}"));
            lost += 1;
        }
    }
    streams.clear_progress();
    target.settle()?;
    if let Some(refusal) = saved.names_lost {
        streams.tell(&names_lost(refusal));
    }
    let folder = escape::visible(&target.folder.display().to_string());
    let told = format!("{} of {all} files restored to {folder}\n", all - lost);
    streams.answer(told.as_bytes())?;
    Ok(match lost == 0 && saved.names_lost.is_none() {
        true => DONE,
        false => PARTLY,
    })
}

fn names_lost(refusal: Refusal) -> String {
    format!(
        "names are lost: {}. A file that had one is named name-lost-N: it was the file N, from 1 \
         on, of those that `save` was given.",
        words::brief(refusal)
    )
}

/// The files' names. One that is lost is made up, and is none of the others.
fn names_for(files: &[SavedFile]) -> Vec<String> {
    let known: HashSet<_> = files.iter().filter_map(|file| file.name.as_ref()).collect();
    let name = |(at, file): (usize, &SavedFile)| match &file.name {
        Some(name) => name.clone(),
        None => {
            let mut name = format!("name-lost-{at}");
            while known.contains(&name) {
                name.push('_');
            }
            name
        }
    };
    (1..).zip(files).map(name).collect()
}

impl Target<'_> {
    fn path(&self, name: &str) -> PathBuf {
        self.folder.join(name)
    }

    /// Fails where a file would be overwritten that may not be. The log never may.
    fn is_free(&self, names: &[String], log: &Path) -> Result<(), Failure> {
        for name in names {
            let path = self.path(name);
            if output_file::is_log(log, &path) {
                let words = format!("this would overwrite the log: {}", path.display());
                return Err(Failure::new(EXISTS, words));
            }
            match fs::symlink_metadata(&path) {
                Ok(found) if found.is_dir() => return Err(folder_there(&path)),
                Ok(_) if !self.overwrite => return Err(exists(&path)),
                _ => {}
            }
        }
        Ok(())
    }

    /// Makes the folder, unless it is there, and has its name on disk.
    fn make(&self) -> Result<(), Failure> {
        let made = match fs::create_dir(self.folder) {
            Err(e) if e.kind() == ErrorKind::AlreadyExists && self.folder.is_dir() => Ok(()),
            made => made.and_then(|()| mark::sync_folder(self.folder)),
        };
        made.map_err(|e| Failure::disk("make the folder", self.folder, &e))
    }

    /// Restores a file whole, or not at all: then it says why.
    fn restore(
        &mut self,
        log: &mut [u8],
        file: &SavedFile,
        name: &str,
        doing: &str,
        streams: &mut Streams,
    ) -> Result<Option<String>, Failure> {
        let entry = match &file.entry {
            Ok(entry) => entry,
            Err(refusal) => {
                let words = words::refusal_in_tree(*refusal, None);
                return Ok(Some(format!("its entry cannot be read: {words}")));
            }
        };
        if let Some(why) = self.beyond_limit(entry) {
            return Ok(Some(why));
        }
        let temporary = self.path(&format!(".skywimple-restore-{}", unique::name()));
        let written = self.write(log, entry, &temporary, doing, streams);
        let ended = match written {
            Ok(None) => self.rename(&temporary, &self.path(name)).map(|()| None),
            Ok(Some(stopped)) => Ok(Some(stopped)),
            Err(failure) => Err(failure),
        };
        if !matches!(ended, Ok(None)) {
            let _ = fs::remove_file(&temporary);
        }
        Ok(ended?.map(|stopped| not_whole(log, entry, stopped)))
    }

    /// Why a file is too long to be restored, if it is: its entry alone says how long it is.
    fn beyond_limit(&self, entry: &[u8; entry::LENGTH]) -> Option<String> {
        let size = Entry::parse(entry)?.size;
        let Target { limit, bytes, .. } = self;
        let all = bytes.saturating_add(size);
        (all > *limit).then(|| {
            format!(
                "it has {size} bytes, and with the {bytes} bytes restored before it more than the \
                 limit of {limit}. `--limit {all}` would restore it too."
            )
        })
    }

    /// Writes a file under a temporary name, as far as it can be read, and has it on disk. Pieces that are
    /// all zeros become holes.
    fn write(
        &mut self,
        log: &[u8],
        entry: &[u8],
        temporary: &Path,
        doing: &str,
        streams: &mut Streams,
    ) -> Result<Option<Stopped>, Failure> {
        let failed = |e| Failure::disk("write", temporary, &e);
        let file = disk::create(temporary).map_err(failed)?;
        let (mut written, mut length) = (0, 0);
        let ended = contents::pieces(log, entry, |piece| {
            self.held.check(INTERRUPTED)?;
            if piece.iter().any(|byte| *byte != 0) {
                disk::write(&file, piece, written).map_err(failed)?;
                length = written + piece.len() as u64;
            }
            written += piece.len() as u64;
            let all = contents::size(entry);
            self.progress
                .show_before(streams, || format!("{doing}: {written} of {all} bytes"));
            Ok(())
        })?;
        if ended.is_none() {
            if length < written {
                disk::write(&file, &[0], written - 1).map_err(failed)?;
            }
            disk::sync_data(&file).map_err(failed)?;
            self.bytes += written;
        }
        Ok(ended)
    }

    fn rename(&self, temporary: &Path, path: &Path) -> Result<(), Failure> {
        self.held.check(INTERRUPTED)?;
        let renamed = match self.overwrite {
            true => disk::rename(temporary, path),
            false => disk::rename_new(temporary, path),
        };
        renamed.map_err(|e| match e.kind() {
            ErrorKind::AlreadyExists => exists(path),
            _ => Failure::disk("write", path, &e),
        })
    }

    /// Has the names on disk.
    fn settle(&self) -> Result<(), Failure> {
        let synced = disk::sync_folder(self.folder);
        synced.map_err(|e| Failure::disk("sync", self.folder, &e))
    }
}

/// Why a file is not restored, and how to get what can be read of it.
fn not_whole(log: &mut [u8], entry: &[u8; entry::LENGTH], stopped: Stopped) -> String {
    let mut words = contents::stopped_words(log, entry, stopped);
    if stopped.offset > 0 {
        let entry = hex::encode(entry);
        words += &format!(" `skywimple read LOG {entry}` writes what is before that offset.");
    }
    words
}

fn folder_there(path: &Path) -> Failure {
    let words = format!(
        "{} is a folder, and no file replaces it. Give another folder, or move it away.",
        path.display()
    );
    Failure::new(EXISTS, words)
}

fn exists(path: &Path) -> Failure {
    let words = format!(
        "{} is there already. Give another folder, move it away, or say --overwrite.",
        path.display()
    );
    Failure::new(EXISTS, words)
}
