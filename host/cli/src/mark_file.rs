//! The mark of a log that this process writes. Its file stays open and is renewed in place, which costs one
//! sync; where it is no longer the mark's file, or not its alone, it is replaced whole.

use std::fs::{self, File, OpenOptions};
use std::os::unix::fs::MetadataExt;
use std::path::{Path, PathBuf};

use crate::mark::{Mark, LENGTH};
use crate::status::Failure;

pub struct MarkFile {
    path: PathBuf,
    /// None where it is to be replaced whole: also after a renewal that failed.
    file: Option<File>,
}

impl MarkFile {
    /// The mark as it was found: renewed in place if its file has it in both places and may be written.
    pub fn open(path: PathBuf, mark: Option<Mark>) -> MarkFile {
        let found = fs::symlink_metadata(&path);
        let file = match found.is_ok_and(|found| found.is_file()) {
            true => OpenOptions::new().read(true).write(true).open(&path).ok(),
            false => None,
        };
        let file = file.filter(|file| mark.is_some_and(|mark| mark.fills(file)));
        MarkFile { path, file }
    }

    pub fn path(&self) -> &Path {
        &self.path
    }

    /// Has a mark on disk. Its caller holds the log's lock.
    pub fn renew(&mut self, mark: Mark, log: &File) -> Result<(), Failure> {
        let file = match self.file.take().filter(|file| self.is_own(file)) {
            Some(file) => mark.renew(&file, &self.path).map(|()| file)?,
            None => mark.write(&self.path, log)?,
        };
        self.file = Some(file);
        Ok(())
    }

    /// Whether this file has the mark's name, that name alone, and its length: a link to it may be someone's
    /// copy.
    fn is_own(&self, file: &File) -> bool {
        let (Ok(named), Ok(own)) = (fs::symlink_metadata(&self.path), file.metadata()) else {
            return false;
        };
        let same = (named.dev(), named.ino()) == (own.dev(), own.ino());
        same && own.nlink() == 1 && own.len() == LENGTH as u64
    }
}
