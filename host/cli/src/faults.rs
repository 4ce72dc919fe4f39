//! A disk for tests, that fails at any step of writing, syncing or renaming, and loses what was not
//! synced: all of it, or some sectors, or parts of sectors.

use std::cell::{Cell, RefCell};
use std::fs::{self, File, Metadata};
use std::io;
use std::ops::Range;
use std::os::fd::AsRawFd;
use std::os::unix::fs::{FileExt, MetadataExt};
use std::path::{Path, PathBuf};

use crate::format::SECTOR;

/// How a step fails.
#[derive(Clone, Copy, Debug, PartialEq, Eq)]
pub enum How {
    /// Nothing is done.
    Before,
    /// Half of the bytes are written.
    Half,
    /// It is done, and yet said to have failed.
    After,
    /// Nothing is done; of a sync that fails, the system forgets what was to be synced: it is read
    /// from the file as before, and no later sync has it on disk unless it is written again.
    Forgets,
}

/// The disk of one thread.
struct Disk {
    /// Which step fails, counted from 0.
    fails: usize,
    how: How,
    steps: usize,
    /// How often a file was synced.
    syncs: usize,
    failed: bool,
    unsynced: Vec<Undo>,
}

/// How something is as it was, where it was not synced.
enum Undo {
    Bytes {
        file: File,
        length: u64,
        at: u64,
        before: Vec<u8>,
        forgotten: bool,
    },
    Name {
        path: PathBuf,
        before: Option<Vec<u8>>,
    },
}

thread_local! {
    static DISK: RefCell<Option<Disk>> = const { RefCell::new(None) };
    /// The sector of a log that cannot be read, and the place of a mark.
    pub static UNREADABLE: Cell<Option<u64>> = const { Cell::new(None) };
    pub static UNREADABLE_MARK: Cell<Option<u64>> = const { Cell::new(None) };
}

pub fn read(length: usize, at: u64) -> io::Result<()> {
    let bytes = at..at + length as u64;
    match UNREADABLE.get().map(|sector| sector * SECTOR as u64) {
        Some(bad) if bytes.start < bad + SECTOR as u64 && bad < bytes.end => Err(failure()),
        _ => Ok(()),
    }
}

pub fn read_mark(at: u64) -> io::Result<()> {
    match UNREADABLE_MARK.get() {
        Some(bad) if bad == at => Err(failure()),
        _ => Ok(()),
    }
}

fn with<R>(act: impl FnOnce(&mut Disk) -> R) -> Option<R> {
    DISK.with_borrow_mut(|disk| disk.as_mut().map(act))
}

fn failure() -> io::Error {
    io::Error::other("the disk failed")
}

impl Disk {
    /// Whether this step fails.
    fn step(&mut self) -> bool {
        let fails = self.steps == self.fails;
        self.steps += 1;
        self.failed |= fails;
        fails
    }

    /// What is written again is to be synced again.
    fn recall(&mut self, file: &File, written: Range<u64>) {
        for undo in self.unsynced.iter_mut().filter(|undo| undo.is_of(file)) {
            if let Undo::Bytes { at, before, .. } = undo {
                if written.start <= *at && *at + before.len() as u64 <= written.end {
                    undo.forget(false);
                }
            }
        }
    }
}

pub fn create() -> io::Result<()> {
    match with(Disk::step) {
        Some(true) => Err(failure()),
        _ => Ok(()),
    }
}

pub fn write(file: &File, bytes: &[u8], at: u64) -> Option<io::Result<()>> {
    with(|disk| {
        let length = file.metadata()?.len();
        let mut before = vec![0; bytes.len().min(length.saturating_sub(at) as usize)];
        file.read_exact_at(&mut before, at)?;
        disk.recall(file, at..at + bytes.len() as u64);
        disk.unsynced.push(Undo::Bytes {
            file: reopened(file)?,
            length,
            at,
            before,
            forgotten: false,
        });
        if !disk.step() {
            return file.write_all_at(bytes, at);
        }
        let written = match disk.how {
            How::Before | How::Forgets => 0,
            How::Half => bytes.len() / 2,
            How::After => bytes.len(),
        };
        file.write_all_at(&bytes[..written], at)?;
        Err(failure())
    })
}

/// The same file opened once more: a clone would share its lock, and keep it.
fn reopened(file: &File) -> io::Result<File> {
    let path = format!("/proc/self/fd/{}", file.as_raw_fd());
    File::options().read(true).write(true).open(path)
}

/// How often a file was synced on this disk.
pub fn syncs() -> usize {
    with(|disk| disk.syncs).unwrap_or(0)
}

pub fn sync(file: &File) -> Option<io::Result<()>> {
    with(|disk| {
        disk.syncs += 1;
        let fails = disk.step();
        if !fails || disk.how == How::After {
            disk.unsynced.retain(|undo| match undo {
                Undo::Bytes { forgotten, .. } => *forgotten || !undo.is_of(file),
                Undo::Name { .. } => true,
            });
        } else if disk.how == How::Forgets {
            for undo in disk.unsynced.iter_mut().filter(|undo| undo.is_of(file)) {
                undo.forget(true);
            }
        }
        if fails {
            Err(failure())
        } else {
            Ok(())
        }
    })
}

/// A file gets this name by what is to be done.
pub fn rename(to: &Path, act: impl FnOnce() -> io::Result<()>) -> Option<io::Result<()>> {
    with(|disk| {
        let fails = disk.step();
        if !fails || disk.how == How::After {
            disk.unsynced.push(Undo::Name {
                path: to.to_path_buf(),
                before: fs::read(to).ok(),
            });
            act()?;
        }
        if fails {
            Err(failure())
        } else {
            Ok(())
        }
    })
}

pub fn sync_folder() -> Option<io::Result<()>> {
    with(|disk| {
        let fails = disk.step();
        if !fails || disk.how == How::After {
            let names = |undo: &Undo| matches!(undo, Undo::Name { .. });
            disk.unsynced.retain(|undo| !names(undo));
        }
        if fails {
            Err(failure())
        } else {
            Ok(())
        }
    })
}

/// What is lost of what was not synced, when the machine stops.
#[derive(Clone, Copy, Debug, PartialEq, Eq)]
pub enum Lost {
    Nothing,
    All,
    Bytes,
    Names,
    /// The second half of each write.
    Halves,
    /// The first half of each write.
    Fronts,
    /// Any of the sectors of each write, whole or in part, and any of the names, by this number.
    Torn(u64),
}

/// Numbers that look random.
pub struct Random(pub u64);

impl Random {
    /// One below a limit.
    pub fn below(&mut self, limit: usize) -> usize {
        self.0 = self.0.wrapping_mul(6_364_136_223_846_793_005);
        self.0 = self.0.wrapping_add(1_442_695_040_888_963_407);
        (self.0 >> 33) as usize % limit
    }
}

impl Undo {
    /// Whether these are bytes of this file.
    fn is_of(&self, other: &File) -> bool {
        let identity = |file: Metadata| (file.dev(), file.ino());
        match self {
            Undo::Bytes { file, .. } => {
                file.metadata().map(identity).ok() == other.metadata().map(identity).ok()
            }
            Undo::Name { .. } => false,
        }
    }

    fn forget(&mut self, now: bool) {
        if let Undo::Bytes { forgotten, .. } = self {
            *forgotten = now;
        }
    }

    fn undo(self, lost: Lost, random: &mut Random) {
        match self {
            Undo::Bytes {
                file,
                length,
                at,
                before,
                ..
            } => {
                let kept = match lost {
                    Lost::Nothing | Lost::Names => return,
                    Lost::Fronts => {
                        let front = &before[..before.len() / 2];
                        return file.write_all_at(front, at).unwrap();
                    }
                    Lost::All | Lost::Bytes => 0,
                    Lost::Halves => before.len() / 2,
                    Lost::Torn(_) => return tear(&file, at, &before, random),
                };
                let written = file.write_all_at(&before[kept..], at + kept as u64);
                written.unwrap();
                if kept == 0 {
                    file.set_len(length).unwrap();
                }
            }
            Undo::Name { path, before } => {
                let kept = match lost {
                    Lost::All | Lost::Names => false,
                    Lost::Torn(_) => random.below(2) == 0,
                    _ => true,
                };
                match before {
                    _ if kept => {}
                    Some(bytes) => fs::write(path, bytes).unwrap(),
                    None => fs::remove_file(path).unwrap(),
                }
            }
        }
    }
}

/// Has each sector of a write arrive whole, not at all, or its front or its rear alone, cut among the bytes that it
/// changes; most of them in one of these ways.
fn tear(file: &File, at: u64, before: &[u8], random: &mut Random) {
    let usual = random.below(5);
    let mut after = vec![0; before.len()];
    file.read_exact_at(&mut after, at).unwrap();
    for (number, sector) in before.chunks(SECTOR).enumerate() {
        let now = &after[number * SECTOR..][..sector.len()];
        let differs = |i: &usize| sector[*i] != now[*i];
        let first = (0..sector.len()).find(differs).unwrap_or(0);
        let last = (0..sector.len()).rfind(differs).unwrap_or(0);
        let cut = first + random.below(last - first + 1);
        let way = match random.below(3) {
            0 => random.below(4),
            _ => usual,
        };
        let lost = match way {
            1 => 0..sector.len(),
            2 => cut..sector.len(),
            3 => 0..cut,
            _ => 0..0,
        };
        let start = at + (number * SECTOR + lost.start) as u64;
        file.write_all_at(&sector[lost], start).unwrap();
    }
}

/// All but the torn ones.
pub const LOSSES: [Lost; 6] = [
    Lost::Nothing,
    Lost::All,
    Lost::Bytes,
    Lost::Names,
    Lost::Halves,
    Lost::Fronts,
];

/// Does the work on a disk that fails at this step; then the machine stops. Whether it failed.
pub fn on_failing_disk(fails: usize, how: How, lost: Lost, work: impl FnOnce()) -> bool {
    DISK.set(Some(Disk {
        fails,
        how,
        steps: 0,
        syncs: 0,
        failed: false,
        unsynced: Vec::new(),
    }));
    work();
    let disk = DISK.take().unwrap();
    let mut random = match lost {
        Lost::Torn(seed) => Random(seed),
        _ => Random(0),
    };
    for undo in disk.unsynced.into_iter().rev() {
        undo.undo(lost, &mut random);
    }
    disk.failed
}

/// Does the work on one that never fails, nor loses anything; it takes no time to sync either.
pub fn on_good_disk<R>(work: impl FnOnce() -> R) -> R {
    let mut result = None;
    on_failing_disk(usize::MAX, How::Before, Lost::Nothing, || {
        result = Some(work())
    });
    result.unwrap()
}

/// For each way to fail and to lose, each step in turn fails, until there are no more of them.
pub fn every_fault(case: impl Fn(usize, How, Lost) -> bool) {
    for how in [How::Before, How::Half, How::After, How::Forgets] {
        for lost in LOSSES {
            let steps = (0..).find(|step| !case(*step, how, lost)).unwrap();
            assert!(steps >= 4, "{steps} steps");
        }
    }
}
