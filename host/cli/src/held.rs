//! Whether a block that a write found held in the log in memory is so on disk.

use std::fs::File;
use std::ops::Range;
use std::path::Path;

use crate::blocks;
use crate::format::{BLANK, SECTOR};
use crate::sectors;

/// Sectors of a block that was found in memory and is another on disk: damage that fell between two
/// requests.
pub struct Damaged {
    sectors: Range<usize>,
    /// What is there by now.
    on_disk: Vec<u8>,
    /// Whether any of it could not be read: that may pass.
    unreadable: bool,
}

/// Sectors that were damaged, where the damage was taken into memory.
pub struct Taken {
    sectors: Range<usize>,
    /// What was in memory, where the disk could not be read.
    before: Option<Vec<u8>>,
}

/// The sound block that starts at a sector of a log, where it is another on disk. None where it is so on disk
/// too.
pub fn damaged(log: &[u8], file: &File, sector: usize) -> Option<Damaged> {
    let sectors = blocks::at(log, sector)?;
    let (on_disk, unreadable) = on_disk(file, &sectors);
    let differs = on_disk != log[sectors.start * SECTOR..sectors.end * SECTOR];
    differs.then_some(Damaged {
        sectors,
        on_disk,
        unreadable,
    })
}

impl Damaged {
    /// Takes the damage into memory.
    pub fn take(self, log: &mut [u8]) -> Taken {
        let sectors = self.sectors;
        let held = &mut log[sectors.start * SECTOR..sectors.end * SECTOR];
        let before = self.unreadable.then(|| held.to_vec());
        held.copy_from_slice(&self.on_disk);
        Taken { sectors, before }
    }
}

impl Taken {
    /// Has in memory again what could not be read: the block was not stored anew, and a later look
    /// may find it.
    pub fn put_back(self, log: &mut [u8]) {
        if let Some(before) = self.before {
            log[self.sectors.start * SECTOR..self.sectors.end * SECTOR].copy_from_slice(&before);
        }
    }
}

/// These sectors as they are on disk, and whether any could not be read. Where they are blank, cut off
/// or unreadable they fit no check: never blank, since the used part does not end before its mark.
fn on_disk(file: &File, sectors: &Range<usize>) -> (Vec<u8>, bool) {
    let length = sectors.len() * SECTOR;
    let loaded = sectors::load_from(file, (sectors.start * SECTOR) as u64, length);
    let mut bytes = loaded.bytes;
    bytes.resize(length, 0);
    for sector in bytes.chunks_exact_mut(SECTOR) {
        if *sector == BLANK {
            sector.copy_from_slice(&sectors::unsound(b"lost"));
        }
    }
    (bytes, !loaded.unreadable.is_empty())
}

/// What is told of it.
pub fn words(damaged: &Damaged, path: &Path) -> String {
    let damaged = &damaged.sectors;
    let sectors = match damaged.len() {
        1 => format!("sector {} of {} was", damaged.start, path.display()),
        _ => format!(
            "sectors {} to {} of {} were",
            damaged.start,
            damaged.end - 1,
            path.display()
        ),
    };
    format!("{sectors} damaged on disk since this program read the log; the write does not count on what was there.")
}
