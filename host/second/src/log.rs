//! The log and its waiting part: sound blocks, the used part, doubtful sectors, look-up and storing.

use crate::edition::Edition;
use crate::kind::lawful;
use crate::refusal::Refusal;
use crate::sector::{blank, encode, fits, label, payload, Label, SECTOR};
use crate::sha1::{sha1, Score, ZERO_SCORE};

/// The most sectors a log may have.
pub const MOST_SECTORS: usize = 1_048_576;
/// The most sectors a waiting part may have.
pub const MOST_WAITING: usize = 256;
/// The most bytes a block may have.
pub const MOST_DATA: usize = 57_344;

/// A block's place in the log and what its label says.
#[derive(Clone, Copy, Debug, PartialEq, Eq)]
pub struct Block {
    /// All its sectors have this one, and this date.
    pub edition: Edition,
    pub kind: u8,
    pub score: Score,
    /// Its first sector.
    pub first: usize,
    /// Its bytes of data.
    pub size: usize,
}

impl Block {
    /// The sectors it takes.
    pub fn sectors(&self) -> usize {
        self.edition.sectors_for(self.size)
    }

    /// Its data.
    pub fn data(&self, log: &[u8]) -> Vec<u8> {
        let mut data = Vec::new();
        for part in 0..self.sectors() {
            data.extend(payload(sector(log, self.first + part), self.edition));
        }
        data.truncate(self.size);
        data
    }
}

/// Test 3 of a log alone: whole sectors, and not too many.
pub fn well_sized(log_len: usize) -> bool {
    log_len.is_multiple_of(SECTOR) && log_len / SECTOR <= MOST_SECTORS
}

/// Test 3 of all that is lent as sectors, each part by its own limit. None lent is as good as one of no
/// sectors here.
pub fn well_lent(log_len: usize, waiting_len: usize) -> bool {
    let waiting = waiting_len.is_multiple_of(SECTOR) && waiting_len / SECTOR <= MOST_WAITING;
    well_sized(log_len) && waiting
}

/// The log's used part and then the waiting part, as one log.
pub fn joined(log: &[u8], waiting: &[u8]) -> Vec<u8> {
    [&log[..used(log) * SECTOR], waiting].concat()
}

/// A sector by its number.
pub fn sector(log: &[u8], number: usize) -> &[u8] {
    &log[number * SECTOR..(number + 1) * SECTOR]
}

/// The block that starts at a sector and is sound but for its SHA-1, which isn't looked at.
pub fn shaped_at(log: &[u8], first: usize) -> Option<Block> {
    let head = label(sector(log, first))?;
    let size = usize::from(head.size);
    let block = Block {
        edition: head.edition,
        kind: head.kind,
        score: head.score,
        first,
        size,
    };
    let lawful = head.rec as usize == first
        && (1..=MOST_DATA).contains(&size)
        && usize::from(head.of) == block.sectors()
        && lawful(head.kind)
        && first + block.sectors() <= log.len() / SECTOR;
    if !lawful {
        return None;
    }
    for part in 0..head.of {
        let sector = sector(log, first + usize::from(part));
        let expected = Label { part, ..head };
        if label(sector) != Some(expected) || !fits(sector) {
            return None;
        }
        let payload = payload(sector, head.edition);
        let here = (size - usize::from(part) * payload.len()).min(payload.len());
        if payload[here..].iter().any(|&byte| byte != 0) {
            return None;
        }
    }
    Some(block)
}

/// The sound block that starts at a sector.
pub fn sound_at(log: &[u8], first: usize) -> Option<Block> {
    let block = shaped_at(log, first)?;
    (sha1(&block.data(log)) == block.score).then_some(block)
}

/// The size of the sound block that starts at a sector of any log, 0 where none does.
pub fn asked_at(log: &[u8], first: usize) -> Result<usize, u8> {
    if !well_sized(log.len()) {
        return Err(3);
    }
    if first >= log.len() / SECTOR {
        return Ok(0);
    }
    Ok(sound_at(log, first).map_or(0, |block| block.size))
}

/// The sectors of the used part.
pub fn used(log: &[u8]) -> usize {
    let mut used = log.len() / SECTOR;
    while used > 0 && blank(sector(log, used - 1)) {
        used -= 1;
    }
    used
}

/// What a log holds.
#[derive(Clone, Debug)]
pub struct Contents {
    /// The sound blocks, by their place.
    pub blocks: Vec<Block>,
    /// The sectors of the used part.
    pub used: usize,
    /// How many sectors of the used part are in no sound block.
    pub doubtful: usize,
    /// The first of those.
    pub first_doubtful: Option<usize>,
}

/// What a look-up gives.
#[derive(Clone, Copy, Debug, PartialEq, Eq)]
pub enum Lookup {
    /// The empty block, which is always held.
    Empty,
    Found(Block),
    /// Refused: 11, or 12 with the first doubtful sector.
    Missing(Refusal),
}

impl Contents {
    /// Reads the whole log.
    pub fn of(log: &[u8]) -> Contents {
        let used = used(log);
        let mut blocks = Vec::new();
        let mut covered = vec![false; used];
        for first in 0..used {
            if let Some(block) = sound_at(log, first) {
                covered[first..first + block.sectors()].fill(true);
                blocks.push(block);
            }
        }
        Contents {
            blocks,
            used,
            doubtful: covered.iter().filter(|&&covered| !covered).count(),
            first_doubtful: covered.iter().position(|&covered| !covered),
        }
    }

    /// Looks up a score and a lawful type.
    pub fn lookup(&self, kind: u8, score: &Score) -> Lookup {
        if *score == ZERO_SCORE {
            return Lookup::Empty;
        }
        let found = self
            .blocks
            .iter()
            .find(|block| block.kind == kind && block.score == *score);
        match (found, self.first_doubtful) {
            (Some(block), _) => Lookup::Found(*block),
            (None, Some(first)) => Lookup::Missing(Refusal::not_known(first)),
            (None, None) => Lookup::Missing(11.into()),
        }
    }
}

/// Writes a block's sectors from a sector on. There must be room.
pub fn write(log: &mut [u8], first: usize, edition: Edition, kind: u8, data: &[u8]) {
    write_in(&mut log[first * SECTOR..], first, edition, kind, data);
}

/// Writes a block's sectors to the front of some room, numbered from a sector on.
pub fn write_in(room: &mut [u8], first: usize, edition: Edition, kind: u8, data: &[u8]) {
    let score = sha1(data);
    for (part, payload) in data.chunks(edition.payload()).enumerate() {
        let label = Label {
            edition,
            rec: first as u32,
            part: part as u16,
            of: edition.sectors_for(data.len()) as u16,
            kind,
            size: data.len() as u16,
            score,
        };
        let start = part * SECTOR;
        room[start..start + SECTOR].copy_from_slice(&encode(&label, payload));
    }
}
