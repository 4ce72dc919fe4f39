//! The index beside a log, `LOG.index`: where each block starts, in buckets by the first byte of its
//! score. It is a hint: the proved calls look at the block before they count on it, and go by the scan
//! where no hint holds true. So a missing, stale, damaged or foreign index changes no answer, and it is
//! written without a sync, by the one who holds the log's lock.
//!
//! Four lines, `skywimple-index`, `used=`, `last=` and `count=`, the last three with 8 lower-case hex digits:
//! up to which sector of the log it was kept, the CRC-32 of the sector before that, and how many hints it
//! has. Behind them stands the index as the proved calls take it.

use std::fs::{File, OpenOptions};
use std::io::{self, ErrorKind, Read};
use std::ops::Range;
use std::os::unix::fs::FileExt;
use std::path::{Path, PathBuf};

use boundary::{crc32, rebuild};

use crate::disk;
use crate::format::{self, Score, SECTOR};
use crate::hex;
use crate::mark;

const SUFFIX: &str = ".index";
const TITLE: &[u8] = b"skywimple-index\n";
/// The bytes of the lines before the index.
const FRONT: usize = TITLE.len() + 14 + 14 + 15;

const BUCKETS: usize = 256;
/// The bytes of an entry: score[20] type[1] sector[4].
const ENTRY: usize = 25;
const FREE: [u8; ENTRY] = [0; ENTRY];
/// The least blocks that a new index is made for, and the most bytes that are read of one.
const LEAST: usize = 256;
const MOST: u64 = 1 << 28;

/// The index of a log: beside the file itself where the path is a symbolic link.
pub fn path_of(log: &Path) -> PathBuf {
    mark::with_suffix(&mark::resolved(log), SUFFIX)
}

/// The bytes of an index for so many blocks: in each bucket the places for an even share of them, four
/// times its square root more, and four. So of a thousand full indexes hardly one has a bucket that is
/// too small.
fn length_for(blocks: usize) -> usize {
    let share = blocks.div_ceil(BUCKETS);
    BUCKETS * ENTRY * (share + 4 * (share.isqrt() + 1) + 4)
}

/// The bytes of a score's bucket in an index of so many bytes.
fn bucket(length: usize, score: &Score) -> Range<usize> {
    let bytes = length / (BUCKETS * ENTRY) * ENTRY;
    let start = usize::from(score[0]) * bytes;
    start..start + bytes
}

fn entry(kind: u8, score: &Score, sector: usize) -> [u8; ENTRY] {
    let mut entry = [0; ENTRY];
    entry[..20].copy_from_slice(score);
    entry[20] = kind;
    entry[21..].copy_from_slice(&(sector as u32).to_be_bytes());
    entry
}

/// Enters a hint in the first free place of its bucket, and gives where that is.
fn enter(index: &mut [u8], hint: &[u8; ENTRY]) -> Option<usize> {
    let mut score = [0; 20];
    score.copy_from_slice(&hint[..20]);
    let bucket = bucket(index.len(), &score);
    let (places, _) = index[bucket.clone()].as_chunks_mut::<ENTRY>();
    let free = places.iter().position(|place| *place == FREE)?;
    places[free] = *hint;
    Some(bucket.start + free * ENTRY)
}

/// Bytes between two places that it costs less to write once more than to pass by.
const NEAR: usize = 4096;

/// The runs of bytes that have these places, and what is between near ones.
fn runs(places: &mut [usize]) -> Vec<Range<usize>> {
    places.sort_unstable();
    let near = |one: &usize, next: &usize| next - one <= NEAR;
    let runs = places
        .chunk_by(near)
        .filter_map(|run| run.first().zip(run.last()));
    runs.map(|(first, last)| *first..*last + ENTRY).collect()
}

/// The hints of an index.
fn taken(index: &[u8]) -> impl Iterator<Item = &[u8; ENTRY]> {
    let places = index.len() / (BUCKETS * ENTRY) * BUCKETS;
    let (places, _) = index[..places * ENTRY].as_chunks::<ENTRY>();
    places.iter().filter(|place| **place != FREE)
}

/// What the lines at the front of an index say.
#[derive(Clone, Copy, Debug, PartialEq, Eq)]
struct Kept {
    /// Up to which sector of the log it was kept.
    used: usize,
    /// The CRC-32 of the sector before that, 0 if there is none.
    last: u32,
    /// How many hints it has: fewer are there where a stop lost some.
    count: usize,
}

/// What an index's file has: its lines, and the index behind them.
type Found = (Kept, Vec<u8>);

/// Of an index that has nothing yet.
const NOTHING: Kept = Kept {
    used: 0,
    last: 0,
    count: 0,
};

impl Kept {
    /// Of a log that is used up to a sector, with so many hints.
    fn of(log: &[u8], used: usize, count: usize) -> Kept {
        let last = used.checked_sub(1);
        let last = last.map_or(0, |last| crc32(&log[last * SECTOR..used * SECTOR]));
        Kept { used, last, count }
    }

    fn lines(&self) -> Vec<u8> {
        let Kept { used, last, count } = self;
        let lines = format!("used={used:08x}\nlast={last:08x}\ncount={count:08x}\n");
        [TITLE, lines.as_bytes()].concat()
    }

    fn parse(front: &[u8]) -> Option<Kept> {
        let lines = front.get(..FRONT)?.strip_prefix(TITLE)?;
        let mut lines = std::str::from_utf8(lines).ok()?.lines();
        let mut field = |name| {
            let value = hex::decode(lines.next()?.strip_prefix(name)?)?;
            Some(u32::from_be_bytes(value))
        };
        let kept = Kept {
            used: field("used=")? as usize,
            last: field("last=")?,
            count: field("count=")? as usize,
        };
        (kept.lines() == front[..FRONT]).then_some(kept)
    }

    /// Whether a log has been used so far, and with that sector at its end.
    fn fits(&self, log: &[u8]) -> bool {
        self.used <= log.len() / SECTOR && Kept::of(log, self.used, self.count) == *self
    }
}

/// An index in memory, and its file where it is kept.
pub struct Index {
    /// None where it is only read, and where it cannot be written: then it is kept in memory alone.
    file: Option<File>,
    /// As the proved calls take it.
    bytes: Vec<u8>,
    /// How many hints it has.
    count: usize,
    /// Up to which sector of the log its blocks are entered.
    used: usize,
    /// The places that the file lacks, and whether it lacks all.
    entered: Vec<usize>,
    whole: bool,
}

impl Index {
    /// The index of a log whose used part this is, for one who only reads: as it is on disk, and with what
    /// came since. An empty one where there is none that fits.
    pub fn read(path: &Path, log: &[u8]) -> Index {
        let found = open_to_read(path).and_then(|mut file| load(&mut file));
        let (kept, bytes) = match found {
            Ok(Some((kept, bytes))) if kept.fits(log) => (kept, bytes),
            _ => (NOTHING, Vec::new()),
        };
        let mut index = Index::of(None, kept, bytes);
        index.extend(log);
        index
    }

    /// As it is in its file.
    fn of(file: Option<File>, kept: Kept, bytes: Vec<u8>) -> Index {
        Index {
            file,
            count: taken(&bytes).count(),
            bytes,
            used: kept.used,
            entered: Vec::new(),
            whole: false,
        }
    }

    /// The index of a log that this process alone may write: as it is on disk, and with what came since;
    /// made anew where it is missing, blank or another log's. Where something else has its name, or it cannot be
    /// written, it is kept in memory alone. `like` is the log's own file; what takes long is told before.
    pub fn keep(path: &Path, like: &File, log: &[u8], tell: impl FnOnce()) -> Index {
        let (file, found) = match open(&path_of(path), like) {
            Ok((file, found)) => (Some(file), found),
            Err(_) => (None, None),
        };
        let fitting = found.filter(|(kept, bytes)| {
            kept.fits(log) && !bytes.is_empty() && kept.count == taken(bytes).count()
        });
        let mut index = match fitting {
            Some((kept, bytes)) => Index::of(file, kept, bytes),
            None => match file {
                Some(file) => {
                    tell();
                    Index::made(file, log)
                }
                None => return Index::read(path, log),
            },
        };
        index.extend(log);
        index.save(log);
        index
    }

    /// Makes the index of a log anew and writes it. Gives how many blocks it has.
    pub fn renew(path: &Path, like: &File, log: &[u8]) -> io::Result<usize> {
        let (file, _) = open(&path_of(path), like)?;
        let mut index = Index::made(file, log);
        index.write(log)?;
        Ok(index.count)
    }

    /// Made of a log alone, by the proved call, with room for twice its blocks.
    fn made(file: File, log: &[u8]) -> Index {
        let blocks = 2 * starts(log, 0).count();
        let mut bytes = vec![0; length_for(blocks.max(LEAST))];
        // The log was lent before, so its length is allowed. Were it refused, the index would be empty.
        let _ = rebuild(log, &mut bytes);
        let used = log.len() / SECTOR;
        let mut index = Index::of(Some(file), Kept::of(log, used, 0), bytes);
        index.whole = true;
        index
    }

    /// What a request is lent.
    pub fn lent(&mut self) -> &mut [u8] {
        &mut self.bytes
    }

    /// The same, for one who only reads and keeps nothing else of it.
    pub fn into_lent(self) -> Vec<u8> {
        self.bytes
    }

    /// A request that was lent the index stored a block. Where its bucket was full, the index may grow: whether
    /// it did.
    pub fn stored(&mut self, kind: u8, score: &Score, sector: usize) -> bool {
        let hint = entry(kind, score, sector);
        let bucket = bucket(self.bytes.len(), score);
        let (places, _) = self.bytes[bucket.clone()].as_chunks::<ENTRY>();
        match places.iter().rposition(|place| *place == hint) {
            Some(place) => self.note(bucket.start + place * ENTRY),
            None => return self.grow(&hint),
        }
        false
    }

    /// A call that was not lent the index stored a block.
    pub fn enter(&mut self, kind: u8, score: &Score, sector: usize) {
        let hint = entry(kind, score, sector);
        match enter(&mut self.bytes, &hint) {
            Some(place) => self.note(place),
            None => {
                self.grow(&hint);
            }
        }
    }

    /// A hint was entered.
    fn note(&mut self, place: usize) {
        self.entered.push(place);
        self.count += 1;
    }

    /// Has room for twice as many blocks, where it has more than half of those that it was made for: the
    /// hints that there are, in their order, and one more. A bucket that is full before that is full by
    /// chance, or by someone's will: its other blocks are found by the scan.
    fn grow(&mut self, hint: &[u8; ENTRY]) -> bool {
        let length = length_for(2 * self.count);
        if length <= self.bytes.len() || self.bytes.is_empty() {
            return false;
        }
        let mut grown = vec![0; length];
        let there = taken(&self.bytes).chain([hint]);
        self.count = there
            .filter(|hint| enter(&mut grown, hint).is_some())
            .count();
        self.bytes = grown;
        self.whole = true;
        true
    }

    /// Enters the blocks that start behind those that it has, by their labels alone.
    pub fn extend(&mut self, log: &[u8]) {
        if self.bytes.is_empty() {
            return;
        }
        let hints: Vec<_> = starts(log, self.used).collect();
        for hint in hints {
            match enter(&mut self.bytes, &hint) {
                Some(place) => self.note(place),
                None => {
                    self.grow(&hint);
                }
            }
        }
        self.used = log.len() / SECTOR;
    }

    /// Writes what the file lacks, of a log whose used part this is. Where that fails, it is kept in memory
    /// alone from then on.
    pub fn save(&mut self, log: &[u8]) {
        if self.write(log).is_err() {
            self.file = None;
        }
    }

    fn write(&mut self, log: &[u8]) -> io::Result<()> {
        let used = log.len() / SECTOR;
        let Some(file) = &self.file else {
            return Ok(());
        };
        if self.whole {
            // Until it is whole it says that it has nothing.
            file.write_all_at(&NOTHING.lines(), 0)?;
            file.set_len((FRONT + self.bytes.len()) as u64)?;
            file.write_all_at(&self.bytes, FRONT as u64)?;
        } else {
            for run in runs(&mut self.entered) {
                file.write_all_at(&self.bytes[run.clone()], (FRONT + run.start) as u64)?;
            }
        }
        if self.whole || !self.entered.is_empty() || self.used != used {
            file.write_all_at(&Kept::of(log, used, self.count).lines(), 0)?;
        }
        self.used = used;
        self.entered.clear();
        self.whole = false;
        Ok(())
    }
}

/// Where a block of a type and score starts, by the hints of an index.
pub fn sectors<'a>(index: &'a [u8], kind: u8, score: &Score) -> impl Iterator<Item = usize> + 'a {
    let name = entry(kind, score, 0);
    let (places, _) = index[bucket(index.len(), score)].as_chunks::<ENTRY>();
    let named = places.iter().filter(move |place| place[..21] == name[..21]);
    named.map(|place| u32::from_be_bytes([place[21], place[22], place[23], place[24]]) as usize)
}

/// A small index with the hints that the file beside a log has for one block: for a read of that block
/// alone. One bucket of the file is read.
pub fn hints(path: &Path, kind: u8, score: &Score) -> Vec<u8> {
    let entries = open_to_read(path).and_then(|file| bucket_of(&file, score));
    let entries = entries.unwrap_or_default();
    let name = &entry(kind, score, 0)[..21];
    let (entries, _) = entries.as_chunks::<ENTRY>();
    let named: Vec<_> = entries.iter().filter(|e| e.starts_with(name)).collect();
    let mut index = vec![0; BUCKETS * ENTRY * named.len()];
    for hint in named {
        let _ = enter(&mut index, hint);
    }
    index
}

/// The sector that the first hint of an index names.
pub fn first_hint(index: &[u8]) -> Option<usize> {
    let hint = taken(index).next()?;
    let sector = hint.last_chunk::<4>()?;
    Some(u32::from_be_bytes(*sector) as usize)
}

/// The bucket of a score, from a file that is an index.
fn bucket_of(file: &File, score: &Score) -> io::Result<Vec<u8>> {
    let mut front = [0; FRONT];
    file.read_exact_at(&mut front, 0)?;
    if Kept::parse(&front).is_none() {
        return Ok(Vec::new());
    }
    let length = file.metadata()?.len().min(MOST) as usize;
    let bucket = bucket(length.saturating_sub(FRONT), score);
    let mut entries = vec![0; bucket.len()];
    file.read_exact_at(&mut entries, (FRONT + bucket.start) as u64)?;
    Ok(entries)
}

/// The hints of the blocks that start in a log from a sector on, by their labels.
fn starts(log: &[u8], from: usize) -> impl Iterator<Item = [u8; ENTRY]> + '_ {
    let sectors = log.chunks_exact(SECTOR).enumerate().skip(from);
    sectors.filter_map(|(number, sector)| {
        let (kind, score) = format::start(sector, number)?;
        Some(entry(kind, &score, number))
    })
}

/// Opens the index of a log for one who only reads.
fn open_to_read(log: &Path) -> io::Result<File> {
    disk::open_file(&path_of(log), OpenOptions::new().read(true))
}

/// Opens the index for writing, and makes an empty file where there is none. Fails where something else
/// has its name.
fn open(path: &Path, like: &File) -> io::Result<(File, Option<Found>)> {
    match disk::open_file(path, OpenOptions::new().read(true).write(true)) {
        Ok(mut file) => match load(&mut file)? {
            Some(found) => Ok((file, Some(found))),
            None => Err(ErrorKind::AlreadyExists.into()),
        },
        Err(e) if e.kind() == ErrorKind::NotFound => {
            let file = File::options()
                .read(true)
                .write(true)
                .create_new(true)
                .open(path)?;
            mark::keep_access(&file, &like.metadata()?)?;
            file.write_all_at(&NOTHING.lines(), 0)?;
            Ok((file, None))
        }
        Err(e) => Err(e),
    }
}

/// The index in a file. None where it is no index. One that is blank, or too long for any log, is of no use,
/// and says that it has nothing.
fn load(file: &mut File) -> io::Result<Option<Found>> {
    let mut front = Vec::new();
    file.by_ref().take(FRONT as u64).read_to_end(&mut front)?;
    let Some(kept) = Kept::parse(&front) else {
        return Ok(is_blank(file)?.then_some((NOTHING, Vec::new())));
    };
    let mut bytes = Vec::new();
    file.take(MOST).read_to_end(&mut bytes)?;
    match (bytes.len() as u64) < MOST {
        true => Ok(Some((kept, bytes))),
        false => Ok(Some((NOTHING, Vec::new()))),
    }
}

/// Whether a file is empty or all zeros, as a power failure may leave an index, which is not synced.
fn is_blank(file: &File) -> io::Result<bool> {
    let mut bytes = vec![0; 1 << 16];
    let mut at = 0;
    while at < MOST {
        let count = file.read_at(&mut bytes, at)?;
        if count == 0 || bytes[..count].iter().any(|byte| *byte != 0) {
            return Ok(count == 0);
        }
        at += count as u64;
    }
    Ok(false)
}

#[cfg(test)]
mod tests {
    use super::*;
    use crate::unique;
    use std::fs;

    fn score(first: u8, number: usize) -> Score {
        let mut score = [first; 20];
        score[12..].copy_from_slice(&(number as u64).to_be_bytes());
        score
    }

    fn empty(blocks: usize) -> Index {
        Index::of(None, NOTHING, vec![0; length_for(blocks)])
    }

    /// What a request does that stores a block.
    fn store(index: &mut Index, score: &Score, sector: usize) {
        let _ = enter(index.lent(), &entry(13, score, sector));
        index.stored(13, score, sector);
    }

    #[test]
    fn lines_and_back() {
        let kept = Kept {
            used: 0x1_0abc,
            last: 0xfedc_ba98,
            count: 0x123,
        };
        let lines = kept.lines();
        let expected = b"skywimple-index\nused=00010abc\nlast=fedcba98\ncount=00000123\n";
        assert_eq!(lines, expected);
        assert_eq!(lines.len(), FRONT);
        assert_eq!(Kept::parse(&[&lines[..], b"more"].concat()), Some(kept));
        for at in 0..FRONT {
            assert_eq!(Kept::parse(&lines[..at]), None);
            for change in [1, 0x20, 0x80] {
                let mut other = lines.clone();
                other[at] ^= change;
                assert_ne!(Kept::parse(&other), Some(kept), "byte {at}");
            }
        }
    }

    /// The size rule: no bucket is full where scores are spread as those of SHA-1 are.
    #[test]
    fn the_size_rule() {
        for blocks in [1, 256, 1_000, 10_000, 100_000] {
            let mut index = vec![0; length_for(blocks)];
            let full = (0..blocks).filter(|number| {
                let score = boundary::sha1(&number.to_be_bytes());
                enter(&mut index, &entry(13, &score, *number)).is_none()
            });
            assert_eq!(full.count(), 0, "{blocks} blocks");
            assert_eq!(taken(&index).count(), blocks);
        }
        // 25 bytes a block, and half as much again at most in a long log
        assert!(length_for(100_000) < 100_000 * 25 * 3 / 2);
    }

    #[test]
    fn it_grows_by_blocks_and_not_by_one_bucket() {
        let mut index = empty(LEAST);
        let length = index.bytes.len();
        // someone chooses scores of one bucket
        for number in 0..5_000 {
            store(&mut index, &score(7, number), number);
        }
        assert_eq!(index.bytes.len(), length);
        let there = index.count;
        assert_eq!(there, length / (BUCKETS * ENTRY));
        for number in 0..5_000_usize {
            store(&mut index, &boundary::sha1(&number.to_be_bytes()), number);
        }
        assert_eq!(index.bytes.len() % (BUCKETS * ENTRY), 0);
        assert!(index.bytes.len() <= length_for(2 * index.count));
        assert!(index.count > 4_900, "{}", index.count);
        assert_eq!(taken(&index.bytes).count(), index.count);
    }

    /// A log with blocks of one sector, by their labels alone.
    fn log(blocks: usize) -> Vec<u8> {
        let mut log = vec![0; blocks * SECTOR];
        for (number, sector) in log.chunks_mut(SECTOR).enumerate() {
            let score = hex::encode(&boundary::sha1(&number.to_be_bytes()));
            let label = format!(
                "date=20261116\nrec={number:08x}\npart=0000\nof=0001\ntype=0d\nsize=0001\nscore={score}\n"
            );
            sector[..label.len()].copy_from_slice(label.as_bytes());
        }
        log
    }

    /// What is in the file is what is in memory, however the index came there.
    #[test]
    fn the_file_is_the_index() {
        let path = std::env::temp_dir().join(format!("skywimple-{}", unique::name()));
        let log = log(900);
        fs::write(&path, &log).unwrap();
        let like = File::open(&path).unwrap();
        let kept = |used: usize| Index::keep(&path, &like, &log[..used * SECTOR], || ());
        let on_disk = || {
            let mut file = File::open(path_of(&path)).unwrap();
            load(&mut file).unwrap().unwrap()
        };
        for used in [0, 3, 3, 200, 900, 100, 900] {
            let index = kept(used);
            let (lines, bytes) = on_disk();
            assert_eq!(bytes, index.bytes);
            assert_eq!(lines, Kept::of(&log, used, index.count));
            // A reader has what came since besides.
            let read = Index::read(&path, &log);
            let there = |hint: &[u8; ENTRY]| taken(&read.bytes).any(|entry| entry == hint);
            assert!(starts(&log, used).all(|hint| there(&hint)));
        }
        let mut index = kept(900);
        let one = boundary::sha1(b"one");
        store(&mut index, &one, 900);
        let longer = [&log[..], &[1; SECTOR]].concat();
        index.save(&longer);
        let lines = Kept::of(&longer, 901, index.count);
        assert_eq!(on_disk(), (lines, index.bytes.clone()));
        // the hints for one block alone
        let small = hints(&path, 13, &one);
        let expected = entry(13, &one, 900);
        assert_eq!(taken(&small).collect::<Vec<_>>(), [&expected]);
        assert_eq!(small.len(), BUCKETS * ENTRY);
        assert_eq!(hints(&path, 2, &one), []);
        assert_eq!(hints(&path, 13, &boundary::sha1(b"none")), []);
        let _ = (fs::remove_file(path_of(&path)), fs::remove_file(&path));
    }
}
