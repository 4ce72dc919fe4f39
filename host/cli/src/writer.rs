//! A log that is written: its lock, what waits, what is appended, its mark.

use std::fs::{File, OpenOptions};
use std::io::{self, ErrorKind};
use std::ops::Range;
use std::os::unix::fs::FileExt;
use std::path::{Path, PathBuf};
use std::time::Duration;

use boundary::{look_up_by, sha1, Refusal, Session, Walked, FILE_SCORES, MOST_WAITING};

use crate::blocks;
use crate::date::Dates;
use crate::disk;
use crate::entry;
use crate::format::{sectors_of, start, Score, BLANK, MOST_PARTS, SECTOR};
use crate::held::{self, Damaged};
use crate::index_file::Index;
use crate::knowledge::{Knowledge, Lent};
use crate::lock;
use crate::log_file::{fits, is_file, load};
use crate::mark::{self, Found, Mark};
use crate::mark_file::MarkFile;
use crate::sectors::{self, Loaded};
use crate::session::{self, Answers, Served, REPLY, SYNC};
use crate::status::Failure;
use crate::streams::Streams;

/// A log that this process alone may write.
pub struct Writer {
    file: File,
    path: PathBuf,
    mark_file: MarkFile,
    mark: Option<Mark>,
    /// How many sectors the file has.
    sectors: usize,
    /// How many of them are used, and on disk; whether the mark does not say so yet.
    used: usize,
    unmarked: bool,
    /// How many more syncs have moved behind them, in memory alone.
    moved: usize,
    /// The whole log. What was never written of it takes no memory.
    bytes: Vec<u8>,
    /// The waiting part, and how many of its sectors are used.
    waiting: Vec<u8>,
    waits: usize,
    /// The dates of the blocks that are stored.
    dates: Dates,
    /// The index beside the log, from the first request on.
    index: Option<Index>,
    /// What is known of all three from the last request.
    knowledge: Knowledge,
    /// What the writer of files is lent for scores, from its first call on.
    scores: Vec<u8>,
}

/// The sectors that are lent behind the used part, where the file has so many: a waiting part that is
/// full, and the longest block. So a write that finds no room finds none in the file.
const ROOM: usize = MOST_WAITING + MOST_PARTS;

/// The sectors of which it is seen at once whether they are blank.
const PIECE: usize = 64;

/// What the proved archive was asked for, and the block that it stored or found, or the refusal.
type Asked<A> = (A, Result<Option<(u8, Score)>, Refusal>);

impl Writer {
    /// Opens a log that fits its mark. With `adopt`, a log without a good mark gets one.
    pub fn open(path: &Path, adopt: bool, streams: &mut Streams) -> Result<Writer, Failure> {
        Writer::open_within(Duration::ZERO, path, adopt, streams)
    }

    /// The same, where another writer may hold the log for so long.
    pub fn open_within(
        wait: Duration,
        path: &Path,
        adopt: bool,
        streams: &mut Streams,
    ) -> Result<Writer, Failure> {
        is_file(path)?;
        let mut options = OpenOptions::new();
        let file = lock::open(options.read(true).write(true), path, wait, streams)?;
        lock::one_name(&file, path)?;
        let mark_path = mark::path_of(path);
        mark::remove_left_over(&mark_path);
        let mark = match Mark::find(&mark_path)? {
            Found::Good(mark) => Some(mark),
            Found::Missing | Found::Damaged if adopt => None,
            Found::Missing | Found::Damaged => Some(Mark::require(path)?),
        };
        let loaded = load(&file, path, mark, streams)?;
        if let Some(mark) = mark {
            fits(path, mark, &loaded)?;
        }
        let mut log = Writer {
            file,
            path: path.to_path_buf(),
            mark_file: MarkFile::open(mark_path, mark),
            mark,
            sectors: loaded.bytes.len() / SECTOR,
            used: loaded.used,
            unmarked: false,
            moved: 0,
            bytes: Vec::new(),
            waiting: vec![0; MOST_WAITING * SECTOR],
            waits: 0,
            dates: Dates::Today,
            index: None,
            knowledge: Knowledge::default(),
            scores: Vec::new(),
        };
        log.begin(loaded)?;
        if mark.is_none() {
            streams.tell(&log.adopted());
        }
        Ok(log)
    }

    /// The same log, whose new blocks get these dates.
    pub fn dated(self, dates: Dates) -> Writer {
        Writer { dates, ..self }
    }

    /// Has on disk what was read, and a mark that says so, before anything is answered.
    fn begin(&mut self, loaded: Loaded) -> Result<(), Failure> {
        let end = match self.mark {
            None => self.used,
            Some(mark) => {
                // Where a sync of what a crash left behind the mark failed, the system may have
                // forgotten that it is not on disk: the next sync would not put it there.
                for sectors in loaded.readable(mark.used) {
                    self.write(&loaded.bytes, sectors)?;
                }
                // A sector that cannot be read looks used: it is marked only with what follows it.
                mark.used.max(loaded.seen())
            }
        };
        self.sync()?;
        self.renew_mark(end)?;
        // Someone may have given log and mark their names a moment ago.
        let synced = mark::sync_folder(self.mark_file.path());
        synced.map_err(|e| Failure::disk("sync the folder of", &self.path, &e))?;
        self.bytes = loaded.bytes;
        Ok(())
    }

    /// What is told of a log that had no good mark.
    fn adopted(&self) -> String {
        let (sectors, used) = self.sectors();
        format!(
            "adopted {} as it is: {sectors} sectors, {used} of them used. \
             Whether its tail was lost before, nobody can tell.",
            self.path.display()
        )
    }

    pub fn path(&self) -> &Path {
        &self.path
    }

    /// How many sectors the log has, and how many of them are used.
    pub fn sectors(&self) -> (usize, usize) {
        (self.sectors, self.used)
    }

    /// Whether any block has room in the waiting part.
    pub fn takes_any(&self) -> bool {
        self.waits + MOST_PARTS <= MOST_WAITING
    }

    /// The whole log's bytes, as they were read and written since.
    pub fn bytes(self) -> Vec<u8> {
        self.bytes
    }

    /// How many bytes of the log are lent: the used part with room behind it, as far as the file has it.
    fn lent(&self) -> usize {
        self.sectors.min(self.used + ROOM) * SECTOR
    }

    /// Counts what waits after a call: a block is stored behind what waited, and a sync leaves nothing.
    fn count_waiting(&mut self) {
        let start = match self.waiting[..SECTOR] == BLANK {
            true => 0,
            false => self.waits,
        };
        self.waits = start + filled(&self.waiting[start * SECTOR..]);
    }

    /// Where the next block is stored: behind all that is used or waits.
    fn end(&self) -> usize {
        self.used + self.moved + self.waits
    }

    /// How many sectors are on disk, marked or not.
    #[cfg(test)]
    pub fn on_disk(&self) -> usize {
        self.used
    }

    /// Asks the proved archive. What it moves into the log is to be kept before anyone is answered.
    fn ask(
        &mut self,
        session: Session,
        message: &[u8],
        reply: &mut [u8],
    ) -> Result<boundary::Served, Failure> {
        let date = self.dates.now()?;
        let (end, length) = (self.end(), self.lent());
        let lent = Lent {
            log: &mut self.bytes[..length],
            waiting: &mut self.waiting,
            index: self.index.as_mut().map_or(&mut [][..], Index::lent),
        };
        let served = self.knowledge.serve(session, message, &date, lent, reply);
        if !session::may_change(message) {
            return Ok(served);
        }
        self.count_waiting();
        self.moved += filled(&self.bytes[(self.used + self.moved) * SECTOR..]);
        if let (true, Some(index)) = (self.end() > end, &mut self.index) {
            if let Some((kind, score)) = session::stored(message, reply) {
                if index.stored(kind, &score, end) {
                    self.knowledge.forget();
                }
            }
        }
        Ok(served)
    }

    /// Asks the proved writer of files. What it stores waits.
    fn ask_to_write(
        &mut self,
        slice: &[u8],
        sizes: (usize, usize),
    ) -> Result<Result<[u8; entry::LENGTH], Refusal>, Failure> {
        let date = self.dates.now()?;
        let end = self.end();
        self.scores.resize(FILE_SCORES, 0);
        let log = &self.bytes[..self.lent()];
        let (waiting, scores) = (&mut self.waiting, &mut self.scores);
        let written = boundary::write_file(log, waiting, &date, slice, sizes, scores);
        self.knowledge.forget();
        self.count_waiting();
        if let (true, Some(index)) = (self.end() > end, &mut self.index) {
            if let Some((kind, score)) = written.ok().and_then(leaf_of) {
                index.enter(kind, &score, end);
            }
        }
        Ok(written)
    }

    /// Writes a slice of at most one leaf as a file, whose block is on disk once the log is settled. Gives its
    /// entry, or the refusal.
    pub fn write_leaf(
        &mut self,
        slice: &[u8],
        sizes: (usize, usize),
        streams: &mut Streams,
    ) -> Result<Result<[u8; entry::LENGTH], Refusal>, Failure> {
        assert!(slice.len() <= sizes.0, "more than a leaf");
        let (written, _) = self.answer(streams, |log| {
            let written = log.ask_to_write(slice, sizes)?;
            Ok((written, written.map(leaf_of)))
        })?;
        Ok(written)
    }

    /// Asks until there is an answer. A block that a write took for held in the log is so on disk: where that
    /// was damaged meanwhile, it is stored anew. Where the waiting part has no room, what is in it is settled
    /// first. Gives what was asked for, and how many sectors were appended.
    fn answer<A>(
        &mut self,
        streams: &mut Streams,
        mut ask: impl FnMut(&mut Writer) -> Result<Asked<A>, Failure>,
    ) -> Result<(A, usize), Failure> {
        self.open_index(streams);
        let (used, end) = (self.used + self.moved, self.end());
        let mut unsound = Vec::new();
        loop {
            let (answer, outcome) = ask(self)?;
            let appended = self.end() - end;
            if outcome == Err(Refusal::NoRoom) && self.waits > 0 {
                self.settle()?;
                continue;
            }
            if let (Ok(block), 0) = (outcome, appended) {
                if let Some(damaged) = self.damaged(block) {
                    // Damage is taken in with nothing waiting.
                    self.settle()?;
                    streams.tell(&held::words(&damaged, &self.path));
                    unsound.push(damaged.take(&mut self.bytes));
                    self.knowledge.forget();
                    continue;
                }
            }
            if appended == 0 && !unsound.is_empty() {
                unsound
                    .into_iter()
                    .for_each(|block| block.put_back(&mut self.bytes));
                self.knowledge.forget();
            }
            // A reply acknowledges, also where nothing was appended; but a block that waits is the next
            // sync's to acknowledge, and what a sync moved is seen to when it is marked.
            if (appended, self.used + self.moved) == (0, used) {
                self.in_place()?;
            }
            return Ok((answer, appended));
        }
    }

    /// The block that a write found in the log in memory, where it is another on disk. One that is not to be on
    /// disk yet is the next sync's to acknowledge.
    fn damaged(&mut self, block: Option<(u8, Score)>) -> Option<Damaged> {
        let (kind, score) = block?;
        let log = &self.bytes[..self.lent()];
        let sector = match (self.knowledge.is_exact(), &mut self.index) {
            (true, Some(index)) => {
                let found = look_up_by(log, &self.waiting, index.lent(), kind, &score);
                found.ok()?.sector
            }
            _ => blocks::find(log, kind, &score)?,
        };
        match sector < self.used {
            true => held::damaged(log, &self.file, sector),
            false => None,
        }
    }

    /// Opens the index beside the log, or makes it.
    pub fn open_index(&mut self, streams: &mut Streams) {
        if self.index.is_none() {
            let log = &self.bytes[..self.used * SECTOR];
            self.index = Some(Index::keep(&self.path, &self.file, log, || {
                let name = self.path.display();
                streams.working(&format!("making the index of {name}"));
            }));
            self.knowledge.forget();
            streams.clear_progress();
        }
    }

    /// Makes the index beside the log anew. Gives how many blocks are in it.
    pub fn renew_index(&mut self) -> io::Result<usize> {
        let log = &self.bytes[..self.used * SECTOR];
        Index::renew(&self.path, &self.file, log)
    }

    /// Has what syncs moved behind the log's used part on disk, then the mark.
    fn keep(&mut self) -> Result<(), Failure> {
        self.put_down()?;
        match self.unmarked {
            true => self.renew_mark(self.used),
            false => Ok(()),
        }
    }

    /// Has it on disk, without the mark.
    fn put_down(&mut self) -> Result<(), Failure> {
        if self.moved > 0 {
            let end = self.used + self.moved;
            self.still_blank(self.used..end)?;
            self.write(&self.bytes, self.used..end)?;
            self.sync()?;
            (self.used, self.moved, self.unmarked) = (end, 0, true);
        }
        Ok(())
    }

    /// Has the index beside the log on disk as it is in memory, in the system's own time.
    fn save_index(&mut self) {
        if let Some(index) = &mut self.index {
            index.save(&self.bytes[..self.used * SECTOR]);
        }
    }

    /// Copies all that a root of another log reaches to this one, behind its used part. What is stored is on
    /// disk then: all but the last block, which is the root where the copy ends, before that is written.
    pub fn copy(&mut self, from: &[u8], root: &Score, allowance: u64) -> Result<Walked, Failure> {
        self.settle()?;
        let date = self.dates.now()?;
        let copied = boundary::copy(from, &[], &mut self.bytes, &date, root, allowance);
        self.knowledge.forget();
        let end = self.used + filled(&self.bytes[self.used * SECTOR..]);
        let starts = |at: &usize| start(&self.bytes[at * SECTOR..(at + 1) * SECTOR], *at).is_some();
        let last = (self.used..end).rev().find(starts).unwrap_or(end);
        for end in [last, end] {
            self.moved = end - self.used;
            self.keep()?;
        }
        if let Some(index) = &mut self.index {
            index.extend(&self.bytes[..end * SECTOR]);
        }
        self.save_index();
        // Also where nothing was appended.
        self.in_place()?;
        Ok(copied)
    }

    /// Fails unless these sectors of the file are there and blank, as they were when the log was read.
    fn still_blank(&self, sectors: Range<usize>) -> Result<(), Failure> {
        let mut buffer = [0; PIECE * SECTOR];
        for start in sectors.clone().step_by(PIECE) {
            let found = &mut buffer[..PIECE.min(sectors.end - start) * SECTOR];
            let read = self.file.read_exact_at(found, (start * SECTOR) as u64);
            match read {
                Ok(()) if sectors::is_blank(found) => {}
                Err(e) if e.kind() != ErrorKind::UnexpectedEof => {
                    return Err(Failure::disk("read", &self.path, &e));
                }
                _ => return Err(lock::changed(&self.path)),
            }
        }
        Ok(())
    }

    /// Writes these sectors of a log to the file: at or behind the mark, and nowhere else.
    fn write(&self, log: &[u8], sectors: Range<usize>) -> Result<(), Failure> {
        let marked = self.mark.map_or(0, |mark| mark.used);
        assert!(marked <= sectors.start, "written before the mark");
        let (start, end) = (sectors.start * SECTOR, sectors.end * SECTOR);
        let written = disk::write(&self.file, &log[start..end], start as u64);
        written.map_err(|e| Failure::disk("write", &self.path, &e))
    }

    fn sync(&self) -> Result<(), Failure> {
        let synced = disk::sync_data(&self.file);
        synced.map_err(|e| Failure::disk("sync", &self.path, &e))
    }

    /// Has a mark of so many used sectors on disk. The log itself is synced.
    fn renew_mark(&mut self, used: usize) -> Result<(), Failure> {
        let now = Mark {
            sectors: self.sectors,
            used,
        };
        self.in_place()?;
        self.mark_file.renew(now, &self.file)?;
        (self.mark, self.unmarked) = (Some(now), false);
        Ok(())
    }

    /// Fails unless the log and the place of its mark are what they were.
    fn in_place(&self) -> Result<(), Failure> {
        if mark::path_of(&self.path) != self.mark_file.path() {
            return Err(lock::replaced(&self.path));
        }
        lock::in_place(&self.file, &self.path)
    }
}

impl Answers for Writer {
    /// A write is answered when its block waits, a sync when all of them are on disk.
    fn serve(
        &mut self,
        session: Session,
        message: &[u8],
        reply: &mut [u8],
        streams: &mut Streams,
    ) -> Result<Served, Failure> {
        let served = self.serve_ahead(session, message, reply, streams)?;
        self.keep()?;
        Ok(served)
    }

    /// What is on its way to the disk at once has room in a waiting part: so a stop in the midst of it is one that
    /// found all of it waiting. The mark comes when all that was asked ahead is on disk.
    fn serve_ahead(
        &mut self,
        session: Session,
        message: &[u8],
        reply: &mut [u8],
        streams: &mut Streams,
    ) -> Result<Served, Failure> {
        let most = sectors_of(message.len());
        if self.moved + self.waits + most > MOST_WAITING {
            self.put_down()?;
        }
        let (served, appended) = self.answer(streams, |log| {
            let served = log.ask(session, message, reply)?;
            let block = || session::stored(message, reply);
            Ok((served, served.outcome.map(|()| block())))
        })?;
        Ok(Served {
            outcome: served.outcome,
            session: served.session,
            appended,
        })
    }

    fn is_owing(&self) -> bool {
        self.moved > 0 || self.unmarked
    }

    /// By a sync of its own, in a session that was greeted.
    fn settle(&mut self) -> Result<(), Failure> {
        if self.waits > 0 {
            let served = self.ask(Session::Greeted, &SYNC, &mut vec![0; REPLY])?;
            served.outcome.map_err(Failure::refused)?;
        }
        self.keep()?;
        self.save_index();
        Ok(())
    }

    fn rest(&mut self) {
        if self.waits == 0 {
            self.save_index();
        }
    }
}

/// The sectors before the first blank one.
fn filled(bytes: &[u8]) -> usize {
    let sectors = bytes.chunks_exact(SECTOR);
    sectors.take_while(|sector| *sector != BLANK).count()
}

/// The type and score of the block of a file of one leaf. None for the empty block, which is in no sector.
fn leaf_of(entry: [u8; entry::LENGTH]) -> Option<(u8, Score)> {
    let score = entry::score_in(&entry);
    (score != sha1(b"")).then_some((13, score))
}

#[cfg(test)]
mod tests {
    use super::*;
    use crate::failing::{quietly, Folder};
    use crate::faults::on_good_disk;
    use crate::format::{MOST_DATA, PAYLOAD};
    use crate::session::Client;

    /// A long log is lent up to the room for what comes, and on as it is filled, to its last sector.
    #[test]
    fn what_is_lent() {
        let folder = Folder::new();
        on_good_disk(|| {
            assert_eq!(folder.run("init", &["--sectors", "2000"]), 0);
            quietly(|streams| {
                let mut log = Writer::open(&folder.log(), false, streams).unwrap();
                assert_eq!(log.lent(), 404 * SECTOR);
                let place = (log.bytes.as_ptr(), log.bytes.len());
                assert_eq!(place.1, 2000 * SECTOR);
                let mut client = Client::greet_on_disk(&mut log, streams).unwrap();
                for block in 0..13 {
                    let block = vec![block; MOST_DATA];
                    let stored = client.store(&mut log, 13, &block, streams).unwrap();
                    assert!(stored.is_ok());
                    assert_eq!(log.lent(), 2000.min(log.used + 404) * SECTOR);
                    assert_eq!((log.bytes.as_ptr(), log.bytes.len()), place, "copied");
                }
                let full = client.store(&mut log, 13, &[13; MOST_DATA], streams);
                assert_eq!(full.unwrap(), Err(Refusal::NoRoom));
                assert_eq!(log.sectors(), (2000, 13 * 148));
                let rest = vec![14; (2000 - 13 * 148) * PAYLOAD];
                assert!(client.store(&mut log, 13, &rest, streams).unwrap().is_ok());
                log.settle().unwrap();
                assert_eq!(log.sectors(), (2000, 2000));
                assert_eq!(log.bytes().len(), 2000 * SECTOR);
            });
        });
    }

    /// A leaf that the writer of files found in memory and that is damaged on disk is stored anew, with a hint
    /// in the index.
    #[test]
    fn a_leaf_that_was_damaged_meanwhile() {
        let folder = Folder::new();
        on_good_disk(|| {
            assert_eq!(folder.run("init", &["--sectors", "40"]), 0);
            quietly(|streams| {
                let mut log = Writer::open(&folder.log(), false, streams).unwrap();
                let mut write = |log: &mut Writer| {
                    let sizes = (MOST_DATA, MOST_DATA);
                    let written = log.write_leaf(&[7; 1000], sizes, streams).unwrap();
                    log.settle().unwrap();
                    written.unwrap()
                };
                let entry = write(&mut log);
                assert_eq!((write(&mut log), log.used), (entry, 3), "a duplicate");
                log.file.write_all_at(b"damage", 700).unwrap();
                assert_eq!((write(&mut log), log.used), (entry, 6));
                assert_eq!((write(&mut log), log.used), (entry, 6));
                let index = log.index.as_mut().unwrap().lent().to_vec();
                let score = entry::score_in(&entry);
                let found = |log: &[u8]| boundary::look_up_by(log, &[], &index, 13, &score);
                let place = found(&log.bytes).unwrap();
                assert_eq!((place.sector, place.size), (3, 1000));
                let hints = index.chunks(25).filter(|hint| hint[..20] == score);
                assert_eq!(hints.count(), 2);
            });
        });
    }
}
