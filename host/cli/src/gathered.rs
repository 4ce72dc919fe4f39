//! The blocks of a card, gathered from a long log into a short one in memory, in which the proved search
//! finds them at once. They are read by messages, with the index of the log, and stored by messages. Of a
//! type and score that one sector of the log alone says it begins, no more than one block is sound, and a
//! read by index answers with it as the scan does (`OneBlockIsTheScans`). So each block of the short log is
//! held by the long one with the same bytes, and a value that the search gives there, or 25 or 26, is the
//! long log's own (`AnsweredElsewhere`). Any other refusal, and any block that could not be had so, is a
//! matter for the search in the long log itself.

use boundary::{search, sha1, sound_at, Refusal, Value};

use crate::card_text;
use crate::entry::{Entry, LENGTH as ENTRY};
use crate::format::{self, Score, SECTOR};
use crate::index_file;
use crate::session::Client;
use crate::status::Failure;

/// The sectors of the short log: the longest card in one leaf takes eleven.
const SECTORS: usize = 64;

/// The blank page that a reading is lent.
pub const BLANK: [u8; 1] = [0];

/// A log whose cards are searched, and the short log.
pub struct Gathered {
    log: Vec<u8>,
    /// A greeted session, which has the log's index.
    client: Client,
    /// The short log is blank, and has room for what waits; its blocks all wait.
    short: Vec<u8>,
    waiting: Vec<u8>,
    /// The score of no bytes, which is in no sector.
    zero: Score,
    /// The fronts of the scores that more than one sector of the log says, in their order.
    doubled: Vec<u64>,
}

/// What a card answered, and the log and the waiting part in which it did.
pub struct Answered<'a> {
    pub answer: Result<Value, Refusal>,
    pub log: &'a [u8],
    pub waiting: &'a [u8],
}

impl<'a> Answered<'a> {
    /// By the proved search.
    fn of((log, waiting): (&'a [u8], &'a [u8]), entry: &[u8; ENTRY], query: &[u8]) -> Answered<'a> {
        Answered {
            answer: search(log, waiting, &BLANK, entry, query),
            log,
            waiting,
        }
    }
}

impl Gathered {
    /// Of a log and its index, which may be of any bytes. With an empty one nothing is gathered.
    pub fn new(mut log: Vec<u8>, index: Vec<u8>) -> Result<Gathered, Failure> {
        let doubled = match index.is_empty() {
            true => Vec::new(),
            false => doubled(&log),
        };
        Ok(Gathered {
            client: Client::greet(&mut log)?.with_hints(index),
            log,
            doubled,
            short: vec![0; SECTORS * SECTOR],
            waiting: vec![0; SECTORS * SECTOR],
            zero: sha1(b""),
        })
    }

    /// What the card of an entry answers to a query.
    pub fn search(&mut self, entry: &[u8; ENTRY], query: &[u8]) -> Answered<'_> {
        if self.gather(entry) {
            let answered = Answered::of((&self.short, &self.waiting), entry, query);
            if let Ok(_) | Err(Refusal::Card | Refusal::Query) = answered.answer {
                return answered;
            }
        }
        Answered::of((&self.log, &[]), entry, query)
    }

    /// Has the blocks of an entry's file, and no others, in the short log. Whether they are all there: not
    /// those of a file that is no card by its size, nor where one is not found at once or has no room.
    fn gather(&mut self, entry: &[u8]) -> bool {
        self.waiting.fill(0);
        match Entry::parse(entry) {
            Some(entry) if (1..=card_text::MOST as u64).contains(&entry.size) => {
                self.below(&entry, entry.depth, &entry.score, 0)
            }
            _ => false,
        }
    }

    /// The same of what is below a score of the tree, whose block stands for the file from an offset on.
    fn below(&mut self, entry: &Entry, level: u32, score: &Score, offset: u64) -> bool {
        if *score == self.zero {
            return true;
        }
        let kind = entry.kind(level);
        let Some(block) = self.copied(kind, score, entry.count(level)) else {
            return false;
        };
        if level == 0 {
            return true;
        }
        let (scores, _) = block.as_chunks::<20>();
        let before = |at| entry.span(level - 1).saturating_mul(at);
        let offsets = (0..).map(|at| offset.saturating_add(before(at)));
        let within = offsets.take_while(|offset| *offset < entry.size);
        let mut below = scores.iter().zip(within);
        below.all(|(score, offset)| self.below(entry, level - 1, score, offset))
    }

    /// The bytes of a block, which is in the short log then.
    fn copied(&mut self, kind: u8, score: &Score, count: usize) -> Option<Vec<u8>> {
        // A look-up that finds nothing takes long, and the search in the long log would repeat it.
        if self.doubled.binary_search(&front(score)).is_ok() || !self.hinted(kind, score) {
            return None;
        }
        let read = self.client.read(&mut self.log, kind, score, count as u16);
        let block = read.ok()?.to_vec();
        let (short, waiting) = (&mut self.short, &mut self.waiting);
        let stored = self.client.lay_down(short, waiting, kind, &block);
        stored.ok().map(|()| block)
    }

    /// Whether the index leads to a sound block.
    fn hinted(&self, kind: u8, score: &Score) -> bool {
        let mut hints = index_file::sectors(self.client.hints(), kind, score);
        hints.any(|sector| sound_at(&self.log, sector).is_ok_and(|size| size > 0))
    }
}

/// The first bytes of a score.
fn front(score: &Score) -> u64 {
    let (fronts, _) = score.as_chunks::<8>();
    u64::from_be_bytes(fronts[0])
}

/// The fronts of the scores that more than one sector of a log says, where it says that a block begins.
fn doubled(log: &[u8]) -> Vec<u64> {
    let sectors = log.chunks_exact(SECTOR).enumerate();
    let said = sectors.filter_map(|(number, sector)| format::start(sector, number));
    let mut fronts: Vec<_> = said.map(|(_, score)| front(&score)).collect();
    fronts.sort_unstable();
    let doubled = fronts.array_windows().filter(|[one, next]| one == next);
    doubled.map(|[one, _]| *one).collect()
}

#[cfg(test)]
mod tests {
    use super::*;
    use crate::format::used;
    use crate::hex;
    use boundary::{fill, rebuild};

    /// A log that files are written to.
    struct Shelf {
        log: Vec<u8>,
        client: Client,
    }

    impl Shelf {
        fn new(sectors: usize) -> Shelf {
            let mut log = vec![0; sectors * SECTOR];
            let client = Client::greet(&mut log).unwrap();
            Shelf { log, client }
        }

        fn put(&mut self, kind: u8, block: &[u8]) -> Score {
            self.client.write(&mut self.log, kind, block).unwrap()
        }

        /// The entry of a file in leaves of so many bytes, and pointer blocks of five scores.
        fn file(&mut self, bytes: &[u8], dsize: usize) -> [u8; ENTRY] {
            let leaves = bytes.chunks(dsize).map(|leaf| self.put(13, leaf));
            let mut scores: Vec<Score> = leaves.collect();
            let mut depth = 0;
            while scores.len() > 1 {
                depth += 1;
                let groups = scores.chunks(5);
                let pointers = groups.map(|group| self.put(2 + depth, &group.concat()));
                scores = pointers.collect();
            }
            let top = scores.first().copied().unwrap_or(sha1(b""));
            entry(bytes.len() as u64, dsize, depth, &top)
        }

        fn index(&self) -> Vec<u8> {
            let mut index = vec![0; 256 * 25 * 8];
            rebuild(&self.log, &mut index).unwrap();
            index
        }
    }

    fn entry(size: u64, dsize: usize, depth: u8, top: &Score) -> [u8; ENTRY] {
        let mut entry = [0; ENTRY];
        entry[5] = 100; // psize
        entry[6..8].copy_from_slice(&(dsize as u16).to_be_bytes());
        entry[8] = 1 | depth << 2;
        entry[14..20].copy_from_slice(&size.to_be_bytes()[2..]);
        entry[20..].copy_from_slice(top);
        entry
    }

    /// A card of so many lines, of 16 bytes each.
    fn lines(count: usize) -> Vec<u8> {
        let lines = (0..count).map(|number| format!("K{number:07}=absent\n"));
        lines.collect::<String>().into_bytes()
    }

    const QUERIES: [&[u8]; 4] = [b"A", b"not K0000001 or A", b"Z", b"and"];

    /// Fails unless each entry is answered as the log itself answers, whatever the index is, and is read there
    /// to the same bytes.
    fn agrees(log: &[u8], entries: &[[u8; ENTRY]], indexes: &[Vec<u8>]) {
        for index in indexes {
            let mut gathered = Gathered::new(log.to_vec(), index.clone()).unwrap();
            for (entry, query) in entries.iter().flat_map(|e| QUERIES.map(|q| (e, q))) {
                let answered = gathered.search(entry, query);
                assert_eq!(answered.answer, search(log, &[], &BLANK, entry, query));
                let [mut one, mut other] = [vec![0xaa; 5000], vec![0xaa; 5000]];
                let there = fill(answered.log, answered.waiting, entry, 0, &mut one);
                let here = fill(log, &[], entry, 0, &mut other);
                assert_eq!((there, one), (here, other));
            }
        }
    }

    /// Cards of every kind, and what is no card.
    fn registry() -> (Shelf, Vec<[u8; ENTRY]>) {
        let mut shelf = Shelf::new(100);
        let mut entries = vec![
            shelf.file(b"A=present\nB=absent\n", 57_344),
            shelf.file(b"A=absent\n", 7),
            shelf.file(&lines(20), 40),
            shelf.file(&lines(256), 389),
            shelf.file(b"A=maybe\n", 57_344),
            shelf.file(b"", 57_344),
        ];
        let lost = sha1(b"never stored");
        let odd = shelf.put(3, &[9; 21]);
        let leaf = shelf.put(13, b"A=absent\n");
        let half = shelf.put(3, &[leaf, lost].concat());
        entries.extend([
            entry(4097, 57_344, 0, &lost),
            entry(8, 57_344, 0, &lost),
            entry(8, 57_344, 0, &sha1(b"")),
            entry(8, 4, 1, &odd),
            entry(12, 9, 1, &half),
            entry(9, 8, 0, &sha1(b"A=present\nB=absent\n")),
            [0; ENTRY],
        ]);
        (shelf, entries)
    }

    #[test]
    fn each_card_answers_as_in_the_log_itself() {
        let (shelf, entries) = registry();
        let mut gathered = Gathered::new(shelf.log.clone(), shelf.index()).unwrap();
        let there: Vec<_> = entries.iter().map(|e| gathered.gather(e)).collect();
        let expected = [&[true; 5][..], &[false; 3], &[true], &[false; 4]].concat();
        assert_eq!(there, expected);
        let mut other = shelf.index();
        other.rotate_left(25 * 8 * 7);
        let indexes = [shelf.index(), Vec::new(), vec![0xff; 256 * 25], other];
        agrees(&shelf.log, &entries, &indexes);
    }

    /// Whatever sector is damaged or zeroed, with the index that was right before.
    #[test]
    fn damaged_and_missing() {
        let (shelf, entries) = registry();
        let changes: [fn(&mut [u8]); 3] = [
            |sector| sector[300] ^= 1,
            |sector| sector.fill(0),
            |sector| sector.fill(0xdb),
        ];
        for sector in 0..used(&shelf.log) {
            for change in changes {
                let mut log = shelf.log.clone();
                change(&mut log[sector * SECTOR..(sector + 1) * SECTOR]);
                agrees(&log, &entries, &[shelf.index()]);
            }
        }
    }

    /// More blocks than the short log has room for, and blocks that many leaves share.
    #[test]
    fn cards_of_many_blocks() {
        let mut shelf = Shelf::new(1200);
        let wide = shelf.file(&lines(256), 9);
        let zeros = shelf.file(&[0; 4096], 16);
        let mut gathered = Gathered::new(shelf.log.clone(), shelf.index()).unwrap();
        assert!(!gathered.gather(&wide));
        assert!(gathered.gather(&zeros));
        agrees(&shelf.log, &[wide, zeros], &[shelf.index()]);
    }

    /// Two sound blocks with one score, as the archive would never store them, and an index that leads to
    /// the second: the first is what is held.
    #[test]
    fn blocks_that_clash() {
        let mut lines = include_str!("../tests/program/common/collision.txt").lines();
        let [one, other] = [0, 1].map(|_| hex::decode::<320>(lines.next().unwrap()).unwrap());
        let [mut first, mut second] = [Shelf::new(8), Shelf::new(8)];
        let score = first.put(13, &one);
        second.put(13, b"filler");
        assert_eq!(second.put(13, &other), score);
        first.log[SECTOR..2 * SECTOR].copy_from_slice(&second.log[SECTOR..2 * SECTOR]);
        assert_eq!(sound_at(&first.log, 0), Ok(320));
        assert_eq!(sound_at(&first.log, 1), Ok(320));
        let card = entry(320, 320, 0, &score);
        agrees(&first.log, &[card], &[first.index(), second.index()]);
    }

    /// A block that was damaged and stored again, and the first of the two restored since.
    #[test]
    fn stored_again() {
        let mut shelf = Shelf::new(8);
        let card = shelf.file(b"A=present\n", 57_344);
        shelf.log[300] ^= 1;
        let again = shelf.file(b"A=present\n", 57_344);
        assert_eq!(card, again);
        let before = [shelf.index()];
        agrees(&shelf.log, &[card], &before);
        shelf.log[300] ^= 1;
        agrees(&shelf.log, &[card], &before);
        agrees(&shelf.log, &[card], &[shelf.index()]);
        assert_eq!(doubled(&shelf.log), [front(&sha1(b"A=present\n"))]);
    }
}
