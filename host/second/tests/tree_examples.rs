//! The trees that the program `tree_examples` builds, built, read and walked here: the lines that it must print.

use second::kind::{DATA, DIRECTORY, ROOT};
use second::log::{used, write, Contents, Lookup};
use second::sector::SECTOR;
use second::sha1::{sha1, ZERO_SCORE};
use second::tree::{locate, Place};
use second::walk::walk;
use second::{Edition, Score};
use std::fmt::Write;

/// In which the program writes its blocks.
const EDITION: Edition = Edition::Second(*b"20261116");

/// Flag bits of an entry.
const ACTIVE: u8 = 1;
const IN_DIRECTORY: u8 = 2;
const LOCAL: u8 = 32;

/// The type of pointer blocks of a level.
fn pointers(level: u8) -> u8 {
    2 + level
}

fn depth(levels: u8) -> u8 {
    levels << 2
}

fn hex(bytes: &[u8]) -> String {
    bytes.iter().map(|byte| format!("{byte:02x}")).collect()
}

/// Bytes of the example file: byte k of it is k modulo 251, plus 1.
fn bytes_of_file(from: usize, len: usize) -> Vec<u8> {
    (from..from + len).map(|k| (k % 251) as u8 + 1).collect()
}

struct Trees {
    log: Vec<u8>,
    /// The bytes that are the log when it is read; those behind them wait.
    settled: usize,
    lines: String,
}

impl Trees {
    fn begin(&mut self, name: &str) {
        self.log.fill(0);
        writeln!(self.lines, "tree={name}").unwrap();
    }

    /// Stores a block right after the used part, unless it is held.
    fn put(&mut self, kind: u8, data: &[u8]) -> Score {
        let score = sha1(data);
        if let Lookup::Missing(_) = Contents::of(&self.log).lookup(kind, &score) {
            let first = used(&self.log);
            write(&mut self.log, first, EDITION, kind, data);
        }
        score
    }

    fn leaf(&mut self, from: usize, len: usize) -> Score {
        self.put(DATA, &bytes_of_file(from, len))
    }

    /// A whole tree with leaves of 5 bytes and three scores in each pointer block.
    fn whole_tree(&mut self, levels: u8) -> Score {
        let count = 3usize.pow(levels.into());
        let mut scores: Vec<Score> = (0..count).map(|k| self.leaf(5 * k, 5)).collect();
        for level in 1..=levels {
            let groups: Vec<Vec<u8>> = scores.chunks(3).map(|three| three.concat()).collect();
            scores = groups
                .iter()
                .map(|group| self.put(pointers(level), group))
                .collect();
        }
        assert_eq!(scores.len(), 1);
        scores[0]
    }

    /// gen[4] psize[2] dsize[2] flags[1] pad[5] size[6] score[20], with psize 60.
    fn entry(&mut self, dsize: u16, flags: u8, size: u64, score: &Score) -> Vec<u8> {
        let entry = [
            &[0; 4][..],
            &60u16.to_be_bytes(),
            &dsize.to_be_bytes(),
            &[flags],
            &[0; 5],
            &size.to_be_bytes()[2..],
            score,
        ]
        .concat();
        assert_eq!(entry.len(), 40);
        writeln!(self.lines, "entry={}", hex(&entry)).unwrap();
        entry
    }

    /// version[2] name[128] type[128] score[20] blocksize[2] prev[20].
    fn root(&mut self, directory: &Score, prev: &Score, len: usize) -> Score {
        let mut root = [&[0, 2][..], &[0; 128], &[0; 128], directory, &[0; 2], prev].concat();
        assert_eq!(root.len(), 300);
        root.truncate(len);
        self.put(ROOT, &root)
    }

    fn damage(&mut self, sector: usize) {
        let byte = &mut self.log[SECTOR * sector + EDITION.label()];
        *byte = !*byte;
    }

    /// The answer at an offset; the run's length.
    fn read_at(&mut self, page: usize, entry: &[u8], offset: u64) -> usize {
        let page = vec![0; page];
        let (log, waiting) = self.log.split_at(self.settled);
        let (number, place, bytes) = match locate(log, waiting, &page, entry, offset) {
            Ok(run) => {
                let (name, buffer) = match run.place {
                    Place::Log => ("log", log),
                    Place::Waiting => ("waiting", waiting),
                    Place::Page => ("page", &page[..]),
                };
                let place = format!(" from={name} start={}", run.start);
                (0, place, buffer[run.start..run.start + run.len].to_vec())
            }
            Err(refused) => (refused.number, String::new(), Vec::new()),
        };
        let len = bytes.len();
        let bytes = hex(&bytes);
        writeln!(
            self.lines,
            "offset={offset} number={number}{place} length={len} bytes={bytes}"
        )
        .unwrap();
        len
    }

    /// Reads from run to run, past a leaf where there is none, and once at the end.
    fn read(&mut self, page: usize, entry: &[u8], dsize: u64, size: u64) {
        let mut offset = 0;
        while offset < size {
            let len = self.read_at(page, entry, offset) as u64;
            offset += if len == 0 { dsize } else { len };
        }
        self.read_at(page, entry, size);
    }

    /// The answer of a walk; its visits.
    fn walk_with(&mut self, root: &Score, allowance: u64) -> u64 {
        let (log, waiting) = self.log.split_at(self.settled);
        let (ended, visits) = walk(log, waiting, root, allowance);
        let number = ended.map_or_else(|refused| refused.number, |()| 0);
        writeln!(
            self.lines,
            "allowance={allowance} number={number} visits={visits}"
        )
        .unwrap();
        visits
    }

    /// A large allowance, just what it spent, and one less.
    fn walk(&mut self, root: &Score) {
        writeln!(self.lines, "root={}", hex(root)).unwrap();
        let visits = self.walk_with(root, 1000);
        self.walk_with(root, visits);
        if visits > 0 {
            self.walk_with(root, visits - 1);
        }
    }

    /// Walks from a root above one directory block. The root is stored without its zeros.
    fn walk_above(&mut self, entries: &[u8]) {
        let directory = self.put(DIRECTORY, entries);
        let root = self.root(&directory, &[0; 20], 278);
        self.walk(&root);
    }

    /// A file of leaves of 5 bytes, read with a page of 4 bytes, and walked.
    fn holes(&mut self, flags: u8, size: u64, top: &Score) {
        let entry = self.entry(5, flags, size, top);
        self.read(4, &entry, 5, size);
        self.walk_above(&entry);
    }

    fn depth_0(&mut self, name: &str, leaf: usize, size: u64) {
        self.begin(name);
        let top = self.leaf(0, leaf);
        let entry = self.entry(500, ACTIVE, size, &top);
        self.read(64, &entry, 500, size);
        self.walk_above(&entry);
    }

    fn whole(&mut self, levels: u8, size: u64) {
        self.begin(&format!("depth_{levels}"));
        let top = self.whole_tree(levels);
        let entry = self.entry(5, ACTIVE | depth(levels), size, &top);
        self.read(64, &entry, 5, size);
        self.walk_above(&entry);
    }

    fn zero_scores(&mut self) {
        self.begin("zero_leaf");
        let block = [self.leaf(0, 5), ZERO_SCORE, self.leaf(10, 2)].concat();
        let top = self.put(pointers(1), &block);
        self.holes(ACTIVE | depth(1), 15, &top);

        self.begin("short_pointers");
        let leaf = self.leaf(0, 5);
        let below = self.put(pointers(1), &leaf);
        let top = self.put(pointers(2), &below);
        self.holes(ACTIVE | depth(2), 40, &top);

        self.begin("zero_top");
        self.holes(ACTIVE | depth(3), 12, &ZERO_SCORE);
    }

    fn directories(&mut self) {
        self.begin("directories");
        let top = self.whole_tree(1);
        let mut block = Vec::new();
        for from in [100, 105] {
            let leaf = self.leaf(from, 5);
            let entry = self.entry(5, ACTIVE, 5, &leaf);
            block.extend(self.put(DIRECTORY, &entry));
        }
        let inner = self.put(pointers(1), &block);
        let directory = self.entry(40, ACTIVE | IN_DIRECTORY | depth(1), 80, &inner);
        self.read(64, &directory, 40, 80);

        let file = self.entry(5, ACTIVE | depth(1), 15, &top);
        let inactive = self.entry(5, depth(1), 15, &top);
        let outer = [&file[..], &inactive, &directory, &[0, 0, 0, 0, 9]].concat();
        let outer = self.put(DIRECTORY, &outer);
        let mut prev = [0; 20];
        prev[0] = 0x55;
        let root = self.root(&outer, &prev, 300);
        self.walk(&root);
        for allowance in [1_000_000, 1_000_001, 0] {
            self.walk_with(&root, allowance);
        }
        self.walk_with(&outer, 1000);
    }

    /// A tree of which the first five sectors are the log and all others wait, then with damage there.
    fn waiting(&mut self) {
        self.begin("waiting");
        let top = self.whole_tree(2);
        let entry = self.entry(5, ACTIVE | depth(2), 45, &top);
        let directory = self.put(DIRECTORY, &entry);
        let root = self.root(&directory, &[0; 20], 278);
        self.settled = 5 * SECTOR;
        for hurt in [false, true] {
            if hurt {
                self.damage(7);
            }
            self.read(64, &entry, 5, 45);
            self.walk(&root);
        }
        self.settled = self.log.len();
    }

    fn damaged(&mut self, name: &str, sector: usize) {
        self.begin(name);
        let top = self.whole_tree(2);
        let entry = self.entry(5, ACTIVE | depth(2), 45, &top);
        let directory = self.put(DIRECTORY, &entry);
        let root = self.root(&directory, &[0; 20], 278);
        self.damage(sector);
        self.read(64, &entry, 5, 45);
        self.walk(&root);
    }

    fn nest(&mut self, directories: usize) {
        self.begin(&format!("nest_{directories}"));
        let leaf = self.leaf(0, 5);
        let mut entry = self.entry(5, ACTIVE, 5, &leaf);
        for _ in 1..directories {
            let block = self.put(DIRECTORY, &entry);
            entry = self.entry(40, ACTIVE | IN_DIRECTORY, 40, &block);
        }
        self.walk_above(&entry);
    }

    fn ill_formed(&mut self) {
        self.begin("ill_formed");
        let top = self.whole_tree(1);
        let file = ACTIVE | depth(1);
        let ill = [
            (5, file, 16),
            (0, file, 15),
            (5, file | LOCAL, 15),
            (5, file | IN_DIRECTORY, 15),
            (5, depth(1), 15),
        ];
        for (dsize, flags, size) in ill {
            let entry = self.entry(dsize, flags, size, &top);
            self.read_at(64, &entry, 0);
        }
        let good = self.entry(5, file, 15, &top);
        self.read_at(64, &good[..39], 0);

        let first = self.entry(5, file, 15, &top);
        let second = self.entry(5, file, 16, &top);
        self.walk_above(&[first, second].concat());
    }

    fn other_refusals(&mut self) {
        self.begin("long_leaf");
        let top = self.leaf(0, 6);
        self.holes(ACTIVE, 5, &top);

        self.begin("ragged_pointers");
        let block = [&self.leaf(0, 5)[..], &[0; 10]].concat();
        let top = self.put(pointers(1), &block);
        self.holes(ACTIVE | depth(1), 10, &top);

        self.begin("missing");
        let leaf = self.leaf(0, 5);
        let top = self.put(pointers(1), &[leaf, [0x55; 20], leaf].concat());
        self.holes(ACTIVE | depth(1), 15, &top);

        self.begin("other_type");
        let top = self.whole_tree(2);
        self.holes(ACTIVE | depth(1), 15, &top);
    }
}

#[test]
fn the_program_prints_these_lines() {
    let mut trees = Trees {
        log: vec![0; 127 * SECTOR],
        settled: 127 * SECTOR,
        lines: String::new(),
    };
    trees.depth_0("wide_leaf", 500, 450);
    trees.depth_0("short_leaf", 410, 500);
    trees.whole(0, 4);
    trees.whole(1, 13);
    trees.whole(2, 45);
    trees.whole(3, 131);
    trees.zero_scores();
    trees.directories();
    trees.waiting();
    trees.damaged("damaged_leaf", 4);
    trees.damaged("damaged_pointer", 9 + 1);
    trees.nest(16);
    trees.nest(17);
    trees.ill_formed();
    trees.other_refusals();

    let printed = concat!(
        env!("CARGO_MANIFEST_DIR"),
        "/../../crates/tree_examples/stdout"
    );
    let printed = std::fs::read_to_string(printed).unwrap();
    for (number, (line, expected)) in printed.lines().zip(trees.lines.lines()).enumerate() {
        assert_eq!(line, expected, "line {}", number + 1);
    }
    assert_eq!(printed, trees.lines);
}
