//! Trees with holes, zero scores and scores that come back, for reading files and walking.

use second::copy::copy;
use second::log::used;
use second::sector::SECTOR;
use second::sha1::{Score, ZERO_SCORE};
use second::store::store;
use second::Edition;

use crate::archive::Archive;
use crate::collision;
use crate::compare::{buffer, hex, number, Compare, Parts, Trace};
use crate::dates;
use crate::growing_log::GrowingLog;
use crate::random::Random;
use crate::shape::Shape;

/// The most visits a walk may take here, since some archives look through the log at each.
const FEW_VISITS: u64 = 150;

/// Trees in a log that grows.
struct Forest {
    log: GrowingLog,
    lent: Parts,
    entries: Vec<Vec<u8>>,
    /// How many more blocks the trees may have.
    left: usize,
}

pub fn run(
    archive: &mut dyn Archive,
    compare: &mut Compare,
    random: &mut Random,
    trace: &mut Trace,
) -> Result<(), String> {
    let chained = random.percent(12);
    let sizes: &[usize] = if chained { &[24, 30] } else { &[8, 16, 24, 40] };
    let mut forest = Forest {
        log: GrowingLog::new(random.pick(sizes)),
        lent: Parts {
            log: Vec::new(),
            waiting: Vec::new(),
        },
        entries: Vec::new(),
        left: random.pick(&[6, 12, 25]),
    };
    let directory = if chained {
        forest.chain(random)
    } else {
        forest.directory(random, 0)
    };
    let root = forest.root(random, &directory);
    forest.log.damage(random, trace);
    forest.lent = forest.log.lent(random, trace);
    for _ in 0..6 {
        forest.locate(archive, compare, random, trace)?;
    }
    for _ in 0..3 {
        forest.fill(archive, compare, random, trace)?;
    }
    for _ in 0..2 {
        forest.walk(archive, compare, random, trace, &root)?;
    }
    for _ in 0..2 {
        forest.copy(archive, compare, random, trace, &root)?;
    }
    Ok(())
}

impl Forest {
    /// The top score of a tree.
    fn tree(&mut self, random: &mut Random, shape: &Shape, level: usize, nest: usize) -> Score {
        let kind = if level > 0 {
            2 + level as u8
        } else if shape.directory {
            2
        } else {
            13
        };
        if self.left == 0 || random.percent(25) {
            return self.log.cheap(random, kind);
        }
        self.left -= 1;
        if level > 0 {
            let mut block = Vec::new();
            for _ in 0..random.between(1, (shape.psize / 20).min(4)) {
                block.extend(self.tree(random, shape, level - 1, nest));
            }
            match random.below(30) {
                0 => block.extend(random.bytes(7)),
                1 => block.extend(ZERO_SCORE.repeat(shape.psize / 20)),
                2..=10 => {}
                _ => {
                    while block.ends_with(&ZERO_SCORE) {
                        block.truncate(block.len() - 20);
                    }
                }
            }
            return self.log.store(random, kind, &block);
        }
        if shape.directory {
            return self.directory(random, nest);
        }
        let mut size = random.between(0, shape.dsize.min(900));
        if random.percent(10) {
            size = random
                .between(shape.dsize.saturating_sub(1), shape.dsize + 1)
                .min(900);
        }
        let data = match random.percent(3) {
            true => collision::pair().0,
            false => random.bytes(size),
        };
        self.log.store(random, kind, &data)
    }

    /// The score of a directory block.
    fn directory(&mut self, random: &mut Random, nest: usize) -> Score {
        let mut block = Vec::new();
        for _ in 0..random.between(1, 3) {
            block.extend(self.entry(random, nest + 1));
        }
        if random.percent(20) {
            block.truncate(block.len() - random.between(1, 30));
        }
        self.log.store(random, 2, &block)
    }

    /// An entry with a tree below it.
    fn entry(&mut self, random: &mut Random, nest: usize) -> Vec<u8> {
        let directory = nest < 4 && random.percent(40);
        let shape = Shape {
            psize: random.pick(&[40, 40, 59, 60, 100, 57_344]),
            dsize: if directory {
                random.pick(&[40, 80, 120, 400, 57_320])
            } else {
                random.pick(&[1, 7, 40, 389, 390, 403, 404, 778, 779, 807, 1024, 57_344])
            },
            directory,
            depth: random.pick(&[0, 0, 0, 1, 1, 2, 2, 3, 7]),
        };
        let score = self.tree(random, &shape, shape.depth, nest);
        let entry = shape.entry(random, &score);
        self.entries.push(entry.clone());
        entry
    }

    /// Directories nested around the deepest that is allowed.
    fn chain(&mut self, random: &mut Random) -> Score {
        let shape = Shape {
            psize: 40,
            dsize: 40,
            directory: true,
            depth: 0,
        };
        let mut inner = self.log.cheap(random, 13);
        let mut directory = random.percent(30);
        for _ in 0..random.between(13, 18) {
            let shape = Shape { directory, ..shape };
            let block = shape.bytes(&inner, 40);
            inner = self.log.keep(random, 2, &block);
            directory = true;
        }
        inner
    }

    fn root(&mut self, random: &mut Random, directory: &Score) -> Score {
        let mut root = vec![0, if random.percent(97) { 2 } else { 1 }];
        root.resize(258, 0);
        root.extend(directory);
        match random.below(12) {
            0 => root.resize(301, 1),
            1 => root.resize(300, 1),
            2 => root.truncate(random.between(1, 278)),
            _ => {}
        }
        self.log.store(random, 1, &root)
    }

    /// An entry, and an offset around its file.
    fn place(&self, random: &mut Random) -> (Vec<u8>, u64) {
        let mut entry = match self.entries.len() {
            0 => random.bytes(40),
            count => self.entries[random.below(count)].clone(),
        };
        if random.percent(3) {
            entry.push(0);
        } else if random.percent(3) {
            entry.truncate(39);
        }
        let psize = second::message::number(&entry[4..6]);
        let dsize = second::message::number(&entry[6..8]).max(1);
        let size = second::message::number(&entry[14..20]);
        let offset = match random.below(8) {
            0 => size as u64,
            1 => size.saturating_sub(1) as u64,
            2 => random.number() >> random.below(64),
            3..=5 => (random.below(10) * dsize + random.below(dsize)) as u64,
            6 => (random.below(psize.max(1)) * dsize) as u64,
            _ => random.below(size.max(1)) as u64,
        };
        (entry, offset)
    }

    fn locate(
        &self,
        archive: &mut dyn Archive,
        compare: &mut Compare,
        random: &mut Random,
        trace: &mut Trace,
    ) -> Result<(), String> {
        let (entry, offset) = self.place(random);
        let mut page = vec![0; random.pick(&[1, 7, 389, 403, 1024, 4000])];
        match random.below(30) {
            0 => page.clear(),
            1 => {
                let at = random.below(page.len());
                page[at] = random.mark();
            }
            _ => {}
        }
        trace.note(|| format!("locate {} at {offset}, page of {}", hex(&entry), page.len()));
        let Parts { log, waiting } = &self.lent;
        let right = second::tree::locate(log, waiting, &page, &entry, offset);
        let answer = archive.locate(log, waiting, &page, &entry, offset);
        compare.call("locate", number(&right), answer, right)
    }

    fn fill(
        &self,
        archive: &mut dyn Archive,
        compare: &mut Compare,
        random: &mut Random,
        trace: &mut Trace,
    ) -> Result<(), String> {
        let (entry, offset) = self.place(random);
        let length = random.pick(&[0, 1, 7, 389, 403, 1024, 4000]);
        trace.note(|| format!("fill {length} bytes of {} from {offset} on", hex(&entry)));
        let mut tested = vec![0xaa; length];
        let mut second = tested.clone();
        let Parts { log, waiting } = &self.lent;
        let right = second::tree::fill(log, waiting, &entry, offset, &mut second);
        let answer = archive.fill(log, waiting, &entry, offset, &mut tested);
        compare.call("fill", number(&right.0), answer, right)?;
        buffer("the filled buffer", &tested, &second)
    }

    fn walk(
        &self,
        archive: &mut dyn Archive,
        compare: &mut Compare,
        random: &mut Random,
        trace: &mut Trace,
        root: &Score,
    ) -> Result<(), String> {
        let score = match random.below(12) {
            0 => ZERO_SCORE,
            1 if !self.log.held.is_empty() => random.pick(&self.log.held).1,
            _ => *root,
        };
        let mut allowance = match random.below(10) {
            0 => 0,
            1 => 1_000_001,
            2 => random.number(),
            3..=5 => random.below(20) as u64,
            _ => 1_000_000,
        };
        let Parts { log, waiting } = &self.lent;
        let bounded = second::walk::walk(log, waiting, &score, allowance.min(FEW_VISITS));
        if number(&bounded.0) == 21 && allowance <= 1_000_000 {
            allowance = allowance.min(FEW_VISITS);
        }
        if random.percent(30) {
            // Just what the walk needs, or one visit less.
            allowance = bounded.1.saturating_sub(random.below(2) as u64);
        }
        trace.note(|| format!("walk {} with allowance {allowance}", hex(&score)));
        let right = second::walk::walk(log, waiting, &score, allowance);
        let answer = archive.walk(log, waiting, &score, allowance);
        compare.call("walk", number(&right.0), answer, right)
    }

    /// A second log: blank or not, with room for all or not, damaged, with a block that clashes, or with a
    /// part of what is to be copied.
    fn second_log(&self, random: &mut Random, root: &Score) -> Vec<u8> {
        let mut log = vec![0; random.pick(&[0, 1, 3, 6, 12, 24, 48]) * SECTOR];
        if random.percent(15) {
            let (_, other) = collision::pair();
            let _ = store(&mut log, None, Edition::First, 13, &other);
        }
        if random.percent(40) {
            let Parts { log: from, waiting } = &self.lent;
            let visits = random.below(12) as u64;
            let _ = copy(from, waiting, &mut log, b"20251231", root, visits);
        }
        if random.percent(30) && !log.is_empty() {
            let end = (used(&log) * SECTOR).max(SECTOR);
            log[random.below(end)] ^= random.mark();
        }
        if random.percent(2) {
            log.push(0);
        }
        log
    }

    fn copy(
        &self,
        archive: &mut dyn Archive,
        compare: &mut Compare,
        random: &mut Random,
        trace: &mut Trace,
        root: &Score,
    ) -> Result<(), String> {
        let score = match random.below(20) {
            0 => ZERO_SCORE,
            1 if !self.log.held.is_empty() => random.pick(&self.log.held).1,
            _ => *root,
        };
        let allowance = match random.below(10) {
            0 => random.pick(&[0, 1_000_001]),
            1..=3 => random.below(20) as u64,
            _ => FEW_VISITS,
        };
        let date = dates::lent(random);
        let mut tested = self.second_log(random, root);
        let mut right_log = tested.clone();
        trace.note(|| {
            let length = tested.len();
            format!(
                "copy {} to a log of {length}, allowance {allowance}",
                hex(&score)
            )
        });
        let Parts { log, waiting } = &self.lent;
        let right = copy(log, waiting, &mut right_log, &date, &score, allowance);
        let answer = archive.copy((log, waiting), &mut tested, &date, &score, allowance);
        compare.call("copy", number(&right.0), answer, right)?;
        buffer("the second log", &tested, &right_log)?;
        if right.0.is_ok() {
            let walked = archive.walk(&tested, &[], &score, allowance);
            compare.call("walk", 0, walked, right)?;
        }
        Ok(())
    }
}
