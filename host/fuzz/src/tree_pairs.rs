//! Pairs of directory trees in one log that are partly alike: holes, zero scores, scores that come back,
//! entries that differ by little, ill-formed ones, and other shapes.

use second::sha1::{Score, ZERO_SCORE};

use crate::growing_log::GrowingLog;
use crate::random::Random;
use crate::shape::Shape;

/// The same of the first tree and of the second.
pub type Pair<T> = (T, T);

pub struct TreePairs {
    pub log: GrowingLog,
    /// How many more pairs of blocks the trees may have.
    left: usize,
}

impl TreePairs {
    pub fn new(random: &mut Random) -> TreePairs {
        TreePairs {
            log: GrowingLog::new(random.pick(&[8, 16, 24, 40])),
            left: random.pick(&[4, 8, 16]),
        }
    }

    /// Two entries to be compared, nearly always well-formed directories.
    pub fn top(&mut self, random: &mut Random) -> Pair<Vec<u8>> {
        if random.percent(6) {
            return self.entries(random, 0);
        }
        let shape = directory_shape(random);
        let (a, b) = self.scores(random, &shape, shape.depth, 0);
        let first = shape.bytes(&a, 0);
        let mut second = altered(&first, random.percent(30).then(|| random.byte()), &b);
        if random.percent(6) {
            second = directory_shape(random).bytes(&b, 0);
        }
        (first, second)
    }

    /// Two entries over directories nested around the deepest that is allowed, which differ in the
    /// innermost.
    pub fn chain(&mut self, random: &mut Random) -> Pair<Vec<u8>> {
        self.log = GrowingLog::new(random.pick(&[36, 40]));
        let shape = Shape {
            psize: 40,
            dsize: 40,
            directory: true,
            depth: 0,
        };
        let mut pair = (self.log.cheap(random, 2), random.score());
        let mut directory = random.percent(40);
        for _ in 0..random.between(14, 18) {
            let shape = Shape { directory, ..shape };
            let (a, b) = (shape.bytes(&pair.0, 40), shape.bytes(&pair.1, 40));
            pair = (self.log.keep(random, 2, &a), self.log.keep(random, 2, &b));
            directory = true;
        }
        (shape.bytes(&pair.0, 40), shape.bytes(&pair.1, 40))
    }

    /// The scores at a level of two trees of one shape.
    fn scores(
        &mut self,
        random: &mut Random,
        shape: &Shape,
        level: usize,
        nest: usize,
    ) -> Pair<Score> {
        let kind = 2 + level as u8;
        if self.left == 0 || random.percent(15) {
            let first = self.log.cheap(random, kind);
            let second = match random.percent(40) {
                true => first,
                false => self.log.cheap(random, kind),
            };
            return (first, second);
        }
        self.left -= 1;
        let (first, second) = match level {
            0 => self.directories(random, nest),
            _ => self.pointers(random, shape, level, nest),
        };
        let ours = self.log.store(random, kind, &first);
        let theirs = match random.below(12) {
            0 => ours,
            1 => self.log.cheap(random, kind),
            _ => self.log.store(random, kind, &second),
        };
        either_way(random, ours, theirs)
    }

    /// Pointer blocks, of one length or not, now and then ill-formed or too long.
    fn pointers(
        &mut self,
        random: &mut Random,
        shape: &Shape,
        level: usize,
        nest: usize,
    ) -> Pair<Vec<u8>> {
        let mut pair = (Vec::new(), Vec::new());
        for _ in 0..random.between(1, (shape.psize / 20).min(4)) {
            let (a, b) = self.scores(random, shape, level - 1, nest);
            pair.0.extend(a);
            pair.1.extend(b);
        }
        for block in [&mut pair.0, &mut pair.1] {
            match random.below(24) {
                0 => block.extend(random.bytes(7)),
                1 => block.extend(ZERO_SCORE.repeat(shape.psize / 20)),
                2..=4 => block.truncate(block.len() - 20),
                5..=8 => {
                    while block.ends_with(&ZERO_SCORE) {
                        block.truncate(block.len() - 20);
                    }
                }
                _ => {}
            }
        }
        pair
    }

    /// Directory blocks, of one length or not.
    pub fn directories(&mut self, random: &mut Random, nest: usize) -> Pair<Vec<u8>> {
        let mut pair = (Vec::new(), Vec::new());
        for _ in 0..random.between(1, 3) {
            let (a, b) = self.entries(random, nest + 1);
            pair.0.extend(a);
            pair.1.extend(b);
        }
        for block in [&mut pair.0, &mut pair.1] {
            match random.below(16) {
                0 => block.truncate(block.len() - random.between(1, 30)),
                1 => block.truncate(block.len() - 40),
                2 => block.extend([0; 40]),
                _ => {}
            }
        }
        pair
    }

    /// Entries at one place: equal, alike but for gen or score, one of them inactive, of another shape.
    fn entries(&mut self, random: &mut Random, nest: usize) -> Pair<Vec<u8>> {
        let (shape, pair) = if nest < 4 && random.percent(50) {
            let shape = directory_shape(random);
            (shape, self.scores(random, &shape, shape.depth, nest))
        } else {
            // Never read, and so never made.
            let few = [[1; 20], [2; 20], ZERO_SCORE];
            (file_shape(random), (random.pick(&few), random.pick(&few)))
        };
        let first = shape.entry(random, &pair.0);
        let second = match random.below(12) {
            0..=6 => altered(&first, None, &pair.1),
            7 => altered(&first, Some(random.byte()), &pair.1),
            8 => first.clone(),
            9 => {
                let mut inactive = altered(&first, None, &pair.1);
                inactive[8] &= !1;
                inactive
            }
            10 => directory_shape(random).entry(random, &pair.1),
            _ => shape.entry(random, &pair.1),
        };
        either_way(random, first, second)
    }
}

/// The entry with another score, and perhaps with another gen.
fn altered(entry: &[u8], gen: Option<u8>, score: &Score) -> Vec<u8> {
    let mut other = entry.to_vec();
    other[3] = gen.unwrap_or(other[3]);
    other[20..].copy_from_slice(score);
    other
}

fn either_way<T>(random: &mut Random, first: T, second: T) -> Pair<T> {
    match random.percent(50) {
        true => (first, second),
        false => (second, first),
    }
}

/// Few shapes, so that they meet again.
fn directory_shape(random: &mut Random) -> Shape {
    Shape {
        psize: random.pick(&[60, 60, 60, 59, 57_344]),
        dsize: random.pick(&[120, 120, 120, 80, 57_320]),
        directory: true,
        depth: random.pick(&[0, 0, 0, 1, 1, 2, 3, 7]),
    }
}

fn file_shape(random: &mut Random) -> Shape {
    Shape {
        psize: random.pick(&[40, 60]),
        dsize: random.pick(&[40, 57_344]),
        directory: false,
        depth: random.pick(&[0, 1]),
    }
}
