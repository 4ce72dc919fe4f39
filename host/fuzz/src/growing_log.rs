//! A log that trees are written to, with holes, and cut into a log and a waiting part.

use second::kind::KINDS;
use second::log::write;
use second::sector::SECTOR;
use second::sha1::{sha1, Score, ZERO_SCORE};

use crate::compare::{hex, Parts, Trace};
use crate::dates;
use crate::random::Random;

pub struct GrowingLog {
    log: Vec<u8>,
    used: usize,
    /// Type and score of each block in it.
    pub held: Vec<(u8, Score)>,
}

impl GrowingLog {
    pub fn new(sectors: usize) -> GrowingLog {
        GrowingLog {
            log: vec![0; sectors * SECTOR],
            used: 0,
            held: Vec::new(),
        }
    }

    /// Stores a block, unless it is one of the holes, and gives its score.
    pub fn store(&mut self, random: &mut Random, kind: u8, data: &[u8]) -> Score {
        let kind = if random.percent(2) {
            random.pick(&KINDS)
        } else {
            kind
        };
        if random.percent(4) {
            return sha1(data);
        }
        self.keep(random, kind, data)
    }

    /// Stores a block, if there is room, and gives its score.
    pub fn keep(&mut self, random: &mut Random, kind: u8, data: &[u8]) -> Score {
        let score = sha1(data);
        let edition = dates::edition(random);
        let sectors = edition.sectors_for(data.len());
        let room = self.used + sectors <= self.log.len() / SECTOR;
        if room && !data.is_empty() && !self.held.contains(&(kind, score)) {
            write(&mut self.log, self.used, edition, kind, data);
            self.used += sectors;
            self.held.push((kind, score));
        }
        score
    }

    /// A score for a block of this type that isn't made now: zero, missing or held.
    pub fn cheap(&self, random: &mut Random, kind: u8) -> Score {
        let same: Vec<Score> = self
            .held
            .iter()
            .filter(|held| held.0 == kind)
            .map(|held| held.1)
            .collect();
        match random.below(24) {
            0 => random.score(),
            1 => [0; 20],
            2..=9 => ZERO_SCORE,
            10 if !self.held.is_empty() => random.pick(&self.held).1,
            _ if !same.is_empty() => random.pick(&same),
            _ => ZERO_SCORE,
        }
    }

    /// Perhaps a byte is changed, or the last one is gone.
    pub fn damage(&mut self, random: &mut Random, trace: &mut Trace) {
        if random.percent(25) {
            let at = random.below(self.log.len());
            self.log[at] ^= random.mark();
            trace.note(|| format!("byte {at} changed"));
        }
        if random.percent(2) {
            self.log.pop();
        }
    }

    /// What was written, cut into a log and a waiting part, perhaps of no sectors.
    pub fn lent(&self, random: &mut Random, trace: &mut Trace) -> Parts {
        let mut log = self.log.clone();
        let border = match random.below(3) {
            0 => self.log.len(),
            _ => random.below(self.used + 1) * SECTOR,
        };
        let waiting = log.split_off(border.min(log.len()));
        if random.percent(20) {
            log.resize(log.len() + SECTOR * random.below(3), 0);
        }
        trace.note(|| {
            let name = |(kind, score): &(u8, Score)| format!("{kind}:{}", &hex(score)[..6]);
            let held: Vec<String> = self.held.iter().map(name).collect();
            let held = held.join(" ");
            format!(
                "a log of {}, waiting {}, with {held}",
                log.len(),
                waiting.len()
            )
        });
        Parts { log, waiting }
    }
}
