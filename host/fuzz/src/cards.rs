//! Cards in trees with holes and damage, and queries, well-formed or nearly.

use second::log::write;
use second::query::{Choice, List, Term};
use second::sector::SECTOR;
use second::sha1::{sha1, Score};

use crate::archive::Archive;
use crate::compare::{hex, number, Compare, Parts, Trace};
use crate::dates;
use crate::random::Random;
use crate::shape::Shape;

/// Names that meet again, in rising order.
const NAMES: [&[u8]; 12] = [
    b"0",
    b"12345678",
    b"A",
    b"A1",
    b"AND",
    b"B",
    b"Fya",
    b"K",
    b"a",
    b"absent",
    b"nota",
    b"or1",
];

/// Names that no card has.
const NO_NAMES: [&[u8]; 8] = [
    b"and",
    b"or",
    b"not",
    b"",
    b"123456789",
    b"A-1",
    b"\xc3\x85",
    b"A\0",
];

pub fn run(
    archive: &mut dyn Archive,
    compare: &mut Compare,
    random: &mut Random,
    trace: &mut Trace,
) -> Result<(), String> {
    let mut shelf = Shelf {
        log: vec![0; 24 * SECTOR],
        used: 0,
    };
    let mut entries = Vec::new();
    for _ in 0..2 {
        let card = card(random);
        trace.note(|| format!("a card: {}", card.escape_ascii()));
        let right = second::card::lines(&card);
        let answer = archive.is_card(&card);
        compare.call("is_card", number(&right), answer, right.is_ok())?;
        entries.push(shelf.file(random, &card));
    }
    let lent = shelf.lent(random, trace);
    for _ in 0..8 {
        let entry = spoiled_entry(random, &entries);
        let query = query(random);
        let mut page = vec![0; random.pick(&[1, 100, 5000])];
        match random.below(60) {
            0 => page.clear(),
            1 => page[0] = random.mark(),
            _ => {}
        }
        let Parts { log, waiting } = &lent;
        trace.note(|| format!("search {}: {}", hex(&entry), query.escape_ascii()));
        let right = second::search::search(log, waiting, &page, &entry, &query);
        let answer = archive.search(log, waiting, &page, &entry, &query);
        compare.call("search", number(&right), answer, right)?;
    }
    Ok(())
}

/// Sectors in which cards are laid down.
struct Shelf {
    log: Vec<u8>,
    used: usize,
}

impl Shelf {
    /// Stores a block, unless it is one of the holes, and gives its score.
    fn store(&mut self, random: &mut Random, kind: u8, data: &[u8]) -> Score {
        let edition = dates::edition(random);
        let sectors = edition.sectors_for(data.len());
        let room = self.used + sectors <= self.log.len() / SECTOR;
        if room && !random.percent(3) {
            write(&mut self.log, self.used, edition, kind, data);
            self.used += sectors;
        }
        sha1(data)
    }

    /// An entry for a file of these bytes.
    fn file(&mut self, random: &mut Random, bytes: &[u8]) -> Vec<u8> {
        let dsize = random.pick(&[7, 40, 389, 390, 403, 404, 1000, 4096, 57_344]);
        let dsize = dsize.max(bytes.len().div_ceil(20)).max(1);
        let mut scores: Vec<Score> = Vec::new();
        for leaf in bytes.chunks(dsize) {
            scores.push(self.store(random, 13, leaf));
        }
        let mut depth = 0;
        while scores.len() != 1 && !bytes.is_empty() {
            depth += 1;
            let groups: Vec<Vec<u8>> = scores.chunks(5).map(<[Score]>::concat).collect();
            scores = groups
                .iter()
                .map(|group| self.store(random, 2 + depth as u8, group))
                .collect();
        }
        let shape = Shape {
            psize: 100,
            dsize,
            directory: false,
            depth,
        };
        let top = scores.first().copied().unwrap_or(sha1(b""));
        shape.bytes(&top, bytes.len() as u64)
    }

    /// The log and the waiting part, perhaps damaged.
    fn lent(mut self, random: &mut Random, trace: &mut Trace) -> Parts {
        if random.percent(25) && self.used > 0 {
            let at = random.below(self.used * SECTOR);
            self.log[at] ^= random.mark();
            trace.note(|| format!("byte {at} changed"));
        }
        let border = match random.below(2) {
            0 => self.log.len() / SECTOR,
            _ => random.below(self.used + 1),
        };
        let waiting = self.log.split_off(border * SECTOR);
        let mut log = self.log;
        if random.percent(1) {
            log.push(0);
        }
        trace.note(|| format!("a log of {}, waiting {}", log.len(), waiting.len()));
        Parts { log, waiting }
    }
}

/// One of the entries, now and then of another size or ill-formed.
fn spoiled_entry(random: &mut Random, entries: &[Vec<u8>]) -> Vec<u8> {
    let mut entry = entries[random.below(entries.len())].clone();
    let size = second::message::number(&entry[14..20]) as u64;
    let other = match random.below(40) {
        0 => size + 1,
        1 => size.saturating_sub(1),
        2 => 0,
        3 => 4097,
        4 => 4096,
        5 => {
            let at = random.below(40);
            entry[at] ^= 1 << random.below(8);
            return entry;
        }
        6 => {
            entry.truncate(39);
            return entry;
        }
        _ => size,
    };
    entry[14..20].copy_from_slice(&other.to_be_bytes()[2..]);
    entry
}

/// A card's text, well-formed or nearly.
fn card(random: &mut Random) -> Vec<u8> {
    if random.percent(4) {
        return long_card(random);
    }
    let mut lines: Vec<(Vec<u8>, bool)> = Vec::new();
    for name in NAMES {
        if random.percent(40) {
            lines.push((name.to_vec(), random.percent(50)));
        }
    }
    match random.below(20) {
        0 if lines.len() > 1 => {
            let last = lines.len() - 1;
            lines.swap(random.below(last), last);
        }
        1 => {
            let name = random.pick(&NO_NAMES).to_vec();
            lines.insert(random.below(lines.len() + 1), (name, true));
            if random.percent(50) {
                lines.sort();
            }
        }
        2 if !lines.is_empty() => {
            let at = random.below(lines.len());
            lines.insert(at, lines[at].clone());
        }
        _ => {}
    }
    let mut text = Vec::new();
    for (name, present) in &lines {
        text.extend(name);
        text.extend(if *present {
            &b"=present\n"[..]
        } else {
            b"=absent\n"
        });
    }
    match random.below(20) {
        0 => {
            text.pop();
        }
        1 => text.insert(random.below(text.len() + 1), random.pick(b"\n =\0A\r")),
        2 if !text.is_empty() => {
            let at = random.below(text.len());
            text[at] ^= 1 << random.below(8);
        }
        3 if !text.is_empty() => {
            text.remove(random.below(text.len()));
        }
        _ => {}
    }
    text
}

/// A card of about as many bytes as are allowed.
fn long_card(random: &mut Random) -> Vec<u8> {
    let count = random.between(255, 257);
    let mut text: Vec<u8> = (0..count)
        .flat_map(|number| format!("{number:08}=absent\n").into_bytes())
        .collect();
    if random.percent(30) {
        text[9..16].copy_from_slice(b"present");
    }
    text
}

/// A query's text, well-formed or nearly.
fn query(random: &mut Random) -> Vec<u8> {
    let mut text = list(random, 3).text().into_bytes();
    match random.below(24) {
        0 => {
            let depth = random.between(14, 18);
            let text = String::from_utf8_lossy(&text).into_owned();
            return format!("{}{text}{}", "( ".repeat(depth), " )".repeat(depth)).into_bytes();
        }
        1 | 2 => {
            let length = random.between(250, 260);
            let nots = length.saturating_sub(text.len()) / 4;
            text = ["not ".repeat(nots).as_bytes(), &text].concat();
        }
        3 => text.insert(random.below(text.len() + 1), random.pick(b"  ()a\n\xc3")),
        4 => {
            text.remove(random.below(text.len()));
        }
        5 => {
            let at = random.below(text.len());
            text[at] ^= 1 << random.below(8);
        }
        6 => text = random.pick(&NO_NAMES).to_vec(),
        7 => {
            let extra = random.pick(&[" and", " or", " a", " )", " ", " not"]);
            text.extend(extra.as_bytes());
        }
        _ => {}
    }
    text
}

fn list(random: &mut Random, depth: usize) -> List {
    let count = random.pick(&[1, 1, 2, 3]);
    List((0..count).map(|_| choice(random, depth)).collect())
}

fn choice(random: &mut Random, depth: usize) -> Choice {
    let count = random.pick(&[1, 1, 1, 2]);
    Choice((0..count).map(|_| term(random, depth)).collect())
}

fn term(random: &mut Random, depth: usize) -> Term {
    match random.below(10) {
        0..=2 => Term::Not(Box::new(term(random, depth))),
        3 | 4 if depth > 0 => Term::Group(list(random, depth - 1)),
        _ => Term::Name(random.pick(&NAMES).to_vec()),
    }
}
