//! Random messages.

use second::kind::KINDS;
use second::sector::{encode, Label};
use second::sha1::{sha1, Score, ZERO_SCORE};

use crate::collision;
use crate::dates;
use crate::random::Random;

/// The data and block types that a case plays with: few, so that they meet again.
pub struct Pool {
    pub blocks: Vec<(Vec<u8>, Score)>,
    pub kinds: Vec<u8>,
    /// Types and data that were stored, to be asked for again.
    pub stored: Vec<(u8, Vec<u8>, Score)>,
}

const SIZES: [usize; 20] = [
    1, 2, 11, 20, 388, 389, 390, 403, 404, 500, 777, 778, 779, 806, 807, 1000, 1167, 1168, 1209,
    1210,
];

impl Pool {
    pub fn new(random: &mut Random) -> Pool {
        let mut blocks = Vec::new();
        for _ in 0..random.between(2, 6) {
            blocks.push(data(random));
        }
        if random.percent(25) {
            let (one, other) = collision::pair();
            blocks.push(one);
            blocks.push(other);
        }
        let kinds = (0..random.between(1, 3))
            .map(|_| random.pick(&KINDS))
            .collect();
        Pool {
            blocks: blocks
                .into_iter()
                .map(|data| {
                    let score = sha1(&data);
                    (data, score)
                })
                .collect(),
            kinds,
            stored: Vec::new(),
        }
    }

    /// Adds a block of the greatest length, or nearly.
    pub fn add_large(&mut self, random: &mut Random) {
        let size = random.between(57_343, 57_344);
        let data = random.bytes(size);
        let score = sha1(&data);
        self.blocks.push((data, score));
    }

    /// Types and scores of blocks that are stored or may be.
    pub fn names(&self) -> Vec<(u8, Score)> {
        let stored = self.stored.iter().map(|(kind, _, score)| (*kind, *score));
        let kinds = self.kinds.iter();
        let may_be = kinds.flat_map(|kind| self.blocks.iter().map(move |(_, s)| (*kind, *s)));
        stored.chain(may_be).collect()
    }

    /// A block type, nearly always one of the pool's.
    pub fn kind(&self, random: &mut Random) -> u8 {
        match random.below(40) {
            0 => random.byte(),
            1 => random.pick(&[0, 10, 12, 14]),
            2 => random.pick(&KINDS),
            _ => random.pick(&self.kinds),
        }
    }

    /// A score with the size of its block.
    pub fn score(&self, random: &mut Random) -> (Score, usize) {
        match random.below(24) {
            0 | 1 => (ZERO_SCORE, 0),
            2 => ([0; 20], 1),
            3 => (random.score(), 1),
            4 => {
                let (data, mut score) = self.blocks[random.below(self.blocks.len())].clone();
                score[random.below(20)] ^= 1 << random.below(8);
                (score, data.len())
            }
            _ => {
                let (data, score) = &self.blocks[random.below(self.blocks.len())];
                (*score, data.len())
            }
        }
    }

    /// A message of any kind, well-formed or not.
    pub fn message(&self, random: &mut Random) -> Vec<u8> {
        let message = match random.below(100) {
            0..=37 => self.write(random),
            38..=73 => self.read(random),
            74..=79 => frame(2, random.byte(), &[]),
            80..=84 => frame(16, random.byte(), &[]),
            85..=91 => hello(random),
            92..=94 => frame(6, random.byte(), &[]),
            95 => {
                let count = random.pick(&[0, 1, 4, 23, 24, 25]);
                let body = random.bytes(count);
                frame(random.below(20) as u8, random.byte(), &body)
            }
            _ => {
                let message = self.any(random);
                return spoiled(random, message);
            }
        };
        if random.percent(5) {
            return spoiled(random, message);
        }
        message
    }

    fn any(&self, random: &mut Random) -> Vec<u8> {
        match random.below(6) {
            0 => self.write(random),
            1 => self.read(random),
            2 => hello(random),
            _ => frame(random.pick(&[2, 6, 16]), random.byte(), &[]),
        }
    }

    pub fn read(&self, random: &mut Random) -> Vec<u8> {
        let mut kind = self.kind(random);
        let (mut score, mut size) = self.score(random);
        if !self.stored.is_empty() && random.percent(55) {
            let (stored_kind, data, stored_score) = &self.stored[random.below(self.stored.len())];
            (kind, score, size) = (*stored_kind, *stored_score, data.len());
        }
        let count = match random.below(12) {
            0 => 0,
            1 => size.saturating_sub(1),
            2 => size + 1,
            3 => 57_344,
            4 => 65_535,
            5 => random.below(65_536),
            _ => size,
        };
        let mut body = score.to_vec();
        body.push(kind);
        body.extend(pad(random, 1));
        body.extend((count as u16).to_be_bytes());
        frame(12, random.byte(), &body)
    }

    pub fn write(&self, random: &mut Random) -> Vec<u8> {
        let mut body = vec![self.kind(random)];
        body.extend(pad(random, 3));
        if !self.stored.is_empty() && random.percent(15) {
            let (kind, data, _) = &self.stored[random.below(self.stored.len())];
            body[0] = *kind;
            body.extend(data);
            return frame(14, random.byte(), &body);
        }
        match random.below(400) {
            0 => {
                let count = random.pick(&[57_343, 57_344, 57_345, 57_400, 65_529]);
                body.extend(random.bytes(count));
            }
            1 => body.extend(vec![0; random.between(65_530, 65_540)]),
            2..=30 => {}
            31..=60 => body.extend(data(random)),
            _ => body.extend(&self.blocks[random.below(self.blocks.len())].0),
        }
        frame(14, random.byte(), &body)
    }
}

/// Random data, some of it with zeros at its end or with a sector in it.
pub fn data(random: &mut Random) -> Vec<u8> {
    let size = if random.percent(50) {
        random.pick(&SIZES)
    } else {
        random.between(1, 1300)
    };
    let mut data = random.bytes(size);
    match random.below(10) {
        0 | 1 => {
            let from = random.below(size);
            data[from..].fill(0);
        }
        2 => {
            let label = Label {
                edition: dates::edition(random),
                rec: random.below(8) as u32,
                part: 0,
                of: 1,
                kind: random.pick(&KINDS),
                size: 11,
                score: sha1(b"hello world"),
            };
            data = encode(&label, b"hello world").to_vec();
            data.truncate(random.pick(&[96, 107, 110, 121, 389, 403, 512]));
        }
        _ => {}
    }
    data
}

/// A pad of so many bytes, now and then with a byte that isn't 0.
pub fn pad(random: &mut Random, count: usize) -> Vec<u8> {
    let mut pad = vec![0; count];
    if random.percent(3) {
        pad[random.below(count)] = random.mark();
    }
    pad
}

/// A message with its size, whatever that is.
pub fn frame(kind: u8, tag: u8, body: &[u8]) -> Vec<u8> {
    let size = (body.len() + 2) as u16;
    let mut message = size.to_be_bytes().to_vec();
    message.push(kind);
    message.push(tag);
    message.extend(body);
    message
}

/// A hello, mostly a good one.
pub fn hello(random: &mut Random) -> Vec<u8> {
    let mut body = Vec::new();
    let version = match random.below(56) {
        0 => Vec::new(),
        1 => b"2".to_vec(),
        2 => b"03".to_vec(),
        3 => b"020".to_vec(),
        4 => b"02\0".to_vec(),
        5 => vec![b'0'; 1024],
        6 => vec![b'0'; 1025],
        7..=10 => text(random, 3),
        _ => b"02".to_vec(),
    };
    counted(&mut body, &version);
    let uid = match random.below(30) {
        0 => vec![b'u'; random.between(1023, 1025)],
        1 => {
            // two, three and four bytes fill 1,024 in different ways
            let character = random.pick(&["\u{80}", "\u{800}", "\u{10000}"]);
            let mut uid = character.repeat(512).into_bytes();
            uid.truncate(random.between(1020, 1025));
            uid
        }
        2 => {
            let count = random.between(1, 8);
            random.bytes(count)
        }
        _ => {
            let count = random.below(9);
            text(random, count)
        }
    };
    counted(&mut body, &uid);
    body.push(random.byte());
    for _ in 0..2 {
        let count = random.pick(&[0, 0, 1, 2, 255]);
        body.push(count);
        body.extend(random.bytes(usize::from(count)));
    }
    frame(4, random.byte(), &body)
}

/// Puts a text with its count.
fn counted(body: &mut Vec<u8>, text: &[u8]) {
    body.extend((text.len() as u16).to_be_bytes());
    body.extend(text);
}

/// The first and last character of each length and of each row of the grammar.
const BORDERS: [char; 20] = [
    '\u{1}',
    '\u{7f}',
    '\u{80}',
    '\u{7ff}',
    '\u{800}',
    '\u{fff}',
    '\u{1000}',
    '\u{cfff}',
    '\u{d000}',
    '\u{d7ff}',
    '\u{e000}',
    '\u{feff}',
    '\u{fffe}',
    '\u{ffff}',
    '\u{10000}',
    '\u{3ffff}',
    '\u{40000}',
    '\u{fffff}',
    '\u{100000}',
    '\u{10ffff}',
];

/// What no text has: too long a form, a surrogate, past the last character, no first byte, NUL.
const ILL: [&[u8]; 16] = [
    &[0xc0, 0x80],
    &[0xc1, 0xbf],
    &[0xe0, 0x80, 0x80],
    &[0xe0, 0x9f, 0xbf],
    &[0xf0, 0x80, 0x80, 0x80],
    &[0xf0, 0x8f, 0xbf, 0xbf],
    &[0xed, 0xa0, 0x80],
    &[0xed, 0xbf, 0xbf],
    &[0xf4, 0x90, 0x80, 0x80],
    &[0xf4, 0xbf, 0xbf, 0xbf],
    &[0xf5, 0x80, 0x80, 0x80],
    &[0x80],
    &[0xbf],
    &[0xfe],
    &[0xff],
    &[0],
];

/// A text of about so many characters, now and then nearly one.
fn text(random: &mut Random, count: usize) -> Vec<u8> {
    let mut text = Vec::new();
    for _ in 0..count {
        let character = match random.below(3) {
            0 => random.pick(&BORDERS),
            1 => char::from(random.between(1, 0x7f) as u8),
            _ => char::from_u32(random.between(1, 0x10_ffff) as u32).unwrap_or('a'),
        };
        text.extend(character.encode_utf8(&mut [0; 4]).as_bytes());
    }
    match random.below(20) {
        0 => text.extend(random.pick(&ILL)),
        1 if !text.is_empty() => {
            let at = random.below(text.len());
            text[at] = random.byte();
        }
        2 => {
            text.pop();
        }
        _ => {}
    }
    text
}

/// A message with something wrong, or perhaps wrong.
fn spoiled(random: &mut Random, mut message: Vec<u8>) -> Vec<u8> {
    match random.below(9) {
        0 => message.truncate(random.below(message.len())),
        1 => {
            message.truncate(random.between(4, message.len().max(4)));
            resize(&mut message);
        }
        2 => {
            let more = random.between(1, 4);
            message.extend(random.bytes(more));
            resize(&mut message);
        }
        3 => message.push(random.byte()),
        4 => message[1] = message[1].wrapping_add(random.pick(&[1, 255, 2, 254])),
        5 => message[2] = random.below(20) as u8,
        6 => {
            let count = random.below(7);
            message = random.bytes(count);
        }
        7 => {
            let count = random.between(4, 30);
            message = random.bytes(count);
            resize(&mut message);
        }
        _ => {
            let at = random.below(message.len());
            message[at] ^= 1 << random.below(8);
        }
    }
    message
}

fn resize(message: &mut [u8]) {
    let size = (message.len() - 2) as u16;
    message[..2].copy_from_slice(&size.to_be_bytes());
}
