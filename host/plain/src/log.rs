//! The log in ordinary Rust: blocks in labelled, checked sectors, found by looking through them. New
//! ones get a date and wait in a second run of sectors until they are moved behind the others. Blocks
//! of the first edition, which have no date, are read as well. An index may be lent besides: a read goes
//! by it first, and a store enters the block; an empty one is of no account.

use crate::crc32::crc32;
use crate::index;
use crate::sha1::sha1;

pub type Score = [u8; 20];
/// Eight decimal digits.
pub type Date = [u8; 8];

const SECTOR: usize = 512;
/// The bytes before the check.
const CHECK: usize = 499;
const MOST_SECTORS: usize = 1_048_576;
const MOST_WAITING: usize = 256;
const MOST_DATA: usize = 57_344;

/// The SHA-1 of no bytes.
const ZERO_SCORE: Score = [
    0xda, 0x39, 0xa3, 0xee, 0x5e, 0x6b, 0x4b, 0x0d, 0x32, 0x55, 0xbf, 0xef, 0x95, 0x60, 0x18, 0x90,
    0xaf, 0xd8, 0x07, 0x09,
];

/// The line of a date, before the lines of the label that both editions have.
const DATE_LINE: usize = DATE + 9;
const LINES_LENGTH: usize = 96;

/// The place of the date's digits, and of the lines' values behind the date.
const DATE: usize = 5;
const REC: usize = 4;
const PART: usize = 18;
const OF: usize = 26;
const KIND: usize = 36;
const SIZE: usize = 44;
const SCORE: usize = 55;

/// The lines with all their values still to be filled in.
const LINES: &[u8; LINES_LENGTH] = b"rec=--------\npart=----\nof=----\ntype=--\nsize=----\n\
    score=----------------------------------------\n";

/// What became of data to be stored.
#[derive(Clone, Copy, Debug, PartialEq, Eq)]
pub enum Stored {
    /// Appended.
    New(Score),
    /// Empty or held already: nothing was written.
    Held(Score),
    /// The number of the refusal: 3, 9, 10, 14 or 15.
    Refused(u8),
}

/// Why a block is not read.
#[derive(Clone, Copy, Debug, PartialEq, Eq)]
pub enum Refused {
    /// The number of the refusal: 3, 9, 11 or 13.
    Number(u8),
    /// 12, with the first doubtful sector.
    NotKnown(usize),
}

/// A label that is filled in for one part of a block after the other.
struct Label {
    text: Vec<u8>,
    /// The bytes of the line of its date, if it has one.
    front: usize,
}

impl Label {
    fn new(date: Option<Date>, first: usize, kind: u8, size: usize, score: &Score) -> Label {
        let mut text = Vec::with_capacity(DATE_LINE + LINES_LENGTH);
        if let Some(date) = date {
            text.extend_from_slice(b"date=");
            text.extend_from_slice(&date);
            text.push(b'\n');
        }
        let front = text.len();
        text.extend_from_slice(LINES);
        let mut label = Label { text, front };
        let count = label.sectors_for(size) as u16;
        label.put(REC, &(first as u32).to_be_bytes());
        label.put(OF, &count.to_be_bytes());
        label.put(KIND, &[kind]);
        label.put(SIZE, &(size as u16).to_be_bytes());
        label.put(SCORE, score);
        label
    }

    fn put(&mut self, at: usize, value: &[u8]) {
        put(&mut self.text, self.front + at, value);
    }

    /// The same label for another part.
    fn of_part(&mut self, part: usize) -> &[u8] {
        self.put(PART, &(part as u16).to_be_bytes());
        &self.text
    }

    /// The bytes of payload behind it.
    fn payload(&self) -> usize {
        CHECK - self.text.len()
    }

    fn sectors_for(&self, size: usize) -> usize {
        size.div_ceil(self.payload())
    }
}

/// The date of a sector that begins with the line of one.
fn date_of(sector: &[u8]) -> Option<Date> {
    let line = sector[..DATE_LINE].strip_prefix(b"date=")?;
    let date = Date::try_from(line.strip_suffix(b"\n")?).ok()?;
    date.iter().all(u8::is_ascii_digit).then_some(date)
}

/// The used part of a log and the sectors that wait, as one log.
#[derive(Clone, Copy)]
struct Joined<'a> {
    settled: &'a [u8],
    waiting: &'a [u8],
}

impl<'a> Joined<'a> {
    fn new(log: &'a [u8], waiting: &'a [u8]) -> Joined<'a> {
        let settled = &log[..used(log) * SECTOR];
        Joined { settled, waiting }
    }

    fn sectors(self) -> impl Iterator<Item = &'a [u8]> {
        let waiting = self.waiting.chunks_exact(SECTOR);
        self.settled.chunks_exact(SECTOR).chain(waiting)
    }

    fn sector(self, number: usize) -> Option<&'a [u8]> {
        let start = number.checked_mul(SECTOR)?;
        match start.checked_sub(self.settled.len()) {
            None => Some(&self.settled[start..start + SECTOR]),
            Some(start) => self.waiting.get(start..start.checked_add(SECTOR)?),
        }
    }

    fn used(self) -> usize {
        self.settled.len() / SECTOR + used(self.waiting)
    }
}

/// Appends data with a date to the sectors that wait, unless it is held, and enters it in the index.
pub fn store(
    log: &[u8],
    waiting: &mut [u8],
    index: &mut [u8],
    date: Date,
    kind: u8,
    data: &[u8],
) -> Stored {
    if !well_sized(log, waiting) {
        return Stored::Refused(3);
    }
    if !lawful(kind) {
        return Stored::Refused(9);
    }
    if data.len() > MOST_DATA {
        return Stored::Refused(10);
    }
    let score = sha1(data);
    if data.is_empty() {
        return Stored::Held(score);
    }
    if score == ZERO_SCORE {
        return Stored::Refused(15);
    }
    let mut held = Vec::new();
    let joined = Joined::new(log, waiting);
    if find(joined, kind, &score, &mut held).is_some() {
        return if held == data {
            Stored::Held(score)
        } else {
            Stored::Refused(15)
        };
    }
    let first = joined.used();
    let waits = first - joined.settled.len() / SECTOR;
    let label = Label::new(Some(date), first, kind, data.len(), &score);
    let needed = label.sectors_for(data.len());
    let rest = &mut waiting[waits * SECTOR..];
    if rest.len() / SECTOR < needed || log.len() / SECTOR < first + needed {
        return Stored::Refused(14);
    }
    append(rest, label, data);
    index::enter(index, kind, &score, first);
    Stored::New(score)
}

/// Writes a block to the front of blank sectors, numbered from `first` on, and gives how many it takes.
/// Nothing is looked up: for logs that a test or a comparison begins with.
pub fn write_block(rest: &mut [u8], first: usize, date: Date, kind: u8, data: &[u8]) -> usize {
    let label = Label::new(Some(date), first, kind, data.len(), &sha1(data));
    let sectors = label.sectors_for(data.len());
    append(rest, label, data);
    sectors
}

/// Moves the sectors that wait behind the log's used part. Refuses 3, and 14 where they don't fit.
pub fn settle(log: &mut [u8], waiting: &mut [u8]) -> Result<(), Refused> {
    if !well_sized(log, waiting) {
        return Err(Refused::Number(3));
    }
    let (start, length) = (used(log) * SECTOR, used(waiting) * SECTOR);
    let room = log[start..].get_mut(..length).ok_or(Refused::Number(14))?;
    room.copy_from_slice(&waiting[..length]);
    waiting.fill(0);
    Ok(())
}

/// Copies the data of a score and type to the front of out and gives its length. Refuses 3, 9,
/// 11, 12 and, if out is too short, 13.
pub fn read(
    log: &[u8],
    waiting: &[u8],
    index: &[u8],
    kind: u8,
    score: &Score,
    out: &mut [u8],
) -> Result<usize, Refused> {
    if !well_sized(log, waiting) {
        return Err(Refused::Number(3));
    }
    if !lawful(kind) {
        return Err(Refused::Number(9));
    }
    if *score == ZERO_SCORE {
        return Ok(0);
    }
    let mut data = Vec::new();
    let joined = Joined::new(log, waiting);
    let held = find_by(index, joined, kind, score, &mut data)
        .or_else(|| find(joined, kind, score, &mut data));
    if held.is_none() {
        return Err(match first_doubtful(joined, &mut data) {
            Some(sector) => Refused::NotKnown(sector),
            None => Refused::Number(11),
        });
    }
    let out = out.get_mut(..data.len()).ok_or(Refused::Number(13))?;
    out.copy_from_slice(&data);
    Ok(data.len())
}

pub(crate) fn well_sized(log: &[u8], waiting: &[u8]) -> bool {
    let sized =
        |part: &[u8], most| part.len().is_multiple_of(SECTOR) && part.len() / SECTOR <= most;
    sized(log, MOST_SECTORS) && sized(waiting, MOST_WAITING)
}

fn lawful(kind: u8) -> bool {
    matches!(kind, 1..=9 | 13)
}

/// The lines of a label that name a block by its type and score.
struct Named {
    lines: [u8; LINES_LENGTH],
    /// What eight digits of the score are in a sector with a date, and in one without.
    glimpse: [[u8; GLIMPSE]; 2],
}

/// Eight bytes of a sector that lie in the score's digits with a date and without, in one line of memory.
const GLIMPSE_AT: usize = 80;
const GLIMPSE: usize = 8;

impl Named {
    fn new(kind: u8, score: &Score) -> Named {
        let mut lines = *LINES;
        put(&mut lines, KIND, &[kind]);
        put(&mut lines, SCORE, score);
        let digits = |front: usize| std::array::from_fn(|k| lines[GLIMPSE_AT - front + k]);
        Named {
            glimpse: [digits(DATE_LINE), digits(0)],
            lines,
        }
    }

    fn is(&self, sector: &[u8]) -> bool {
        let seen = &sector[GLIMPSE_AT..GLIMPSE_AT + GLIMPSE];
        if self.glimpse.iter().all(|digits| digits != seen) {
            return false;
        }
        let front = if sector[0] == b'd' { DATE_LINE } else { 0 };
        let (lines, named) = (&sector[front..], &self.lines);
        lines[SCORE..LINES_LENGTH] == named[SCORE..] && lines[KIND..SIZE] == named[KIND..SIZE]
    }
}

/// The first sound block of a type and score; data is then its bytes.
fn find(log: Joined, kind: u8, score: &Score, data: &mut Vec<u8>) -> Option<usize> {
    let named = Named::new(kind, score);
    log.sectors()
        .enumerate()
        .filter(|(_, sector)| named.is(sector))
        .find_map(|(first, _)| sound(log, first, data))
}

/// The same at the places that an index names.
fn find_by(
    index: &[u8],
    log: Joined,
    kind: u8,
    score: &Score,
    data: &mut Vec<u8>,
) -> Option<usize> {
    let named = Named::new(kind, score);
    index::hints(index, kind, score)
        .filter(|&first| log.sector(first).is_some_and(|sector| named.is(sector)))
        .find_map(|first| sound(log, first, data))
}

/// Tells each sound block of a log alone, by type, score and first sector.
pub(crate) fn sound_blocks(log: &[u8], mut tell: impl FnMut(u8, &Score, usize)) {
    let joined = Joined::new(log, &[]);
    let (mut at, mut data) = (0, Vec::new());
    while let Some(head) = joined.sector(at) {
        at += match sound(joined, at, &mut data) {
            None => 1,
            Some(sectors) => {
                let lines = &head[date_of(head).map_or(0, |_| DATE_LINE)..];
                if let (Some([kind]), Some(score)) = (take(lines, KIND), take(lines, SCORE)) {
                    tell(kind, &score, at);
                }
                sectors
            }
        };
    }
}

/// The first sector of the used part that is in no sound block.
fn first_doubtful(log: Joined, data: &mut Vec<u8>) -> Option<usize> {
    let used = log.used();
    let mut at = 0;
    while at < used {
        match sound(log, at, data) {
            Some(sectors) => at += sectors,
            None => return Some(at),
        }
    }
    None
}

/// The sectors up to the last that isn't all zeros.
fn used(log: &[u8]) -> usize {
    log.chunks_exact(SECTOR)
        .rposition(|sector| *sector != [0; SECTOR])
        .map_or(0, |last| last + 1)
}

/// How many sectors the sound block has that starts at one; data is then its bytes.
fn sound(log: Joined, first: usize, data: &mut Vec<u8>) -> Option<usize> {
    let head = log.sector(first)?;
    let date = date_of(head);
    let lines = &head[date.map_or(0, |_| DATE_LINE)..];
    let [kind] = take(lines, KIND)?;
    let size = usize::from(u16::from_be_bytes(take(lines, SIZE)?));
    let score: Score = take(lines, SCORE)?;
    if !lawful(kind) || !(1..=MOST_DATA).contains(&size) {
        return None;
    }

    let mut label = Label::new(date, first, kind, size, &score);
    let count = label.sectors_for(size);
    data.clear();
    data.reserve(count * label.payload());
    for part in 0..count {
        let sector = log.sector(first + part)?;
        let payload = sector[..CHECK].strip_prefix(label.of_part(part))?;
        if sector[CHECK..] != check_line(&sector[..CHECK]) {
            return None;
        }
        data.extend_from_slice(payload);
    }
    if data[size..].iter().any(|&byte| byte != 0) {
        return None;
    }
    data.truncate(size);
    (sha1(data) == score).then_some(count)
}

/// Writes a block's sectors to the front of the blank ones.
fn append(rest: &mut [u8], mut label: Label, data: &[u8]) {
    let parts = data.chunks(label.payload()).enumerate();
    for ((part, payload), sector) in parts.zip(rest.chunks_exact_mut(SECTOR)) {
        let label = label.of_part(part);
        sector[..label.len()].copy_from_slice(label);
        let room = &mut sector[label.len()..CHECK];
        room[..payload.len()].copy_from_slice(payload);
        room[payload.len()..].fill(0);
        let line = check_line(&sector[..CHECK]);
        sector[CHECK..].copy_from_slice(&line);
    }
}

fn check_line(checked: &[u8]) -> [u8; SECTOR - CHECK] {
    let mut line = *b"crc=--------\n";
    put(&mut line, 4, &crc32(checked).to_be_bytes());
    line
}

/// Writes a value in lower-case hex.
fn put(text: &mut [u8], at: usize, value: &[u8]) {
    const DIGITS: &[u8; 16] = b"0123456789abcdef";
    for (pair, byte) in text[at..].chunks_exact_mut(2).zip(value) {
        pair[0] = DIGITS[usize::from(byte >> 4)];
        pair[1] = DIGITS[usize::from(byte & 15)];
    }
}

/// Reads a value in hex.
fn take<const N: usize>(text: &[u8], at: usize) -> Option<[u8; N]> {
    let mut value = [0; N];
    for (byte, pair) in value.iter_mut().zip(text[at..].chunks_exact(2)) {
        let high = (pair[0] as char).to_digit(16)?;
        let low = (pair[1] as char).to_digit(16)?;
        *byte = (high << 4 | low) as u8;
    }
    Some(value)
}
