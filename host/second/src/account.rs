//! The account of a history: the ledger, and what it says that the log and the waiting part hold.

use std::collections::BTreeSet;

use crate::edition::Edition;
use crate::ledger::{Effect, Ledger, Origin, Prediction, Row};
use crate::log::{well_lent, write_in};
use crate::message::Lent;
use crate::sector::{blank, SECTOR};
use crate::tree::ENTRY;
use crate::writer::file;

pub struct Account {
    pub ledger: Ledger,
    /// The log as it was first lent or last told, with the rows that were settled since.
    log: Vec<u8>,
    /// The waiting rows' sectors in order, and zeros; none where no waiting part is lent.
    waiting: Option<Vec<u8>>,
}

impl Account {
    /// A blank log and, perhaps, a blank waiting part.
    pub fn new(lent: Lent) -> Account {
        Account {
            ledger: Ledger::new(),
            log: vec![0; lent.log],
            waiting: lent.waiting.map(|length| vec![0; length]),
        }
    }

    pub fn log(&self) -> &[u8] {
        &self.log
    }

    pub fn waiting(&self) -> Option<&[u8]> {
        self.waiting.as_deref()
    }

    pub fn lent(&self) -> Lent {
        Lent {
            log: self.log.len(),
            waiting: self.waiting.as_ref().map(Vec::len),
        }
    }

    /// Takes the next message, with its date or without one.
    pub fn request(
        &mut self,
        origin: Origin,
        message: &[u8],
        date: Option<&[u8]>,
        reply_len: usize,
    ) -> Prediction {
        let settled = self.ledger.settled_rows().len();
        let lent = self.lent();
        let prediction = self.ledger.request(origin, message, date, reply_len, lent);
        for row in &self.ledger.settled_rows()[settled..] {
            put(&mut self.log, row.first, row);
        }
        match (&mut self.waiting, prediction.effect) {
            (Some(waiting), Effect::Settles) => waiting.fill(0),
            (Some(_), Effect::Adds) => self.put_last(),
            _ => {}
        }
        prediction
    }

    /// Writes the last waiting row's sectors behind those of the others.
    fn put_last(&mut self) {
        if let (Some(waiting), Some(row)) = (&mut self.waiting, self.ledger.waiting_rows().last()) {
            let place = self.ledger.waiting_sectors() - row.sectors().len();
            put(waiting, place, row);
        }
    }

    /// A call of the writer of files, which is lent the waiting part: the list of its writes, up to and
    /// including the refused one. Gives the entry or the number.
    pub fn write_file(
        &mut self,
        date: &[u8],
        slice: &[u8],
        dsize: usize,
        psize: usize,
    ) -> Result<[u8; ENTRY], u8> {
        let lent = self.lent();
        if !well_lent(lent.log, lent.waiting.unwrap_or(0)) {
            return Err(3);
        }
        let edition = Edition::of(Some(date))?;
        let file = file(slice, dsize, psize)?;
        for (kind, data) in &file.blocks {
            if self.ledger.write(edition, *kind, data, lent)? == Effect::Adds {
                self.put_last();
            }
        }
        Ok(file.entry)
    }

    /// The log is lent on with more blank sectors behind it.
    pub fn grow(&mut self, log_len: usize) {
        self.log.resize(log_len.max(self.log.len()), 0);
    }

    /// A stop between two requests: the log alone goes on, with a blank waiting part of any length or
    /// with none. It is also how a waiting part is lent for the first time.
    pub fn stop(&mut self, waiting_len: Option<usize>) {
        self.ledger.stop();
        self.waiting = waiting_len.map(|length| vec![0; length]);
    }

    /// A message that is never answered: its row waits to be written, if it adds one.
    pub fn begin(
        &mut self,
        origin: Origin,
        message: &[u8],
        date: Option<&[u8]>,
        reply_len: usize,
    ) -> Prediction {
        let lent = self.lent();
        self.ledger.begin(origin, message, date, reply_len, lent)
    }

    /// The sectors of the waiting rows, each with its number in the log.
    pub fn on_their_way(&self) -> Vec<(usize, Vec<u8>)> {
        let mut sectors = Vec::new();
        for row in self.ledger.waiting_rows() {
            let mut room = vec![0; row.sectors().len() * SECTOR];
            put(&mut room, 0, row);
            let bytes = room.chunks(SECTOR).map(<[u8]>::to_vec);
            sectors.extend(row.sectors().zip(bytes));
        }
        sectors
    }

    /// A stop while the waiting rows were on their way into the log. Each of their sectors has arrived
    /// whole, is torn, or is blank still: this is the log afterwards.
    pub fn crash(
        &mut self,
        log: &[u8],
        whole: &BTreeSet<usize>,
        torn: &BTreeSet<usize>,
        waiting_len: Option<usize>,
    ) {
        self.ledger.crash(whole, torn);
        self.log.copy_from_slice(log);
        self.waiting = waiting_len.map(|length| vec![0; length]);
    }

    /// The same, told by the log alone: a sector on its way that is neither blank nor what was to be
    /// written is torn. Whether every other sector is as it was.
    pub fn stopped(&mut self, log: &[u8], waiting_len: Option<usize>) -> bool {
        let mut expected = self.log.clone();
        let (mut whole, mut torn) = (BTreeSet::new(), BTreeSet::new());
        for (number, bytes) in self.on_their_way() {
            let bounds = number * SECTOR..(number + 1) * SECTOR;
            let found = &log[bounds.clone()];
            expected[bounds].copy_from_slice(found);
            if found == bytes {
                whole.insert(number);
            } else if !blank(found) {
                torn.insert(number);
            }
        }
        if log != expected {
            return false;
        }
        self.crash(log, &whole, &torn, waiting_len);
        true
    }

    /// What the archive last wrote into the log, and zeros where it never wrote.
    pub fn written(&self) -> Vec<u8> {
        let mut log = vec![0; self.log.len()];
        for row in self.ledger.settled_rows() {
            put(&mut log, row.first, row);
        }
        log
    }

    /// The whole sectors in which a log differs from what was written.
    pub fn changed_in(&self, log: &[u8]) -> BTreeSet<usize> {
        let written = self.written();
        let pairs = log.chunks_exact(SECTOR).zip(written.chunks_exact(SECTOR));
        let differing = pairs
            .enumerate()
            .filter(|(_, (now, written))| now != written);
        differing.map(|(number, _)| number).collect()
    }

    /// Damage or healing: the log is this one from now on. The changed sectors are told anew.
    pub fn damage(&mut self, log: &[u8]) {
        let changed = self.changed_in(log);
        self.ledger.damage(changed);
        self.log.copy_from_slice(log);
    }
}

/// Writes a row's sectors from a place on.
fn put(part: &mut [u8], place: usize, row: &Row) {
    let room = &mut part[place * SECTOR..];
    write_in(room, row.first, row.edition, row.kind, &row.data);
}
