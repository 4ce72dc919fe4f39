//! Histories: messages from a blank log on, and whatever else happens between them: stops, damage and
//! healing, a log that grows, stops inside a write.

use second::account::Account;
use second::ledger::{Effect, Ledger, Origin};
use second::log::MOST_WAITING;
use second::message::{whole, Lent, LEAST_REPLY};
use second::sector::SECTOR;
use second::Session;

use crate::archive::Archive;
use crate::compare::{buffer, hex, number, Asked, Compare, Parts, Trace, LONGEST_REPLY};
use crate::crash::crashed;
use crate::damage::{damaged, describe};
use crate::dates;
use crate::indexes;
use crate::messages::{hello, Pool};
use crate::random::Random;
use crate::sham_ledger;
use crate::writing;

/// The sectors from which on a log may take the longest block.
const LARGE_LOG: usize = 140;

/// A history under way.
struct History<'a> {
    archive: &'a mut dyn Archive,
    compare: &'a mut Compare,
    pool: Pool,
    account: Account,
    /// What the archive under test and the second program have; the waiting part has no sectors where
    /// none is lent.
    tested: Parts,
    second: Parts,
    /// How many of the next requests are the earlier program's, without a date.
    undated: usize,
    /// The index that most requests are lent, and that writes keep.
    index: Vec<u8>,
}

pub fn run(
    archive: &mut dyn Archive,
    compare: &mut Compare,
    random: &mut Random,
    trace: &mut Trace,
) -> Result<(), String> {
    let mut pool = Pool::new(random);
    let log = log_len(random);
    let large = log >= LARGE_LOG * SECTOR;
    if large {
        pool.add_large(random);
    }
    let lent = Lent {
        log,
        waiting: waiting_len(random, large),
    };
    trace.note(|| format!("blank: {lent:?}"));
    let blank = Parts {
        log: vec![0; log],
        waiting: vec![0; lent.waiting.unwrap_or(0)],
    };
    let mut history = History {
        archive,
        compare,
        pool,
        account: Account::new(lent),
        tested: blank.clone(),
        second: blank,
        undated: match random.below(3) {
            0 => random.between(1, 14),
            _ => 0,
        },
        index: vec![0; indexes::length(random)],
    };
    for _ in 0..random.between(10, 36) {
        match random.below(103) {
            100..=102 => history.write_file(random, trace)?,
            0..=3 => history.stop(random, trace),
            4..=5 => history.grow(random, trace),
            6..=13 => history.damage(random, trace)?,
            14..=16 => history.crash(random, trace),
            _ => {
                let (origin, message) = history.message(random);
                history.request(random, trace, origin, &message)?;
            }
        }
    }
    Ok(())
}

impl History<'_> {
    /// The next message and its session.
    fn message(&self, random: &mut Random) -> (Origin, Vec<u8>) {
        let origin = origin(random, &self.account.ledger);
        let session = self.account.ledger.session(origin);
        let message = if session == Session::Fresh && random.percent(70) {
            hello(random)
        } else if !self.account.ledger.waiting_rows().is_empty() && random.percent(8) {
            whole(16, random.byte(), &[])
        } else {
            self.pool.message(random)
        };
        (origin, message)
    }

    /// The date of the next request, none while they are the earlier program's.
    fn date(&mut self, random: &mut Random) -> Option<Vec<u8>> {
        if self.undated > 0 {
            self.undated -= 1;
            return None;
        }
        Some(dates::lent(random))
    }

    fn request(
        &mut self,
        random: &mut Random,
        trace: &mut Trace,
        origin: Origin,
        message: &[u8],
    ) -> Result<(), String> {
        let session = self.account.ledger.session(origin);
        let reply_len = reply_len(random);
        let date = self.date(random);
        let keeps = random.percent(60);
        let index = match keeps {
            true => self.index.clone(),
            false => indexes::any(random, &self.pool.names(), self.tested.log.len() / SECTOR),
        };
        trace.note(|| {
            format!(
                "{origin:?} ({session:?}), {}, {}, reply buffer {reply_len}, message of {}: {}",
                shown(&date),
                indexes::shown(&index),
                message.len(),
                hex(message)
            )
        });
        // Nothing is promised of a read by index where healing left two blocks of one score that differ.
        let promised = !self.account.ledger.clashes() || message.get(2) != Some(&12);
        let told = sham_ledger::date(self.archive.broken(), date.as_deref());
        let expected = self.account.request(origin, message, told, reply_len);
        if let (Effect::Adds, Some(row)) = (expected.effect, self.account.ledger.rows().last()) {
            let stored = (row.kind, row.data.clone(), row.score);
            self.pool.stored.push(stored);
        }
        match (&date, self.account.waiting().is_some()) {
            (Some(date), true) => {
                let asked = Asked {
                    session,
                    message,
                    date,
                    index: &index,
                    reply_len,
                };
                let lent = (&mut self.tested, &mut self.second);
                let expected = (promised || !self.archive.takes_index()).then_some(&expected);
                self.compare.request(self.archive, asked, lent, expected)?;
                if keeps && self.archive.takes_index() {
                    self.index.clone_from(&self.compare.index);
                }
            }
            (_, waits) => {
                let Parts { log, waiting } = &mut self.second;
                let lent = (&mut log[..], waits.then_some(&mut waiting[..]));
                let date = date.as_deref();
                self.compare
                    .earlier_request(session, message, date, reply_len, lent, &expected)?;
                self.tested = self.second.clone();
            }
        };
        self.against_account()
    }

    /// Compares the parts with the ledger's.
    fn against_account(&self) -> Result<(), String> {
        let log = self.account.log();
        buffer("the log against the ledger's", &self.tested.log, log)?;
        let what = "the waiting part against the ledger's";
        let waiting = self.account.waiting().unwrap_or(&[]);
        buffer(what, &self.tested.waiting, waiting)
    }

    /// A call of the writer of files between two messages.
    fn write_file(&mut self, random: &mut Random, trace: &mut Trace) -> Result<(), String> {
        if self.account.waiting().is_none() {
            return Ok(());
        }
        let (slice, sizes) = writing::slice(random);
        let date = dates::lent(random);
        trace.note(|| writing::shown(&slice, sizes, &date));
        let expected = self.account.write_file(&date, &slice, sizes.0, sizes.1);
        let Parts { log, waiting } = &mut self.tested;
        let answer = self.archive.write_file(log, waiting, &date, &slice, sizes);
        self.compare
            .call("write_file", number(&expected), answer, expected)?;
        self.second = self.tested.clone();
        self.against_account()
    }

    /// Takes the parts over as the account has them.
    fn lend_anew(&mut self) {
        let parts = Parts {
            log: self.account.log().to_vec(),
            waiting: self.account.waiting().unwrap_or(&[]).to_vec(),
        };
        self.tested = parts.clone();
        self.second = parts;
    }

    /// A stop between two requests, or the first lending of a waiting part.
    fn stop(&mut self, random: &mut Random, trace: &mut Trace) {
        let waiting = waiting_len(random, self.account.log().len() >= LARGE_LOG * SECTOR);
        trace.note(|| format!("a stop; waiting part {waiting:?}"));
        sham_ledger::before_stop(self.archive.broken(), &mut self.account.ledger);
        self.account.stop(waiting);
        self.lend_anew();
    }

    /// The log is lent on with more blank sectors, mostly whole ones.
    fn grow(&mut self, random: &mut Random, trace: &mut Trace) {
        let mut length = self.tested.log.len() + random.between(1, 8) * SECTOR;
        if random.percent(95) {
            length = length / SECTOR * SECTOR;
        }
        trace.note(|| format!("the log grows to {length} bytes"));
        self.account.grow(length);
        self.tested.log.resize(length, 0);
        self.second.log.resize(length, 0);
    }

    /// Damage, after a sync or a stop if rows wait.
    fn damage(&mut self, random: &mut Random, trace: &mut Trace) -> Result<(), String> {
        if !self.account.ledger.waiting_rows().is_empty() {
            if random.percent(80) {
                let origin = origin(random, &self.account.ledger);
                let sync = whole(16, random.byte(), &[]);
                self.request(random, trace, origin, &sync)?;
            } else {
                self.stop(random, trace);
            }
        }
        if !self.account.ledger.waiting_rows().is_empty() {
            return Ok(());
        }
        let log = damaged(random, &self.account);
        trace.note(|| format!("damage: {}", describe(self.account.log(), &log)));
        let before = self.account.ledger.changed().clone();
        self.account.damage(&log);
        sham_ledger::after_damage(self.archive.broken(), &mut self.account.ledger, before);
        self.lend_anew();
        Ok(())
    }

    /// A stop while the waiting rows, and perhaps one more, are on their way into the log.
    fn crash(&mut self, random: &mut Random, trace: &mut Trace) {
        if self.account.waiting().is_none() || random.percent(40) {
            let (origin, message) = self.message(random);
            let date = self.date(random);
            trace.note(|| {
                let date = shown(&date);
                format!("{origin:?}, {date}, never answered: {}", hex(&message))
            });
            self.account
                .begin(origin, &message, date.as_deref(), LEAST_REPLY);
        }
        let mut left = crashed(random, &self.account);
        let waiting = waiting_len(random, self.account.log().len() >= LARGE_LOG * SECTOR);
        trace.note(|| {
            format!(
                "a stop inside a write: {:?} whole, {:?} torn; waiting part {waiting:?}",
                left.whole, left.torn
            )
        });
        sham_ledger::before_crash(self.archive.broken(), &mut left);
        self.account
            .crash(&left.log, &left.whole, &left.torn, waiting);
        self.lend_anew();
    }
}

/// A date as it stands in a trace.
fn shown(date: &Option<Vec<u8>>) -> String {
    match date {
        None => "undated".to_string(),
        Some(date) => format!("date \"{}\"", date.escape_ascii()),
    }
}

/// Mostly the session that the last message left, else any earlier one or a fresh one.
fn origin(random: &mut Random, ledger: &Ledger) -> Origin {
    let messages = ledger.sessions().len();
    if messages == 0 || random.percent(4) {
        return Origin::Fresh;
    }
    let last = Origin::After(messages - 1);
    let stay = match ledger.session(last) {
        Session::Ready => 92,
        Session::Fresh => 80,
        Session::Closed => 25,
    };
    if random.percent(stay) {
        last
    } else {
        Origin::After(random.below(messages))
    }
}

/// Mostly tiny, so that it fills up; some not whole sectors.
fn log_len(random: &mut Random) -> usize {
    let sectors = match random.below(200) {
        0..=129 => random.below(13),
        130..=196 => random.between(10, 40),
        197 | 198 => random.between(41, 100),
        _ => random.between(LARGE_LOG, 300),
    };
    if random.percent(2) {
        sectors * SECTOR + random.between(1, SECTOR - 1)
    } else {
        sectors * SECTOR
    }
}

/// Mostly small, so that it fills up; now and then none, the most that is lawful, or not lawful.
pub fn waiting_len(random: &mut Random, large: bool) -> Option<usize> {
    if large && random.percent(70) {
        return Some(random.between(LARGE_LOG, MOST_WAITING) * SECTOR);
    }
    let sectors = match random.below(200) {
        0..=13 => return None,
        14 => MOST_WAITING + 1,
        15 => return Some(random.between(1, 40 * SECTOR)),
        16 => MOST_WAITING,
        17..=25 => 0,
        26..=29 => random.between(41, MOST_WAITING),
        30..=110 => random.between(1, 4),
        _ => random.between(3, 14),
    };
    Some(sectors * SECTOR)
}

fn reply_len(random: &mut Random) -> usize {
    match random.below(80) {
        0 => random.below(LEAST_REPLY),
        1 => LEAST_REPLY - 1,
        2 => random.below(20),
        3 => LONGEST_REPLY,
        4..=9 => random.between(LEAST_REPLY, LONGEST_REPLY),
        _ => LEAST_REPLY,
    }
}
