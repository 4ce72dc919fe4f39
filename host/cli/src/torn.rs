//! Writes that are torn: a step of writing fails, the machine stops, and of each write that was not
//! synced any sectors arrived, whole or in part. The second program's ledger is told which, and from
//! then on every answer has to be the ledger's.

use std::env;
use std::fs;
use std::path::Path;

use boundary::{sha1, Session, MOST_WAITING};
use second::account::Account;
use second::ledger::{Origin, Prediction};
use second::message::{whole, Lent};

use crate::date::Dates;
use crate::failing::{quietly, Folder};
use crate::faults::{on_failing_disk, on_good_disk, How, Lost, Random};
use crate::format::{used, Date, SECTOR};
use crate::mark::{self, Found, Mark};
use crate::reader::{self, Reader};
use crate::session::{is_write, whole_reply, Answers, REPLY, SYNC};
use crate::status::Failure;
use crate::writer::Writer;

/// How many logs are tried, unless the environment has another number in `TORN_ROUNDS`.
const ROUNDS: u64 = 400;
/// Of so many logs one has long blocks.
const LONG: u64 = 5;
/// How often a log is opened while the disk may fail.
const LIVES: usize = 4;
const DATE: Date = *b"20261116";
const WAITING: usize = MOST_WAITING * SECTOR;

fn hello() -> Vec<u8> {
    whole(4, 0, b"\0\x0202\0\0\0\0\0")
}

fn write(block: &[u8]) -> Vec<u8> {
    whole(14, 1, &[&[13, 0, 0, 0], block].concat())
}

fn read(block: &[u8]) -> Vec<u8> {
    whole(12, 2, &[&sha1(block)[..], &[13, 0, 0xff, 0xff]].concat())
}

type Answer = (u8, Vec<u8>);

/// Has a log answer a message in a greeted session, ahead or not.
fn ask(log: &mut dyn Answers, message: &[u8], ahead: bool) -> Result<Answer, Failure> {
    let mut reply = vec![0; REPLY];
    let session = Session::Greeted;
    let served = quietly(|streams| match ahead {
        true => log.serve_ahead(session, message, &mut reply, streams),
        false => log.serve(session, message, &mut reply, streams),
    })?;
    let number = served
        .outcome
        .map_or_else(|refusal| refusal.number(), |()| 0);
    Ok((number, whole_reply(&reply).to_vec()))
}

/// Opens the log and sends messages until a step fails, some of them ahead. What was answered, the ledger takes as
/// well, and so it takes the syncs that are on disk while their replies are held back. What else was held back when it
/// failed is to the ledger as if it waited: no sync of it took place. Counts how often some were on disk early.
fn live(
    path: &Path,
    messages: &[Vec<u8>],
    account: &mut Account,
    random: &mut Random,
    early: &mut u64,
) -> Result<(), Failure> {
    let writer = quietly(|streams| Writer::open(path, false, streams))?;
    let mut writer = writer.dated(Dates::Fixed(DATE));
    let greeted = Origin::After(account.ledger.sessions().len());
    account.request(Origin::Fresh, &hello(), Some(&DATE), REPLY);
    let mut agreed = |message: &[u8], answer: Answer| {
        let Prediction { number, reply, .. } =
            account.request(greeted, message, Some(&DATE), REPLY);
        assert_eq!(answer, (number, reply));
    };
    let mut held: Vec<(&Vec<u8>, Answer)> = Vec::new();
    let last = messages.len() - 1;
    let ended = messages.iter().enumerate().try_for_each(|(at, message)| {
        let ahead = at < last && random.below(4) != 0;
        let before = writer.on_disk();
        let answer = ask(&mut writer, message, ahead)?;
        assert!(ahead || !writer.is_owing());
        let synced = held.iter().rposition(|(message, _)| !is_write(message));
        let settled = match (writer.is_owing(), writer.on_disk() > before) {
            (true, false) => 0,
            (true, true) => {
                *early += 1;
                synced.expect("a sync") + 1
            }
            (false, _) => held.len() + 1,
        };
        held.push((message, answer));
        held.drain(..settled)
            .for_each(|(message, answer)| agreed(message, answer));
        Ok(())
    });
    let writes = held.into_iter().filter(|(message, _)| is_write(message));
    writes.for_each(|(message, answer)| agreed(message, answer));
    ended
}

/// The machine stopped: the ledger is told which sectors of the waiting rows arrived. All others are
/// what they were.
fn stop(path: &Path, account: &mut Account) {
    let left = fs::read(path).unwrap();
    let same = account.stopped(&left, Some(WAITING));
    assert!(same, "a settled sector was harmed");
}

/// A stop that tears both of a mark's places leaves none that is good: that is told, not guessed, until someone
/// takes the log as it is. Whether it was so.
fn adopt_torn(path: &Path) -> bool {
    let Found::Damaged = Mark::find(&mark::path_of(path)).unwrap() else {
        return false;
    };
    let refused = quietly(|streams| Reader::open(path, streams)).err();
    let told = refused.is_some_and(|failure| failure.words.contains("is damaged"));
    assert!(told, "served by a damaged mark");
    on_good_disk(|| quietly(|streams| Writer::open(path, true, streams)).unwrap());
    true
}

/// Reads every block, as a server that only reads. How many are there, and whether there is doubt.
fn check(path: &Path, blocks: &[Vec<u8>], account: &Account) -> (usize, bool) {
    let mut ledger = account.ledger.clone();
    let greeted = Origin::After(ledger.sessions().len());
    let mut predict = |origin, message: &[u8]| -> Prediction {
        ledger.request(origin, message, Some(&DATE), REPLY, account.lent())
    };
    predict(Origin::Fresh, &hello());
    let mut reader = quietly(|streams| Reader::open(path, streams)).unwrap();
    let mut numbers = Vec::new();
    for block in blocks.iter().map(|block| &block[..]).chain([&b"never"[..]]) {
        let Prediction { number, reply, .. } = predict(greeted, &read(block));
        let answer = ask(&mut reader, &read(block), false);
        assert_eq!(answer.unwrap(), (number, reply));
        numbers.push(number);
    }
    let held = numbers.iter().filter(|number| **number == 0).count();
    (held, numbers.contains(&12))
}

/// The sectors of a log, the blocks for it, how many at most are written before a sync, and how many groups of them at
/// most while it is open.
struct Trial {
    sectors: usize,
    blocks: Vec<Vec<u8>>,
    group: usize,
    groups: usize,
}

impl Trial {
    /// Blocks that are shorter and longer than a sector's payload; or such that more of them are asked ahead than may be
    /// on their way to the disk at once.
    fn new(long: bool) -> Trial {
        let (sectors, lengths, group, groups) = match long {
            false => (96, [1, 300, 389, 390, 900, 1167, 2000], 4, 4),
            true => (
                2_000,
                [57_344, 40_000, 31_000, 50_000, 389, 44_000, 28_000],
                1,
                12,
            ),
        };
        let blocks = lengths.map(|length| vec![length as u8 | 1; length]);
        Trial {
            sectors,
            blocks: blocks.to_vec(),
            group,
            groups,
        }
    }

    /// The first blocks in groups, with a sync after each.
    fn all(&self, count: usize) -> Vec<Vec<u8>> {
        let groups = self.blocks[..count].chunks(self.group);
        let grouped = groups.flat_map(|group| {
            let writes = group.iter().map(|block| write(block));
            writes.chain([SYNC.to_vec()])
        });
        grouped.collect()
    }

    /// Some groups of some blocks, with a sync after each.
    fn messages(&self, random: &mut Random) -> Vec<Vec<u8>> {
        let mut messages = Vec::new();
        for _ in 0..=random.below(self.groups) {
            for _ in 0..=random.below(self.group) {
                messages.push(write(&self.blocks[random.below(self.blocks.len())]));
            }
            messages.push(SYNC.to_vec());
        }
        messages
    }
}

/// A log that was begun before blocks had dates: what it was told then, of the first edition.
fn begin_undated(path: &Path, messages: &[Vec<u8>], account: &mut Account) {
    account.request(Origin::Fresh, &hello(), None, REPLY);
    for message in messages {
        let answer = account.request(Origin::After(0), message, None, REPLY);
        assert_eq!(answer.number, 0);
    }
    fs::write(path, account.log()).unwrap();
    let marked = Mark {
        sectors: account.log().len() / SECTOR,
        used: used(account.log()),
    };
    fs::write(mark::path_of(path), marked.text()).unwrap();
}

#[test]
fn torn_writes() {
    let rounds = env::var("TORN_ROUNDS").map_or(ROUNDS, |rounds| rounds.parse().unwrap());
    let (mut stops, mut doubts, mut adopted, mut early) = (0, 0, 0, 0);
    for seed in 0..rounds {
        let mut random = Random(seed);
        let trial = Trial::new(seed % LONG == 0);
        let blocks = &trial.blocks;
        let folder = Folder::new();
        let path = folder.log();
        let init = ["--sectors", &trial.sectors.to_string()];
        assert_eq!(on_good_disk(|| folder.run("init", &init)), 0);
        let mut account = Account::new(Lent {
            log: trial.sectors * SECTOR,
            waiting: Some(WAITING),
        });
        if random.below(2) == 0 {
            let count = random.below(blocks.len());
            begin_undated(&path, &trial.all(count), &mut account);
        }
        for _ in 0..LIVES {
            let messages = trial.messages(&mut random);
            let how = [How::Before, How::Half, How::After, How::Forgets][random.below(4)];
            let lost = Lost::Torn(random.below(usize::MAX) as u64);
            let step = random.below(14);
            let failed = on_failing_disk(step, how, lost, || {
                let _ = live(&path, &messages, &mut account, &mut random, &mut early);
            });
            stop(&path, &mut account);
            stops += u64::from(failed);
            adopted += u64::from(adopt_torn(&path));
            doubts += u64::from(check(&path, blocks, &account).1);
            if random.below(3) == 0 {
                // Another reader renews the mark first, where a crash left it behind.
                let log = on_good_disk(|| quietly(|streams| reader::read(&path, false, streams)));
                assert!(log.unwrap() == account.log());
            }
        }
        // All that is stored later is there, as if nothing had happened.
        on_good_disk(|| {
            let all = trial.all(blocks.len());
            let stored = live(&path, &all, &mut account, &mut random, &mut early);
            stored.map_err(|failure| failure.words).unwrap();
            stop(&path, &mut account);
            assert_eq!(check(&path, blocks, &account).0, blocks.len());
        });
    }
    let enough = stops > rounds && doubts > rounds / 2 && early > rounds / 20;
    assert!(enough, "{stops} stops, {doubts} doubts, {early} early");
    let seldom = adopted > 0 && adopted * 5 < stops;
    assert!(seldom, "{adopted} of {stops} stops left no good mark");
}
