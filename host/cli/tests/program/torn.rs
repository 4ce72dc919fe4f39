//! Writes that are torn: the program is killed inside its writing, and of each write that was not
//! synced any sectors arrived, whole or in part. The next process answers as the second program's
//! ledger, which is told which; what a sync was answered for is there, byte for byte.

use std::io::Write;
use std::os::unix::process::ExitStatusExt;
use std::path::Path;

use crate::common::{self, *};
use boundary::MOST_WAITING;
use second::account::Account;
use second::ledger::{Origin, Prediction};
use second::message::Lent;

/// How many logs are tried, and how often each is opened by a process that may be killed.
const LOGS: usize = 40;
const LIVES: usize = 4;
const SECTORS: usize = 192;
const WAITING: usize = MOST_WAITING * SECTOR;
const REPLY: usize = 57_348;
const KILLED: Option<i32> = Some(9);

/// At which step the machine stops, and how what was not synced is torn.
struct Stop<'a> {
    library: &'a Path,
    step: usize,
    seed: usize,
}

/// A log, its ledger, and what its writers were answered for.
struct History {
    place: Place,
    account: Account,
    /// The blocks that a sync was answered for.
    synced: Vec<Vec<u8>>,
}

impl History {
    fn new() -> History {
        let lent = Lent {
            log: SECTORS * SECTOR,
            waiting: Some(WAITING),
        };
        History {
            place: Place::with_log(SECTORS),
            account: Account::new(lent),
            synced: Vec::new(),
        }
    }

    /// Serves groups of blocks, with a sync after each, until the process ends; then the ledger is told
    /// which sectors arrived. All messages are sent at once, or each when the last one is answered. Whether it was
    /// killed.
    fn live(&mut self, groups: &[Vec<Vec<u8>>], stop: Option<Stop>, at_once: bool) -> bool {
        let mut command = self.place.command(&["serve", "log"]);
        if let Some(Stop {
            library,
            step,
            seed,
        }) = stop
        {
            command.env("LD_PRELOAD", library);
            command.env("STOP_AT", step.to_string());
            command.env("STOP_SEED", seed.to_string());
        }
        let mut server = Server::start(command);
        match at_once {
            true => self.talk_at_once(&mut server, groups),
            false => self.talk(&mut server, groups).unwrap_or_default(),
        }
        drop(server.input.take());
        let status = server.child.wait().expect("it ends");
        assert!(status.success() || status.signal() == KILLED, "{status}");
        let log = self.place.file("log");
        let same = self.account.stopped(&log, Some(WAITING));
        assert!(same, "a settled sector was harmed");
        status.signal() == KILLED
    }

    /// The conversation, up to a message that is not answered.
    fn talk(&mut self, server: &mut Server, groups: &[Vec<Vec<u8>>]) -> Option<()> {
        let greeted = Origin::After(self.account.ledger.sessions().len());
        self.ask(server, Origin::Fresh, &HELLO)?;
        for group in groups {
            for block in group {
                self.ask(server, greeted, &write_message(1, block))?;
            }
            self.ask(server, greeted, &sync_message(2))?;
            self.synced.extend_from_slice(group);
        }
        Some(())
    }

    /// The same, with all messages sent before the first answer. Whatever was not answered is to the ledger as if
    /// it waited, and no sync of it was sent.
    fn talk_at_once(&mut self, server: &mut Server, groups: &[Vec<Vec<u8>>]) {
        let greeted = Origin::After(self.account.ledger.sessions().len());
        let mut messages = vec![(HELLO.to_vec(), Origin::Fresh, None)];
        for group in groups {
            let writes = group.iter().map(|block| write_message(1, block));
            messages.extend(writes.map(|write| (write, greeted, None)));
            messages.push((sync_message(2), greeted, Some(group)));
        }
        let all: Vec<_> = messages
            .iter()
            .flat_map(|(bytes, ..)| bytes)
            .copied()
            .collect();
        let _ = server.input.as_mut().expect("open").write_all(&all);
        let mut answers = true;
        for (message, origin, synced) in messages {
            answers = answers && self.answered(server, origin, &message).is_some();
            match synced {
                Some(group) if answers => self.synced.extend_from_slice(group),
                None if !answers => {
                    let _ = self.account.request(origin, &message, Some(&DATE), REPLY);
                }
                _ => {}
            }
        }
    }

    /// One message; where it is answered, it is accepted, and as by the ledger.
    fn ask(&mut self, server: &mut Server, origin: Origin, message: &[u8]) -> Option<()> {
        // Who was killed does not listen.
        let _ = server.input.as_mut().expect("open").write_all(message);
        self.answered(server, origin, message)
    }

    /// The answer to a message that was sent.
    fn answered(&mut self, server: &mut Server, origin: Origin, message: &[u8]) -> Option<()> {
        let reply = server.reply()?;
        let right = self.account.request(origin, message, Some(&DATE), REPLY);
        assert_eq!((reply, 0), (right.reply, right.number));
        Some(())
    }

    /// Another process reads these blocks, and one that was never stored. How many are not known.
    fn check(&self, blocks: &[Vec<u8>]) -> usize {
        let mut ledger = self.account.ledger.clone();
        let greeted = Origin::After(ledger.sessions().len());
        let mut predict = |origin, message: &[u8]| -> Prediction {
            ledger.request(origin, message, Some(&DATE), REPLY, self.account.lent())
        };
        predict(Origin::Fresh, &HELLO);
        let mut server = self.place.greeted(&["--read-only"]);
        let mut not_known = 0;
        for block in blocks.iter().map(|block| &block[..]).chain([&b"never"[..]]) {
            let message = read_message(1, block);
            let reply = server.ask(&message);
            let whole = reply == common::message(13, 1, block);
            let synced = self.synced.iter().any(|other| other == block);
            assert!(whole || !synced, "a synced block is lost");
            let right = predict(greeted, &message);
            assert_eq!(reply, right.reply);
            assert_eq!(whole, right.number == 0, "other bytes");
            not_known += usize::from(right.number == 12);
        }
        assert_eq!(server.end().0, 0);
        not_known
    }
}

#[test]
fn torn_by_a_process_that_dies() {
    let place = Place::new();
    let library = &place.preload("stop");
    let blocks: Vec<_> = (0..14).map(|k| block(k, 1 + 12 * k * k)).collect();
    let (mut killed, mut in_doubt) = (0, 0);
    for log in 0..LOGS {
        let mut random = block(log, 4096).into_iter().map(usize::from);
        let mut below = |limit: usize| random.next().expect("enough") % limit;
        let mut history = History::new();
        for _ in 0..LIVES {
            let mut groups = vec![Vec::new(); 3];
            for group in &mut groups {
                group.resize_with(1 + below(4), || blocks[below(blocks.len())].clone());
            }
            let (step, seed) = (below(20), below(256));
            let stop = Stop {
                library,
                step,
                seed,
            };
            killed += usize::from(history.live(&groups, Some(stop), below(2) == 0));
            in_doubt += usize::from(history.check(&blocks) > 0);
        }
        // All that is stored later is there, as if nothing had happened.
        assert!(!history.live(std::slice::from_ref(&blocks), None, below(2) == 0));
        history.check(&blocks);
    }
    println!("{killed} killed, {in_doubt} in doubt");
    assert!(killed > LOGS, "{killed} were killed");
    assert!(in_doubt > LOGS / 2, "{in_doubt} were in doubt");
}
