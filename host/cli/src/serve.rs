//! `serve`: framed messages from standard input, replies to standard output.

use std::path::Path;
use std::time::Duration;

use boundary::Session;

use crate::arguments::Arguments;
use crate::date::Dates;
use crate::handshake;
use crate::interrupt::{self, Held};
use crate::progress::Progress;
use crate::read_ahead::{Input, ReadAhead};
use crate::reader::Reader;
use crate::session::{may_change, whole_reply, Answers, REPLY};
use crate::status::{Failure, DONE};
use crate::streams::Streams;
use crate::words;
use crate::writer::Writer;

const INTERRUPTED: &str = "interrupted; all that was answered for is on disk";

/// What is told where a log fails that is written.
const UNSETTLED: &str = "Store again what no sync was answered for: it may not be on disk.";

/// How the log is opened.
enum Access {
    ReadOnly,
    Write {
        wait: Duration,
        adopt: bool,
        dates: Dates,
    },
}

pub fn run(arguments: &Arguments, streams: &mut Streams) -> Result<u8, Failure> {
    let access = access(arguments)?;
    if arguments.flag("--handshake") {
        // A client that is slow to begin holds up no other.
        handshake::exchange(streams)?;
    }
    let writes = matches!(access, Access::Write { .. });
    let mut log = open(arguments.path(0), access, streams)?;
    let held = writes.then(Held::ending_input).flatten();
    let mut progress = Progress::start();
    let ended = talk(&mut *log, &mut progress, streams, interrupt::came);
    streams.clear_progress();
    // A client that never syncs loses nothing that it got an answer for, where the log is well.
    let settled = ended.and_then(|ended| log.settle().map(|()| ended));
    let ended = settled.map_err(|failure| match writes {
        true => failure.and(UNSETTLED),
        false => failure,
    })?;
    if let Some(held) = held {
        held.check(INTERRUPTED)?;
    }
    ended.status()
}

fn access(arguments: &Arguments) -> Result<Access, Failure> {
    let adopt = arguments.flag("--adopt");
    let wait = arguments.number("--wait")?;
    if !arguments.flag("--read-only") {
        let wait = Duration::from_secs(wait.unwrap_or(0));
        let dates = arguments.dates()?;
        return Ok(Access::Write { wait, adopt, dates });
    }
    if adopt {
        return Err(Failure::usage(
            "--read-only writes nothing, so --adopt has no place beside it",
        ));
    }
    if arguments.value("--date").is_some() {
        return Err(Failure::usage(
            "--read-only writes nothing, so --date has no place beside it",
        ));
    }
    if wait.is_some() {
        return Err(Failure::usage(
            "--read-only takes no lock, so there is nothing to --wait for",
        ));
    }
    Ok(Access::ReadOnly)
}

fn open(path: &Path, access: Access, streams: &mut Streams) -> Result<Box<dyn Answers>, Failure> {
    Ok(match access {
        Access::ReadOnly => Box::new(Reader::open(path, streams)?),
        Access::Write { wait, adopt, dates } => {
            let log = Writer::open_within(wait, path, adopt, streams)?;
            Box::new(log.dated(dates))
        }
    })
}

/// How a conversation came to its end, the log being well.
enum End {
    Goodbye,
    /// The input was at its end.
    Input,
    /// The same, inside a message.
    Torn,
    /// The input could not be read, or a reply not be written.
    Broken(Failure),
}

impl End {
    fn status(self) -> Result<u8, Failure> {
        match self {
            End::Goodbye | End::Input => Ok(DONE),
            End::Torn => Err(Failure::new(
                1,
                "the input ended inside a message, which was not answered",
            )),
            End::Broken(failure) => Err(failure),
        }
    }
}

/// Answers requests until goodbye or the end of input. Fails where the log does.
///
/// Where writes and syncs have come behind a sync, the disk is not waited for: they are on disk together, and only
/// then the sync and all behind it are answered.
fn talk(
    log: &mut dyn Answers,
    progress: &mut Progress,
    streams: &mut Streams,
    interrupted: impl Fn() -> bool,
) -> Result<End, Failure> {
    let (mut ahead, mut talk) = (ReadAhead::new(), Conversation::new());
    while talk.session != Session::Closed {
        if !log.is_owing() && interrupted() {
            // What was read ahead is not answered.
            return Ok(End::Input);
        }
        let (message, next) = match ahead.next(streams.input) {
            Ok(Input::Message { bytes, next }) => (bytes, next),
            Ok(Input::End) => return Ok(End::Input),
            Ok(Input::Torn) => return Ok(End::Torn),
            Err(e) => {
                let failure = Failure::disk("read", Path::new("standard input"), &e);
                return Ok(End::Broken(failure));
            }
        };
        let rests = next.is_none();
        let may_owe = next.is_some_and(may_change) && !interrupted();
        talk.ask(log, message, may_owe, streams)?;
        if !log.is_owing() {
            if let Err(failure) = talk.send(streams) {
                return Ok(End::Broken(failure));
            }
        }
        if rests {
            log.rest();
        }
        progress.show(streams, || talk.so_far());
    }
    Ok(End::Goodbye)
}

struct Conversation {
    session: Session,
    reply: Vec<u8>,
    /// The replies that were not sent yet.
    held: Vec<u8>,
    requests: u64,
    appended: usize,
}

impl Conversation {
    fn new() -> Conversation {
        Conversation {
            session: Session::Fresh,
            reply: vec![0; REPLY],
            held: Vec::new(),
            requests: 0,
            appended: 0,
        }
    }

    /// Asks the log, which may owe what the reply acknowledges, and keeps the reply.
    fn ask(
        &mut self,
        log: &mut dyn Answers,
        message: &[u8],
        may_owe: bool,
        streams: &mut Streams,
    ) -> Result<(), Failure> {
        let served = match may_owe {
            true => log.serve_ahead(self.session, message, &mut self.reply, streams)?,
            false => log.serve(self.session, message, &mut self.reply, streams)?,
        };
        self.session = served.session;
        self.appended += served.appended;
        self.requests += 1;
        let silent = served.outcome.err().filter(|refusal| refusal.is_silent());
        if let Some(refusal) = silent {
            let (number, words) = (self.requests, words::refusal(refusal));
            streams.tell(&format!("message {number} was not answered: {words}"));
        } else if self.session != Session::Closed {
            self.held.extend_from_slice(whole_reply(&self.reply));
        }
        Ok(())
    }

    /// Sends the replies that were kept, each by itself.
    fn send(&mut self, streams: &mut Streams) -> Result<(), Failure> {
        let mut rest = &self.held[..];
        while !rest.is_empty() {
            let (reply, later) = rest.split_at(whole_reply(rest).len());
            streams.answer(reply)?;
            rest = later;
        }
        self.held.clear();
        Ok(())
    }

    /// How far it has come, in words.
    fn so_far(&self) -> String {
        let (requests, appended) = (self.requests, self.appended);
        format!("{requests} requests answered, {appended} sectors appended")
    }
}

#[cfg(test)]
mod tests {
    use super::*;
    use crate::failing::{quietly, Folder};
    use crate::faults::on_good_disk;
    use crate::session::Served;
    use std::cell::Cell;
    use std::io;

    /// A log that counts its requests.
    struct Counted(Writer, usize);

    impl Answers for Counted {
        fn serve(
            &mut self,
            session: Session,
            message: &[u8],
            reply: &mut [u8],
            streams: &mut Streams,
        ) -> Result<Served, Failure> {
            self.1 += 1;
            self.0.serve(session, message, reply, streams)
        }

        fn serve_ahead(
            &mut self,
            session: Session,
            message: &[u8],
            reply: &mut [u8],
            streams: &mut Streams,
        ) -> Result<Served, Failure> {
            self.1 += 1;
            self.0.serve_ahead(session, message, reply, streams)
        }

        fn is_owing(&self) -> bool {
            self.0.is_owing()
        }

        fn settle(&mut self) -> Result<(), Failure> {
            self.0.settle()
        }
    }

    /// Whenever a signal comes, what was asked of the log is answered, also what was held back, and nothing else.
    #[test]
    fn interrupted_while_replies_are_held_back() {
        let write = [0, 7, 14, 1, 13, 0, 0, 0, b'x'];
        let pairs = [&write[..], &[0, 2, 16, 2]].concat().repeat(5);
        let sent = [&[0, 11, 4, 0, 0, 2, b'0', b'2', 0, 0, 0, 0, 0], &pairs[..]].concat();
        let mut counts = Vec::new();
        for looks in 0..=22 {
            let folder = Folder::with(0);
            let (answered, asked) = on_good_disk(|| {
                let writer = quietly(|streams| Writer::open(&folder.log(), false, streams));
                let mut log = Counted(writer.map_err(|failure| failure.words).unwrap(), 0);
                let looked = Cell::new(0);
                let interrupted = || looked.replace(looked.get() + 1) >= looks;
                let mut out = Vec::new();
                let mut streams = Streams {
                    input: &mut &sent[..],
                    out: &mut out,
                    err: &mut io::sink(),
                    out_terminal: false,
                    err_terminal: false,
                    progress: false,
                };
                let ended = talk(&mut log, &mut Progress::start(), &mut streams, interrupted);
                assert!(matches!(ended, Ok(End::Input)) && !log.is_owing());
                let mut replies = 0;
                let mut rest = &out[..];
                while !rest.is_empty() {
                    rest = &rest[whole_reply(rest).len()..];
                    replies += 1;
                }
                (replies, log.1)
            });
            assert_eq!(answered, asked, "{looks} looks");
            counts.push(asked);
        }
        counts.dedup();
        assert!(
            counts[0] == 0 && counts.ends_with(&[11]) && counts.len() > 5,
            "{counts:?}"
        );
    }
}
