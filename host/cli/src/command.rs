//! The commands, and the choice of one by its first word.

use std::ffi::OsString;

use crate::arguments::{Arguments, Syntax};
use crate::format::MOST_SECTORS;
use crate::status::{self, Failure, DONE, USAGE};
use crate::streams::Streams;
use crate::{
    card, copy, demo, diff, doubt, get, help, index, init, list, put, put_file, read, report,
    restore, save, search, serve, walk,
};

pub struct Command {
    pub name: &'static str,
    /// The words that it takes.
    pub usage: &'static str,
    /// What it does, in a line.
    pub summary: &'static str,
    pub details: &'static str,
    pub syntax: Syntax,
    run: fn(&Arguments, &mut Streams) -> Result<u8, Failure>,
}

const fn syntax(
    flags: &'static [&'static str],
    values: &'static [&'static str],
    words: &'static [&'static str],
    most: usize,
) -> Syntax {
    Syntax {
        flags,
        values,
        words,
        most,
    }
}

pub const COMMANDS: [Command; 18] = [
    Command {
        name: "init",
        usage: "LOG --sectors N",
        summary: "make a new log of N blank sectors",
        details: help::INIT,
        syntax: syntax(&[], &["--sectors"], &["LOG"], 1),
        run: init::run,
    },
    Command {
        name: "put",
        usage: "LOG [FILE...] [--type T] [--date YYYYMMDD] [--adopt]",
        summary: "store each file as a block, print its score",
        details: help::PUT,
        syntax: syntax(&["--adopt"], &["--type", "--date"], &["LOG"], usize::MAX),
        run: put::run,
    },
    Command {
        name: "get",
        usage: "LOG SCORE [--type T] [--count N] [--adopt]",
        summary: "write a block's bytes to standard output",
        details: help::GET,
        syntax: syntax(&["--adopt"], &["--type", "--count"], &["LOG", "SCORE"], 2),
        run: get::run,
    },
    Command {
        name: "serve",
        usage: "LOG [--read-only | [--wait SECONDS] [--date YYYYMMDD] [--adopt]] [--handshake]",
        summary: "answer Venti messages from standard input",
        details: help::SERVE,
        syntax: syntax(
            &["--adopt", "--read-only", "--handshake"],
            &["--wait", "--date"],
            &["LOG"],
            1,
        ),
        run: serve::run,
    },
    Command {
        name: "doubt",
        usage: "LOG",
        summary: "let what a log has lost at its end be \"not known\"",
        details: help::DOUBT,
        syntax: syntax(&[], &[], &["LOG"], 1),
        run: doubt::run,
    },
    Command {
        name: "index",
        usage: "LOG [--adopt]",
        summary: "make the index beside a log anew",
        details: help::INDEX,
        syntax: syntax(&["--adopt"], &[], &["LOG"], 1),
        run: index::run,
    },
    Command {
        name: "report",
        usage: "LOG [--json | --map] [--svg FILE] [--width N] [--adopt]",
        summary: "say what a log holds and whether it is sound",
        details: help::REPORT,
        syntax: syntax(
            &["--json", "--map", "--adopt"],
            &["--svg", "--width"],
            &["LOG"],
            1,
        ),
        run: report::run,
    },
    Command {
        name: "list",
        usage: "LOG [--json] [--adopt]",
        summary: "list the sound blocks and the doubtful sectors",
        details: help::LIST,
        syntax: syntax(&["--json", "--adopt"], &[], &["LOG"], 1),
        run: list::run,
    },
    Command {
        name: "read",
        usage: "LOG ENTRY [--adopt]",
        summary: "write a file's bytes, found through its hash tree",
        details: help::READ,
        syntax: syntax(&["--adopt"], &[], &["LOG", "ENTRY"], 2),
        run: read::run,
    },
    Command {
        name: "walk",
        usage: "LOG SCORE [--allowance N] [--adopt]",
        summary: "visit every block below a root",
        details: help::WALK,
        syntax: syntax(&["--adopt"], &["--allowance"], &["LOG", "SCORE"], 2),
        run: walk::run,
    },
    Command {
        name: "copy",
        usage: "LOG ROOT LOG2 [--allowance N] [--date YYYYMMDD] [--adopt], \
                or --all LOG LOG2 [--date YYYYMMDD] [--adopt]",
        summary: "copy what a root reaches, or every sound block, to another log",
        details: help::COPY,
        syntax: syntax(
            &["--all", "--adopt"],
            &["--allowance", "--date"],
            &["LOG", "LOG2"],
            3,
        ),
        run: copy::run,
    },
    Command {
        name: "put-file",
        usage: "LOG FILE [--date YYYYMMDD] [--adopt]",
        summary: "store a file of any size, print its entry",
        details: help::PUT_FILE,
        syntax: syntax(&["--adopt"], &["--date"], &["LOG", "FILE"], 2),
        run: put_file::run,
    },
    Command {
        name: "save",
        usage: "LOG FILE... [--date YYYYMMDD] [--adopt]",
        summary: "store files under a root, print its score",
        details: help::SAVE,
        syntax: syntax(&["--adopt"], &["--date"], &["LOG", "FILE"], usize::MAX),
        run: save::run,
    },
    Command {
        name: "restore",
        usage: "LOG ROOT DIR [--limit N] [--overwrite] [--adopt]",
        summary: "write the files of a saved root to a folder",
        details: help::RESTORE,
        syntax: syntax(
            &["--overwrite", "--adopt"],
            &["--limit"],
            &["LOG", "ROOT", "DIR"],
            3,
        ),
        run: restore::run,
    },
    Command {
        name: "diff",
        usage: "LOG ROOT1 ROOT2 [--json] [--adopt]",
        summary: "name the files that changed between two saved roots",
        details: help::DIFF,
        syntax: syntax(&["--json", "--adopt"], &[], &["LOG", "ROOT1", "ROOT2"], 3),
        run: diff::run,
    },
    Command {
        name: "search",
        usage: "LOG ROOT 'QUERY' [--json] [--html FILE] [--adopt]",
        summary: "ask a query of every card of a saved root",
        details: help::SEARCH,
        syntax: syntax(
            &["--json", "--adopt"],
            &["--html"],
            &["LOG", "ROOT", "QUERY"],
            3,
        ),
        run: search::run,
    },
    Command {
        name: "card",
        usage: "FILE",
        summary: "say whether a file is a card, and what is wrong where",
        details: help::CARD,
        syntax: syntax(&[], &[], &["FILE"], 1),
        run: card::run,
    },
    Command {
        name: "demo",
        usage: "[--date YYYYMMDD]",
        summary: "show it all in a temporary folder",
        details: help::DEMO,
        syntax: syntax(&[], &["--date"], &[], 0),
        run: |arguments, streams| demo::run(run, arguments, streams),
    },
];

/// Runs the command that the words give, tells what fails, and gives the exit status.
pub fn run(words: &[OsString], streams: &mut Streams) -> u8 {
    match choose(words, streams) {
        Ok(status) => status,
        Err(failure) => end(failure, streams),
    }
}

/// Tells what failed, and gives its status.
pub fn end(failure: Failure, streams: &mut Streams) -> u8 {
    if !failure.words.is_empty() {
        streams.tell(&failure.words);
    }
    failure.status
}

fn choose(words: &[OsString], streams: &mut Streams) -> Result<u8, Failure> {
    let Some((first, rest)) = words.split_first() else {
        streams.tell("no command given");
        streams.tell_plain(&overview());
        return Ok(USAGE);
    };
    match (first.to_str(), rest) {
        (Some("--help" | "-h" | "help"), []) => print(&overview(), streams),
        (Some("help"), [name]) => print(&help_of(find(name)?), streams),
        (Some("--version" | "-V"), []) => print(
            concat!("skywimple ", env!("CARGO_PKG_VERSION"), "\n"),
            streams,
        ),
        (Some("--help" | "-h" | "help" | "--version" | "-V"), [.., extra]) => {
            let words = format!("one word too many: {}", extra.display());
            Err(Failure::usage(words))
        }
        _ => start(find(first)?, rest, streams),
    }
}

fn find(name: &OsString) -> Result<&'static Command, Failure> {
    let found = COMMANDS.iter().find(|command| *name == command.name);
    found.ok_or_else(|| {
        let words = format!(
            "no such command: {}. `skywimple --help` lists them.",
            name.display()
        );
        Failure::usage(words)
    })
}

fn start(command: &Command, words: &[OsString], streams: &mut Streams) -> Result<u8, Failure> {
    let started = Arguments::parse(&command.syntax, words).and_then(|arguments| {
        if arguments.help {
            return print(&help_of(command), streams);
        }
        (command.run)(&arguments, streams)
    });
    started.map_err(|mut failure| {
        if failure.status == USAGE {
            let Command { name, usage, .. } = command;
            failure.words +=
                &format!(". Usage: skywimple {name} {usage} (more: skywimple {name} --help)");
        }
        failure
    })
}

fn print(text: &str, streams: &mut Streams) -> Result<u8, Failure> {
    streams.answer(text.as_bytes())?;
    Ok(DONE)
}

/// All commands and statuses.
fn overview() -> String {
    let mut text = String::from(
        "skywimple: an archive that says \"not known\" when it does not know.\n\
         Blocks are stored in one append-only log and named by their SHA-1 score.\n\nCommands:\n",
    );
    for command in &COMMANDS {
        text += &format!("  {:8} {}\n", command.name, command.summary);
    }
    text += "\n`skywimple COMMAND --help` says more; `skywimple --version` prints the version.\n";
    text += "Words after `--` are never options.\n\nExit statuses:\n";
    for (status, meaning) in &status::TABLE {
        text += &format!("  {status:8} {meaning}\n");
    }
    text
}

/// One command.
fn help_of(command: &Command) -> String {
    let Command {
        name,
        usage,
        summary,
        details,
        ..
    } = command;
    let usage = format!("{name} {usage}");
    let usage = usage.trim_end();
    let details = details.replace("{limit}", &MOST_SECTORS.to_string());
    format!("skywimple {usage}\n\n{name}: {summary}.\n\n{details}\n`skywimple --help` lists all exit statuses.\n")
}
