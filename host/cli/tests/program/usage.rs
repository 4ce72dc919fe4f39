//! Words that make no command, help, and streams that fail. No input brings the program down.

use std::ffi::{OsStr, OsString};
use std::fs::{self, OpenOptions};
use std::os::unix::ffi::OsStrExt;
use std::os::unix::fs::PermissionsExt;
use std::process::{Command, Stdio};

use crate::common::*;

const COMMANDS: [&str; 17] = [
    "init", "put", "get", "serve", "doubt", "index", "report", "list", "read", "walk", "put-file",
    "save", "restore", "diff", "search", "card", "demo",
];

#[test]
fn help_and_version() {
    let place = Place::new();
    let overview = place.run(&["--help"]).with(0);
    assert_eq!(place.run(&["help"]).with(0).out, overview.out);
    let overview = overview.text();
    for (status, words) in [
        ("32", "notknown"),
        ("1 ", "diff: files differ"),
        ("33", "search, restore, diff"),
        ("65", "mark"),
        ("69", "could not be built"),
        ("75", "another writer"),
        ("76", "opening line"),
        ("128 + n", "130: Ctrl-C"),
    ] {
        let line = overview
            .lines()
            .find(|line| line.trim().starts_with(status));
        assert!(line.is_some_and(|line| line.contains(words)), "{overview}");
    }
    for command in COMMANDS {
        assert!(overview.contains(&format!("\n  {command} ")), "{command}");
        let help = place.run(&[command, "--help"]).with(0);
        assert!(help.text().starts_with(&format!("skywimple {command}")));
        assert_eq!(place.run(&["help", command]).with(0).out, help.out);
    }
    for command in ["init", "doubt"] {
        let help = place.run(&["help", command]).text().replace('\n', " ");
        for words in ["Copy the mark first, then the log.", "keep the newer mark"] {
            assert!(help.contains(words), "{help}");
        }
    }
    let version = place.run(&["--version"]).with(0).text();
    assert_eq!(version, concat!("skywimple ", env!("CARGO_PKG_VERSION")));
    assert!(only(&place.folder, &[]));
}

#[test]
fn words_that_make_no_command() {
    let place = Place::with_log(2);
    let never = score(b"never");
    let bad: [(&[&str], &str); 19] = [
        (&[], "no command given\nskywimple: an archive"),
        (&[""], "no such command: . `skywimple --help`"),
        (&["fetch"], "no such command: fetch. `skywimple --help`"),
        (&["--put"], "no such command: --put. `skywimple --help`"),
        (&["help", "fetch"], "no such command: fetch."),
        (&["help", "get", "extra"], "one word too many: extra"),
        (&["--help", "extra"], "one word too many: extra"),
        (&["--version", "extra"], "one word too many: extra"),
        (
            &["init"],
            "LOG is missing. Usage: skywimple init LOG --sectors N",
        ),
        (
            &["init", "a", "b", "--sectors", "1"],
            "one word too many: b. Usage:",
        ),
        (&["put"], "LOG is missing. Usage: skywimple put LOG"),
        (
            &["get", "log"],
            "SCORE is missing. Usage: skywimple get LOG SCORE",
        ),
        (
            &["get", "log", "abc"],
            "a score is 40 hex digits, not abc. Usage:",
        ),
        (
            &["get", "log", &never, "--type"],
            "--type takes a value. Usage:",
        ),
        (
            &["get", "log", &never, "--counts", "1"],
            "no such option here: --counts",
        ),
        (
            &["get", "log", &never, "more"],
            "one word too many: more. Usage:",
        ),
        (
            &["walk", "log", &never, "--allowance", "many"],
            "a decimal number, not many",
        ),
        (
            &["serve", "log", "--type", "data"],
            "no such option here: --type",
        ),
        (
            &["demo", "now"],
            "one word too many: now. Usage: skywimple demo",
        ),
    ];
    for (words, told) in bad {
        place.run(words).fails(64, told);
    }
}

/// The words that are missing are named.
#[test]
fn missing_words() {
    let place = Place::with_log(2);
    let cases: [(&[&str], &str); 13] = [
        (&["put-file", "log"], "FILE is missing"),
        (&["save"], "LOG and FILE are missing"),
        (&["restore", "log"], "ROOT and DIR are missing"),
        (&["search", "log", "root"], "QUERY is missing"),
        (&["diff", "log"], "ROOT1 and ROOT2 are missing"),
        (&["init"], "LOG is missing"),
        (&["init", "new"], "--sectors is missing"),
        (&["get"], "LOG and SCORE are missing"),
        (&["get", "log"], "SCORE is missing"),
        (&["read", "log"], "ENTRY is missing"),
        (&["walk", "log"], "SCORE is missing"),
        (&["serve"], "LOG is missing"),
        (&["list", "--json"], "LOG is missing"),
    ];
    for (words, told) in cases {
        place.run(words).fails(64, told);
    }
}

/// Runs it by a shell that closes streams.
fn with_closed(place: &Place, words: &str, closed: &str) -> Answer {
    let mut shell = Command::new("sh");
    let line = format!("exec \"$0\" {words} {closed}");
    shell.args(["-c", &line, PROGRAM]);
    shell.current_dir(&place.folder).stdin(Stdio::null());
    let output = shell.output().unwrap();
    Answer {
        status: output.status.code().unwrap(),
        out: output.stdout,
        err: String::from_utf8(output.stderr).unwrap(),
    }
}

/// No input and closed input are two things, and so are an answer that nobody reads and one that
/// nobody can get.
#[test]
fn closed_streams() {
    let place = Place::with_log(8);
    let card = place.put(b"card");
    for words in ["put log", "put log -", "serve log", "serve log --handshake"] {
        let answer = with_closed(&place, words, "<&-").with(74);
        assert!(
            answer.err.contains("cannot read standard input"),
            "{answer:?}"
        );
        let answer = with_closed(&place, words, "<&- >&-").with(74);
        assert!(answer.err.starts_with("skywimple: cannot "), "{answer:?}");
    }
    let get = format!("get log {card}");
    for words in [
        "put log",
        &get,
        "report log",
        "list log",
        "--help",
        "--version",
    ] {
        let answer = with_closed(&place, words, ">&-").with(74);
        let told = "cannot write standard output: Bad file descriptor";
        assert!(answer.err.contains(told), "{answer:?}");
    }
    // Who has nothing to read or to say is not concerned; and /dev/null is no closed stream.
    with_closed(&place, "init new --sectors 1", "<&- >&- 2>&-").with(0);
    assert_eq!(with_closed(&place, &get, "<&-").with(0).out, b"card");
    assert_eq!(
        with_closed(&place, "put log", "</dev/null").with(0).text(),
        score(b"")
    );
    with_closed(&place, &get, ">/dev/null").with(0);
    with_closed(&place, &get, "<>/dev/null 1<>/dev/null").with(0);
}

/// A name cannot move the cursor, nor look like another line.
#[test]
fn names_with_control_characters() {
    let place = Place::new();
    let name = "odd\x1b[2J\nskywimple: all is well\r\u{202e}";
    let shown = "odd\\u{1b}[2J\\nskywimple: all is well\\r\\u{202e}";
    let words: [&[&str]; 4] = [
        &["get", name, &score(b"")],
        &["report", name],
        &[name],
        &["put", "log", name, name],
    ];
    for words in words {
        let answer = place.run(words);
        assert!(answer.status >= 64, "{answer:?}");
        assert_eq!(answer.err.matches('\n').count(), 1, "{answer:?}");
        let visible = |sign: char| sign == '\n' || !sign.is_control() && sign != '\u{202e}';
        assert!(answer.err.chars().all(visible), "{answer:?}");
    }
    place.run(&["report", name]).fails(66, shown);
    place.run(&["init", "log", "--sectors", "2"]).with(0);
    place.run(&["put", "log", name]).fails(66, shown);
}

/// Odd words in every place of every command.
#[test]
fn odd_words_never_bring_it_down() {
    let place = Place::with_log(2);
    let odd = [
        OsStr::new(""),
        OsStr::new("-"),
        OsStr::new("--"),
        OsStr::new("--="),
        OsStr::new("--type="),
        OsStr::new("ä\u{202e}\n"),
        OsStr::new("/dev/null"),
        OsStr::new("."),
        OsStr::from_bytes(b"\xff\xfe"),
        OsStr::from_bytes(b"--\xff"),
        OsStr::from_bytes(b"--type=\xff"),
    ];
    for command in &COMMANDS[..14] {
        for first in odd.iter().chain([&OsStr::new("log")]) {
            for second in odd {
                let words = [OsStr::new(command), first, second];
                let words: Vec<OsString> = words.iter().map(OsString::from).collect();
                let answer = place.run(&words);
                if answer.status == 0 {
                    assert_eq!(answer.err, "", "{words:?}");
                    continue;
                }
                let known = [3, 9, 11, 14, 16, 25, 32, 64, 65, 66, 73, 74];
                assert!(known.contains(&answer.status), "{words:?}: {answer:?}");
                assert!(answer.out.is_empty(), "{words:?}: {answer:?}");
                let told = answer.err.starts_with("skywimple: ") && answer.err.ends_with('\n');
                assert!(told, "{words:?}: {answer:?}");
                assert_eq!(answer.err.lines().count(), 1, "{words:?}: {answer:?}");
            }
        }
    }
}

#[test]
fn a_reader_that_goes_away() {
    let place = Place::with_log(200);
    let long = block(1, 57_344);
    let score = place.put(&long);
    for words in [&["get", "log", &score][..], &["--help"], &["demo"]] {
        let (reader, writer) = std::io::pipe().unwrap();
        drop(reader);
        let output = place.command(words).stdout(writer).output().unwrap();
        assert_eq!(output.status.code(), Some(74), "{words:?}: {output:?}");
        assert!(output.stderr.is_empty(), "that is no news: {output:?}");
    }
}

#[test]
fn output_that_fails() {
    let place = Place::with_log(8);
    let score = place.put(b"card");
    place.write("other", "another card");
    for words in [
        &["get", "log", &score][..],
        &["put", "log", "other"],
        &["report", "log"],
    ] {
        let full = OpenOptions::new().write(true).open("/dev/full").unwrap();
        let unwritable = fs::File::open("/dev/null").unwrap();
        for out in [full, unwritable] {
            let output = place.command(words).stdout(out).output().unwrap();
            assert_eq!(output.status.code(), Some(74), "{words:?}");
            let told = String::from_utf8(output.stderr).unwrap();
            assert!(told.contains("cannot write standard output"), "{told}");
        }
    }
    let output = place
        .command(&["get", "log", "odd"])
        .stderr(Stdio::from(
            OpenOptions::new().write(true).open("/dev/full").unwrap(),
        ))
        .output()
        .unwrap();
    assert_eq!(
        output.status.code(),
        Some(64),
        "though nobody could be told"
    );
}

/// Files and folders that may not be read or written. The superuser may always, so that one becomes
/// another.
#[test]
fn missing_permissions() {
    let mut place = Place::with_log(8);
    place.plain_user();
    let card = place.put(b"card");
    let allow = |name: &str, mode| {
        fs::set_permissions(place.path(name), fs::Permissions::from_mode(mode)).unwrap();
    };
    let put = || place.feed(&["put", "log"], b"other");
    allow("log", 0o400);
    place.reads(&card, b"card");
    put().fails(74, "cannot open log");
    place.run(&["doubt", "log"]).fails(74, "cannot open log");
    allow("log", 0o000);
    place.get(&card).fails(74, "cannot open log");
    allow("log", 0o600);
    allow("log.mark", 0o000);
    place.get(&card).fails(74, "cannot read the mark");
    put().fails(74, "cannot read the mark");
    allow("log.mark", 0o400);
    allow(".", 0o500);
    let before = place.file("log");
    put().fails(74, "cannot write the mark");
    assert_eq!(place.file("log"), before, "the mark is looked after first");
    place
        .run(&["init", "new", "--sectors", "1"])
        .fails(74, "cannot create new");
    // It is renewed in its own file, or by a new one.
    allow("log.mark", 0o600);
    put().with(0);
    assert_eq!(place.file("log.mark"), mark(8, 2).as_bytes());
    // Read-only altogether, and ahead of its mark: readers go on.
    place.write("log.mark", mark(8, 1));
    allow("log.mark", 0o400);
    allow("log", 0o400);
    place.reads(&score(b"other"), b"other");
    assert_eq!(place.file("log.mark"), mark(8, 1).as_bytes());
    let mut server = place.greeted(&["--read-only"]);
    assert_eq!(
        server.ask(&read_message(1, b"other")),
        message(13, 1, b"other")
    );
    assert_eq!(server.ask(&write_message(2, b"new")), error_reply(2, 14));
    assert_eq!(server.ask(&write_message(3, b"other")), error_reply(3, 14));
    assert_eq!(server.end(), (0, String::new()));
    allow(".", 0o700);
    allow("log", 0o600);
    put().with(0);
    assert_eq!(place.file("log.mark"), mark(8, 2).as_bytes());
    let mode = fs::metadata(place.path("log.mark")).unwrap().permissions();
    assert_eq!(mode.mode() & 0o777, 0o400);
}

/// A sync that cannot be marked ends the server: no reply, an I/O status, nothing left over.
#[test]
fn no_reply_for_what_is_not_on_disk() {
    let place = Place::with_log(8);
    let mut server = place.serve();
    assert_eq!(server.ask(&HELLO), HELLO_REPLY);
    fs::remove_file(place.path("log.mark")).unwrap();
    fs::create_dir(place.path("log.mark")).unwrap();
    let reply = server.ask(&write_message(1, b"card"));
    assert_eq!(reply, write_reply(1, b"card"));
    server.send(&sync_message(2));
    assert_eq!(server.reply(), None);
    let (status, told) = server.end();
    assert_eq!(status, 74);
    assert!(told.contains("cannot write the mark"), "{told}");
    assert!(only(&place.folder, &["log", "log.mark"]));
    place.feed(&["put", "log"], b"other").fails(74, "the mark");
}
