//! `put-file`, `save` and `restore`: files of any size there and back, and what is lost of them.

use std::ffi::OsStr;
use std::fs;
use std::io::Write;
use std::os::unix::ffi::OsStrExt;
use std::os::unix::fs::symlink;
use std::process::Command;
use std::thread;
use std::time::Duration;

use crate::common::saved::*;
use crate::common::*;

/// Files of all sizes, with zeros in all places.
fn contents() -> Vec<Vec<u8>> {
    let mut files: Vec<_> = [
        0,
        1,
        402,
        404,
        LEAF - 1,
        LEAF,
        LEAF + 1,
        2 * LEAF,
        3_000_000,
    ]
    .into_iter()
    .map(|size| block(size, size))
    .collect();
    files.extend([1, 1000, LEAF, LEAF + 1, 2_000_000].map(|size| vec![0; size]));
    let mut tail = block(5, 3 * LEAF);
    tail[LEAF + 100..].fill(0);
    files.push(tail);
    let mut hole = block(6, 4 * LEAF + 77);
    hole[500..3 * LEAF].fill(0);
    files.push(hole);
    files
}

#[test]
fn a_file_of_any_size() {
    let place = Place::with_log(20_000);
    for bytes in contents() {
        place.write("file", &bytes);
        let before = place.file("log");
        let answer = place.run(&["put-file", "log", "file"]).with(0);
        let entry = answer.text();
        assert_eq!(entry, entry_of(&bytes), "{}", bytes.len());
        assert_eq!(answer.err, "");
        if bytes.iter().all(|byte| *byte == 0) {
            assert!(place.file("log") == before, "zeros take no room");
        }
        let read = place.run(&["read", "log", &entry]).with(0);
        assert!(read.out == bytes, "{}", bytes.len());
        let again = place.feed(&["put-file", "log", "-"], &bytes).with(0);
        assert_eq!(again.text(), entry);
    }
    let used = place.run(&["report", "log"]).with(0).text();
    for bytes in contents() {
        place.write("file", &bytes);
        place.run(&["put-file", "log", "file"]).with(0);
    }
    assert_eq!(
        place.run(&["report", "log"]).with(0).text(),
        used,
        "nothing is stored twice"
    );
}

#[test]
fn files_that_cannot_be_read() {
    let place = Place::with_log(8);
    let before = place.file("log");
    let put = |file: &str| place.run(&["put-file", "log", file]);
    put("none").fails(66, "cannot open none");
    put(".").fails(74, "cannot read .");
    place
        .run(&["put-file", "none", "log"])
        .fails(66, "no such log");
    assert_eq!(place.file("log"), before);
}

/// Names as no one should give them.
const NAMES: [&str; 6] = [
    "plain.card",
    "two words",
    "\"quoted\" <b>&amp;'",
    "back\\slash",
    "-option",
    "\u{e4}\u{6f22}\u{1f600}\t\u{1b}[2J\u{202e}",
];

#[test]
fn there_and_back() {
    let place = Place::with_log(20_000);
    let files = contents();
    let mut names: Vec<String> = NAMES.map(String::from).to_vec();
    names.extend((0..files.len() - names.len()).map(|at| format!("file {at}")));
    for (name, bytes) in names.iter().zip(&files) {
        place.write(name, bytes);
    }
    let mut words = vec!["save", "log", "--"];
    words.extend(names.iter().map(|name| &name[..]));
    let answer = place.run(&words).with(0);
    let root = answer.text();
    assert_eq!((root.len(), answer.err.as_str()), (40, ""));
    let log = place.file("log");
    assert_eq!(place.run(&words).with(0).text(), root);
    assert!(place.file("log") == log, "nothing is stored twice");

    let answer = place.run(&["restore", "log", &root, "back"]).with(0);
    let told = format!("{0} of {0} files restored to back", files.len());
    assert_eq!((answer.text(), answer.err.as_str()), (told, ""));
    for (name, bytes) in names.iter().zip(&files) {
        assert!(place.file(&format!("back/{name}")) == *bytes, "{name}");
    }
    let mut sorted: Vec<_> = names.iter().map(|name| &name[..]).collect();
    sorted.sort();
    assert!(only(&place.path("back"), &sorted), "and nothing else");
    let walk = place.run(&["walk", "log", &root]).with(0).text();
    assert!(walk.ends_with("\ndone"), "{walk}");
}

/// The layout that `save --help` describes, block by block.
#[test]
fn what_a_root_is() {
    let place = Place::with_log(40);
    place.write("b.card", "K=absent\n");
    place.write("a.card", "");
    let root = place.run(&["save", "log", "b.card", "./a.card"]).with(0);
    let get = |score: &str, kind: &str| {
        let words = ["get", "log", score, "--type", kind];
        place.run(&words).with(0).out
    };
    let block = get(&root.text(), "root");
    let mut expected = vec![0; 300];
    expected[1] = 2;
    expected[130..144].copy_from_slice(b"skywimple save");
    expected[258..278].copy_from_slice(&block[258..278]);
    expected[278..280].copy_from_slice(&[0xe0, 0]);
    assert_eq!(block, expected);
    let directory = get(&hex(&block[258..278]), "dir");
    let head = "00000000e000dfe8030000000000000000000078";
    assert_eq!(hex(&directory[..20]), head);
    let listed = get(&hex(&directory[20..]), "dir");
    let names = entry_of(b"b.card\na.card\n");
    let entries = [names, entry_of(b"K=absent\n"), entry_of(b"")].concat();
    assert_eq!(hex(&listed), entries);
    assert_eq!(get(&entries[40..80], "data"), b"b.card\na.card\n");
}

/// More entries than one block of the directory has.
#[test]
fn a_directory_of_two_blocks() {
    let place = Place::with_log(4096);
    let names: Vec<_> = (0..1500).map(|at| format!("{at:05}.card")).collect();
    for (at, name) in names.iter().enumerate() {
        let value = ["present", "absent"][at % 2];
        place.write(name, format!("A{at}={value}\n"));
    }
    let mut words = vec!["save", "log"];
    words.extend(names.iter().map(|name| &name[..]));
    let root = place.run(&words).with(0).text();
    let found = place.run(&["search", "log", &root, "A0 or A1499"]).with(0);
    let counts = "1500 cards: 1 yes, 1499 not known, 0 unreadable, 0 no";
    assert!(found.text().ends_with(counts), "{}", found.text());

    // The first block of the directory is lost, with the names' entry and those of 1,432 cards.
    let log = place.file("log");
    let lost = (0..log.len() / SECTOR)
        .find(|sector| label(&log, *sector, "type=02"))
        .unwrap();
    place.damage(|log| log[lost * SECTOR + 300] ^= 1);
    let found = place.run(&["search", "log", &root, "A0 or A1498"]).with(33);
    let counts = "1500 cards: 1 yes, 67 not known, 1432 unreadable, 0 no";
    assert!(found.text().ends_with(counts), "{}", found.text());
    let told = "names are lost: refusal 12: a part of the log is damaged, first doubtful sector";
    assert!(found.err.contains(told), "{}", found.err);
    let row = "\nyes         (name lost: file 1499)\n";
    assert!(found.text().contains(row), "{}", found.text());
    let lost = format!("1500 {told} {lost}, byte {} of the log. ", lost * SECTOR);
    assert!(found.text().contains(&lost), "{}", found.text());
    let words = ["search", "log", &root, "A0 or A1498", "--html", "-"];
    let page = place.run(&words).with(33).text();
    let warning = format!("<p class=\"warning\">{lost}");
    assert!(page.contains(&warning), "{page}");
    assert!(page.contains("<td class=\"name\">(name lost: file 1499)</td>"));
    let json = place.run(&["search", "log", &root, "A1499", "--json"]);
    let last = r#"{"name":null,"place":1499,"answer":"not known","missing":["A1499"]}"#;
    assert!(json.with(33).text().contains(last));
    let answer = place.run(&["restore", "log", &root, "back"]).with(33);
    assert_eq!(answer.text(), "68 of 1500 files restored to back");
    assert_eq!(place.file("back/name-lost-1500"), place.file("01499.card"));
}

/// Whether the label of a sector has a line.
fn label(log: &[u8], sector: usize, line: &str) -> bool {
    let label = &log[sector * SECTOR..][..120];
    String::from_utf8_lossy(label)
        .lines()
        .any(|found| found == line)
}

/// The first sector of a block, by its bytes.
fn sector_of(place: &Place, block: &[u8]) -> usize {
    let (log, line) = (place.file("log"), format!("score={}", score(block)));
    let sectors = log.len() / SECTOR;
    (0..sectors)
        .find(|sector| label(&log, *sector, &line))
        .unwrap()
}

/// Three files of which the second is long, and their root.
fn three_files() -> (Place, String, Vec<u8>) {
    let place = Place::with_log(2000);
    let long = block(7, 5 * LEAF + 10);
    place.write("first", "first file");
    place.write("long", &long);
    place.write("last", "last file");
    let save = ["save", "log", "first", "long", "last"];
    let root = place.run(&save).with(0).text();
    (place, root, long)
}

/// What can be restored is, what cannot is named, and nothing is filled with zeros.
#[test]
fn damage_in_the_middle_of_a_file() {
    type Change = fn(&mut [u8]);
    let changes: [Change; 3] = [
        |sector| sector[300] ^= 1,
        |sector| sector.fill(0),
        |sector| sector.fill(0xdb),
    ];
    for change in changes {
        let (place, root, long) = three_files();
        let leaf = &long[2 * LEAF..3 * LEAF];
        let start = sector_of(&place, leaf);
        let sector = start + 5;
        place.damage(|log| change(&mut log[sector * SECTOR..(sector + 1) * SECTOR]));
        let answer = place.run(&["restore", "log", &root, "back"]).with(33);
        assert_eq!(answer.text(), "2 of 3 files restored to back");
        let (offset, lost) = (2 * LEAF, score(leaf));
        let told = [
            format!("skywimple: long is not restored: reading stopped at offset {offset}, "),
            format!("at the data block {lost}: not known (12): "),
            format!(
                "the first doubtful sector is {start}, at byte {} ",
                start * SECTOR
            ),
            format!(
                "`skywimple read LOG {}` writes what is before",
                entry_of(&long)
            ),
        ];
        for told in told {
            assert!(answer.err.contains(&told), "{told}: {answer:?}");
        }
        assert_eq!(answer.err.lines().count(), 1);
        assert!(only(&place.path("back"), &["first", "last"]));
        assert_eq!(place.file("back/first"), b"first file");
        assert_eq!(place.file("back/last"), b"last file");
        let front = place.run(&["read", "log", &entry_of(&long)]).with(12).out;
        assert!(front == long[..offset]);

        let save = ["save", "log", "first", "long", "last"];
        assert_eq!(place.run(&save).with(0).text(), root, "healed");
        place.run(&["restore", "log", &root, "whole"]).with(0);
        assert!(place.file("whole/long") == long);
    }
}

/// A pointer block, the names, the directory, its block, the root.
#[test]
fn damage_above_the_files() {
    let names = b"first\nlong\nlast\n";
    let lost = |block: &dyn Fn(&Place, &str, &[u8]) -> usize| {
        let (place, root, long) = three_files();
        let sector = block(&place, &root, &long);
        place.damage(|log| log[sector * SECTOR + 200] ^= 1);
        (place, root, long)
    };
    let restore = |place: &Place, root: &str| place.run(&["restore", "log", root, "back"]);

    let pointers = |place: &Place, _: &str, long: &[u8]| {
        let scores: Vec<_> = long.chunks(LEAF).map(boundary::sha1).collect();
        sector_of(place, &scores.concat())
    };
    let (place, root, _) = lost(&pointers);
    let answer = restore(&place, &root).with(33);
    assert!(answer
        .err
        .contains("long is not restored: reading stopped at offset 0, at the ptr1 block"));
    assert!(only(&place.path("back"), &["first", "last"]));

    let (place, root, long) = lost(&|place, _, _| sector_of(place, names));
    let answer = restore(&place, &root).with(33);
    assert_eq!(answer.text(), "3 of 3 files restored to back");
    assert!(answer.err.contains(
        "names are lost: refusal 12: a part of the log is damaged, first doubtful sector"
    ));
    assert!(only(
        &place.path("back"),
        &["name-lost-1", "name-lost-2", "name-lost-3"]
    ));
    assert!(place.file("back/name-lost-2") == long);
    // No card needs be unreadable for it.
    let entry = entry_of(b"K=absent\n");
    place.put(b"K=absent\n");
    let root = root_over(&place, "other\n", &entry);
    let sector = sector_of(&place, b"other\n");
    place.damage(|log| log[sector * SECTOR + 200] ^= 1);
    let found = place.run(&["search", "log", &root, "K"]).with(33);
    let told = "\n1 name is lost: refusal 12: a part of the log is damaged, first doubtful sector ";
    assert!(found.text().contains(told), "{found:?}");
    assert!(
        found.text().contains("no      (name lost: file 1)\n"),
        "{found:?}"
    );
    let help = place.run(&["search", "--help"]).with(0).text();
    assert!(
        help.contains("33 if any could not be read, or if names are\nlost"),
        "{help}"
    );

    let root_sector = |place: &Place, root: &str| {
        let (log, line) = (place.file("log"), format!("score={root}"));
        (0..).find(|sector| label(&log, *sector, &line)).unwrap()
    };
    // The directory of the files stands before its block, and that before the root.
    let (place, root, _) = lost(&|place, root, _| root_sector(place, root) - 2);
    let answer = restore(&place, &root).with(33);
    assert_eq!(answer.text(), "0 of 3 files restored to back");
    let told = "name-lost-2 is not restored: its entry cannot be read: not known (12)";
    assert!(answer.err.contains(told), "{answer:?}");
    assert!(only(&place.path("back"), &[]));

    for (back, kind) in [(1, "dir"), (0, "root")] {
        let (place, root, _) = lost(&|place, root, _| root_sector(place, root) - back);
        restore(&place, &root).fails(12, &format!("the {kind} block "));
        assert!(!place.path("back").exists());
    }
}

#[test]
fn nothing_is_overwritten() {
    let (place, root, _) = three_files();
    let restore = |words: &[&str]| place.run(&[&["restore", "log", &root, "back"], words].concat());
    fs::create_dir(place.path("back")).unwrap();
    place.write("back/last", "mine");
    restore(&[]).fails(73, "back/last is there already");
    assert!(only(&place.path("back"), &["last"]));
    assert_eq!(place.file("back/last"), b"mine");
    place.write("mine", "mine");
    fs::remove_file(place.path("back/last")).unwrap();
    symlink("../mine", place.path("back/last")).unwrap();
    restore(&[]).fails(73, "back/last is there already");
    restore(&["--overwrite"]).with(0);
    assert_eq!(place.file("back/last"), b"last file");
    assert_eq!(
        place.file("mine"),
        b"mine",
        "the link is replaced, not what it leads to"
    );
    assert!(only(&place.path("back"), &["first", "last", "long"]));

    for name in ["back/first", "back/last"] {
        fs::remove_file(place.path(name)).unwrap();
    }
    fs::create_dir(place.path("back/last")).unwrap();
    for words in [&[][..], &["--overwrite"]] {
        fs::remove_file(place.path("back/long")).unwrap_or_default();
        restore(words).fails(73, "back/last is a folder");
        assert!(only(&place.path("back"), &["last"]), "nothing is written");
    }
    place.write("file", "");
    let file = ["restore", "log", &root, "file"];
    place.run(&file).fails(74, "cannot make the folder file");
}

/// Not even when it is asked for.
#[test]
fn the_log_is_never_overwritten() {
    let place = Place::with_log(100);
    fs::create_dir(place.path("in")).unwrap();
    place.write("in/log", "no log");
    place.write("in/log.mark", "no mark");
    for name in ["in/log", "in/log.mark"] {
        let root = place.run(&["save", "log", name]).with(0).text();
        let before = (place.file("log"), place.file("log.mark"));
        for folder in [".", "in/.."] {
            let words = ["restore", "log", &root, folder, "--overwrite"];
            place.run(&words).fails(73, "would overwrite the log");
        }
        assert!((place.file("log"), place.file("log.mark")) == before);
    }
}

/// Before anything is written.
#[test]
fn names_that_are_refused() {
    let place = Place::with_log(40);
    for folder in ["a", "b"] {
        fs::create_dir(place.path(folder)).unwrap();
        place.write(&format!("{folder}/x.card"), "K=absent\n");
    }
    place.write("two\nlines", "");
    fs::write(place.folder.join(OsStr::from_bytes(b"\xff.card")), "").unwrap();
    let before = (place.file("log"), place.file("log.mark"));
    let save = |files: &[&OsStr]| {
        let mut words = vec![OsStr::new("save"), OsStr::new("log")];
        words.extend(files);
        place.run(&words)
    };
    let word = OsStr::new;
    let good = word("a/x.card");
    save(&[good, word("b/x.card")]).fails(64, "two files have the name x.card");
    save(&[good, good]).fails(64, "two files have the name x.card");
    save(&[good, word("two\nlines")]).fails(64, "a name has no line feed in it");
    save(&[good, OsStr::from_bytes(b"\xff.card")]).fails(64, "not UTF-8 text");
    save(&[good, word("a")]).fails(64, "a is a folder");
    save(&[good, word("..")]).fails(64, "no name of a file");
    save(&[good, word("none")]).fails(66, "cannot open none");
    assert!((place.file("log"), place.file("log.mark")) == before);
    save(&[good]).with(0);
}

/// Ctrl-C leaves the files before whole, and nothing of the one that was being written.
#[test]
fn an_interrupted_restore() {
    let place = Place::with_log(40);
    let hole = format!(
        "00000000e000e0000d0000000000{:012x}{}",
        1_u64 << 40,
        score(b"")
    );
    let root = root_over(&place, "first\nhole\n", &(entry_of(b"") + &hole));
    let mut child = place
        .command(&["restore", "log", &root, "back", "--limit", "2000000000000"])
        .spawn()
        .unwrap();
    let begun = || place.path("back/first").exists();
    while !begun() && child.try_wait().unwrap().is_none() {
        thread::sleep(Duration::from_millis(1));
    }
    let kill = Command::new("kill")
        .args(["-INT", &child.id().to_string()])
        .status();
    assert!(kill.unwrap().success());
    let output = child.wait_with_output().unwrap();
    let told = String::from_utf8(output.stderr).unwrap();
    assert_eq!(output.status.code(), Some(130), "{told}");
    assert!(
        told.contains("interrupted; the files that were restored before are whole"),
        "{told}"
    );
    assert!(output.stdout.is_empty());
    assert!(only(&place.path("back"), &["first"]));
}

/// Who is slow to send holds up no other writer.
#[test]
fn a_slow_pipe() {
    let place = Place::with_log(40);
    let made = Command::new("mkfifo").arg(place.path("pipe")).status();
    assert!(made.unwrap().success());
    place.write("plain", "plain file");
    for words in [
        &["save", "log", "plain", "pipe"][..],
        &["put-file", "log", "pipe"],
    ] {
        let child = place.command(words).spawn().unwrap();
        // It is opened when the program opens it too.
        let mut pipe = fs::OpenOptions::new();
        let mut pipe = pipe.write(true).open(place.path("pipe")).unwrap();
        thread::sleep(Duration::from_millis(300));
        place.put(words[0].as_bytes());
        pipe.write_all(b"through a pipe").unwrap();
        drop(pipe);
        let output = child.wait_with_output().unwrap();
        assert!(output.status.success(), "{output:?}");
        let answer = String::from_utf8(output.stdout).unwrap();
        let answer = answer.trim_end();
        if words[0] == "save" {
            place.run(&["restore", "log", answer, "back"]).with(0);
            assert_eq!(place.file("back/pipe"), b"through a pipe");
            assert_eq!(place.file("back/plain"), b"plain file");
        } else {
            assert_eq!(answer, entry_of(b"through a pipe"));
        }
    }
}

/// One writer at a time, and readers beside it; no log without its mark, unless it is adopted.
#[test]
fn marks_and_other_writers() {
    let (place, root, _) = three_files();
    let mut writer = place.greeted(&[]);
    for words in [&["save", "log", "first"][..], &["put-file", "log", "first"]] {
        place.run(words).fails(75, "another writer holds log");
    }
    writer.store(1, b"meanwhile");
    place.run(&["restore", "log", &root, "back"]).with(0);
    place.run(&["search", "log", &root, "A"]).with(33);
    assert_eq!(writer.end().0, 0);
    fs::remove_file(place.path("log.mark")).unwrap();
    let commands: [&[&str]; 4] = [
        &["save", "log", "first"],
        &["put-file", "log", "first"],
        &["restore", "log", &root, "again"],
        &["search", "log", &root, "A"],
    ];
    for (words, status) in commands.into_iter().zip([0, 0, 0, 33]) {
        let _ = fs::remove_file(place.path("log.mark"));
        place.run(words).fails(66, "--adopt");
        let answer = place.run(&[words, &["--adopt"]].concat()).with(status);
        assert!(answer.err.contains("adopted log as it is"), "{answer:?}");
    }
}

/// Where the room ends, what was stored stays, and the same command goes on from there.
#[test]
fn a_log_that_is_too_short() {
    let place = Place::with_log(400);
    let long = block(3, 4 * LEAF);
    place.write("long", &long);
    for words in [&["put-file", "log", "long"][..], &["save", "log", "long"]] {
        let answer = place.run(words).fails(14, "long: log full (14)");
        let stays = "What was stored before it stays; the same command finds it and goes on";
        assert!(answer.err.contains(stays), "{answer:?}");
    }
    let list = place.run(&["list", "log"]).with(0).text();
    assert_eq!(list.lines().count(), 2, "{list}");
    place.damage(|log| log.resize(1000 * SECTOR, 0));
    let entry = place.run(&["put-file", "log", "long"]).with(0).text();
    assert!(place.run(&["read", "log", &entry]).with(0).out == long);
    assert_eq!(
        place.run(&["list", "log"]).with(0).text().lines().count(),
        5
    );
}

/// Long work at a terminal shows how far it has come.
#[test]
fn progress() {
    let place = Place::with_log(82_000);
    place.damage(|log| log[80_000 * SECTOR] = 1); // what is stored next is far away
    let names: Vec<_> = (0..400).map(|at| format!("{at}.card")).collect();
    for (at, name) in names.iter().enumerate() {
        place.write(name, format!("A{at}=absent\n"));
    }
    let mut save = vec!["save", "log"];
    save.extend(names.iter().map(|name| &name[..]));
    shows(&place, &save, " of 400, ");
    let root = place.run(&save).with(0).text();
    fs::remove_file(place.path("log.index")).unwrap(); // with it a search is over at once
    shows(
        &place,
        &["search", "log", &root, "A0"],
        " of 400 cards searched",
    );
    let restore = ["restore", "log", &root, "back", "--overwrite"];
    shows(&place, &restore, " bytes");
    place.write("long", block(1, LEAF).repeat(300)); // one leaf, looked for as often
    shows(&place, &["put-file", "log", "long"], "storing long: ");
}

/// A command at a terminal shows this, and takes it away at the end.
#[track_caller]
fn shows(place: &Place, command: &[&str], words: &str) {
    let mut all = String::new();
    for _ in 0..10 {
        let (status, shown) = terminal::at_terminal(place.command(command));
        assert_eq!(status, 0, "{shown}");
        assert!(shown.is_empty() || shown.ends_with("\r\x1b[K"), "{shown}");
        if shown.contains(words) {
            return;
        }
        all += &shown;
    }
    panic!("{words:?} is not in {all:?}");
}
