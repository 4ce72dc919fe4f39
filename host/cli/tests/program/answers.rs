//! The answers of `init`, `put` and `get`: statuses, words and bytes.

use std::fs;
use std::os::unix::fs::FileExt;

use crate::common::*;

#[test]
fn bytes_not_held_and_not_known() {
    let place = Place::with_log(8);
    let kept = place.put(b"kept");
    let lost = place.put(b"lost");
    let never = score(b"never stored");
    place.reads(&kept, b"kept");
    place.reads(&lost.to_uppercase(), b"lost");
    place.not_held(&never);
    place.damage(|log| log[SECTOR + 200] ^= 1);
    place.reads(&kept, b"kept");
    place.not_known(&lost);
    place.not_known(&never);
    place.not_known_at(&never, 1);
    let words = place.get(&lost).err;
    assert!(words.contains("DO NOT READ THIS AS ABSENT"), "{words}");
}

/// Damage of each kind; stored again the block is there, and its neighbours always were.
#[test]
fn storing_again_heals() {
    type Damage = fn(&mut [u8]);
    let kinds: [(&str, Damage); 4] = [
        ("a flipped bit", |sector| sector[300] ^= 0x10),
        ("a flipped byte of the check", |sector| sector[505] ^= 0xff),
        ("a zeroed sector", |sector| sector.fill(0)),
        ("a sector written over", |sector| sector.fill(0xa5)),
    ];
    for (name, damage) in kinds {
        let place = Place::with_log(12);
        let blocks = [block(1, 380), block(2, 900), block(3, 10)];
        let scores = [0, 1, 2].map(|i| place.put(&blocks[i]));
        place.damage(|log| damage(&mut log[2 * SECTOR..3 * SECTOR]));
        place.not_known(&scores[1]);
        assert_eq!(place.put(&blocks[1]), scores[1], "{name}");
        for (score, block) in scores.iter().zip(&blocks) {
            place.reads(score, block);
        }
        let marked = mark(12, 5 + 3);
        assert_eq!(place.file("log.mark"), marked.as_bytes(), "{name}");
    }
}

/// With its bytes back from a copy, the log is as sound as before.
#[test]
fn restored_from_a_copy() {
    let place = Place::with_log(8);
    let scores = [place.put(b"first"), place.put(b"second")];
    let copy = place.file("log");
    place.damage(|log| log[10] ^= 1);
    place.not_known(&scores[0]);
    place.write("log", &copy);
    place.reads(&scores[0], b"first");
    place.reads(&scores[1], b"second");
    place.not_held(&score(b"never stored"));
}

#[test]
fn a_log_is_whole_and_blank() {
    let place = Place::with_log(5);
    assert_eq!(place.file("log"), [0; 5 * SECTOR]);
    assert_eq!(place.file("log.mark"), mark(5, 0).as_bytes());
    assert!(only(&place.folder, &["log", "log.mark"]));
}

#[test]
fn init_never_overwrites() {
    let place = Place::new();
    place.write("there", "precious");
    let init = |name| place.run(&["init", name, "--sectors", "3"]);
    init("there").fails(73, "never overwrites");
    assert_eq!(place.file("there"), b"precious");
    place.write("gone.mark", mark(9, 4));
    init("gone").fails(73, "gone.mark is there already");
    assert!(only(&place.folder, &["gone.mark", "there"]));
    init("no/such/folder").fails(74, "cannot create");
}

/// A mark's name is no log's, and where the mark cannot be written there is no log either.
#[test]
fn init_that_fails_leaves_nothing() {
    let place = Place::new();
    let init = |name: &str| place.run(&["init", name, "--sectors", "3"]);
    for name in ["log.mark", ".mark"] {
        init(name).fails(64, "ends in .mark");
    }
    for length in [250, 255] {
        init(&"x".repeat(length)).fails(74, "cannot write the mark");
    }
    assert!(only(&place.folder, &[]));
}

#[test]
fn sectors_of_a_log() {
    let place = Place::new();
    let init = |sectors: &str| place.run(&["init", "log", "--sectors", sectors]);
    let past = (MOST_SECTORS + 1).to_string();
    let mebibytes = (MOST_SECTORS * SECTOR) >> 20;
    let limit = format!("--sectors is at most {MOST_SECTORS} ({mebibytes} MiB): not a log (3)");
    for bad in [&past, "99999999999999999999999999"] {
        init(bad).fails(3, &limit);
    }
    for bad in ["", "-1", "x", "1e3"] {
        init(bad).fails(64, "--sectors takes a decimal number");
    }
    place
        .run(&["init", "log"])
        .fails(64, "--sectors is missing");
    assert!(only(&place.folder, &[]));
    init("0").with(0);
    assert_eq!(place.file("log"), b"");
    place.feed(&["put", "log"], b"x").fails(14, "log full (14)");
    assert_eq!(place.put(b""), score(b""), "the empty block needs no room");
    place.reads(&score(b""), b"");
    place.not_held(&score(b"x"));
}

/// As many sectors as a log may have, and the last of them used.
#[test]
fn the_longest_log() {
    let place = Place::with_log(MOST_SECTORS);
    let first = place.put(b"first");
    place.reads(&first, b"first");
    let log = fs::OpenOptions::new().write(true).open(place.path("log"));
    let last_but_one = (MOST_SECTORS - 2) * SECTOR;
    log.unwrap()
        .write_all_at(&[1], last_but_one as u64)
        .unwrap();
    let last = place.put(b"last");
    place.reads(&last, b"last");
    place.reads(&first, b"first");
    place.not_known_at(&score(b"never stored"), 1);
    let full = place.feed(&["put", "log"], b"no room");
    let full = full.fails(14, "log full (14)");
    assert!(
        full.err.contains("this one cannot be lengthened"),
        "{full:?}"
    );
    assert!(full.err.contains("begin another one"), "{full:?}");
    assert!(!full.err.contains("truncate"), "{full:?}");
    let marked = mark(MOST_SECTORS, MOST_SECTORS);
    assert_eq!(place.file("log.mark"), marked.as_bytes());
    let report = place.run(&["report", "log"]).with(32).text();
    let numbers = format!("sectors={MOST_SECTORS}\nused={MOST_SECTORS}\nrecords=2\n");
    assert!(report.starts_with(&numbers), "{report}");
}

#[test]
fn a_full_log_may_be_lengthened() {
    let place = Place::with_log(1);
    place.put(b"first");
    let full = place.feed(&["put", "log"], b"second");
    let full = full.fails(14, "sectors in all");
    let numbers = full.err.replace(',', "");
    let limit = format!("at most {MOST_SECTORS} sectors in all");
    assert!(numbers.contains(&limit), "{numbers}");
    // The command that it gives is run as it stands.
    let command = full
        .err
        .split('`')
        .find(|part| part.starts_with("truncate "));
    let command = command.expect("a command").to_string();
    let mut shell = std::process::Command::new("sh");
    let run = shell.args(["-c", &command]).current_dir(&place.folder);
    assert!(run.status().unwrap().success(), "{command}");
    let second = place.put(b"second");
    place.reads(&second, b"second");
    assert_eq!(place.file("log.mark"), mark(1 + 2048, 2).as_bytes());
}

#[test]
fn types_and_counts() {
    let place = Place::with_log(20);
    let names = ["root", "dir", "ptr1", "ptr7", "data"];
    let numbers = ["1", "2", "3", "9", "13"];
    let typed = score(b"typed");
    let get = |kind, count| place.run(&["get", "log", &typed, "--type", kind, "--count", count]);
    for (name, number) in names.iter().zip(numbers) {
        get(name, "9").fails(11, "not held");
        assert_eq!(place.put_as(name, b"typed"), typed);
        assert_eq!(get(number, "5").with(0).out, b"typed");
    }
    get("data", "4").fails(13, "block longer than asked for (13)");
    get("data", "65536").fails(64, "--count is 0 to 65535");
    assert_eq!(get("data", "65535").with(0).out, b"typed");
    for bad in ["0", "10", "14", "256", "ptr8", "DATA", ""] {
        get(bad, "9").fails(9, "no such block type (9)");
    }
    let used = |place: &Place| place.file("log.mark");
    assert_eq!(used(&place), mark(20, 5).as_bytes());
    place.put(b"typed");
    assert_eq!(used(&place), mark(20, 5).as_bytes(), "a duplicate");
}

#[test]
fn long_blocks() {
    let place = Place::with_log(300);
    let longest = block(7, 57_344);
    let score = place.put(&longest);
    place.reads(&score, &longest);
    for length in [57_345, 65_529, 65_530, 200_000] {
        let put = place.feed(&["put", "log"], &block(8, length));
        put.fails(10, "standard input: block too long (10)");
    }
    assert_eq!(place.file("log.mark"), mark(300, 148).as_bytes());
}

/// Files that are refused or missing are told; all others are stored.
#[test]
fn one_bad_block_never_ends_a_batch() {
    let place = Place::with_log(8);
    place.write("a", "first");
    place.write("long", block(1, 60_000));
    place.write("b", "second");
    place.write("-c", "third");
    let batch = ["put", "log", "a", "long", "none", "b", ".", "--", "-c"];
    let answer = place.run(&batch).with(10);
    let lines = [("a", "first"), ("b", "second"), ("-c", "third")];
    let lines = lines.map(|(name, text)| format!("{}  {name}\n", score(text.as_bytes())));
    assert_eq!(answer.text() + "\n", lines.concat());
    for told in [
        "long: block too long (10)",
        "cannot open none",
        "cannot read .",
    ] {
        assert!(answer.err.contains(told), "{answer:?}");
    }
    place.reads(&score(b"third"), b"third");
    let alone = place.run(&["put", "log", "a"]).with(0);
    assert_eq!(alone.text(), score(b"first"));
    place
        .run(&["put", "log", "none"])
        .fails(66, "cannot open none");
}

/// A batch goes on after a block for which there is no room.
#[test]
fn a_batch_on_a_nearly_full_log() {
    let place = Place::with_log(2);
    place.write("big", block(1, 1000));
    place.write("small", "small");
    let answer = place.run(&["put", "log", "big", "small"]).with(14);
    assert_eq!(answer.text(), format!("{}  small", score(b"small")));
    place.reads(&score(b"small"), b"small");
}
