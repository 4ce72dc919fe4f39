//! The date on each block: which one it gets, who sees it, and logs that were begun before there were any.

use std::process::Command;

use crate::common::*;
use second::log::{write, Contents};
use second::Edition;

/// The dates that `list` shows, in the log's order.
fn dates(place: &Place) -> Vec<String> {
    let text = place.run(&["list", "log"]).text();
    let fields = text.lines().map(|line| line.split_whitespace().nth(3));
    fields.map(|field| field.unwrap().to_string()).collect()
}

/// Each block has the date that it was stored with; one that is held keeps it.
#[test]
fn dates_that_are_given() {
    let place = Place::with_log(20);
    let put = |block: &[u8], options: &[&str]| {
        let words = [&["put", "log"], options].concat();
        assert_eq!(place.feed(&words, block).with(0).text(), score(block));
    };
    put(b"one", &["--date", "19991231"]);
    put(b"two", &["--date=00000000"]);
    put(b"three", &[]);
    put(b"four", &["--date", "99999999", "--type", "dir"]);
    let shown = ["19991231", "00000000", "20261116", "99999999"];
    assert_eq!(dates(&place), shown);
    let before = place.file("log");
    put(b"one", &["--date", "20000101"]);
    put(b"four", &["--type", "dir"]);
    assert_eq!(place.file("log"), before, "duplicates");
    assert!(before.starts_with(b"date=19991231\nrec=00000000\npart=0000\nof=0001\ntype=0d\n"));

    let mut server = place.greeted(&["--date", "18001224"]);
    server.store(1, b"served");
    assert_eq!(server.end(), (0, String::new()));
    assert_eq!(dates(&place)[4], "18001224");
    let json = place.run(&["list", "log", "--json"]).with(0).text();
    let first = format!(
        r#"{{"sector":0,"type":"data","size":3,"date":"19991231","score":"{}"}}"#,
        score(b"one")
    );
    assert_eq!(json.lines().next(), Some(&first[..]));
}

/// Files and roots: all their blocks have the date that is given.
#[test]
fn dates_of_files() {
    let place = Place::with_log(60);
    place.write("a.card", "K=absent\n");
    place.write("b.card", block(1, 900));
    place
        .run(&["put-file", "log", "b.card", "--date", "19991231"])
        .with(0);
    assert_eq!(dates(&place), ["19991231"]);
    let save = ["save", "log", "a.card", "b.card"];
    let root = place.run(&[&save[..], &["--date=20000101"]].concat());
    let root = root.with(0).text();
    let shown = dates(&place);
    assert_eq!(shown[0], "19991231", "what is held keeps its date");
    assert!(shown[1..].iter().all(|date| date == "20000101"));
    let before = place.file("log");
    assert_eq!(place.run(&save).with(0).text(), root);
    assert_eq!(place.file("log"), before, "a root has no date in it");
    let demo = place.run(&["demo", "--date", "20261231"]).with(0).text();
    assert!(demo.contains(" eve.card --date 20261231\n"), "{demo}");
    for words in [&["put-file", "log", "a.card"][..], &save, &["demo"]] {
        let words = [words, &["--date", "2026"]].concat();
        let told = "--date takes eight decimal digits";
        place.run(&words).fails(64, told);
    }
}

#[test]
fn dates_that_are_none() {
    let place = Place::with_log(4);
    place.write("card", "card");
    let before = place.file("log");
    for bad in ["", "2026111", "202611160", "2026111a", "2026-1-1", "today"] {
        for command in ["put", "serve"] {
            let words = [command, "log", "--date", bad];
            let told = "--date takes eight decimal digits, such as 20261116, not ";
            place.feed(&words, b"").fails(64, told);
        }
    }
    place
        .run(&["put", "log", "--date"])
        .fails(64, "--date takes a value");
    place
        .run(&["serve", "log", "--read-only", "--date", "20261116"])
        .fails(64, "--read-only writes nothing, so --date has no place");
    for bad in ["", "soon", "-1", "253402300800"] {
        let mut put = place.command(&["put", "log", "card"]);
        let output = put.env("SOURCE_DATE_EPOCH", bad).output().unwrap();
        let told = String::from_utf8(output.stderr).unwrap();
        assert_eq!(output.status.code(), Some(64), "{told}");
        assert!(told.contains("SOURCE_DATE_EPOCH is set and is no count of seconds"));
        let read = ["get", "log", &score(b""), "--adopt"];
        let output = place.command(&read).env("SOURCE_DATE_EPOCH", bad).output();
        assert!(output.unwrap().status.success(), "reading needs no date");
    }
    assert_eq!(place.file("log"), before);
    let given = ["put", "log", "card", "--date", "20261116"];
    let output = place.command(&given).env("SOURCE_DATE_EPOCH", "").output();
    assert!(output.unwrap().status.success(), "a date is given");
}

/// Without `--date` and `SOURCE_DATE_EPOCH` it is today, in UTC.
#[test]
fn the_date_of_today() {
    let place = Place::with_log(4);
    place.write("card", "card");
    let before = today();
    let mut put = place.command(&["put", "log", "card"]);
    let put = put.env_remove("SOURCE_DATE_EPOCH").env("TZ", "Asia/Tokyo");
    assert!(put.status().unwrap().success());
    let shown = dates(&place).remove(0);
    assert!([before, today()].contains(&shown), "{shown}");
}

/// Today by the standard tool.
fn today() -> String {
    let output = Command::new("date").args(["-u", "+%Y%m%d"]).output();
    let text = String::from_utf8(output.unwrap().stdout).unwrap();
    text.trim_end().to_string()
}

/// A log that was written before blocks had dates: by the second program, without any.
fn before_dates() -> (Place, Vec<Vec<u8>>) {
    let place = Place::with_log(40);
    let blocks = vec![block(1, 403), block(2, 404), block(3, 7), block(4, 1000)];
    let mut log = place.file("log");
    let mut end = 0;
    for block in &blocks {
        write(&mut log, end, Edition::First, 13, block);
        end += Edition::First.sectors_for(block.len());
    }
    place.write("log", &log);
    place.write("log.mark", mark(40, end));
    (place, blocks)
}

#[test]
fn a_log_from_before_goes_on() {
    let (place, blocks) = before_dates();
    let before = place.file("log");
    assert_eq!(dates(&place), ["-", "-", "-", "-"]);
    let json = place.run(&["list", "log", "--json"]).with(0).text();
    let third = format!(
        r#"{{"sector":3,"type":"data","size":7,"date":null,"score":"{}"}}"#,
        score(&blocks[2])
    );
    assert_eq!(json.lines().nth(2), Some(&third[..]));
    for block in &blocks {
        place.reads(&score(block), block);
        assert_eq!(place.put(block), score(block));
    }
    assert_eq!(place.file("log"), before, "duplicates");
    place.not_held(&score(b"never"));

    let new = [block(5, 403), block(6, 389), block(7, 1000)];
    for block in &new {
        place.put(block);
        place.reads(&score(block), block);
    }
    let shown = ["-", "-", "-", "-", "20261116", "20261116", "20261116"];
    assert_eq!(dates(&place), shown);
    let report = place.run(&["report", "log"]).with(0).text();
    assert!(report.contains("used=13\nrecords=7\ndoubtful=0\nverdict=sound"));
    let contents = Contents::of(&place.file("log"));
    assert_eq!((contents.used, contents.doubtful), (13, 0));
    let map = place.run(&["report", "log", "--map", "--width", "40"]);
    assert!(map.with(0).text().contains(&"#".repeat(13)));
    assert!(place.file("log").starts_with(&before[..7 * SECTOR]));

    let mut server = place.greeted(&[]);
    for block in blocks.iter().chain(&new) {
        let held = message(13, 2, block);
        assert_eq!(server.ask(&read_message(2, block)), held);
        assert_eq!(server.ask(&write_message(3, block)), write_reply(3, block));
    }
    assert_eq!(server.end(), (0, String::new()));
}

/// Damage in a sector of either edition: its block is not known, all others are read, and storing it
/// again heals it, with a date.
#[test]
fn damage_in_either_edition() {
    for sector in 0..11 {
        let (place, mut blocks) = before_dates();
        blocks.push(block(5, 500));
        blocks.push(block(6, 700));
        place.put(&blocks[4]);
        place.put(&blocks[5]);
        place.damage(|log| log[sector * SECTOR + 8] ^= 1);
        let hit = [0, 1, 1, 2, 3, 3, 3, 4, 4, 5, 5][sector];
        let first = [0, 1, 1, 3, 4, 4, 4, 7, 7, 9, 9][sector];
        for (at, block) in blocks.iter().enumerate() {
            match at == hit {
                true => place.not_known_at(&score(block), first),
                false => place.reads(&score(block), block),
            }
        }
        place.put(&blocks[hit]);
        place.reads(&score(&blocks[hit]), &blocks[hit]);
        assert_eq!(dates(&place).last().unwrap(), "20261116");
    }
}
