//! The mark: lost tails, `doubt`, `--adopt`.

use std::fs::{self, Permissions};
use std::os::unix::fs::{chown, symlink, MetadataExt, PermissionsExt};
use std::os::unix::process::CommandExt;

use crate::common::*;

/// A log of 10 sectors: a block in sectors 0 and 1, one in 2 to 4, one in 5.
fn filled() -> (Place, [Vec<u8>; 3], [String; 3]) {
    let place = Place::with_log(10);
    let blocks = [block(1, 500), block(2, 1000), block(3, 50)];
    let scores = [0, 1, 2].map(|i| place.put(&blocks[i]));
    (place, blocks, scores)
}

/// All that reads or writes a log refuses it, in the same words, and leaves it alone.
#[track_caller]
fn refused(place: &Place, status: i32, words: &str) {
    let before = fs::read(place.path("log")).ok();
    let any = score(b"any");
    let entry = "00".repeat(40);
    let commands: [&[&str]; 8] = [
        &["get", "log", &any],
        &["put", "log"],
        &["serve", "log"],
        &["serve", "log", "--read-only"],
        &["list", "log"],
        &["report", "log", "--map"],
        &["read", "log", &entry],
        &["walk", "log", &any],
    ];
    for command in commands {
        place.run(command).fails(status, words);
    }
    assert_eq!(fs::read(place.path("log")).ok(), before);
}

#[track_caller]
fn lost(place: &Place, sectors: usize) {
    let words = lost_words(sectors);
    refused(place, 65, &words);
    let answer = place.get(&score(b"any"));
    let answer = answer.fails(65, "skywimple doubt log");
    assert!(answer.err.contains("leave the mark as it is"), "{answer:?}");
    let lossy = ["lost blocks", "an older mark cannot tell what is lost"];
    for words in lossy {
        assert_eq!(answer.err.contains(words), sectors > 0, "{answer:?}");
    }
}

fn lost_words(sectors: usize) -> String {
    match sectors {
        0 => "no stored sector is lost".to_string(),
        1 => "the last used sector is lost".to_string(),
        _ => format!("the last {sectors} used sectors are lost"),
    }
}

#[test]
fn a_zeroed_tail() {
    for zeroed in 1..=6 {
        let (place, blocks, scores) = filled();
        place.damage(|log| log[(6 - zeroed) * SECTOR..].fill(0));
        lost(&place, zeroed);
        let told = place.run(&["doubt", "log"]).with(0).text();
        assert!(told.contains(&lost_words(zeroed)), "{told}");
        let intact = [2, 5, 6].map(|end| end <= 6 - zeroed);
        for i in 0..3 {
            match intact[i] {
                true => place.reads(&scores[i], &blocks[i]),
                false => place.not_known(&scores[i]),
            }
        }
        place.not_known(&score(b"never stored"));
        heals(&place, &blocks, &scores);
    }
}

#[track_caller]
fn heals(place: &Place, blocks: &[Vec<u8>; 3], scores: &[String; 3]) {
    // Three of ten sectors may be too few for all; a longer log has room.
    place.damage(|log| log.resize(20 * SECTOR, 0));
    for (block, score) in blocks.iter().zip(scores) {
        assert_eq!(&place.put(block), score);
        place.reads(score, block);
    }
    place.not_known(&score(b"never stored"));
}

/// Cut at every sector, and inside sectors.
#[test]
fn a_cut_tail() {
    let whole = 10 * SECTOR;
    let cuts = (0..10).map(|sectors| sectors * SECTOR);
    for length in cuts.chain([1, 700, 5 * SECTOR + 1, 6 * SECTOR - 1, whole - 1]) {
        let (place, blocks, scores) = filled();
        place.damage(|log| log.truncate(length));
        let gone = 6 - (length / SECTOR).min(6);
        lost(&place, gone);
        let told = place.run(&["doubt", "log"]).with(0).text();
        assert!(told.contains(&lost_words(gone)), "{told}");
        assert_eq!(place.file("log").len(), whole);
        for (i, end) in [2, 5, 6].into_iter().enumerate() {
            match end * SECTOR <= length {
                true => place.reads(&scores[i], &blocks[i]),
                false => place.not_known(&scores[i]),
            }
        }
        if length >= 6 * SECTOR {
            place.not_held(&score(b"never stored"));
        } else {
            heals(&place, &blocks, &scores);
        }
    }
}

/// A copy that is older than the mark is a loss too; the newest one fits.
#[test]
fn a_log_restored_from_a_copy() {
    let (place, blocks, scores) = filled();
    let older = place.file("log");
    let newest = place.put(b"newest");
    let newer = place.file("log");
    place.damage(|log| log.clear());
    lost(&place, 7);
    place.write("log", older);
    lost(&place, 1);
    place.write("log", newer);
    place.reads(&scores[1], &blocks[1]);
    place.reads(&newest, b"newest");
    place.not_held(&score(b"never stored"));
}

#[test]
fn a_missing_log() {
    let (place, blocks, scores) = filled();
    fs::remove_file(place.path("log")).unwrap();
    refused(
        &place,
        65,
        "there is no such file: the last 6 used sectors are lost",
    );
    place.run(&["doubt", "log"]).with(0);
    for score in &scores {
        place.not_known(score);
    }
    heals(&place, &blocks, &scores);

    let empty = Place::with_log(4);
    fs::remove_file(empty.path("log")).unwrap();
    refused(&empty, 65, "there is no such file");
    empty.run(&["doubt", "log"]).with(0);
    assert_eq!(empty.file("log"), [0; 4 * SECTOR]);
    empty.not_held(&score(b"nothing was ever stored"));
}

/// The library sees this by itself: blank sectors inside the used part are doubtful.
#[test]
fn a_zeroed_middle() {
    let (place, blocks, scores) = filled();
    place.damage(|log| log[2 * SECTOR..5 * SECTOR].fill(0));
    place.reads(&scores[0], &blocks[0]);
    place.not_known(&scores[1]);
    place.reads(&scores[2], &blocks[2]);
    let told = place.run(&["doubt", "log"]).with(0).text();
    assert!(told.contains("nothing was written"), "{told}");
    place.put(&blocks[1]);
    place.reads(&scores[1], &blocks[1]);
}

#[test]
fn doubt_writes_nothing_where_nothing_is_lost() {
    let (place, _, scores) = filled();
    let before = (place.file("log"), place.file("log.mark"));
    let told = place.run(&["doubt", "log"]).with(0).text();
    assert!(told.contains("nothing was written"), "{told}");
    assert_eq!((place.file("log"), place.file("log.mark")), before);
    place.get(&scores[2]).with(0);
}

/// The sector of doubt can be read by a person, and by no check.
#[test]
fn the_sector_of_doubt() {
    let (place, _, _) = filled();
    place.damage(|log| log[4 * SECTOR..].fill(0));
    place.run(&["doubt", "log"]).with(0);
    let log = place.file("log");
    assert!(log[5 * SECTOR..].starts_with(b"skywimple doubt: "));
    assert_eq!(log[6 * SECTOR - 13..6 * SECTOR], [0; 13]);
    assert!(log[4 * SECTOR..5 * SECTOR].iter().all(|byte| *byte == 0));
    assert_eq!(place.file("log.mark"), mark(10, 6).as_bytes());
    place.run(&["doubt", "log"]).with(0);
    assert_eq!(place.file("log"), log, "once is enough");
}

#[test]
fn a_log_without_a_mark() {
    for command in ["put", "serve", "report", "list", "get", "walk", "read"] {
        let (place, blocks, scores) = filled();
        fs::remove_file(place.path("log.mark")).unwrap();
        refused(&place, 66, "log has no mark");
        place.run(&["doubt", "log"]).fails(66, "--adopt");
        assert!(only(&place.folder, &["log"]), "nothing is made unasked");
        let entry = "00".repeat(40);
        let words: &[&str] = match command {
            "get" | "walk" => &[command, "log", &scores[0], "--adopt"],
            "read" => &[command, "log", &entry, "--adopt"],
            _ => &[command, "log", "--adopt"],
        };
        let answer = place.run(words);
        let told = "adopted log as it is: 10 sectors, 6 of them used";
        assert!(answer.err.contains(told), "{answer:?}");
        assert_eq!(place.file("log.mark"), mark(10, 6).as_bytes());
        place.reads(&scores[1], &blocks[1]);
    }
}

/// Owner, group and mode of a file.
fn access(place: &Place, name: &str) -> (u32, u32, u32) {
    let found = fs::metadata(place.path(name)).unwrap();
    (found.uid(), found.gid(), found.mode() & 0o777)
}

/// A new mark is as the one before it, whoever writes it; the first is as its log.
#[test]
fn the_mark_keeps_its_mode() {
    let place = Place::with_log(16);
    for (seed, mode) in [0o600, 0o640, 0o664, 0o666, 0o444].into_iter().enumerate() {
        let mode_of = Permissions::from_mode(mode);
        fs::set_permissions(place.path("log.mark"), mode_of).unwrap();
        place.put(&block(seed, 9));
        assert_eq!(access(&place, "log.mark").2, mode, "{mode:o}");
    }
    fs::set_permissions(place.path("log"), Permissions::from_mode(0o606)).unwrap();
    fs::remove_file(place.path("log.mark")).unwrap();
    place.run(&["report", "log", "--adopt"]).with(0);
    assert_eq!(access(&place, "log.mark").2, 0o606);
}

#[test]
fn the_mark_keeps_its_owner() {
    if !superuser() {
        return skipped("a mark keeps its owner: only the superuser can give files away");
    }
    let place = Place::with_log(16);
    let owners = [("log.mark", 4711, 4712), ("log", 4713, 4714)];
    for (name, user, group) in owners {
        chown(place.path(name), Some(user), Some(group)).unwrap();
    }
    fs::set_permissions(place.path("log.mark"), Permissions::from_mode(0o640)).unwrap();
    place.put(b"card");
    assert_eq!(access(&place, "log.mark"), (4711, 4712, 0o640));
    fs::remove_file(place.path("log.mark")).unwrap();
    place.run(&["report", "log", "--adopt"]).with(0);
    let (user, group, _) = access(&place, "log.mark");
    assert_eq!((user, group), (4713, 4714), "the log's");
}

/// Who may write the mark leaves its owner alone; who may not, and cannot give it its owner back, keeps its
/// group and mode, where the group is his.
#[test]
fn the_mark_of_another_owner() {
    if !superuser() {
        return skipped("the mark of another owner: only the superuser can give files away");
    }
    let mut place = Place::with_log(16);
    place.plain_user();
    for (name, mode) in [(".", 0o777), ("log", 0o666), ("log.mark", 0o664)] {
        chown(place.path(name), Some(4711), Some(4712)).unwrap();
        fs::set_permissions(place.path(name), Permissions::from_mode(mode)).unwrap();
    }
    let put = |group: u32, file: &str| {
        place.write(file, file);
        let output = place.command(&["put", "log", file]).gid(group).output();
        let output = output.unwrap();
        assert!(output.status.success(), "{output:?}");
        access(&place, "log.mark")
    };
    assert_eq!(put(4712, "one"), (4711, 4712, 0o664));
    fs::set_permissions(place.path("log.mark"), Permissions::from_mode(0o644)).unwrap();
    assert_eq!(put(4712, "two"), (OTHER_USER, 4712, 0o644));
    chown(place.path("log.mark"), Some(4711), Some(4712)).unwrap();
    fs::set_permissions(place.path("log.mark"), Permissions::from_mode(0o664)).unwrap();
    let other = (OTHER_USER, 4799, 0o604);
    assert_eq!(put(4799, "three"), other, "no other group gets its rights");
}

#[test]
fn a_damaged_mark() {
    let good = mark(10, 6);
    let lines = mark_lines(10, 6);
    let bad = [
        good.replace("used=00000006", "used=00000005"),
        good.replace("\n", "\r\n"),
        lines[..lines.len() - 1].to_string(),
        "\0".to_string() + &good,
        "\0".repeat(good.len()),
        String::new(),
        mark(10, 11),
        mark(MOST_SECTORS + 1, 6),
        good.to_uppercase(),
    ];
    for text in bad {
        let (place, blocks, scores) = filled();
        place.write("log.mark", &text);
        refused(&place, 65, "log.mark is damaged");
        place.run(&["doubt", "log"]).fails(65, "is damaged");
        assert_eq!(place.file("log.mark"), text.as_bytes());
        let get = ["get", "log", &scores[2], "--adopt"];
        assert_eq!(place.run(&get).with(0).out, blocks[2]);
        assert_eq!(place.file("log.mark"), good.as_bytes());
    }
}

/// The mark stands in two places, and one of them is enough; the next writer has both again. So has it where
/// they stood in one place only, as the first edition had them.
#[test]
fn one_place_of_the_mark() {
    let (good, lines) = (mark(10, 6), mark_lines(10, 6));
    let earlier = mark_lines(10, 5);
    let one_place = [
        good.replacen("used=00000006", "used=00000007", 1),
        good[..4096].to_string() + "damage",
        good[..good.len() - 1].to_string(),
        "\0".repeat(4096) + &lines,
        good.clone() + "\n",
        good.replacen(&lines, &earlier, 1),
        good[..4096].to_string() + &earlier,
        lines,
    ];
    for text in one_place {
        let (place, blocks, scores) = filled();
        place.write("log.mark", &text);
        place.reads(&scores[2], &blocks[2]);
        assert_eq!(place.file("log.mark"), text.as_bytes(), "by a reader");
        place.put(&blocks[0]);
        assert_eq!(place.file("log.mark"), good.as_bytes(), "by a duplicate");
        place.write("log.mark", &text);
        place.damage(|log| log[5 * SECTOR..].fill(0));
        lost(&place, 1);
    }
}

/// A link to the mark may be someone's copy of it, and stays as it is.
#[test]
fn a_mark_with_two_names() {
    let place = Place::with_log(16);
    fs::hard_link(place.path("log.mark"), place.path("copy")).unwrap();
    place.put(b"first");
    assert_eq!(place.file("copy"), mark(16, 0).as_bytes());
    assert_eq!(place.file("log.mark"), mark(16, 1).as_bytes());
    fs::rename(place.path("log.mark"), place.path("moved")).unwrap();
    symlink("moved", place.path("log.mark")).unwrap();
    place.put(b"second");
    assert_eq!(place.file("moved"), mark(16, 1).as_bytes());
    assert_eq!(place.file("log.mark"), mark(16, 2).as_bytes());
}

/// Under a server: what has the mark's name is the mark, and any other file is left alone.
#[test]
fn a_mark_replaced_under_a_writer() {
    let place = Place::with_log(16);
    let mut server = place.greeted(&[]);
    server.store(1, b"first");
    assert_eq!(place.file("log.mark"), mark(16, 1).as_bytes());
    fs::rename(place.path("log.mark"), place.path("away")).unwrap();
    server.store(2, b"second");
    assert_eq!(place.file("away"), mark(16, 1).as_bytes());
    assert_eq!(place.file("log.mark"), mark(16, 2).as_bytes());
    fs::hard_link(place.path("log.mark"), place.path("copy")).unwrap();
    server.store(3, b"third");
    assert_eq!(place.file("copy"), mark(16, 2).as_bytes());
    place.write("log.mark", "cut");
    server.store(4, b"fourth");
    assert_eq!(place.file("log.mark"), mark(16, 4).as_bytes());
    assert_eq!(server.end().0, 0);
    assert!(only(&place.folder, &["away", "copy", "log", "log.mark"]));
}

/// A good mark that says more than the log has is never adopted away.
#[test]
fn adopt_hides_no_loss() {
    let (place, _, scores) = filled();
    place.damage(|log| log[5 * SECTOR..].fill(0));
    let get = ["get", "log", &scores[2], "--adopt"];
    place.run(&get).fails(65, "the last used sector is lost");
    assert_eq!(place.file("log.mark"), mark(10, 6).as_bytes());
}

#[test]
fn files_that_are_no_logs() {
    let place = Place::new();
    let get = |name: &str| place.run(&["get", name, &score(b""), "--adopt"]);
    get("none").fails(66, "no such log: none");
    get(".").fails(66, ". is not a file. Give the path of a log");
    place.write("odd", [0; 700]);
    get("odd").fails(3, "odd: not a log (3)");
    let long = fs::File::create(place.path("long")).unwrap();
    long.set_len(((MOST_SECTORS + 1) * SECTOR) as u64).unwrap();
    get("long").fails(3, "long: not a log (3)");
    assert!(only(&place.folder, &["long", "odd"]));
}

/// A mark is no log, and its log is named.
#[test]
fn a_mark_given_as_a_log() {
    let (place, _, scores) = filled();
    fs::copy(place.path("log.mark"), place.path("copy")).unwrap();
    let told = "log.mark is the mark of a log, not a log: give the log itself, log.";
    let get = |name: &str, more: &str| place.run(&["get", name, &scores[0], more]);
    get("log.mark", "--adopt").fails(66, told);
    get("log.mark", "--type=data").fails(66, told);
    get("copy", "--adopt").fails(66, "copy is the mark of a log, not a log");
    for command in ["put", "serve", "doubt", "report", "list"] {
        place.run(&[command, "log.mark"]).fails(66, told);
    }
    assert!(only(&place.folder, &["copy", "log", "log.mark"]));
}

/// Beside a good mark the refusal says how to cut a file back, and that is right.
#[test]
fn a_log_with_bytes_too_many() {
    for length in [10 * SECTOR + 1, (MOST_SECTORS + 1) * SECTOR] {
        let (place, blocks, scores) = filled();
        let log = fs::OpenOptions::new().write(true).open(place.path("log"));
        let log = log.unwrap();
        log.set_len(length as u64).unwrap();
        let told = format!("This file has {length} bytes, and its mark says 5120");
        refused(&place, 3, &told);
        let doubt = place.run(&["doubt", "log"]).fails(3, &told);
        assert!(doubt.err.contains("`truncate -s 5120 log`"), "{doubt:?}");
        log.set_len(5120).unwrap();
        place.reads(&scores[2], &blocks[2]);
    }
}
