//! `diff`: what changed between two saved roots, and what a change may never be taken for.

use crate::common::*;

/// A folder with a log, and files in it.
fn place(files: &[(&str, &str)]) -> Place {
    let place = Place::with_log(400);
    for (name, text) in files {
        place.write(name, text);
    }
    place
}

fn save(place: &Place, names: &[&str]) -> String {
    let words = [&["save", "log"], names].concat();
    place.run(&words).with(0).text()
}

fn diff(place: &Place, first: &str, second: &str) -> Answer {
    place.run(&["diff", "log", first, second])
}

fn json(place: &Place, first: &str, second: &str) -> Answer {
    place.run(&["diff", "log", first, second, "--json"])
}

/// Fails unless these rows are printed, and nothing is told.
#[track_caller]
fn rows(answer: Answer, status: i32, rows: &str) {
    let answer = answer.with(status);
    assert_eq!(String::from_utf8(answer.out).unwrap(), rows);
    assert_eq!(answer.err, "");
}

/// The sector of a block, by its score.
fn sector_of(place: &Place, score: &str) -> usize {
    let (log, line) = (place.file("log"), format!("score={score}\n"));
    let mut sectors = log.chunks(SECTOR);
    let has = |sector: &[u8]| String::from_utf8_lossy(&sector[..120]).contains(&line);
    sectors.position(has).unwrap()
}

fn harm(place: &Place, sector: usize) {
    place.damage(|log| log[sector * SECTOR + 200] ^= 1);
}

/// The place of the directory of the files: before its block, which is before the root.
fn directory_of(place: &Place, root: &str) -> usize {
    sector_of(place, root) - 2
}

/// Two days of a registry: `a` stays, `b` goes, `c` changes, `d` comes.
fn two_days() -> (Place, String, String) {
    let place = place(&[("a", "1"), ("b", "2"), ("c", "3"), ("d", "4")]);
    let first = save(&place, &["a", "b", "c"]);
    place.write("c", "three");
    let second = save(&place, &["d", "c", "a"]);
    (place, first, second)
}

#[test]
fn added_removed_and_changed() {
    let (place, first, second) = two_days();
    let before = (place.file("log"), place.file("log.mark"));
    let told = "removed     b\nchanged     c\nadded       d\n";
    rows(diff(&place, &first, &second), 1, told);
    let told = "{\"name\":\"b\",\"change\":\"removed\"}\n\
                {\"name\":\"c\",\"change\":\"changed\"}\n\
                {\"name\":\"d\",\"change\":\"added\"}\n";
    rows(json(&place, &first, &second), 1, told);
    let told = "removed     d\nchanged     c\nadded       b\n";
    rows(diff(&place, &second, &first), 1, told);
    assert!((place.file("log"), place.file("log.mark")) == before);
}

#[test]
fn equal_roots() {
    let (place, first, second) = two_days();
    for root in [&first, &second] {
        rows(diff(&place, root, root), 0, "");
        rows(json(&place, root, root), 0, "");
    }
    // The same files in another order are no change, and neither is a file of another folder.
    let turned = save(&place, &["a", "c", "d"]);
    assert_ne!(turned, second);
    rows(diff(&place, &second, &turned), 0, "");
}

#[test]
fn renamed() {
    let place = place(&[("old", "1"), ("new", "1"), ("other", "2")]);
    let first = save(&place, &["old", "other"]);
    let second = save(&place, &["new", "other"]);
    let told = "removed     old\nadded       new\n";
    rows(diff(&place, &first, &second), 1, told);
}

/// One has all files of the other; sizes alone differ; zeros at the end count.
#[test]
fn small_differences() {
    let place = place(&[("a", "1"), ("b", "2"), ("c", "2\0"), ("e", "")]);
    let all = save(&place, &["a", "b", "e"]);
    let few = save(&place, &["a"]);
    let told = "added       b\nadded       e\n";
    rows(diff(&place, &few, &all), 1, told);
    place.write("b", place.file("c"));
    let padded = save(&place, &["a", "b", "e"]);
    rows(diff(&place, &all, &padded), 1, "changed     b\n");
    place.write("e", "\0");
    let zeros = save(&place, &["a", "b", "e"]);
    rows(diff(&place, &padded, &zeros), 1, "changed     e\n");
}

/// More files than a directory block holds, so that the trees have other depths.
#[test]
fn directories_of_two_shapes() {
    let place = Place::with_log(4000);
    let names: Vec<String> = (0..1500).map(|number| format!("{number:04}")).collect();
    names.iter().for_each(|name| place.write(name, name));
    let names: Vec<&str> = names.iter().map(String::as_str).collect();
    let many = save(&place, &names);
    let few = save(&place, &names[..1400]);
    let answer = diff(&place, &many, &few).with(1).text();
    let gone: Vec<String> = (1400..1500).map(|at| format!("removed     {at}")).collect();
    assert_eq!(answer, gone.join("\n"));
}

/// A damaged block of the directories that both roots have is in neither's way; one of them alone is.
#[test]
fn damaged_blocks_of_two_directories() {
    let place = Place::with_log(6000);
    let names: Vec<String> = (0..1500).map(|number| format!("{number:04}")).collect();
    names.iter().for_each(|name| place.write(name, name));
    let names: Vec<&str> = names.iter().map(String::as_str).collect();
    let first = save(&place, &names);
    place.write("1499", "last");
    let last = save(&place, &names);
    place.write("1499", "1499");
    place.write("0001", "early");
    let early = save(&place, &names);
    rows(diff(&place, &first, &last), 1, "changed     1499\n");
    rows(diff(&place, &first, &early), 1, "changed     0001\n");

    // In the order in which they were stored: a long block and a short one, a short one, a long one.
    let sound = place.file("log");
    let listed = place.run(&["list", "log", "--json"]).with(0).text();
    let leaves = |size: usize| -> Vec<usize> {
        let is_leaf = format!("\"type\":\"dir\",\"size\":{size},");
        let lines = listed.lines().filter(|line| line.contains(&is_leaf));
        let number = |line: &str| line.split([':', ',']).nth(1).unwrap().parse().unwrap();
        lines.map(number).collect()
    };
    let (long, short) = (leaves(1433 * 40), leaves(68 * 40));
    assert_eq!((long.len(), short.len()), (2, 2));

    harm(&place, short[0]);
    rows(diff(&place, &first, &early), 1, "changed     0001\n");
    let text = json(&place, &first, &last).with(33).text();
    assert_eq!(text.lines().count(), 68);
    let unread = format!(
        "\"change\":\"unreadable\",\"number\":12,\"sector\":{}}}",
        short[0]
    );
    for (name, line) in (1432..).zip(text.lines()) {
        assert_eq!(line, format!("{{\"name\":\"{name}\",{unread}"));
    }

    // Two blocks that are both lost are not one.
    harm(&place, short[1]);
    assert_eq!(json(&place, &first, &last).with(33).text(), text);

    // The names stand in the first block of the directory, which both have.
    place.write("log", &sound);
    harm(&place, long[0]);
    let answer = json(&place, &first, &last).with(33);
    let told = "{\"name\":null,\"place\":1500,\"change\":\"changed\"}";
    assert_eq!(answer.text(), told);
    let answer = json(&place, &first, &early).with(33).text();
    assert_eq!(answer.lines().count(), 3000);
    assert!(answer.lines().all(|line| line.contains("unreadable")));
}

/// A file is not read: its scores tell. One that is damaged in both is no change.
#[test]
fn damaged_files() {
    let (place, first, second) = two_days();
    harm(&place, sector_of(&place, &score(b"three")));
    harm(&place, sector_of(&place, &score(b"1")));
    let told = "removed     b\nchanged     c\nadded       d\n";
    rows(diff(&place, &first, &second), 1, told);
    rows(diff(&place, &second, &second), 0, "");
}

/// No name is added or removed where it may be a lost one.
#[test]
fn damaged_names() {
    let (place, first, second) = two_days();
    let sector = sector_of(&place, &score(b"a\nb\nc\n"));
    harm(&place, sector);
    let answer = json(&place, &first, &second).with(33);
    let why = format!("\"change\":\"unreadable\",\"number\":12,\"sector\":{sector}}}\n");
    let lost = |place| format!("{{\"name\":null,\"root\":1,\"place\":{place},{why}");
    let mut told: String = (1..4).map(lost).collect();
    for name in ["d", "c", "a"] {
        told += &format!("{{\"name\":\"{name}\",{why}");
    }
    assert_eq!(answer.text(), told.trim_end());
    for words in [
        "skywimple: names of ROOT1 are lost: refusal 12: a part of the log is damaged, first doubtful sector",
        "6 files could not be compared, and may have changed or not. DO NOT READ THIS AS UNCHANGED.",
    ] {
        assert!(answer.err.contains(words), "{words}: {answer:?}");
    }
    let answer = diff(&place, &second, &first).with(33).text();
    let byte = sector * SECTOR;
    let row = format!(
        "unreadable  (name lost: file 1 of ROOT2): refusal 12: a part of the log is damaged, \
         first doubtful sector {sector}, byte {byte} of the log"
    );
    assert!(answer.lines().any(|line| line == row), "{answer}");
    assert_eq!(place.run(&["save", "log", "a", "b", "c"]).status, 0);
    assert_eq!(diff(&place, &second, &second).status, 0);
}

/// Where both roots have one list of names, files are compared though it is lost.
#[test]
fn damaged_names_of_both() {
    let place = place(&[("a", "1"), ("b", "2")]);
    let first = save(&place, &["a", "b"]);
    place.write("b", "two");
    let second = save(&place, &["a", "b"]);
    rows(diff(&place, &first, &second), 1, "changed     b\n");
    harm(&place, sector_of(&place, &score(b"a\nb\n")));
    let answer = json(&place, &first, &second).with(33);
    let told = "{\"name\":null,\"place\":2,\"change\":\"changed\"}";
    assert_eq!(answer.text(), told);
    for root in [1, 2] {
        let words = format!("names of ROOT{root} are lost");
        assert!(answer.err.contains(&words), "{answer:?}");
    }
    assert!(!answer.err.contains("could not be compared"), "{answer:?}");
    // The same root twice needs no name.
    rows(diff(&place, &first, &first), 0, "");
}

#[test]
fn damaged_directory() {
    let (place, first, second) = two_days();
    let sector = directory_of(&place, &first);
    harm(&place, sector);
    let answer = diff(&place, &first, &second).with(33).text();
    assert_eq!(answer.lines().count(), 6);
    for line in answer.lines() {
        assert!(line.starts_with("unreadable  "), "{answer}");
        let why = format!("first doubtful sector {sector}, ");
        assert!(line.contains(&why), "{answer}");
    }
    let sound = place.file("log");
    harm(&place, directory_of(&place, &second));
    let both = diff(&place, &first, &second).with(33).text();
    assert_eq!(both.matches("unreadable  (name lost: file ").count(), 6);
    place.write("log", sound);

    // It is one directory, whatever was in it.
    rows(diff(&place, &first, &first), 0, "");
    let healed = place.file("c");
    place.write("c", "3");
    assert_eq!(save(&place, &["a", "b", "c"]), first);
    place.write("c", healed);
    assert_eq!(diff(&place, &first, &second).status, 1);

    for back in [1, 0] {
        let (place, first, second) = two_days();
        harm(&place, sector_of(&place, &first) - back);
        let kind = ["root", "dir"][back];
        let told = format!("the {kind} block ");
        diff(&place, &first, &second).fails(12, &told);
        diff(&place, &second, &first).fails(12, &told);
    }
}

/// Every used sector in turn: a row stays, becomes unreadable, or nothing is answered.
#[test]
fn damage_never_makes_a_change() {
    let (place, first, second) = two_days();
    let whole = json(&place, &first, &second).with(1).text();
    let whole: Vec<&str> = whole.lines().collect();
    let sound = place.file("log");
    let used = sound.chunks(SECTOR).filter(|sector| sector[0] != 0).count();
    for sector in 0..used {
        place.write("log", &sound);
        harm(&place, sector);
        let answer = json(&place, &first, &second);
        match answer.status {
            12 => assert!(answer.out.is_empty()),
            status => {
                assert!([1, 33].contains(&status), "{answer:?}");
                let text = answer.text();
                let known = |line: &&str| !line.contains("\"unreadable\"");
                for line in text.lines().filter(known) {
                    assert!(whole.contains(&line), "{sector}: {line}");
                }
                let all = whole
                    .iter()
                    .all(|row| text.lines().any(|line| line == *row));
                assert_eq!(status == 1, all, "{sector}: {text}");
            }
        }
    }
}

#[test]
fn odd_names() {
    let names = ["ä \"b\" \\", "\u{1b}[2J", "\u{202e}cba", "漢"];
    let place = place(&names.map(|name| (name, "1")));
    place.write("x", "2");
    let first = save(&place, &["x"]);
    let second = save(&place, &[&["x"], &names[..]].concat());
    let told = r#"{"name":"ä \"b\" \\","change":"added"}
{"name":"\u001b[2J","change":"added"}
{"name":"\u202ecba","change":"added"}
{"name":"漢","change":"added"}
"#;
    rows(json(&place, &first, &second), 1, told);
    let told = "added       ä \"b\" \\\\\nadded       \\u{1b}[2J\nadded       \\u{202e}cba\nadded       漢\n";
    rows(diff(&place, &first, &second), 1, told);
}

#[test]
fn roots_of_another_make() {
    let (place, first, _) = two_days();
    let mut root = vec![0; 300];
    root[1] = 2;
    let other = place.put_as("root", &root);
    for (one, two) in [(&first, &other), (&other, &first), (&other, &other)] {
        diff(&place, one, two).fails(16, "is no root that `skywimple save` made");
    }
    diff(&place, &first, &score(b"never")).fails(11, "the root block ");
    diff(&place, &first, "abc").fails(64, "a score is 40 hex digits, not abc");
    diff(&place, "abc", &first).fails(64, "a score is 40 hex digits, not abc");
    place
        .run(&["diff", "none", &first, &first])
        .fails(66, "none");
}

/// A root over a directory of one block with these entries, as `save` makes it but for the dsize.
fn root_over(place: &Place, dsize: u16, entries: &[u8]) -> String {
    place.put_as("dir", entries);
    let (size, score) = (entries.len() as u64, boundary::sha1(entries));
    let mut directory = vec![0, 0, 0, 0, 0xe0, 0];
    directory.extend(dsize.to_be_bytes());
    directory.extend([3, 0, 0, 0, 0, 0]);
    directory.extend(&size.to_be_bytes()[2..]);
    directory.extend(score);
    place.put_as("dir", &directory);
    let mut root = vec![0; 300];
    root[1] = 2;
    root[130..144].copy_from_slice(b"skywimple save");
    root[258..278].copy_from_slice(&boundary::sha1(&directory));
    place.put_as("root", &root)
}

/// Directories of other shapes are not opened pairwise: what is unread in both is not known to be one.
#[test]
fn unread_in_other_shapes() {
    let place = Place::with_log(40);
    let (ones, twos) = ([1; 3 * 40], [2; 3 * 40]);
    let first = root_over(&place, 57_320, &ones);
    for dsize in [57_320, 57_280] {
        let second = root_over(&place, dsize, &twos);
        let sound = place.file("log");
        harm(&place, sector_of(&place, &score(&ones)));
        harm(&place, sector_of(&place, &score(&twos)));
        let answer = json(&place, &first, &second).with(33).text();
        assert_eq!(answer.matches("\"change\":\"unreadable\"").count(), 4);
        place.write("log", sound);
    }
}
