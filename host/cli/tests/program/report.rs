//! `report`, its map and its picture.

use std::fs;
use std::os::unix::fs::symlink;
use std::process::Command;

use crate::common::*;

const BLANK: &str = "sectors=2\nused=0\nrecords=0\ndoubtful=0\nverdict=sound\n";

/// A log of 10 sectors: blocks in 0 and 1, in 2 to 4 and in 5, of which sector 3 is damaged.
fn damaged() -> Place {
    let place = Place::with_log(10);
    for (seed, length) in [500, 1000, 50].into_iter().enumerate() {
        place.put(&block(seed, length));
    }
    place.damage(|log| log[3 * SECTOR + 7] ^= 1);
    place
}

const DAMAGED: &str = "sectors=10\nused=6\nrecords=2\ndoubtful=3\nverdict=notknown\n";
const LEGEND: &str = "# sound 3, ? doubtful 3, . blank 4; 1 sector a cell\n";

#[test]
fn sound_and_not_known() {
    let blank = Place::with_log(2).run(&["report", "log"]).with(0);
    assert_eq!(blank.out, BLANK.as_bytes());
    let answer = damaged().run(&["report", "log"]).with(32);
    assert_eq!(answer.out, DAMAGED.as_bytes());
    let told = "skywimple: the first doubtful sector is 2, at byte 1024 of the log; \
                `skywimple list log` shows all of them\n";
    assert_eq!(answer.err, told);
}

#[test]
fn a_map_of_any_width() {
    let place = damaged();
    let map = |words: &[&str]| {
        let words = [&["report", "log", "--map"], words].concat();
        place.run(&words).with(32).text() + "\n"
    };
    let whole = format!("{DAMAGED}log: notknown\n 0 ##???#....\n{LEGEND}");
    assert_eq!(map(&[]), whole);
    let four = format!("{DAMAGED}log: notknown\n 0 ##??\n 4 ?#..\n 8 ..\n{LEGEND}");
    assert_eq!(map(&["--width", "4"]), four);
    assert_eq!(map(&["--width=4"]), four);
    let columns = place
        .command(&["report", "log", "--map"])
        .env("COLUMNS", "7")
        .output()
        .unwrap();
    assert_eq!(columns.stdout, four.as_bytes());
    let one = map(&["--width", "1"]);
    assert_eq!(one.lines().count(), 5 + 1 + 10 + 1);
    assert_eq!(map(&["--width", "99999999999999999999999"]), whole);
    let zero = ["report", "log", "--map", "--width", "0"];
    place.run(&zero).fails(64, "--width is at least 1");
}

/// Groups of sectors in at most 16 rows, the doubtful ones never hidden.
#[test]
fn a_map_of_a_larger_log() {
    let place = Place::with_log(1000);
    for seed in 0..10 {
        place.put(&block(seed, 38_900));
    }
    let used = 10 * 38_900_usize.div_ceil(PAYLOAD);
    place.damage(|log| log[500 * SECTOR] ^= 1);
    let answer = place.run(&["report", "log", "--map", "--width", "10"]);
    let text = answer.with(32).text();
    let rows: Vec<_> = text.lines().skip(6).collect();
    let group = 1000_usize.div_ceil(160);
    assert_eq!(rows.len(), 1000_usize.div_ceil(group).div_ceil(10) + 1);
    let mut cells = String::new();
    for (at, row) in rows[..rows.len() - 1].iter().enumerate() {
        let (number, signs) = row.split_at(5);
        assert_eq!(number, format!("{:>4} ", at * 10 * group));
        cells += signs;
    }
    let sign = |cell: usize| match cell * group..(cell + 1) * group {
        // The damaged block takes the sectors 500 to 599.
        sectors if sectors.start < 600 && sectors.end > 500 => '?',
        sectors if sectors.start < used => '#',
        _ => '.',
    };
    let expected: String = (0..cells.len()).map(sign).collect();
    assert_eq!(cells, expected);
    assert!(rows[rows.len() - 1].ends_with("7 sectors a cell"));
}

#[test]
fn a_picture() {
    let place = damaged();
    let draw = |file: &str| place.run(&["report", "log", "--svg", file]);
    let answer = draw("map.svg").with(32);
    assert_eq!(answer.out, DAMAGED.as_bytes(), "no map unless asked for");
    let picture = String::from_utf8(place.file("map.svg")).unwrap();
    assert!(picture.starts_with("<svg xmlns=\"http://www.w3.org/2000/svg\""));
    assert!(picture.ends_with("</svg>\n"));
    let title = "<title>The log log: notknown. # sound 3, ? doubtful 3, . blank 4;";
    assert!(picture.contains(title), "{picture}");
    // A square for each cell and each line of the legend, and the ground.
    assert_eq!(picture.matches("<rect").count(), 10 + 3 + 1);
    assert_eq!(picture.matches("<path").count(), 3 + 1, "crosses");
    for words in ["sound 3", "doubtful 3", "blank 4", "log: notknown", "0"] {
        assert!(picture.contains(&format!(">{words}</text>")), "{words}");
    }
    let rows = ["report", "log", "--svg", "rows.svg", "--width", "4"];
    place.run(&rows).with(32);
    let rows = String::from_utf8(place.file("rows.svg")).unwrap();
    for number in ["0", "4", "8"] {
        assert!(rows.contains(&format!(">{number}</text>")), "{number}");
    }
    draw("map.svg").with(32);
    assert_eq!(place.file("map.svg"), picture.as_bytes(), "overwritten");
    let nowhere = draw("no/such/folder.svg").with(74);
    assert!(
        nowhere.err.contains("cannot write no/such/folder.svg"),
        "{nowhere:?}"
    );
}

/// A picture is replaced whole, or stays.
#[test]
fn the_picture_before_stays() {
    let place = damaged();
    place.run(&["report", "log", "--svg", "map.svg"]).with(32);
    let before = place.file("map.svg");
    fs::hard_link(place.path("map.svg"), place.path("old.svg")).unwrap();
    symlink("map.svg", place.path("link.svg")).unwrap();
    let line = "trap '' XFSZ; ulimit -f 1; exec \"$0\" report log --svg map.svg --width 3";
    let mut shell = Command::new("sh");
    let shell = shell.args(["-c", line, PROGRAM]);
    let output = shell.current_dir(&place.folder).output().unwrap();
    assert_eq!(output.status.code(), Some(74), "{output:?}");
    let told = String::from_utf8(output.stderr).unwrap();
    assert!(told.contains("cannot write map.svg"), "{told}");
    assert_eq!(place.file("map.svg"), before);
    let names = ["link.svg", "log", "log.mark", "map.svg", "old.svg"];
    assert!(only(&place.folder, &names), "nothing is left over");
    // who has the old one open goes on reading it; a link is followed
    let other = ["report", "log", "--svg", "link.svg", "--width", "3"];
    place.run(&other).with(32);
    assert_ne!(place.file("map.svg"), before);
    assert_eq!(place.file("old.svg"), before);
    let link = fs::symlink_metadata(place.path("link.svg")).unwrap();
    assert!(link.is_symlink() && only(&place.folder, &names));
    place.run(&["report", "log", "--svg", "/dev/null"]).with(32);
}

/// With a dash the picture, and nothing else, goes to standard output.
#[test]
fn a_picture_on_standard_output() {
    let place = damaged();
    let draw = |more: &[&str]| place.run(&[&["report", "log", "--svg", "-"], more].concat());
    let answer = draw(&[]).with(32);
    assert!(answer.out.starts_with(b"<svg "), "{answer:?}");
    assert!(answer.out.ends_with(b"</svg>\n"));
    place.run(&["report", "log", "--svg", "map.svg"]).with(32);
    assert_eq!(answer.out, place.file("map.svg"));
    for more in ["--map", "--json"] {
        draw(&[more]).fails(64, "--svg - has standard output for the picture alone");
    }
    assert!(only(&place.folder, &["log", "log.mark", "map.svg"]));
}

/// A picture in the place of the log or of its mark would be the very loss.
#[test]
fn a_picture_never_overwrites_the_log() {
    let place = damaged();
    let before = (place.file("log"), place.file("log.mark"));
    fs::hard_link(place.path("log"), place.path("same")).unwrap();
    let whole = place.path("log").display().to_string();
    for file in ["log", "./log.mark", &whole, "same"] {
        let answer = place.run(&["report", "log", "--svg", file]);
        answer.fails(73, "--svg would overwrite the log");
    }
    assert_eq!((place.file("log"), place.file("log.mark")), before);
}

/// Nor the place of a mark that is missing, nor any file that is no picture.
#[test]
fn a_picture_overwrites_pictures_only() {
    let place = damaged();
    let draw = |file: &str| place.run(&["report", "log", "--svg", file]);
    for other in ["precious", "", "<sv", "<html>"] {
        place.write("other", other);
        draw("other").fails(73, "other is there already and no picture");
        assert_eq!(place.file("other"), other.as_bytes());
    }
    draw(".").fails(73, "no picture");
    for picture in ["<svg", "<?xml version=\"1.0\"?>\n<svg"] {
        place.write("other", picture);
        draw("other").with(32);
        assert!(place.file("other").ends_with(b"</svg>\n"));
    }
    draw("/dev/null").with(32);
    fs::remove_file(place.path("log.mark")).unwrap();
    fs::create_dir(place.path("folder")).unwrap();
    for mark in ["log.mark", "./folder/../log.mark"] {
        let words = ["report", "log", "--adopt", "--svg", mark];
        place.run(&words).fails(73, "--svg would overwrite the log");
    }
}

#[test]
fn maps_of_no_sectors() {
    let place = Place::with_log(0);
    let words = ["report", "log", "--map", "--svg", "map.svg"];
    let text = place.run(&words).with(0).text();
    assert!(text.ends_with("\nlog: sound\n# sound 0, ? doubtful 0, . blank 0; 1 sector a cell"));
    assert!(place.file("map.svg").ends_with(b"</svg>\n"));
}

/// The lines of `list` for the log above: text, then JSON.
#[test]
fn a_list() {
    let place = damaged();
    let scores = [0, 2].map(|seed| score(&block(seed, [500, 1000, 50][seed])));
    let answer = place.run(&["list", "log"]).with(32);
    let lines = [
        format!("       0  data        500  20261116  {}\n", scores[0]),
        "       2  doubtful      3  sectors, from byte 1024 on\n".to_string(),
        format!("       5  data         50  20261116  {}\n", scores[1]),
    ];
    assert_eq!(answer.text() + "\n", lines.concat());
    assert_eq!(answer.err, "");
    let answer = place.run(&["list", "log", "--json"]).with(32);
    let lines = [
        format!(
            r#"{{"sector":0,"type":"data","size":500,"date":"20261116","score":"{}"}}"#,
            scores[0]
        ),
        r#"{"sector":2,"count":3,"byte":1024}"#.to_string(),
        format!(
            r#"{{"sector":5,"type":"data","size":50,"date":"20261116","score":"{}"}}"#,
            scores[1]
        ),
    ];
    assert_eq!(answer.text(), lines.join("\n"));
}

/// Every type by its name; runs of doubtful sectors at the front, side by side and at the end.
#[test]
fn a_list_of_all_kinds() {
    let place = Place::with_log(40);
    assert_eq!(place.run(&["list", "log"]).with(0).out, b"");
    let kinds = ["root", "dir", "ptr1", "ptr7", "data"];
    for kind in kinds {
        place.put_as(kind, b"typed");
    }
    let text = place.run(&["list", "log"]).with(0).text();
    let typed: Vec<_> = text
        .lines()
        .map(|line| line.split_whitespace().nth(1).unwrap())
        .collect();
    assert_eq!(typed, kinds);
    place.put(&block(1, 900));
    place.damage(|log| {
        for sector in [0, 2, 3, 6] {
            log[sector * SECTOR + 1] ^= 1;
        }
        log[10 * SECTOR] = 7; // blank ones before it are doubtful too
    });
    let text = place.run(&["list", "log", "--json"]).with(32).text();
    let runs: Vec<_> = text.lines().filter(|line| line.contains("count")).collect();
    let expected = [(0, 1), (2, 2), (5, 6)];
    let expected = expected.map(|(at, count)| {
        let byte = at * SECTOR;
        format!(r#"{{"sector":{at},"count":{count},"byte":{byte}}}"#)
    });
    assert_eq!(runs, expected);
    let report = place.run(&["report", "log"]).with(32).text();
    assert!(report.contains("records=2\ndoubtful=9\n"), "{report}");
}

#[test]
fn a_report_as_json() {
    let json = |place: &Place| place.run(&["report", "log", "--json"]);
    let sound = json(&Place::with_log(2)).with(0);
    let expected = r#"{"sectors":2,"used":0,"records":0,"doubtful":0,"verdict":"sound","first_doubtful":null}"#;
    assert_eq!(sound.text(), expected);
    let place = damaged();
    let expected = r#"{"sectors":10,"used":6,"records":2,"doubtful":3,"verdict":"notknown","first_doubtful":2}"#;
    let answer = json(&place).with(32);
    assert_eq!(answer.text(), expected);
    assert_eq!(answer.err, "");
    place
        .run(&["report", "log", "--json", "--map"])
        .fails(64, "give --json or --map");
}

/// A name cannot write over the map.
#[test]
fn a_map_of_an_odd_name() {
    let place = Place::new();
    let name = "a\x1b[2J\nb\u{202e}";
    place.run(&["init", name, "--sectors", "2"]).with(0);
    let text = place.run(&["report", name, "--map"]).with(0).text();
    assert!(
        text.contains("\na\\u{1b}[2J\\nb\\u{202e}: sound\n0 ..\n"),
        "{text}"
    );
}
