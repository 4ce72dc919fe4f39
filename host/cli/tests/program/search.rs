//! `search` and `card`: a row for each card, and what an answer may never become.

use std::collections::BTreeMap;
use std::fs;
use std::os::unix::fs::{symlink, MetadataExt, PermissionsExt};
use std::process::Command;

use crate::common::*;

/// The cards of six donors.
const CARDS: [(&str, &str); 6] = [
    ("ada", "K=absent\nVel=absent\n"),
    ("ben", "K=absent\nVel=present\n"),
    ("cid", ""),
    ("dan", "Fya=present\nK=absent\nVel=absent\n"),
    ("eve", "K=absent\n"),
    ("fay", "K=present\n"),
];

const QUERY: &str = "not Vel and not K";

/// A folder with the cards, and the root that they were saved under.
fn registry() -> (Place, String) {
    let place = Place::with_log(40);
    for (name, card) in CARDS {
        place.write(name, card);
    }
    let root = save(&place);
    (place, root)
}

fn save(place: &Place) -> String {
    let names = CARDS.map(|(name, _)| name);
    let words = [&["save", "log"], &names[..]].concat();
    place.run(&words).with(0).text()
}

fn search(place: &Place, root: &str, more: &[&str]) -> Answer {
    place.run(&[&["search", "log", root, QUERY], more].concat())
}

/// The first sector of the block of these bytes.
fn sector_of(place: &Place, block: &[u8]) -> usize {
    let (log, line) = (place.file("log"), format!("score={}\n", score(block)));
    let mut sectors = log.chunks(SECTOR);
    let has = |sector: &[u8]| String::from_utf8_lossy(&sector[..120]).contains(&line);
    sectors.position(has).unwrap()
}

#[test]
fn the_table() {
    let (place, root) = registry();
    let answer = search(&place, &root, &[]).with(0);
    let table = "query: not Vel and not K

answer     name  why
yes        ada
yes        dan
not known  cid   nobody tested: Vel, K
not known  eve   nobody tested: Vel
no         ben
no         fay

6 cards: 2 yes, 2 not known, 0 unreadable, 2 no
";
    assert_eq!(String::from_utf8(answer.out).unwrap(), table);
    assert_eq!(answer.err, "");
    let json = search(&place, &root, &["--json"]).with(0);
    let objects = r#"{"name":"ada","answer":"yes"}
{"name":"dan","answer":"yes"}
{"name":"cid","answer":"not known","missing":["Vel","K"]}
{"name":"eve","answer":"not known","missing":["Vel"]}
{"name":"ben","answer":"no"}
{"name":"fay","answer":"no"}
"#;
    assert_eq!(String::from_utf8(json.out).unwrap(), objects);
}

/// Only those that could still change the answer are named.
#[test]
fn what_keeps_a_query_open() {
    let (place, root) = registry();
    let missing = |query: &str, card: &str| {
        let words = ["search", "log", &root, query, "--json"];
        let text = place.run(&words).with(0).text();
        let name = format!("{{\"name\":\"{card}\",");
        let line = text.lines().find(|line| line.starts_with(&name)).unwrap();
        line.replace(&name, "")
    };
    let open = |names: &str| format!("\"answer\":\"not known\",\"missing\":[{names}]}}");
    let query = "K and Jka or not Vel and Jkb";
    assert_eq!(missing(query, "ada"), open("\"Jkb\""));
    assert_eq!(missing(query, "ben"), "\"answer\":\"no\"}");
    assert_eq!(missing(query, "eve"), open("\"Vel\",\"Jkb\""));
    assert_eq!(missing(query, "fay"), open("\"Jka\",\"Vel\",\"Jkb\""));
    assert_eq!(missing("Vel or not Vel", "eve"), open("\"Vel\""));
    assert_eq!(missing("Vel or not Vel", "ada"), "\"answer\":\"yes\"}");
}

#[test]
fn a_damaged_card_is_no_answer() {
    type Change = fn(&mut [u8]);
    let changes: [Change; 4] = [
        |sector| sector[100] ^= 1, // in the card's own text
        |sector| sector[511] ^= 1,
        |sector| sector.fill(0),
        |sector| sector.fill(0xdb),
    ];
    let queries = ["Vel", "not Vel", QUERY, "Vel or not Vel", "Xga"];
    for change in changes {
        let (place, root) = registry();
        let sector = sector_of(&place, CARDS[3].1.as_bytes());
        place.damage(|log| change(&mut log[sector * SECTOR..(sector + 1) * SECTOR]));
        for query in queries {
            let words = ["search", "log", &root, query, "--json"];
            let json = place.run(&words).with(33).text();
            let row =
                format!(r#"{{"name":"dan","answer":"unreadable","number":12,"sector":{sector}}}"#);
            assert!(json.lines().any(|line| line == row), "{json}");
            assert_eq!(json.lines().count(), 6);
        }
        let answer = search(&place, &root, &[]).with(33);
        let row = format!(
            "unreadable  dan   refusal 12: a part of the log is damaged, first doubtful sector {sector}, byte {} of the log\n",
            sector * SECTOR
        );
        let text = answer.text();
        assert!(text.contains(&row), "{text}");
        let rows = text.lines().filter(|line| line.starts_with("unreadable"));
        assert!(rows.clone().count() == 1, "{text}");
        for row in rows {
            let other = ["yes", "not known", "no "]
                .iter()
                .find(|words| row.contains(**words));
            assert_eq!(other, None, "another answer's words: {row}");
        }
        assert!(text.contains("DO NOT READ IT AS ABSENT"), "{text}");
        let counts = "6 cards: 1 yes, 2 not known, 1 unreadable, 2 no";
        assert!(text.ends_with(counts), "{text}");
        assert!(
            answer.err.contains("1 card could not be read."),
            "{answer:?}"
        );
        assert_eq!(save(&place), root);
        search(&place, &root, &[]).with(0);
    }
}

/// The answers of a search, by place. None where it is refused as a whole.
fn answers_by_place(place: &Place, root: &str) -> Option<BTreeMap<usize, String>> {
    let answer = search(place, root, &["--json"]);
    if ![0, 33].contains(&answer.status) {
        assert!([12, 65].contains(&answer.status), "{answer:?}");
        assert!(answer.out.is_empty(), "{answer:?}");
        return None;
    }
    let known = |line: &str| {
        let name = CARDS
            .iter()
            .position(|(name, _)| line.contains(&format!("{{\"name\":\"{name}\",")));
        name.map(|at| at + 1).unwrap_or_else(|| {
            let (_, rest) = line.split_once("{\"name\":null,\"place\":").unwrap();
            rest.split_once(',').unwrap().0.parse().unwrap()
        })
    };
    let text = answer.text();
    let rows = text.lines().map(|line| {
        let (_, rest) = line.split_once("\"answer\":\"").unwrap();
        (known(line), rest.split_once('"').unwrap().0.to_string())
    });
    let rows: BTreeMap<_, _> = rows.collect();
    assert_eq!(rows.len(), CARDS.len(), "{text}");
    Some(rows)
}

/// Fails unless each file that is restored is the card of its name or place. How many are.
fn restores(place: &Place, root: &str) -> usize {
    let answer = place.run(&["restore", "log", root, "back"]);
    assert!([0, 12, 33, 65].contains(&answer.status), "{answer:?}");
    let Ok(files) = fs::read_dir(place.path("back")) else {
        return 0;
    };
    let mut count = 0;
    for file in files {
        let name = file.unwrap().file_name().into_string().unwrap();
        let found = (1..)
            .zip(CARDS)
            .find(|(at, (card, _))| name == *card || name == format!("name-lost-{at}"));
        let (_, (_, card)) = found.unwrap();
        assert_eq!(place.file(&format!("back/{name}")), card.as_bytes());
        count += 1;
    }
    fs::remove_dir_all(place.path("back")).unwrap();
    count
}

/// Whatever sectors are damaged: a card's answer is what it was, or it is unreadable, or nothing at all
/// is answered; and what is restored is what was saved.
#[test]
fn no_damage_changes_an_answer() {
    let (place, root) = registry();
    let log = place.file("log");
    let before = answers_by_place(&place, &root).unwrap();
    let used = log
        .chunks(SECTOR)
        .filter(|sector| **sector != [0; SECTOR])
        .count();
    // Each sector alone, and then some of them at once, by the bits of a number.
    let sets = (0..used).map(|sector| 1 << sector);
    let sets = sets.chain((1..40_usize).map(|at| at.wrapping_mul(0x9e37_79b9) >> 7));
    let (mut refused, mut unreadable, mut restored) = (0, 0, 0);
    for (set, zeroed) in sets.flat_map(|set| [(set, false), (set, true)]) {
        let mut damaged = log.clone();
        for sector in (0..used).filter(|sector| set >> sector & 1 == 1) {
            match zeroed {
                true => damaged[sector * SECTOR..(sector + 1) * SECTOR].fill(0),
                false => damaged[sector * SECTOR + 97] ^= 0x20,
            }
        }
        place.write("log", damaged);
        match answers_by_place(&place, &root) {
            None => refused += 1,
            Some(rows) => {
                for (place, found) in rows {
                    let same = before[&place] == found;
                    assert!(same || found == "unreadable", "{set:b}: {place} {found}");
                    unreadable += usize::from(found == "unreadable");
                }
            }
        }
        restored += restores(&place, &root);
    }
    assert!(
        refused >= 3 && unreadable >= 8 && restored >= 50,
        "{refused} {unreadable} {restored}"
    );
}

#[test]
fn files_that_are_no_cards() {
    let place = Place::with_log(100);
    place.write("good", "A=absent\n");
    place.write("order", "A=absent\nC=absent\nB=absent\n");
    place.write("windows", "A=absent\r\n");
    place.write("long", "A1=absent\n".repeat(500));
    let words = ["save", "log", "good", "order", "windows", "long"];
    let root = place.run(&words).with(0).text();
    let search = ["search", "log", &root, "not A"];
    let answer = place.run(&search).with(33);
    let text = answer.text();
    for row in [
        "yes         good\n",
        "unreadable  order    refusal 25 (not a card): line 3, byte 1: `B` cannot come after `C`; ",
        "unreadable  windows  refusal 25 (not a card): line 1, byte 9: a line feed must stand here, and \
         not a carriage return",
        "unreadable  long     refusal 25 (not a card): it has 5000 bytes, and a card has at most 4,096\n",
        "4 cards: 1 yes, 0 not known, 3 unreadable, 0 no",
    ] {
        assert!(text.contains(row), "{row}: {text}");
    }
    let advice = "3 cards could not be read. `skywimple card FILE` says what is wrong";
    assert!(answer.err.contains(advice), "{answer:?}");
    let json = place
        .run(&[&search[..], &["--json"]].concat())
        .with(33)
        .text();
    let row = r#"{"name":"order","answer":"unreadable","number":25,"sector":null}"#;
    assert!(json.lines().any(|line| line == row), "{json}");
}

/// Before any card is read; with the place of the first error.
#[test]
fn ill_formed_queries() {
    let (place, root) = registry();
    let deep = "( ".repeat(17) + "A" + &" )".repeat(17);
    let long = "not ".repeat(64) + "A";
    let cases = [
        (
            "",
            "at byte 1: a name, `not` or `(` must stand here, and the query is empty. ",
        ),
        (
            "Vel and",
            "at byte 8: a name, `not` or `(` must stand here, and the query ends. ",
        ),
        ("Vel  and K", "at byte 5: "),
        (
            "Vel K",
            "at byte 5: `and` or `or` must stand here, or the end, and not `K`. ",
        ),
        ("(Vel)", "at byte 1: "),
        ("Vel and )", "at byte 9: "),
        (
            "( Vel",
            "at byte 6: `and`, `or` or `)` must stand here, and the query ends. ",
        ),
        ("Vel-1", "at byte 1: a name has only letters"),
        (
            "antigen12",
            "at byte 1: a name has at most 8 letters and digits",
        ),
        (&deep, "at byte 33: at most 16 brackets may be open"),
        (&long, "at byte 257: a query has at most 256 bytes"),
        ("\u{e4}", "at byte 1: "),
        (
            &"A".repeat(16),
            "8 letters and digits, and not `AAAAAAAAAAAAAAAA`. ",
        ),
        (
            &"A".repeat(100_000),
            "8 letters and digits, and not `AAAAAAAAAAAAAAAA...`. ",
        ),
    ];
    for (query, place_of) in cases {
        for target in [&root[..], &score(b"never"), &"0".repeat(80)] {
            let words = ["search", "log", target, query];
            let answer = place.run(&words).fails(26, place_of);
            assert!(
                answer.err.contains("This is not a query (26): "),
                "{answer:?}"
            );
        }
    }
    for (target, status, words) in [
        (
            "abc",
            64,
            "ROOT is a root's score, 40 hex digits, or a card's entry, 80, not abc",
        ),
        (&score(b"never"), 11, "the root block "),
        (&score(b""), 16, "is no root that `skywimple save` made"),
    ] {
        place
            .run(&["search", "log", target, "A"])
            .fails(status, words);
    }
}

#[test]
fn one_card_by_its_entry() {
    let (place, _) = registry();
    let entry = place.run(&["put-file", "log", "eve"]).with(0).text();
    let json = search(&place, &entry, &["--json"]).with(0).text();
    let row = format!(r#"{{"name":"{entry}","answer":"not known","missing":["Vel"]}}"#);
    assert_eq!(json, row);
    let counts = "\n1 card: 0 yes, 1 not known, 0 unreadable, 0 no";
    assert!(search(&place, &entry, &[]).with(0).text().ends_with(counts));
    let never = format!("{}{}", &entry[..40], score(b"never"));
    let json = search(&place, &never, &["--json"]).with(33).text();
    let row = format!(r#"{{"name":"{never}","answer":"unreadable","number":11,"sector":null}}"#);
    assert_eq!(json, row);
    let inactive = "0".repeat(80);
    let text = search(&place, &inactive, &[]).with(33).text();
    assert!(
        text.contains("refusal 16 (ill-formed entry or root)\n"),
        "{text}"
    );
    // The log is sound, so nothing is said of doubtful sectors.
    for (entry, advice) in [
        (&never, "A block of a card is not held in this log: "),
        (&inactive, "check the entry that was given."),
    ] {
        let answer = search(&place, entry, &[]).with(33);
        assert!(answer.err.contains(advice), "{answer:?}");
        assert!(!answer.err.contains("doubtful"), "{answer:?}");
    }
}

const ODD: &str = "a\"b\\c <script>&amp;'\t\u{1b}[2J\u{202e}\u{e4}";

/// A row is a row, and a string a string, whatever a card is called.
#[test]
fn odd_names() {
    let place = Place::with_log(40);
    place.write(ODD, "A=absent\n");
    let root = place.run(&["save", "log", ODD]).with(0).text();
    let search = ["search", "log", &root, "not A"];
    let text = place.run(&search).with(0).text();
    let shown = "a\"b\\\\c <script>&amp;'\\t\\u{1b}[2J\\u{202e}\u{e4}";
    assert!(text.contains(&format!("\nyes     {shown}\n")), "{text}");
    let json = place.run(&[&search[..], &["--json"]].concat()).with(0);
    let name = r#""a\"b\\c <script>&amp;'\u0009\u001b[2J\u202eä""#;
    assert_eq!(json.text(), format!(r#"{{"name":{name},"answer":"yes"}}"#));
    place
        .run(&[&search[..], &["--html", "page.html"]].concat())
        .with(0);
    let page = String::from_utf8(place.file("page.html")).unwrap();
    let cell = "<td class=\"name\">a&quot;b\\\\c &lt;script&gt;&amp;amp;&#39;\\t\\u{1b}[2J\\u{202e}\u{e4}</td>";
    assert!(page.contains(cell), "{page}");
    assert!(!page.contains("<script"), "{page}");
}

/// Names that differ only in what cannot be seen.
const ALIKE: [(&str, &str); 12] = [
    ("a b", "a b"),
    (" a b", "\\u{20}a b"),
    ("a b ", "a b\\u{20}"),
    ("a  b", "a \\u{20}b"),
    ("a\u{a0}b", "a\\u{a0}b"),
    ("a\\u{a0}b", "a\\\\u{a0}b"),
    ("a\u{200b} b", "a\\u{200b} b"),
    ("a\u{ad} b", "a\\u{ad} b"),
    ("a\u{feff} b", "a\\u{feff} b"),
    ("a\u{e0041} b", "a\\u{e0041} b"),
    ("a\u{ffff} b", "a\\u{ffff} b"),
    ("(name lost: file 1)", "\\u{28}name lost: file 1)"),
];

#[test]
fn no_two_names_look_alike() {
    let place = Place::with_log(40);
    for (name, _) in ALIKE {
        place.write(name, "A=absent\n");
    }
    let names = ALIKE.map(|(name, _)| name);
    let root = place.run(&[&["save", "log"], &names[..]].concat());
    let root = root.with(0).text();
    let words = ["search", "log", &root, "not A", "--html", "page.html"];
    let text = place.run(&words).with(0).text();
    let page = String::from_utf8(place.file("page.html")).unwrap();
    for (_, shown) in ALIKE {
        assert!(text.contains(&format!("\nyes     {shown}\n")), "{text}");
        let cell = format!("<td class=\"name\">{shown}</td>");
        assert!(page.contains(&cell), "{cell}: {page}");
    }
    let help = place.run(&["search", "--help"]).with(0).text();
    for part in ["as \\\\, ", "\\u{200b}", "\\u{20}", "--json keeps"] {
        assert!(help.contains(part), "{part}: {help}");
    }
}

/// The page stands alone, says the same as the table, and says it in words.
#[test]
fn a_page() {
    let (place, root) = registry();
    let sector = sector_of(&place, CARDS[3].1.as_bytes());
    place.damage(|log| log[sector * SECTOR + 100] ^= 1);
    let table = search(&place, &root, &[]).with(33).out;
    let answer = search(&place, &root, &["--html", "page.html"]).with(33);
    assert_eq!(answer.out, table, "the table too");
    let page = String::from_utf8(place.file("page.html")).unwrap();
    assert!(page.starts_with("<!doctype html>\n<html lang=\"en\">"));
    assert!(page.ends_with("</html>\n"));
    for outside in ["http", "src=", "href=", "url(", "@import", "<script"] {
        assert!(!page.contains(outside), "{outside}");
    }
    let why = format!(
        "refusal 12: a part of the log is damaged, first doubtful sector {sector}, byte {} of the log",
        sector * SECTOR
    );
    let row = |answer: &str, name: &str, why: &str| {
        format!("<tr><td>{answer}</td><td class=\"name\">{name}</td><td>{why}</td></tr>")
    };
    let mut rest = &page[..];
    for part in [
        "<title>Card search of 2026-11-16: not Vel and not K</title>".to_string(),
        "<dt>Query</dt><dd>not Vel and not K</dd>".to_string(),
        "<dt>Searched on</dt><dd>2026-11-16 (UTC)</dd>".to_string(),
        "DO NOT READ IT AS ABSENT".to_string(),
        ">yes: 1<".to_string(),
        row("yes", "ada", ""),
        ">not known: 2<".to_string(),
        row("not known", "cid", "nobody tested: Vel, K"),
        row("not known", "eve", "nobody tested: Vel"),
        ">unreadable: 1<".to_string(),
        row("unreadable", "dan", &why),
        ">no: 2<".to_string(),
        row("no", "ben", ""),
        row("no", "fay", ""),
        "6 cards: 1 yes, 2 not known, 1 unreadable, 2 no".to_string(),
    ] {
        let at = rest.find(&part).unwrap_or_else(|| panic!("{part}: {page}"));
        rest = &rest[at + part.len()..];
    }
    let dash = search(&place, &root, &["--html", "-"]).with(33);
    assert_eq!(String::from_utf8(dash.out).unwrap(), page);
    search(&place, &root, &["--html", "-", "--json"]).fails(64, "for the page alone");
    search(&place, &root, &["--html", "page.html"]).with(33);
    assert_eq!(
        String::from_utf8(place.file("page.html")).unwrap(),
        page,
        "overwritten"
    );
}

#[test]
fn a_page_overwrites_pages_only() {
    let (place, root) = registry();
    let before = (place.file("log"), place.file("log.mark"));
    place.write("mine", "my letter");
    let page = |file: &str| search(&place, &root, &["--html", file]);
    page("mine").fails(73, "mine is there already and no page");
    fs::hard_link(place.path("log"), place.path("same")).unwrap();
    for file in ["log", "same", "log.mark", "./log.mark"] {
        page(file).fails(73, "--html would overwrite the log");
    }
    assert_eq!(place.file("mine"), b"my letter");
    assert!((place.file("log"), place.file("log.mark")) == before);
    let nowhere = page("no/such/page.html").with(74);
    assert!(nowhere.out.is_empty(), "{nowhere:?}");
}

/// A page is replaced whole, or stays.
#[test]
fn the_page_before_stays() {
    let (place, root) = registry();
    search(&place, &root, &["--html", "page.html"]).with(0);
    let before = place.file("page.html");
    let names = ["page.html", "old.html", "link.html"].map(|name| place.path(name));
    fs::hard_link(&names[0], &names[1]).unwrap();
    fs::set_permissions(&names[0], fs::Permissions::from_mode(0o604)).unwrap();
    symlink("page.html", &names[2]).unwrap();
    let files: Vec<_> = fs::read_dir(&place.folder).unwrap().collect();

    // Searches that are refused, one whose root is lost, and one that may not write so much.
    let bad = ["search", "log", &root, "not", "--html", "page.html"];
    place.run(&bad).fails(26, "at byte 4");
    search(&place, &score(b"never"), &["--html", "page.html"]).fails(11, "the root block");
    let mut shell = Command::new("sh");
    let line = "trap '' XFSZ; ulimit -f 2; exec \"$0\" search log \"$1\" A --html page.html";
    shell.args(["-c", line, PROGRAM, &root]);
    let output = shell.current_dir(&place.folder).output().unwrap();
    assert_eq!(output.status.code(), Some(74), "{output:?}");
    assert!(output.stdout.is_empty(), "{output:?}");
    let told = String::from_utf8(output.stderr).unwrap();
    assert!(told.contains("cannot write page.html"), "{told}");
    assert_eq!(place.file("page.html"), before);
    let now = fs::read_dir(&place.folder).unwrap().count();
    assert_eq!(now, files.len(), "nothing is left over");

    // Who has the old page open goes on reading it. A link is followed.
    let words = ["search", "log", &root, "not Vel", "--html", "link.html"];
    place.run(&words).with(0);
    let page = String::from_utf8(place.file("page.html")).unwrap();
    assert!(page.contains("<dd>not Vel</dd>"), "{page}");
    assert_eq!(place.file("old.html"), before);
    assert!(fs::symlink_metadata(&names[2]).unwrap().is_symlink());
    assert_eq!(fs::metadata(&names[0]).unwrap().mode() & 0o777, 0o604);
    let now = fs::read_dir(&place.folder).unwrap().count();
    assert_eq!(now, files.len(), "nothing is left over");
    search(&place, &root, &["--html", "/dev/null"]).with(0);
}

#[test]
fn whether_a_file_is_a_card() {
    let place = Place::new();
    let card = |text: &str| {
        place.write("card", text);
        place.run(&["card", "card"])
    };
    for (text, antigens) in [
        ("", "0 antigens"),
        ("Vel=absent\n", "1 antigen"),
        ("A=present\nA1=absent\nB=absent\na=present\n", "4 antigens"),
    ] {
        let answer = card(text).with(0);
        assert_eq!(answer.text(), format!("card: a card, {antigens}"));
        assert_eq!(answer.err, "");
    }
    for (text, words) in [
        (
            "donor: Ada\n",
            "card: line 1, byte 6: `=` must stand here, and not `:`. ",
        ),
        (
            "A=absent\nVel=not tested\n",
            "card: line 2, byte 5: `present` or `absent` must stand here. ",
        ),
        (
            "B=absent\nA=absent\n",
            "card: line 2, byte 1: `A` cannot come after `B`; ",
        ),
        (
            "A=absent",
            "card: line 1, byte 9: a line feed must stand here, and the card ends. ",
        ),
        (
            "or=absent\n",
            "card: line 1, byte 1: `or` is a word of queries and names no antigen. ",
        ),
    ] {
        card(text)
            .fails(25, words)
            .fails(25, "This is not a card (25): ");
    }
    let lines: String = (0..400).map(|at| format!("A{at:05}=absent\n")).collect();
    card(&lines[..292 * 14]).with(0);
    card(&lines).fails(
        25,
        "card: line 293, byte 9: a card has at most 4,096 bytes. ",
    );
    let fed = place.feed(&["card", "-"], b"A=absent\n").with(0);
    assert_eq!(fed.text(), "standard input: a card, 1 antigen");
    place
        .feed(&["card", "-"], b"A\n")
        .fails(25, "standard input: line 1, byte 2: ");
    place.run(&["card", "none"]).fails(66, "cannot open none");
    place.run(&["card", "."]).fails(74, "cannot read .");
}
