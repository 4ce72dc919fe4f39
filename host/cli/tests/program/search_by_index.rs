//! `search` with the log's index: the rows are those without it, and come in seconds from the longest log.

use std::fs;
use std::time::{Duration, Instant};

use crate::common::*;

/// Cards, and what is none: a text, more than 4,096 bytes, nothing.
fn files() -> Vec<(&'static str, Vec<u8>)> {
    let long: String = (0..257).map(|at| format!("K{at:07}=absent\n")).collect();
    vec![
        ("ada", b"K=absent\nVel=absent\n".to_vec()),
        ("ben", b"K=present\n".to_vec()),
        ("cid", b"".to_vec()),
        ("dan", b"K=maybe\n".to_vec()),
        ("eve", b"K=absent\n".to_vec()),
        ("fay", long.as_bytes()[..4096].to_vec()),
        ("gus", long.into_bytes()),
    ]
}

/// A folder with a log of them, and their root.
fn registry() -> (Place, String) {
    let place = Place::with_log(80);
    let files = files();
    for (name, bytes) in &files {
        place.write(name, bytes);
    }
    let names = files.iter().map(|(name, _)| *name);
    let words: Vec<_> = ["save", "log"].into_iter().chain(names).collect();
    let root = place.run(&words).with(0).text();
    (place, root)
}

/// Fails unless a search answers the same with the index, without it, and with one that is another log's.
fn agrees(place: &Place, root: &str, index: &[u8], foreign: &[u8]) -> Answer {
    let words = ["search", "log", root, "not Vel and not K"];
    place.write("log.index", index);
    let by_index = place.run(&words);
    place.write("log.index", foreign);
    let by_other = place.run(&words);
    fs::remove_file(place.path("log.index")).expect("it is there");
    let by_scan = place.run(&words);
    for other in [&by_index, &by_other] {
        assert_eq!(other.status, by_scan.status);
        assert_eq!(other.out, by_scan.out);
        assert_eq!(other.err, by_scan.err);
    }
    by_index
}

/// Whatever sector is damaged or zeroed, with the index as it was before.
#[test]
fn the_rows_of_a_damaged_log() {
    let (place, root) = registry();
    let (log, index) = (place.file("log"), place.file("log.index"));
    let elsewhere = Place::with_log(8);
    elsewhere.put(b"K=present\n");
    let foreign = elsewhere.file("log.index");
    let answer = agrees(&place, &root, &index, &foreign).with(33);
    let counts = "7 cards: 1 yes, 3 not known, 2 unreadable, 1 no\n";
    let text = String::from_utf8(answer.out).expect("text");
    assert!(text.ends_with(counts), "{text}");
    let changes: [fn(&mut [u8]); 2] = [|sector| sector[300] ^= 1, |sector| sector.fill(0)];
    for sector in 0..used(&log) {
        for change in changes {
            let mut damaged = log.clone();
            change(&mut damaged[sector * SECTOR..(sector + 1) * SECTOR]);
            place.write("log", damaged);
            agrees(&place, &root, &index, &foreign);
        }
    }
}

/// A sector whose check is right again.
fn checked(mut sector: Vec<u8>) -> Vec<u8> {
    sector.resize(499, 0);
    let check = format!("crc={:08x}\n", boundary::crc32(&sector));
    sector.extend(check.as_bytes());
    sector
}

/// Blocks of one sector each, so many from the first sector on.
fn front(blocks: usize) -> impl Iterator<Item = Vec<u8>> {
    (0..blocks).map(|at| {
        let data = format!("block {at:08}");
        let size = data.len();
        let label = format!(
            "date=20261116\nrec={at:08x}\npart=0000\nof=0001\ntype=0d\nsize={size:04x}\nscore={}\n{data}",
            score(data.as_bytes())
        );
        checked(label.into_bytes())
    })
}

/// The same sector, so many further on in a log.
fn moved(sector: &[u8], by: usize) -> Vec<u8> {
    let mut sector = sector[..499].to_vec();
    let digits = str::from_utf8(&sector[18..26]).expect("digits");
    let first = usize::from_str_radix(digits, 16).expect("digits") + by;
    sector[18..26].copy_from_slice(format!("{first:08x}").as_bytes());
    checked(sector)
}

/// Saves so many cards in a log of their own, and gives their root.
fn save_cards(place: &Place, cards: usize) -> String {
    let sectors = 2 * cards;
    place
        .run(&["init", "short", "--sectors", &sectors.to_string()])
        .with(0);
    let mut words = vec!["save".to_string(), "short".to_string()];
    for at in 0..cards {
        let (name, value) = (format!("donor{at:05}"), ["absent", "present"][at % 2]);
        place.write(&name, format!("Id{at:05}=present\nK={value}\n"));
        words.push(name);
    }
    place.run(&words).with(0).text()
}

/// 10,000 cards at the end of a log of 512 MiB, all other sectors of which are blocks of their own. Run it by
/// `cargo test --release -p skywimple --test program search_by_index -- --ignored --nocapture`.
#[test]
#[ignore = "it takes a minute and a gigabyte"]
fn ten_thousand_cards_in_the_longest_log() {
    const CARDS: usize = 10_000;
    let place = Place::new();
    let root = save_cards(&place, CARDS);
    let short = place.file("short");
    let cards = &short[..used(&short) * SECTOR];
    let before = MOST_SECTORS - cards.len() / SECTOR;
    let mut log: Vec<u8> = front(before).flatten().collect();
    log.extend(
        cards
            .chunks(SECTOR)
            .flat_map(|sector| moved(sector, before)),
    );
    place.write("log", &log);
    let started = Instant::now();
    let indexed = place.run(&["index", "log", "--adopt"]).with(0).text();
    println!("{indexed}: {:?}", started.elapsed());

    let timed = |query: &str| {
        let started = Instant::now();
        let answer = place.run(&["search", "log", &root, query]);
        println!("{query}: {:?}", started.elapsed());
        assert!(started.elapsed() < Duration::from_secs(60));
        answer
    };
    let half = timed("K").with(0).text();
    assert!(half.ends_with("5000 yes, 0 not known, 0 unreadable, 5000 no"));
    let open = timed("Vel").with(0).text();
    assert!(open.ends_with("0 yes, 10000 not known, 0 unreadable, 0 no"));
    // One card is damaged: it alone is unreadable.
    place.damage(|log| log[(before + CARDS / 2) * SECTOR + 300] ^= 1);
    let damaged = timed("K").with(33).text();
    assert!(damaged.contains(" 1 unreadable, "));
}
