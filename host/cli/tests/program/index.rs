//! The index beside a log: made by the first writer, kept by all, made anew where it is missing or another
//! log's. Whatever it holds, no answer changes.

use std::fs;
use std::os::unix::fs::{symlink, FileTypeExt, MetadataExt};
use std::process::Command;

use crate::common::*;

/// The lines before the index, the bytes of an entry, and of an index with one place in each bucket.
const FRONT: usize = 59;
const ENTRY: usize = 25;
const ONE: usize = 256 * ENTRY;

/// The entries of an index: place, type and score, sector.
fn entries(index: &[u8]) -> Vec<(Vec<u8>, u8, u32)> {
    let buckets = &index[FRONT..];
    let places = buckets.len() / ONE;
    let taken = buckets[..places * ONE].chunks(ENTRY).enumerate();
    let taken = taken.filter(|(_, entry)| entry.iter().any(|byte| *byte != 0));
    taken
        .map(|(at, entry)| {
            assert_eq!(at / places, usize::from(entry[0]), "its bucket");
            let sector = u32::from_be_bytes(entry[21..].try_into().unwrap());
            (entry[..20].to_vec(), entry[20], sector)
        })
        .collect()
}

/// A log with blocks of one and of three sectors.
fn stored() -> (Place, Vec<Vec<u8>>) {
    let place = Place::with_log(64);
    let blocks: Vec<_> = (0..6)
        .map(|seed| block(seed, 100 + 700 * (seed % 2)))
        .collect();
    for block in &blocks {
        place.put(block);
    }
    (place, blocks)
}

/// All that is asked of a log: reads of what is there and what is not, by `get` and over the wire.
fn answers(place: &Place, blocks: &[Vec<u8>]) -> Vec<(i32, Vec<u8>)> {
    let never = b"never stored".to_vec();
    let asked: Vec<_> = blocks.iter().chain([&never]).collect();
    let mut answers: Vec<_> = asked
        .iter()
        .map(|block| {
            let answer = place.get(&score(block));
            (answer.status, answer.out)
        })
        .collect();
    for options in [&["--read-only"][..], &[]] {
        let mut server = place.greeted(options);
        for block in &asked {
            answers.push((0, server.ask(&read_message(7, block))));
        }
        server.end();
    }
    answers
}

#[test]
fn made_by_the_first_writer_and_kept() {
    let place = Place::with_log(64);
    assert!(only(&place.folder, &["log", "log.mark"]), "none yet");
    assert!(!place.path("log.index").exists());
    let first = block(1, 1000);
    place.put(&first);
    let index = place.file("log.index");
    assert!(index.starts_with(b"skywimple-index\nused=00000003\nlast="));
    assert_eq!(entries(&index), [(boundary::sha1(&first).to_vec(), 13, 0)]);
    let identity = |file: &str| {
        let found = fs::metadata(place.path(file)).unwrap();
        (found.ino(), found.mode(), found.len())
    };
    assert_eq!(identity("log.index").1, identity("log").1);
    let before = identity("log.index");
    place.put(&first);
    assert_eq!(place.file("log.index"), index, "held already");
    let mut server = place.greeted(&[]);
    let more: Vec<_> = (2..9).map(|seed| block(seed, 10)).collect();
    for block in &more {
        assert_eq!(server.ask(&write_message(1, block)), write_reply(1, block));
        assert_eq!(
            server.ask(&read_message(1, block)),
            message(13, 1, block),
            "while it waits"
        );
    }
    assert_eq!(place.file("log.index"), index, "what waits is in no file");
    server.sync();
    server.rested();
    let mut found = entries(&place.file("log.index"));
    found.sort_by_key(|entry| entry.2);
    let sectors: Vec<_> = found.iter().map(|entry| entry.2).collect();
    assert_eq!(sectors, [0, 3, 4, 5, 6, 7, 8, 9]);
    for block in &more {
        assert_eq!(server.ask(&read_message(1, block)), message(13, 1, block));
    }
    assert_eq!(server.end().0, 0);
    assert_eq!(identity("log.index"), before, "written in place");
    assert!(only(&place.folder, &["log", "log.index", "log.mark"]));
}

/// Whatever stands in the index, or in its place: the answers are those without one.
#[test]
fn no_answer_changes() {
    let (place, blocks) = stored();
    let good = place.file("log.index");
    fs::remove_file(place.path("log.index")).unwrap();
    let expected = answers(&place, &blocks);
    assert!(expected.iter().any(|answer| answer.0 == 11));
    assert_eq!(place.file("log.index"), good, "made anew as it was");

    let other = {
        let place = Place::with_log(64);
        for block in blocks.iter().rev() {
            place.put(block);
        }
        place.file("log.index")
    };
    let front = &good[..FRONT];
    let mut state = 7_u64;
    let mut random = |length: usize| -> Vec<u8> {
        let mut next = || {
            state = state
                .wrapping_mul(6_364_136_223_846_793_005)
                .wrapping_add(1);
            (state >> 56) as u8
        };
        (0..length).map(|_| next()).collect()
    };
    let mut swapped = good.clone();
    for entry in swapped[FRONT..].chunks_mut(ENTRY) {
        if entry.len() == ENTRY && entry[20] != 0 {
            entry[24] ^= 1;
        }
    }
    let indexes = [
        b"".to_vec(),
        front[..20].to_vec(),
        front.to_vec(),
        [front, &random(6_399)].concat(),
        [front, &random(6_400)].concat(),
        [front, &random(20_000)].concat(),
        [front, &vec![0xff; 12_807]].concat(),
        good[..good.len() - 1].to_vec(),
        good[..FRONT + 6_400].to_vec(),
        [&good[..], &[1, 2, 3]].concat(),
        [front, &other[FRONT..]].concat(),
        swapped,
        other,
        random(30_000),
        place.file("log"),
    ];
    for (number, index) in indexes.iter().enumerate() {
        place.write("log.index", index);
        assert!(answers(&place, &blocks) == expected, "index {number}");
    }
}

/// The same of a damaged log: what is not known is not known.
#[test]
fn no_answer_changes_where_the_log_is_damaged() {
    let (place, blocks) = stored();
    place.damage(|log| log[2 * SECTOR + 200] ^= 1);
    let index = place.file("log.index");
    let with = answers(&place, &blocks);
    fs::remove_file(place.path("log.index")).unwrap();
    place.write("log.index", "no index, so none is made");
    assert_eq!(answers(&place, &blocks), with);
    assert!(with.iter().any(|answer| answer.0 == 12));
    // A block that is stored anew is found, beside the hint to the damaged one.
    place.write("log.index", index);
    place.put(&blocks[1]);
    place.reads(&score(&blocks[1]), &blocks[1]);
    let copies = entries(&place.file("log.index"));
    let again = boundary::sha1(&blocks[1]).to_vec();
    let copies = copies.iter().filter(|entry| entry.0 == again).count();
    assert_eq!(copies, 2, "nothing is replaced");
}

/// A file of that name that is no index is left alone, and so is what a link leads to.
#[test]
fn other_files_are_left_alone() {
    let (place, blocks) = stored();
    let late = format!("{}x", "\0".repeat(70_000));
    for other in ["precious", &late, "skywimple-index\nused=zzzzzzzz\n"] {
        fs::remove_file(place.path("log.index")).unwrap();
        place.write("log.index", other);
        place.put(&block(50, 5));
        place.reads(&score(&blocks[0]), &blocks[0]);
        assert_eq!(place.file("log.index"), other.as_bytes());
        let words = "log.index is there already and no index";
        place.run(&["index", "log"]).fails(73, words);
    }
    place.write("elsewhere", "precious");
    fs::remove_file(place.path("log.index")).unwrap();
    symlink("elsewhere", place.path("log.index")).unwrap();
    place.put(&block(51, 5));
    place.run(&["index", "log"]).fails(73, "no index");
    assert_eq!(place.file("elsewhere"), b"precious");
    // nor is it needed
    fs::remove_file(place.path("log.index")).unwrap();
    fs::create_dir(place.path("log.index")).unwrap();
    let more = block(52, 5);
    place.put(&more);
    place.reads(&score(&more), &more);
    place.run(&["index", "log"]).fails(73, "no index");
}

/// A pipe of that name is not opened: nobody waits for its other end.
#[test]
fn a_pipe_is_left_alone() {
    let (place, blocks) = stored();
    let expected = answers(&place, &blocks);
    fs::remove_file(place.path("log.index")).unwrap();
    let mut make = Command::new("mkfifo");
    let made = make.arg(place.path("log.index")).status();
    assert!(made.unwrap().success());
    assert_eq!(answers(&place, &blocks), expected);
    let more = block(53, 5);
    place.put(&more);
    place.reads(&score(&more), &more);
    place.run(&["index", "log"]).fails(73, "no index");
    let found = fs::metadata(place.path("log.index")).unwrap();
    assert!(found.file_type().is_fifo());
    // nor is one in place of the mark, or of the log
    let pipe = place.path("log.index");
    fs::rename(pipe, place.path("log.mark")).unwrap();
    for words in [&["report", "log"][..], &["put", "log", "log"]] {
        place.run(words).fails(74, "it is not a file");
    }
    fs::rename(place.path("log.mark"), place.path("log")).unwrap();
    place.run(&["report", "log"]).fails(66, "log is not a file");
}

/// A file that a power failure left empty or all zeros is no one's: the next writer makes the index.
#[test]
fn a_blank_one_is_made_anew() {
    let (place, blocks) = stored();
    let good = place.file("log.index");
    for length in [0, 1, FRONT, good.len(), 200_000] {
        place.write("log.index", vec![0; length]);
        place.reads(&score(&blocks[0]), &blocks[0]);
        assert_eq!(place.file("log.index"), vec![0; length], "only read");
        place.put(&blocks[0]);
        assert!(place.file("log.index") == good, "{length} zeros");
        place.write("log.index", vec![0; length]);
        place.run(&["index", "log"]).with(0);
        assert!(place.file("log.index") == good, "{length} zeros");
    }
}

/// Made anew when it is asked for; the same of the same log.
#[test]
fn made_anew() {
    let (place, blocks) = stored();
    let good = place.file("log.index");
    place.write("log.index", &good[..FRONT + 6_400]);
    let answer = place.run(&["index", "log"]).with(0);
    assert_eq!(answer.text(), "6 blocks in the index of log");
    assert_eq!(place.file("log.index"), good);
    fs::remove_file(place.path("log.index")).unwrap();
    place.run(&["index", "log"]).with(0);
    assert_eq!(place.file("log.index"), good);
    // one that lost hints is made anew by the next writer
    let mut holes = good.clone();
    holes[FRONT..FRONT + 30_000].fill(0);
    place.write("log.index", holes);
    place.put(&blocks[0]);
    assert_eq!(place.file("log.index"), good);
    // an older one is brought up to date by the next writer, by what came since
    let more = block(60, 900);
    place.put(&more);
    let newer = place.file("log.index");
    place.write("log.index", &good);
    place.reads(&score(&more), &more);
    place.put(&blocks[0]);
    assert_eq!(place.file("log.index"), newer);
    // a copy of a log needs none
    fs::copy(place.path("log"), place.path("copy")).unwrap();
    fs::copy(place.path("log.mark"), place.path("copy.mark")).unwrap();
    let read = place.run(&["get", "copy", &score(&more)]).with(0);
    assert_eq!(read.out, more);
    assert!(!place.path("copy.index").exists(), "reading makes none");
    let words = ["serve", "log", "--read-only"];
    place.feed(&words, &HELLO).with(0);
    place.run(&["index", "none"]).fails(66, "no such log");
}

/// It grows when it has more than half of the blocks that it was made for and a bucket is full.
#[test]
fn it_grows() {
    let place = Place::with_log(4_000);
    let mut server = place.greeted(&[]);
    server.store(0, &block(0, 9));
    server.rested();
    let small = place.file("log.index").len();
    for seed in 1..3_500 {
        let block = block(seed, 9);
        assert_eq!(
            server.ask(&write_message(1, &block)),
            write_reply(1, &block)
        );
    }
    server.sync();
    server.rested();
    let grown = place.file("log.index");
    assert!(grown.len() > small, "{} bytes", grown.len());
    assert!(entries(&grown).len() >= 3_490, "{}", entries(&grown).len());
    for seed in [0, 1, 600, 3_499] {
        let block = block(seed, 9);
        let reply = message(13, 1, &block);
        assert_eq!(server.ask(&read_message(1, &block)), reply);
        place.reads(&score(&block), &block);
    }
    assert_eq!(server.end().0, 0);
    place.run(&["index", "log"]).with(0);
    assert_eq!(entries(&place.file("log.index")).len(), 3_500);
}

/// A server that only reads follows the writer's blocks by hints of its own, and writes none.
#[test]
fn a_reader_follows() {
    let place = Place::with_log(64);
    let mut writer = place.greeted(&[]);
    writer.store(0, &block(0, 9));
    let mut reader = place.greeted(&["--read-only"]);
    for seed in 1..20 {
        let block = block(seed, 9);
        writer.store(1, &block);
        writer.rested();
        let index = place.file("log.index");
        let reply = message(13, 1, &block);
        assert_eq!(reader.ask(&read_message(1, &block)), reply);
        assert_eq!(place.file("log.index"), index);
    }
    assert_eq!(reader.end().0, 0);
    assert_eq!(writer.end().0, 0);
}

/// Two sound blocks of one score, as the archive would never store them: `get` answers as a server does that has
/// the same index, with the block that the index leads to, and without one with the first.
#[test]
fn get_where_blocks_clash() {
    let [one, other] = collision();
    let place = Place::with_log(8);
    let name = place.put(b"filler");
    assert_ne!(place.put(&other), name);
    let second = (place.file("log"), place.file("log.index"));
    let place = Place::with_log(8);
    let name = place.put(&one);
    assert_eq!(name, score(&other));
    let first = place.file("log.index");
    place.damage(|log| log[SECTOR..2 * SECTOR].copy_from_slice(&second.0[SECTOR..2 * SECTOR]));
    place.write("log.mark", mark(8, 2));
    for (index, expected) in [(&first, &one), (&second.1, &other)] {
        place.write("log.index", index);
        assert!(place.get(&name).with(0).out == *expected);
        let mut server = place.greeted(&["--read-only"]);
        assert!(server.ask(&read_message(7, &one)) == message(13, 7, expected));
        server.end();
    }
    fs::remove_file(place.path("log.index")).unwrap();
    assert!(place.get(&name).with(0).out == one);
}
