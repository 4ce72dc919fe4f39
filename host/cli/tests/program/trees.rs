//! `read` and `walk` over trees that were stored with `put`.

use std::thread;
use std::time::{Duration, Instant};

use crate::common::*;

const DIRECTORY: u8 = 0b11;

/// An entry of 40 bytes: psize 40, so two scores in a pointer block.
fn entry(flags: u8, depth: u8, dsize: u16, size: u64, score: &str) -> Vec<u8> {
    let mut bytes = vec![0; 40];
    bytes[4..6].copy_from_slice(&40_u16.to_be_bytes());
    bytes[6..8].copy_from_slice(&dsize.to_be_bytes());
    bytes[8] = flags | depth << 2;
    bytes[14..20].copy_from_slice(&size.to_be_bytes()[2..]);
    bytes[20..].copy_from_slice(&unhex(score));
    bytes
}

fn unhex(text: &str) -> Vec<u8> {
    let digits = |at| u8::from_str_radix(&text[at..at + 2], 16).unwrap();
    (0..text.len()).step_by(2).map(digits).collect()
}

/// Stores a file of depth 2 with leaves of 500 bytes: two, none (a hole), and one that is cut.
fn file(place: &Place) -> (Vec<u8>, Vec<u8>) {
    let leaves = [block(1, 500), block(2, 500), Vec::new(), block(3, 100)];
    let scores: Vec<_> = leaves.iter().map(|leaf| unhex(&place.put(leaf))).collect();
    let low = [scores[..2].concat(), scores[2..].concat()];
    let low = low.map(|pointers| unhex(&place.put_as("ptr1", &pointers)));
    let top = place.put_as("ptr2", &low.concat());
    let mut bytes = leaves[..2].concat();
    bytes.resize(1500, 0);
    bytes.extend(&leaves[3]);
    bytes.resize(1900, 0);
    (entry(1, 2, 500, 1900, &top), bytes)
}

#[test]
fn a_file_through_its_tree() {
    let place = Place::with_log(40);
    let (entry, bytes) = file(&place);
    let read = |entry: &str| place.run(&["read", "log", entry]);
    let answer = read(&hex(&entry)).with(0);
    assert_eq!(answer.out, bytes);
    assert_eq!(answer.err, "");
    assert_eq!(read(&hex(&entry).to_uppercase()).with(0).out, bytes);
    place.write("entry", &entry);
    assert_eq!(read("entry").with(0).out, bytes);
    read("none").fails(66, "80 hex digits or a file");
}

/// Reading stops where a leaf is lost; what comes before it is right.
#[test]
fn a_file_with_a_lost_leaf() {
    let place = Place::with_log(40);
    let (entry, bytes) = file(&place);
    let entry = hex(&entry);
    place.damage(|log| log[3 * SECTOR + 100] ^= 1); // in the second leaf, sectors 2 and 3
    let answer = place.run(&["read", "log", &entry]).with(12);
    assert_eq!(answer.out, bytes[..500]);
    let lost = score(&block(2, 500));
    for told in [
        format!("reading stopped at offset 500, at the data block {lost}: not known (12)"),
        format!("skywimple get COPY {lost} --type data"),
    ] {
        assert!(answer.err.contains(&told), "{told}: {answer:?}");
    }
    place.put(&block(2, 500));
    assert_eq!(place.run(&["read", "log", &entry]).with(0).out, bytes);
}

/// The pointer block that is lost is named, of whatever level.
#[test]
fn a_file_with_a_lost_pointer_block() {
    let names = ["data", "data", "data", "ptr1", "ptr1", "ptr2"];
    // Where the blocks of the file start, and the offset that each is needed for first.
    let places = [(0, 0), (2, 500), (4, 1500), (5, 0), (6, 1000), (7, 0)];
    for (kind, (sector, offset)) in names.iter().zip(places) {
        let place = Place::with_log(40);
        let (entry, _) = file(&place);
        let log = place.file("log");
        let label = String::from_utf8_lossy(&log[sector * SECTOR..][..110]).into_owned();
        let lost = label.lines().last().unwrap().replace("score=", "");
        place.damage(|log| log[sector * SECTOR + 90] ^= 1);
        let answer = place.run(&["read", "log", &hex(&entry)]).with(12);
        let told = format!("reading stopped at offset {offset}, at the {kind} block {lost}: ");
        assert!(answer.err.contains(&told), "{told}: {answer:?}");
    }
}

#[test]
fn entries_that_cannot_be_read() {
    let place = Place::with_log(40);
    let (good, _) = file(&place);
    let read = |entry: &[u8]| place.run(&["read", "log", &hex(entry)]);
    let mut inactive = good.clone();
    inactive[8] = 0;
    let told = "reading stopped at offset 0: ill-formed entry or root (16)";
    read(&inactive).fails(16, told);
    for length in [0, 39, 41, 5000] {
        place.write("entry", vec![1; length]);
        place.run(&["read", "log", "entry"]).fails(16, told);
    }
    let odd = place.put_as("ptr1", &[7; 39]);
    let told = format!("at the ptr1 block {odd}: ill-formed pointer block (18)");
    read(&entry(1, 1, 500, 700, &odd)).fails(18, &told);
    let never = score(b"never stored");
    let told = format!("offset 0, at the data block {never}: not held (11)");
    read(&entry(1, 0, 500, 500, &never)).fails(11, &told);
    let long = place.put(&block(9, 501));
    let told = format!("at the data block {long}: block longer than asked for (13)");
    let answer = read(&entry(1, 0, 500, 500, &long)).fails(13, &told);
    assert!(!answer.err.contains("--count"), "{answer:?}");
    assert!(read(&entry(1, 0, 500, 0, &long)).with(0).out.is_empty());
}

/// A long hole is more than one page.
#[test]
fn a_file_of_zeros() {
    let place = Place::with_log(1);
    let mut hole = entry(1, 7, 57_344, 400_000, &score(b""));
    hole[4..6].copy_from_slice(&57_344_u16.to_be_bytes());
    let answer = place.run(&["read", "log", &hex(&hole)]).with(0);
    assert!(answer.out == vec![0; 400_000]);
}

/// A root over a directory with the file, an inactive entry and an empty directory.
fn root(place: &Place) -> String {
    let (file, _) = file(place);
    let below = place.put_as("dir", &[0; 40]);
    let folder = entry(DIRECTORY, 0, 400, 400, &below);
    let top = place.put_as("dir", &[file, vec![0; 40], folder].concat());
    let mut bytes = vec![0; 300];
    bytes[1] = 2;
    bytes[258..278].copy_from_slice(&unhex(&top));
    place.put_as("root", &bytes)
}

#[test]
fn a_walk() {
    let place = Place::with_log(40);
    let root = root(&place);
    let walk = |words: &[&str]| place.run(&[&["walk", "log", &root], words].concat());
    // The root, its directory, 3 pointer blocks, 4 leaves (one the zero score), the directory below.
    let all = "visits=10\ndone";
    let answer = walk(&[]).with(0);
    assert_eq!((answer.text().as_str(), answer.err.as_str()), (all, ""));
    assert_eq!(walk(&["--allowance", "10"]).with(0).text(), all);
    for allowance in 0..10 {
        let answer = walk(&["--allowance", &allowance.to_string()]).with(21);
        let visits = format!("visits={allowance}\ntype=");
        assert!(answer.text().starts_with(&visits), "{answer:?}");
        assert!(answer.err.contains("allowance used up (21)"), "{answer:?}");
    }
    for large in ["1000001", "99999999999999999999999"] {
        let answer = walk(&["--allowance", large]).with(23);
        assert_eq!(answer.text(), "visits=0");
        assert!(answer.err.contains("allowance too large (23)"));
    }
}

/// A tree with more visits than anyone has time for, though few blocks: a walk that asks for too many
/// is refused at once.
#[test]
fn too_large_an_allowance_for_a_huge_tree() {
    let place = Place::with_log(300);
    let mut score = place.put(b"leaf");
    for kind in ["ptr1", "ptr2", "ptr3", "ptr4", "ptr5", "ptr6", "ptr7"] {
        score = place.put_as(kind, &unhex(&score).repeat(500));
    }
    let mut file = entry(1, 7, 500, 0, &score);
    file[4..6].copy_from_slice(&10_000_u16.to_be_bytes());
    let top = place.put_as("dir", &file);
    let mut root = vec![0; 300];
    root[1] = 2;
    root[258..278].copy_from_slice(&unhex(&top));
    let root = place.put_as("root", &root);
    let words = ["walk", "log", &root, "--allowance", "18446744073709551615"];
    let mut child = place.command(&words).spawn().unwrap();
    let start = Instant::now();
    while child.try_wait().unwrap().is_none() {
        if start.elapsed() > Duration::from_secs(120) {
            child.kill().unwrap();
            panic!("it goes on");
        }
        thread::sleep(Duration::from_millis(10));
    }
    let output = child.wait_with_output().unwrap();
    assert_eq!(output.status.code(), Some(23));
    assert_eq!(output.stdout, b"visits=0\n");
}

#[test]
fn a_walk_that_is_refused() {
    let place = Place::with_log(40);
    let root = root(&place);
    let walk = |score: &str| place.run(&["walk", "log", score]);
    let refused = |root: &str, visits, number, kind: &str, score: &str, place: &str| {
        let answer = walk(root).with(number);
        let lines = format!("visits={visits}\ntype={kind}\nscore={score}");
        let doubt = if number == 12 {
            "\nfirst_doubtful=0"
        } else {
            ""
        };
        assert_eq!(answer.text(), lines + doubt);
        let told =
            format!("walking stopped at visit {visits}, at the {kind} block {score} ({place}): ");
        assert!(answer.err.contains(&told), "{told}: {answer:?}");
        answer.err
    };
    let never = score(b"never stored");
    let told = refused(&never, 1, 11, "root", &never, "the root");
    assert!(told.contains("not held (11)"), "{told}");
    let lost = score(&block(1, 500));
    place.damage(|log| log[100] ^= 1); // in the first leaf
    let told = refused(&root, 5, 12, "data", &lost, "entry 0, byte 0");
    assert!(told.contains("not known (12)"), "{told}");
    let fetch = format!("skywimple get COPY {lost} --type data > block");
    assert!(told.contains(&fetch), "{told}");
    place.put(&block(1, 500));
    assert_eq!(walk(&root).with(0).text(), "visits=10\ndone");

    let lost = score(&block(3, 100));
    place.damage(|log| log[4 * SECTOR + 100] ^= 1); // in the last
    refused(&root, 9, 12, "data", &lost, "entry 0, byte 1500");
    place.put(&block(3, 100));
    let below = score(&[0; 40]);
    place.damage(|log| log[8 * SECTOR + 100] ^= 1); // in the directory below
    refused(&root, 10, 12, "dir", &below, "entry 2, byte 0");
}

/// Long work at a terminal shows how far it has come, and about how long it takes.
#[test]
fn progress() {
    let place = Place::with_log(81_000);
    place.damage(|log| log[80_000 * SECTOR] = 1); // what is stored next is far away
    let leaf = place.put(&block(1, 300));
    let pointers = place.put_as("ptr1", &unhex(&leaf).repeat(2800));
    let mut far = entry(1, 1, 300, 2800 * 300, &pointers);
    far[4..6].copy_from_slice(&57_000_u16.to_be_bytes());
    let top = place.put_as("dir", &far);
    let mut root = vec![0; 300];
    root[1] = 2;
    root[258..278].copy_from_slice(&unhex(&top));
    let root = place.put_as("root", &root);
    let walk = ["walk", "log", &root];
    shows(&place, &walk, &["\r\x1b[Kwalking for ", " of about "]);
    let copy = ["copy", "log", &root, "log2"];
    shows(&place, &copy, &["\r\x1b[Kcopying for "]);
    let read = ["read", "log", &hex(&far)];
    shows(&place, &read, &[" of 840000 bytes read"]);
}

/// A command at a terminal shows all of this, and takes it away at the end. On a busy machine the clock may
/// come too late to show anything before the work is done; so there are ten attempts.
#[track_caller]
fn shows(place: &Place, command: &[&str], words: &[&str]) {
    let mut all = String::new();
    for _ in 0..10 {
        let (status, shown) = terminal::at_terminal(place.command(command));
        assert_eq!(status, 0, "{shown}");
        assert!(shown.is_empty() || shown.ends_with("\r\x1b[K"), "{shown}");
        if words.iter().all(|words| shown.contains(words)) {
            return;
        }
        all += &shown;
    }
    panic!("{words:?} is not in {all:?}");
}
