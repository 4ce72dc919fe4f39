//! `restore` of roots that someone else made: no path escapes, and no disk is filled; holes.

use std::fs;
use std::os::unix::fs::MetadataExt;

use crate::common::saved::*;
use crate::common::*;

/// A root that someone else made leads nowhere outside the folder.
#[test]
fn no_path_escapes() {
    let place = Place::with_log(200);
    let bad = [
        "../x\n", "/tmp/x\n", "a/b\n", "..\n", ".\n", "\n", "x\0\n", "x\nx\n", "x", "x\ny\n",
        "x/\n",
    ];
    for names in bad {
        let count = if names == "x\nx\n" { 2 } else { 1 };
        let root = root_over(&place, names, &entry_of(b"").repeat(count));
        for words in [
            &["restore", "log", &root, "back"][..],
            &["search", "log", &root, "K"],
        ] {
            place
                .run(words)
                .fails(16, "is no root that `skywimple save` made");
        }
        assert!(!place.path("back").exists(), "{names:?}");
    }
    let good = root_over(&place, "x\n..y\n", &entry_of(b"").repeat(2));
    place.run(&["restore", "log", &good, "back"]).with(0);
    assert!(only(&place.path("back"), &["..y", "x"]));
}

#[test]
fn roots_of_another_make() {
    let place = Place::with_log(200);
    let mut root = vec![0; 300];
    root[1] = 2;
    let other = place.put_as("root", &root);
    root[130..144].copy_from_slice(b"skywimple save");
    root[258..278].copy_from_slice(&boundary::sha1(b""));
    let empty = place.put_as("root", &root);
    root[1] = 3;
    let version = place.put_as("root", &root);
    let restore = |root: &str| place.run(&["restore", "log", root, "back"]);
    for root in [&other, &empty, &version, &score(b"")] {
        restore(root).fails(16, "is no root that `skywimple save` made");
    }
    restore(&score(b"never")).fails(11, "the root block ");
    restore("abc").fails(64, "a score is 40 hex digits, not abc");
    assert!(!place.path("back").exists());
}

/// The entry of so many zeros, of a depth that holds them.
fn zeros(size: u64) -> String {
    let depth = match size {
        0..=57_344 => 0,
        57_345..=164_405_248 => 1,
        _ => 3,
    };
    let flags = 1 + 4 * depth;
    let zero = score(b"");
    format!("00000000e000e000{flags:02x}0000000000{size:012x}{zero}")
}

/// Entries that say more than any disk has: not restored unless the limit allows it, and zeros are holes.
#[test]
fn a_limit_on_what_is_restored() {
    let place = Place::with_log(200);
    let card = b"K=absent\n";
    place.put(card);
    let huge = 1 << 40;
    let entries = [entry_of(card), zeros(huge), zeros(3_000_000_000), zeros(5)];
    let names = "card\nhuge\nlong\nlast\n";
    let root = root_over(&place, names, &entries.concat());
    let restore = |words: &[&str]| place.run(&[&["restore", "log", &root, "back"], words].concat());
    let answer = restore(&["--limit", "14"]).with(33);
    assert_eq!(answer.text(), "2 of 4 files restored to back");
    let told = format!(
        "huge is not restored: it has {huge} bytes, and with the 9 bytes restored before it more than \
         the limit of 14. `--limit {}` would restore it too.",
        huge + 9
    );
    assert!(answer.err.contains(&told), "{answer:?}");
    assert!(only(&place.path("back"), &["card", "last"]));
    assert_eq!(place.file("back/last"), [0; 5]);
    let answer = restore(&["--limit", "13", "--overwrite"]).with(33);
    assert_eq!(answer.text(), "1 of 4 files restored to back");

    // the default lets 3 GB of zeros pass, as a hole
    let answer = restore(&["--overwrite"]).with(33);
    assert_eq!(answer.text(), "3 of 4 files restored to back");
    assert!(answer.err.contains("the limit of 4294967296"), "{answer:?}");
    let long = fs::metadata(place.path("back/long")).unwrap();
    assert_eq!(long.len(), 3_000_000_000);
    assert!(long.blocks() * 512 < 1_000_000, "{} blocks", long.blocks());
    restore(&["--limit", "much"]).fails(64, "--limit takes a decimal number");
}

/// Holes within a file and at its end read as the zeros they were.
#[test]
fn holes() {
    let place = Place::with_log(2_000);
    let mut bytes = vec![0; 400_000];
    bytes[150_000] = 7;
    place.write("tail", &bytes);
    bytes.push(9);
    place.write("hole", &bytes);
    place.write("zeros", vec![0; 57_345]);
    let root = place.run(&["save", "log", "tail", "hole", "zeros"]);
    let root = root.with(0).text();
    place.run(&["restore", "log", &root, "back"]).with(0);
    for name in ["tail", "hole", "zeros"] {
        assert_eq!(place.file(&format!("back/{name}")), place.file(name));
    }
}
