//! The demonstration.

use crate::common::*;

/// All that it writes.
const SHOWN: &str = include_str!("demo.txt");

#[test]
fn it_shows_what_it_says() {
    let place = Place::new();
    let output = place
        .command(&["demo"])
        .env("TMPDIR", &place.folder)
        .output()
        .unwrap();
    assert!(output.status.success(), "{output:?}");
    assert!(output.stderr.is_empty());
    let text = String::from_utf8(output.stdout).unwrap();
    for (line, expected) in text.lines().zip(SHOWN.lines()) {
        assert_eq!(line, expected);
    }
    assert_eq!(text, SHOWN);
    assert!(only(&place.folder, &[]), "the folder is removed");
}

#[test]
fn without_a_temporary_folder() {
    let place = Place::new();
    let mut command = place.command(&["demo"]);
    let output = command.env("TMPDIR", place.path("none")).output().unwrap();
    assert_eq!(output.status.code(), Some(74));
    let told = String::from_utf8(output.stderr).unwrap();
    assert!(told.contains("cannot make the folder"), "{told}");
    assert!(output.stdout.is_empty());
}
