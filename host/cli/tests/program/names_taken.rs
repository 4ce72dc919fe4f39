//! `restore` where others write to the same folder: no file of theirs is replaced, and what was made is on disk.

use std::fs;
use std::path::Path;

use crate::common::*;

/// A folder with two saved files, their root, and the library that has a file appear.
fn saved() -> (Place, String) {
    let place = Place::with_log(40);
    place.write("first", "first file");
    place.write("last", "last file");
    let root = place.run(&["save", "log", "first", "last"]).with(0).text();
    place.preload("appear");
    (place, root)
}

/// Restores with the library, and with these in the environment.
fn restore(place: &Place, root: &str, more: &[&str], environment: &[(&str, &str)]) -> Answer {
    let mut command = place.command(&[&["restore", "log", root, "back"], more].concat());
    command.env("LD_PRELOAD", place.path("appear.so"));
    command.envs(environment.iter().copied());
    let output = command.output().unwrap();
    Answer {
        status: output.status.code().unwrap(),
        out: output.stdout,
        err: String::from_utf8(output.stderr).unwrap(),
    }
}

#[test]
fn a_file_that_appears_meanwhile() {
    let (place, root) = saved();
    let appears = [("APPEARS", "back/last")];
    let answer = restore(&place, &root, &[], &appears);
    answer.fails(73, "back/last is there already");
    assert_eq!(place.file("back/last"), b"mine");
    assert_eq!(place.file("back/first"), b"first file");
    assert!(only(&place.path("back"), &["first", "last"]));

    restore(&place, &root, &["--overwrite"], &appears).with(0);
    assert_eq!(place.file("back/last"), b"last file");
    assert!(only(&place.path("back"), &["first", "last"]));
}

#[test]
fn where_a_file_has_one_name_only() {
    let (place, root) = saved();
    restore(&place, &root, &[], &[("NO_LINKS", "")]).with(0);
    assert_eq!(place.file("back/last"), b"last file");
    assert!(only(&place.path("back"), &["first", "last"]));
    let again = restore(&place, &root, &[], &[("NO_LINKS", "")]);
    again.fails(73, "back/first is there already");
}

/// The folder, and the one that it was made in.
#[test]
fn a_new_folder_is_on_disk() {
    let (place, root) = saved();
    let list = place.path("synced").display().to_string();
    restore(&place, &root, &[], &[("SYNCED", &list)]).with(0);
    let synced = String::from_utf8(place.file("synced")).unwrap();
    let whole = |path: &Path| fs::canonicalize(path).unwrap().display().to_string();
    for folder in [whole(&place.folder), whole(&place.path("back"))] {
        assert!(
            synced.lines().any(|line| line == folder),
            "{folder}: {synced}"
        );
    }
}
