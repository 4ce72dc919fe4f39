//! Logs by other names: symbolic links, which are followed, and hard links, which are not written.

use std::fs;
use std::os::unix::fs::symlink;

use crate::common::*;

/// The mark stands beside the file that a symbolic link leads to.
#[test]
fn through_a_symbolic_link() {
    let place = Place::with_log(8);
    let first = place.put(b"first");
    symlink(place.path("log"), place.path("link")).unwrap();
    let get = place.run(&["get", "link", &first]).with(0);
    assert_eq!(get.out, b"first");
    place.feed(&["put", "link"], b"new").with(0);
    assert_eq!(place.file("log.mark"), mark(8, 2).as_bytes());
    assert!(only(&place.folder, &["link", "log", "log.mark"]));
}

/// A link to a lost log leads to its mark, also by way of another link.
#[test]
fn through_a_symbolic_link_to_a_lost_log() {
    let place = Place::with_log(8);
    let first = place.put(b"first");
    fs::create_dir(place.path("links")).unwrap();
    symlink("../log", place.path("links/one")).unwrap();
    symlink("links/one", place.path("two")).unwrap();
    fs::remove_file(place.path("log")).unwrap();
    let get = |name: &str| place.run(&["get", name, &first]);
    for name in ["links/one", "two"] {
        get(name).fails(65, "the last used sector is lost");
    }
    place.run(&["doubt", "two"]).with(0);
    get("two").fails(12, "not known");
    place.not_known(&first);
    assert!(only(&place.folder, &["links", "log", "log.mark", "two"]));
}

/// The mark stands beside one name, so a log of two is not written by either.
#[test]
fn a_log_with_two_names() {
    let place = Place::with_log(8);
    let first = place.put(b"first");
    fs::hard_link(place.path("log"), place.path("same")).unwrap();
    let before = place.file("log");
    let writers: [&[&str]; 4] = [
        &["put", "log"],
        &["serve", "log"],
        &["put", "same", "--adopt"],
        &["get", "same", &first, "--adopt"],
    ];
    for writer in writers {
        place.run(writer).fails(65, "2 names (hard links)");
    }
    assert_eq!(place.file("log"), before);
    assert!(only(&place.folder, &["log", "log.mark", "same"]));
    place.reads(&first, b"first");
    fs::remove_file(place.path("same")).unwrap();
    place.put(b"second");
}
