//! README's commands do what it says.

use std::fs;
use std::os::unix::fs::symlink;
use std::process::Command;

use crate::common::*;

/// The commands of README's section "Using it" that need no network.
fn commands() -> String {
    let readme = concat!(env!("CARGO_MANIFEST_DIR"), "/../../README.md");
    let readme = fs::read_to_string(readme).unwrap();
    let (_, section) = readme.split_once("\n## Using it\n").unwrap();
    let (_, commands) = section.split_once("\n```sh\n").unwrap();
    commands.split_once("\n```\n").unwrap().0.to_string()
}

#[test]
fn using_it() {
    let place = Place::new();
    symlink(PROGRAM, place.path("skywimple")).unwrap();
    let mut shell = Command::new("sh");
    shell.args(["-eu", "-c", &commands()]);
    let output = shell.current_dir(&place.folder).output().unwrap();
    assert!(output.status.success(), "{output:?}");
    assert_eq!(String::from_utf8_lossy(&output.stderr), "");
    let text = String::from_utf8(output.stdout).unwrap();
    let card = place.file("ada.card");
    assert!(place.file("back/ada.card") == card && place.file("back/eve.card") == b"K=absent\n");
    let card = String::from_utf8(card).unwrap();
    for told in [
        "ada.card: a card, 2 antigens",
        "yes        ada.card\nnot known  eve.card  nobody tested: Vel\n",
        "2 of 2 files restored to back",
        "changed     eve.card\n",
        &card.repeat(2),
        "verdict=sound",
        &score(card.as_bytes()),
        "00 06 05 00 00 00 00 00 00 02 03 07",
    ] {
        assert!(text.contains(told), "{told}: {text}");
    }
}
