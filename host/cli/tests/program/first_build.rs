//! `./skywimple` itself: what it says while it builds. A stub stands in for the prover and one for
//! cargo, so that nothing is proved here.

use std::fs;
use std::os::unix::fs::PermissionsExt;
use std::path::Path;
use std::process::Command;

use crate::common::*;

/// A repository of four crates, of which three make the library, and the two stubs.
fn repository(rt: &str) -> Place {
    let place = Place::new();
    let script = concat!(env!("CARGO_MANIFEST_DIR"), "/../../skywimple");
    copy_program(Path::new(script), &place.path("skywimple"));
    let list = "# The crates.\nword:\nother: word\nlog: word bytes\nboundary staticlib: log\n";
    place.write("crates.txt", list);
    for name in ["word", "other", "log", "boundary"] {
        let source = place.path("crates").join(name).join("src");
        fs::create_dir_all(&source).unwrap();
        fs::write(source.join("lib.rt"), vec![b' '; 50_000]).unwrap();
    }
    fs::create_dir(place.path("host")).unwrap();
    fs::create_dir(place.path("stubs")).unwrap();
    let cargo = "mkdir -p target/host/release\n\
        printf '#!/bin/sh\\necho \"ran $*\"\\n' > target/host/release/skywimple\n\
        chmod +x target/host/release/skywimple\n";
    for (name, text) in [("rt", rt), ("cargo", cargo)] {
        let path = place.path("stubs").join(name);
        place.write("stub", format!("#!/bin/sh\n{text}"));
        copy_program(&place.path("stub"), &path);
        fs::set_permissions(path, fs::Permissions::from_mode(0o755)).unwrap();
    }
    place
}

/// `./skywimple get it`, with the stubs before all else.
fn start(place: &Place) -> Command {
    let mut command = Command::new(place.path("skywimple"));
    let path = std::env::var("PATH").unwrap();
    let stubs = place.path("stubs").display().to_string();
    command
        .args(["get", "it"])
        .env("PATH", format!("{stubs}:{path}"));
    command
}

fn run(place: &Place) -> Answer {
    let output = start(place).output().unwrap();
    Answer {
        status: output.status.code().unwrap(),
        out: output.stdout,
        err: String::from_utf8(output.stderr).unwrap(),
    }
}

const PROVES: &str = "test \"$1\" = lib && test \"${PWD##*/}\" = boundary || exit 2
echo 'rt: chose --jobs 2 for word' >&2
echo 'fn word::low: proved'
echo 'crate word: modules loaded=0 checked=57'
echo 'logic=proved functions=1'
echo 'library word: modules loaded=36 checked=0'
echo 'crate log: modules loaded=0 checked=64'
echo 'logic=proved functions=2'
sleep 2
mkdir -p out
echo made > out/libboundary.a
";

#[test]
fn each_crate_is_told_of() {
    let place = repository(PROVES);
    let answer = run(&place).with(0);
    assert_eq!(answer.text(), "ran get it");
    let lines: Vec<_> = answer.err.lines().collect();
    let told = [
        "proved and built first, once: 3 crates, about 34 s on one core.",
        "crate 1 of 3 is proved: word; ",
        "crate 2 of 3 is proved: log; ",
        "compiling the program",
    ];
    assert_eq!(lines.len(), told.len(), "{answer:?}");
    for (line, told) in lines.iter().zip(told) {
        assert!(
            line.starts_with("skywimple: ") && line.contains(told),
            "{answer:?}"
        );
    }
    assert!(lines[2].contains(" gone, about "), "{answer:?}");
    assert_eq!(run(&place).with(0).err, "", "once is enough");
}

#[test]
fn at_a_terminal_a_line_counts() {
    let place = repository(PROVES);
    let (status, shown) = terminal::at_terminal(start(&place));
    assert_eq!(status, 0, "{shown}");
    for words in [
        "3 crates, about 34 s",
        "\r\x1b[Kproving crate 3 of 3: ",
        " s gone, about ",
    ] {
        assert!(shown.contains(words), "{words}: {shown}");
    }
    assert!(!shown.contains("is proved:"), "{shown}");
}

/// What fails is shown, with the status that the help names.
#[test]
fn a_build_that_fails() {
    let place = repository("echo 'rt: word NOT PROVED: see here' >&2; exit 1\n");
    let answer = run(&place).fails(69, "could not be proved");
    assert!(
        answer.err.contains("word NOT PROVED: see here"),
        "{answer:?}"
    );
    assert!(!answer.err.contains("compiling"), "{answer:?}");
    assert!(only(&place.path("target/host"), &[]), "nothing half made");
    let place = repository(PROVES);
    place.write(
        "stubs/cargo",
        "#!/bin/sh\necho 'error: odd' >&2; exit 101\n",
    );
    let answer = run(&place).fails(69, "the build failed");
    assert!(answer.err.contains("error: odd"), "{answer:?}");
    assert!(only(&place.path("target/host"), &[]), "nothing half made");
}
