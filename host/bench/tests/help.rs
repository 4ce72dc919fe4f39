//! `bench --help`, a word that it does not know, and the shortest of its tables.

use std::process::Command;

fn run(word: &str) -> (Option<i32>, String, String) {
    let output = Command::new(env!("CARGO_BIN_EXE_bench")).arg(word).output();
    let output = output.expect("it runs");
    let text = |bytes| String::from_utf8(bytes).expect("words");
    (
        output.status.code(),
        text(output.stdout),
        text(output.stderr),
    )
}

#[test]
fn help() {
    for word in ["--help", "-h"] {
        let (status, out, err) = run(word);
        assert_eq!((status, &err[..]), (Some(0), ""));
        for words in [
            "ordinary Rust",
            "--help",
            "table",
            "minutes",
            "checks",
            "four",
            "durable",
        ] {
            assert!(out.contains(words), "{words}: {out}");
        }
    }
    let (status, out, err) = run("--odd");
    assert_eq!((status, &out[..]), (Some(2), ""));
    assert!(err.contains("--odd isn't known. `bench --help`"), "{err}");
}

/// SHA-1 and the check alone, for runs that are repeated.
#[test]
fn checks() {
    let (status, out, err) = run("checks");
    assert_eq!((status, &err[..]), (Some(0), ""));
    let rows: Vec<&str> = out.lines().skip(2).map(|line| &line[..8]).collect();
    assert_eq!(rows, ["sha1    ", "crc32   "], "{out}");
}
