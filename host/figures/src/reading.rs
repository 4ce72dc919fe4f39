//! How much a reader has to believe: the lines of the definitions that a claim reaches by its imports, without imports, comments
//! and blank lines.

use std::collections::BTreeSet;
use std::fmt::Write;
use std::path::{Path, PathBuf};
use std::{fs, io};

use crate::crates::files;

/// The theorem over events, with demands 2 and 3.
const THEOREM: &[&str] = &["demands/specs/Theorem.antt"];
/// What it says of histories, in the words of the demands.
const COROLLARIES: &[&str] = &[
    "demands/specs/Theorem.antt",
    "promises/specs/Corollaries.antt",
    "promises/specs/Dates.antt",
];
/// And at each moment of any events.
const MOMENTS: &[&str] = &[
    "demands/specs/Theorem.antt",
    "promises/specs/Corollaries.antt",
    "promises/specs/Dates.antt",
    "events/specs/Events.antt",
];

/// The table of docs/DESIGN.md.
pub fn of(root: &Path) -> io::Result<String> {
    let crates = root.join("crates");
    let all = files(&crates)?.into_iter().filter(|f| is_spec(f)).collect();
    let mut out = String::from("| What | Files | Lines |\n|---|---|---|\n");
    for (what, files) in [
        (
            "the theorem: demands 2 and 3, whatever happens",
            reached(&crates, THEOREM)?,
        ),
        (
            "and its corollaries in the words of the demands, with dates",
            reached(&crates, COROLLARIES)?,
        ),
        (
            "and those at each moment of any events",
            reached(&crates, MOMENTS)?,
        ),
        (
            "all: trees, the writer, copies, comparing, the index, cards, what other languages call",
            all,
        ),
    ] {
        let _ = writeln!(out, "| {what} | {} | {} |", files.len(), lines(&files)?);
    }
    Ok(out)
}

fn is_spec(file: &Path) -> bool {
    file.extension().is_some_and(|e| e == "antt")
        && file.components().any(|c| c.as_os_str() == "specs")
        && !file.ends_with("Lib.antt")
}

/// The files that these name, directly or by others that they name, and they themselves.
fn reached(crates: &Path, from: &[&str]) -> io::Result<BTreeSet<PathBuf>> {
    let mut found = BTreeSet::new();
    let mut due: Vec<PathBuf> = from.iter().map(|f| crates.join(f)).collect();
    while let Some(file) = due.pop() {
        let text = fs::read_to_string(&file)?;
        if found.insert(file) {
            due.extend(text.lines().filter_map(|l| imported(crates, l)));
        }
    }
    Ok(found)
}

/// The file of definitions that an import names: `use Rattle.sector_log.specs.Parts.{Lent}`. What is declared by code has none, nor
/// has what is not of this repository.
fn imported(crates: &Path, line: &str) -> Option<PathBuf> {
    let (name, rest) = line.split_once("Rattle.")?.1.split_once(".specs.")?;
    let module = rest.split(['.', ' ']).next()?;
    (module != "declared" && name != "std").then(|| {
        crates
            .join(name)
            .join("specs")
            .join(module)
            .with_extension("antt")
    })
}

fn lines(files: &BTreeSet<PathBuf>) -> io::Result<usize> {
    files
        .iter()
        .map(|f| Ok(definitions(&fs::read_to_string(f)?)))
        .sum()
}

fn definitions(text: &str) -> usize {
    text.lines()
        .map(str::trim)
        .filter(|l| !l.is_empty())
        .filter(|l| {
            ![
                "--",
                "use ",
                "pub use ",
                "unfoldable pub use ",
                "mod ",
                "pub mod ",
            ]
            .iter()
            .any(|s| l.starts_with(s))
        })
        .count()
}

#[cfg(test)]
mod tests {
    use super::{definitions, imported, lines, reached, COROLLARIES};
    use std::path::Path;

    #[test]
    fn what_counts() {
        assert_eq!(
            definitions("-- a word\nuse a.{b}\n\npub mod C\nf : A\n  f x = y\n"),
            2
        );
    }

    #[test]
    fn what_an_import_names() {
        let here = Path::new("c");
        let of = |line| imported(here, line);
        assert_eq!(
            of("use Rattle.sector_log.specs.Parts.{Lent}"),
            Some(here.join("sector_log/specs/Parts.antt"))
        );
        assert_eq!(
            of("use Rattle.block.specs.Log.{used}"),
            Some(here.join("block/specs/Log.antt"))
        );
        assert_eq!(of("use Rattle.block.specs.declared.Block.{Block}"), None);
        assert_eq!(of("use Rattle.std.specs.Prelude.{cond}"), None);
        assert_eq!(of("use mathlib.Core.Bool.{cond}"), None);
    }

    /// What the theorem and all its corollaries rest on can be read in a sitting.
    #[test]
    fn the_corollaries_rest_on_fewer_than_1500_lines() {
        let crates = Path::new(env!("CARGO_MANIFEST_DIR")).join("../../crates");
        let files = reached(&crates, COROLLARIES).expect("each import names a file");
        assert!(files
            .iter()
            .any(|f| f.ends_with("sha1_block/specs/Block.antt")));
        assert!(lines(&files).expect("they are there") < 1_500);
    }
}
