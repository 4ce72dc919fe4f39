//! Writes docs/crates.svg, the picture of the crates, the table of docs/BENCHMARKS.md with their sizes and edits, and
//! that of docs/DESIGN.md with how much there is to read.
//!
//! ```text
//! cargo run --release --offline --manifest-path host/Cargo.toml -p figures
//! ```
//!
//! What a crate stands on is read from crates.txt.

mod crates;
mod picture;
mod reading;
mod table;

use std::path::Path;
use std::process::ExitCode;
use std::{fs, io};

use crates::Crate;

fn main() -> ExitCode {
    let root = Path::new(env!("CARGO_MANIFEST_DIR")).join("../..");
    match write(&root) {
        Ok(()) => ExitCode::SUCCESS,
        Err(e) => {
            eprintln!("figures: {e}");
            ExitCode::FAILURE
        }
    }
}

fn write(root: &Path) -> io::Result<()> {
    let crates = crates::read(root)?;
    fs::write(root.join("docs/crates.svg"), picture::of(&crates))?;
    put(root, "docs/BENCHMARKS.md", "crates", &table::of(&crates))?;
    put(root, "docs/DESIGN.md", "reading", &reading::of(root)?)
}

/// Puts a table where a document has its marks.
fn put(root: &Path, document: &str, mark: &str, table: &str) -> io::Result<()> {
    let file = root.join(document);
    let text = fs::read_to_string(&file)?;
    let (begin, end) = (
        format!("<!-- {mark} -->\n"),
        format!("<!-- end of {mark} -->"),
    );
    let text = between(&text, &begin, &end, table)
        .ok_or_else(|| io::Error::other(format!("{document} has no place for its table")))?;
    fs::write(&file, text)
}

/// The text with what stands between two marks replaced.
fn between(text: &str, begin: &str, end: &str, new: &str) -> Option<String> {
    let from = text.find(begin)? + begin.len();
    let to = from + text[from..].find(end)?;
    Some(format!("{}{}{}", &text[..from], new, &text[to..]))
}

/// What a crate is for the picture.
fn kind(c: &Crate) -> &'static str {
    if c.program {
        "program"
    } else if c.functions == 0 {
        "laws"
    } else {
        "code"
    }
}
