//! The crates: what each stands on, its lines and edits.

use std::path::Path;
use std::{fs, io};

pub struct Crate {
    pub name: String,
    /// The crates of the repository that it stands on directly.
    pub on: Vec<usize>,
    pub program: bool,
    pub functions: usize,
    pub code: usize,
    pub spec: usize,
    pub proof: usize,
    pub edits: usize,
}

/// The crates in the order of crates.txt.
pub fn read(root: &Path) -> io::Result<Vec<Crate>> {
    let listed = fs::read_to_string(root.join("crates.txt"))?;
    let lines: Vec<(&str, &str)> = listed
        .lines()
        .filter(|l| !l.starts_with('#'))
        .filter_map(|l| l.split_once(':'))
        .map(|(name, on)| (named(name), on))
        .collect();
    let mut crates: Vec<Crate> = Vec::new();
    for (name, on) in &lines {
        let dir = root.join("crates").join(name);
        let on = on
            .split_whitespace()
            .filter_map(|d| lines.iter().position(|(n, _)| *n == d))
            .collect();
        let source = texts(&dir.join("src"))?.concat();
        crates.push(Crate {
            name: (*name).to_owned(),
            on,
            program: dir.join("src/main.rt").exists(),
            functions: source.lines().filter(|l| is_function(l)).count(),
            code: source.lines().count(),
            spec: count(&dir.join("specs"))?,
            proof: count(&dir.join("proofs"))?,
            edits: files(&dir.join("must-fail"))?.len(),
        });
    }
    Ok(crates)
}

/// A crate's name; its line may say `staticlib` behind it.
fn named(said: &str) -> &str {
    said.split_whitespace().next().unwrap_or_default()
}

fn is_function(line: &str) -> bool {
    let line = line.trim_start();
    ["fn ", "pub fn ", "pub extern \"C\" fn "]
        .iter()
        .any(|start| line.starts_with(start))
}

/// All files below a folder; none where it is missing.
pub fn files(dir: &Path) -> io::Result<Vec<std::path::PathBuf>> {
    let mut found = Vec::new();
    if dir.is_dir() {
        for entry in fs::read_dir(dir)? {
            let path = entry?.path();
            if path.is_dir() {
                found.append(&mut files(&path)?);
            } else {
                found.push(path);
            }
        }
    }
    found.sort();
    Ok(found)
}

fn texts(dir: &Path) -> io::Result<Vec<String>> {
    files(dir)?.iter().map(fs::read_to_string).collect()
}

fn count(dir: &Path) -> io::Result<usize> {
    Ok(texts(dir)?.iter().map(|t| t.lines().count()).sum())
}
