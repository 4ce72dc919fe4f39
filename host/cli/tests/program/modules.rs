//! The program's modules stand on each other in one order: none imports one that imports it. And the
//! lines of `writer.rs` that docs/DESIGN.md names are there.

use std::collections::{BTreeMap, BTreeSet};
use std::fs;

/// The modules that each module names, its tests left out.
fn imports() -> BTreeMap<String, BTreeSet<String>> {
    let folder = concat!(env!("CARGO_MANIFEST_DIR"), "/src");
    let mut found = BTreeMap::new();
    for file in fs::read_dir(folder).expect("the sources") {
        let path = file.expect("a file").path();
        let name = path
            .file_stem()
            .expect("a name")
            .to_string_lossy()
            .into_owned();
        let text = fs::read_to_string(&path).expect("text");
        let code = text.split("#[cfg(test)]\nmod ").next().unwrap_or_default();
        let words = |text: &str| -> Vec<String> {
            let words = text.split(|sign: char| !(sign.is_alphanumeric() || sign == '_'));
            words
                .filter(|word| !word.is_empty())
                .map(String::from)
                .collect()
        };
        let mut named = BTreeSet::new();
        for part in code.split("crate::").skip(1) {
            match part.strip_prefix('{') {
                Some(list) => named.extend(words(list.split('}').next().unwrap_or_default())),
                None => named.extend(words(part).into_iter().take(1)),
            }
        }
        named.remove(&name);
        found.insert(name, named);
    }
    found
}

#[test]
fn no_circles() {
    let mut left = imports();
    assert!(
        left.len() > 20 && left["writer"].contains("format"),
        "{left:?}"
    );
    loop {
        let names: BTreeSet<_> = left.keys().cloned().collect();
        let before = left.len();
        // Those that name nothing that is left go, and so on.
        left.retain(|_, named| named.iter().any(|name| names.contains(name)));
        if left.is_empty() {
            return;
        }
        assert!(left.len() < before, "in circles, or above some: {left:?}");
    }
}

/// The lines that earn the premises of the theorem over events.
#[test]
fn the_lines_that_earn_the_premises() {
    let here = env!("CARGO_MANIFEST_DIR");
    let text = |path: &str| fs::read_to_string(format!("{here}/{path}")).expect(path);
    let (design, writer) = (text("../../docs/DESIGN.md"), text("src/writer.rs"));
    let (_, table) = design.split_once("| Premise | Line |").expect("the table");
    let (table, _) = table.split_once("\n\n").expect("its end");
    let named: Vec<_> = table.split('`').skip(1).step_by(2).collect();
    assert!(named.len() > 20, "{named:?}");
    for line in named {
        assert!(writer.contains(line), "{line}");
    }
}
