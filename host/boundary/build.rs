//! Links the proved library, target/staticlib/libboundary.a. Has `rt` make it where it is missing
//! or older than the crates, but for what `rt` itself keeps in a crate's out/.

use std::path::{Path, PathBuf};
use std::process::Command;
use std::time::SystemTime;
use std::{env, fs, io};

fn main() {
    let host = PathBuf::from(env::var_os("CARGO_MANIFEST_DIR").expect("cargo sets it"));
    let root = host
        .join("../..")
        .canonicalize()
        .expect("the repository's root");
    let folder = root.join("target/staticlib");
    let library = folder.join("libboundary.a");
    let sources = sources(&root).expect("crates.txt and crates/ can be read");

    let made = fs::metadata(&library).and_then(|m| m.modified()).ok();
    let changed = newest(&sources).expect("crates.txt and crates/ can be read");
    if made.is_none_or(|made| made < changed) {
        make(&root, &library);
    }

    for path in sources.iter().chain([&library]) {
        println!("cargo:rerun-if-changed={}", path.display());
    }
    println!("cargo:rustc-link-search=native={}", folder.display());
    println!("cargo:rustc-link-lib=static=boundary");
}

/// The list of the crates, and what each of them has beside out/.
fn sources(root: &Path) -> io::Result<Vec<PathBuf>> {
    let mut found = vec![root.join("crates.txt")];
    for folder in inside(&root.join("crates"))? {
        if folder.is_dir() {
            found.extend(inside(&folder)?.into_iter().filter(|p| !p.ends_with("out")));
        }
    }
    Ok(found)
}

/// Proves the library and writes it.
fn make(root: &Path, library: &Path) {
    let folder = root.join("crates/boundary");
    let run = Command::new("rt").arg("lib").current_dir(&folder).output();
    let run = run.unwrap_or_else(|e| panic!("`rt` cannot be run ({e}); it has to be on the PATH"));
    if !run.status.success() {
        let said = [run.stdout, run.stderr].concat();
        panic!(
            "`rt lib` in crates/boundary failed:\n{}",
            String::from_utf8_lossy(&said)
        );
    }
    fs::create_dir_all(library.parent().expect("it lies in a folder"))
        .and_then(|()| fs::copy(folder.join("out/libboundary.a"), library))
        .unwrap_or_else(|e| panic!("{} cannot be written: {e}", library.display()));
}

/// What is in a folder.
fn inside(folder: &Path) -> io::Result<Vec<PathBuf>> {
    fs::read_dir(folder)?.map(|e| Ok(e?.path())).collect()
}

/// The latest change of these files and folders, and of what is in them.
fn newest(paths: &[PathBuf]) -> io::Result<SystemTime> {
    let mut latest = SystemTime::UNIX_EPOCH;
    for path in paths {
        latest = latest.max(fs::metadata(path)?.modified()?);
        if path.is_dir() {
            latest = latest.max(newest(&inside(path)?)?);
        }
    }
    Ok(latest)
}
