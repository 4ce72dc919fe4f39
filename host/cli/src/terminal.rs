//! The width of the terminal, and whether it is to be coloured.

use std::env;
use std::fs::File;
use std::process::{Command, Stdio};

const USUAL: usize = 80;

/// COLUMNS, else what the terminal says, else 80.
pub fn width(terminal: bool) -> usize {
    let found = columns().or_else(|| terminal.then(stty).flatten());
    found.unwrap_or(USUAL)
}

fn columns() -> Option<usize> {
    let columns = env::var("COLUMNS").ok()?.parse().ok();
    columns.filter(|columns| *columns > 0)
}

/// The second number of `stty size`.
fn stty() -> Option<usize> {
    let terminal = File::open("/dev/tty").ok()?;
    let mut stty = Command::new("stty");
    let said = stty
        .arg("size")
        .stdin(terminal)
        .stderr(Stdio::null())
        .output();
    let said = String::from_utf8(said.ok()?.stdout).ok()?;
    let columns = said.split_whitespace().nth(1)?.parse().ok();
    columns.filter(|columns| *columns > 0)
}

/// Colour is for terminals, and not where NO_COLOR is set.
pub fn colour(terminal: bool) -> bool {
    terminal && env::var_os("NO_COLOR").is_none_or(|set| set.is_empty())
}
