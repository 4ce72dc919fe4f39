//! The picture of the crates: each stands on those below it. Lines that another way implies are left out.

use std::fmt::Write;

use crate::crates::Crate;
use crate::kind;

const WIDTH: usize = 118;
const HEIGHT: usize = 34;
const ACROSS: usize = 138;
const DOWN: usize = 74;
const EDGE: usize = 20;
const LEGEND: usize = 40;

pub fn of(crates: &[Crate]) -> String {
    let levels = levels(crates);
    let top = levels.iter().copied().max().unwrap_or(0);
    let rows: Vec<Vec<usize>> = (0..=top)
        .map(|l| (0..crates.len()).filter(|&i| levels[i] == l).collect())
        .collect();
    let widest = rows.iter().map(Vec::len).max().unwrap_or(0);
    let width = 2 * EDGE + widest * ACROSS;
    let height = 2 * EDGE + (top + 1) * DOWN + LEGEND;
    // the left upper corner of each box
    let mut place = vec![(0, 0); crates.len()];
    for (l, row) in rows.iter().enumerate() {
        let indent = (widest - row.len()) * ACROSS / 2;
        for (k, &i) in row.iter().enumerate() {
            place[i] = (EDGE + indent + k * ACROSS, EDGE + (top - l) * DOWN);
        }
    }

    let mut out = format!(
        "<svg xmlns=\"http://www.w3.org/2000/svg\" viewBox=\"0 0 {width} {height}\" width=\"{width}\" height=\"{height}\" font-family=\"sans-serif\" font-size=\"14\" role=\"img\">\n<title>The crates: each stands on those below it</title>\n<rect width=\"100%\" height=\"100%\" fill=\"#ffffff\"/>\n"
    );
    for (i, c) in crates.iter().enumerate() {
        for &d in direct(crates, i).iter() {
            let (x, y) = (place[i].0 + WIDTH / 2, place[i].1 + HEIGHT);
            let (u, v) = (place[d].0 + WIDTH / 2, place[d].1);
            let _ = writeln!(
                out,
                "<path d=\"M{x} {y} C{x} {} {u} {} {u} {v}\" fill=\"none\" stroke=\"#9aa5b1\"><title>{} stands on {}</title></path>",
                y + 20,
                v - 20,
                c.name,
                crates[d].name
            );
        }
    }
    for (i, c) in crates.iter().enumerate() {
        boxed(&mut out, place[i], &c.name, kind(c));
    }
    let y = height - LEGEND;
    for (k, name) in ["code", "laws", "program"].iter().enumerate() {
        let label = ["runs, and is proved", "definitions and laws", "program"][k];
        boxed(&mut out, (EDGE + k * 170, y), label, name);
    }
    out.push_str("</svg>\n");
    out
}

fn boxed(out: &mut String, (x, y): (usize, usize), text: &str, kind: &str) {
    let (fill, dash) = match kind {
        "laws" => ("#fff7e0", " stroke-dasharray=\"5 3\""),
        "program" => ("#e8f3e8", ""),
        _ => ("#e6effa", ""),
    };
    let width = WIDTH.max(text.len() * 8);
    let _ = writeln!(
        out,
        "<rect x=\"{x}\" y=\"{y}\" width=\"{width}\" height=\"{HEIGHT}\" rx=\"6\" fill=\"{fill}\" stroke=\"#33475b\"{dash}/><text x=\"{}\" y=\"{}\" text-anchor=\"middle\" fill=\"#12202e\">{text}</text>",
        x + width / 2,
        y + 22
    );
}

/// How many crates lie below each, one above the other.
fn levels(crates: &[Crate]) -> Vec<usize> {
    let mut levels = vec![0; crates.len()];
    for _ in 0..crates.len() {
        for (i, c) in crates.iter().enumerate() {
            levels[i] = c.on.iter().map(|&d| levels[d] + 1).max().unwrap_or(0);
        }
    }
    levels
}

/// Whether crate a stands on crate b, by any way.
fn reaches(crates: &[Crate], a: usize, b: usize) -> bool {
    crates[a]
        .on
        .iter()
        .any(|&d| d == b || reaches(crates, d, b))
}

/// The crates that one stands on, without those that another of them stands on.
fn direct(crates: &[Crate], i: usize) -> Vec<usize> {
    let on = &crates[i].on;
    on.iter()
        .copied()
        .filter(|&d| !on.iter().any(|&o| o != d && reaches(crates, o, d)))
        .collect()
}
