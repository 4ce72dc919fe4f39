//! The map as a picture. Kinds differ by shape as well as by colour.

use std::fmt::Write;

use crate::map::{Cell, Map, Scaled};
use crate::markup::escaped;

/// The side of a cell, with its gap.
const STEP: usize = 12;
const MARGIN: usize = 12;
const HEADING: usize = 24;
const LEGEND: usize = 28;
/// A digit before a row.
const DIGIT: usize = 7;
/// Room for the legend's text.
const LEAST_WIDTH: usize = 560;

/// The picture of a log of this name.
pub fn draw(map: &Map, width: usize, name: &str, verdict: &str) -> String {
    let Scaled { cells, group } = map.scaled(width);
    let columns = cells.len().min(width).max(1);
    let rows = cells.len().div_ceil(columns);
    let left = MARGIN + (map.label() + 1) * DIGIT;
    let top = MARGIN + HEADING;
    let wide = (left + columns * STEP + MARGIN).max(LEAST_WIDTH);
    let high = top + rows * STEP + LEGEND + MARGIN;
    let heading = format!("{}: {verdict}", escaped(name));
    let title = format!("The log {heading}. {}", map.legend(group));

    let mut text = format!(
        "<svg xmlns=\"http://www.w3.org/2000/svg\" width=\"{wide}\" height=\"{high}\" \
         viewBox=\"0 0 {wide} {high}\" role=\"img\">\n\
         <title>{title}</title>\n\
         <rect width=\"{wide}\" height=\"{high}\" fill=\"#ffffff\"/>\n"
    );
    write(&mut text, MARGIN, MARGIN + 12, 15, &heading);
    for (row, cells) in cells.chunks(columns).enumerate() {
        let y = top + row * STEP;
        let first = (row * columns * group).to_string();
        let x = left - (first.len() + 1) * DIGIT;
        write(&mut text, x, y + 9, 11, &first);
        for (at, cell) in cells.iter().enumerate() {
            shape(&mut text, *cell, left + at * STEP, y);
        }
    }
    legend(&mut text, map, group, high - MARGIN);
    text + "</svg>\n"
}

/// Writes words, their left end on the line at this place.
fn write(text: &mut String, x: usize, y: usize, size: usize, words: &str) {
    let _ = writeln!(
        text,
        "<text x=\"{x}\" y=\"{y}\" font-family=\"sans-serif\" font-size=\"{size}\">{words}</text>"
    );
}

/// Sound is a full square, doubtful a cross in a frame, blank an empty frame.
fn shape(text: &mut String, cell: Cell, x: usize, y: usize) {
    let (fill, line) = match cell {
        Cell::Sound => ("#2a7f4f", "#2a7f4f"),
        Cell::Doubtful => ("#ffe3df", "#b3261e"),
        Cell::Blank => ("#ffffff", "#c4c4c4"),
    };
    let _ = writeln!(
        text,
        "<rect x=\"{x}\" y=\"{y}\" width=\"9\" height=\"9\" fill=\"{fill}\" stroke=\"{line}\"/>"
    );
    if cell == Cell::Doubtful {
        let _ = writeln!(
            text,
            "<path d=\"M{x} {y}l9 9m0 -9l-9 9\" stroke=\"{line}\" stroke-width=\"2\"/>"
        );
    }
}

fn legend(text: &mut String, map: &Map, group: usize, y: usize) {
    let kinds = [
        (Cell::Sound, "sound"),
        (Cell::Doubtful, "doubtful"),
        (Cell::Blank, "blank"),
    ];
    for (at, (cell, name)) in kinds.iter().enumerate() {
        let x = MARGIN + at * 130;
        shape(text, *cell, x, y - 9);
        let words = format!("{name} {}", map.count(*cell));
        write(text, x + 18, y, 12, &words);
    }
    let words = format!("sectors a cell: {group}");
    write(text, MARGIN + 18 + 390, y, 12, &words);
}
