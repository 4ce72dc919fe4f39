//! `report`: the log's numbers and verdict, and its map.

use std::ffi::OsStr;
use std::path::Path;

use crate::arguments::Arguments;
use crate::blocks;
use crate::escape;
use crate::map::Map;
use crate::output_file::{self, Kind};
use crate::reader;
use crate::status::{Failure, DONE, VERDICT_NOT_KNOWN};
use crate::streams::Streams;
use crate::svg;
use crate::terminal;
use crate::words;
use boundary::report;

/// The bytes that a report buffer needs.
const BUFFER: usize = 128;

/// A picture may overwrite a picture only.
const PICTURE: Kind = Kind {
    option: "--svg",
    name: "picture",
    fronts: &["<svg", "<?xml"],
};

/// What is asked for besides the lines.
struct Wanted<'a> {
    json: bool,
    map: bool,
    picture: Option<Picture<'a>>,
    width: Option<u64>,
}

enum Picture<'a> {
    /// On standard output, in place of the lines.
    Alone,
    File(&'a OsStr),
}

pub fn run(arguments: &Arguments, streams: &mut Streams) -> Result<u8, Failure> {
    let path = arguments.path(0);
    let wanted = wanted(arguments)?;
    let log = reader::read(path, arguments.flag("--adopt"), streams)?;
    let report = Report::of(&log)?;
    match wanted {
        Wanted {
            picture: Some(Picture::Alone),
            ..
        } => {}
        Wanted { json: true, .. } => streams.answer(report.json().as_bytes())?,
        _ => streams.answer(report.text.as_bytes())?,
    }
    if wanted.map || wanted.picture.is_some() {
        let map = Map::of(&log).map_err(Failure::refused)?;
        draw(&map, path, report.verdict(), &wanted, streams)?;
    }
    if let Some(first) = report.first_doubtful.filter(|_| !wanted.json) {
        streams.tell(&words::doubt(first, &path.to_string_lossy()));
    }
    Ok(report.status())
}

fn wanted(arguments: &Arguments) -> Result<Wanted<'_>, Failure> {
    let wanted = Wanted {
        json: arguments.flag("--json"),
        map: arguments.flag("--map"),
        picture: arguments.value("--svg").map(|picture| match picture {
            picture if picture == "-" => Picture::Alone,
            picture => Picture::File(picture),
        }),
        width: arguments.number("--width")?,
    };
    if wanted.width == Some(0) {
        return Err(Failure::usage("--width is at least 1"));
    }
    if wanted.json && wanted.map {
        return Err(Failure::usage("a map is no JSON: give --json or --map"));
    }
    match wanted.picture {
        Some(Picture::Alone) if wanted.json || wanted.map => Err(Failure::usage(
            "--svg - has standard output for the picture alone, without --json and --map",
        )),
        Some(Picture::File(picture)) => {
            output_file::may_write(arguments.path(0), Path::new(picture), &PICTURE)?;
            Ok(wanted)
        }
        _ => Ok(wanted),
    }
}

/// Draws the map of a log, as text, as a picture or both.
fn draw(
    map: &Map,
    log: &Path,
    verdict: &str,
    wanted: &Wanted,
    streams: &mut Streams,
) -> Result<(), Failure> {
    let name = log.file_name().unwrap_or(log.as_os_str());
    let name = name.to_string_lossy();
    let width = cells(wanted.width, map, streams.out_terminal);
    if wanted.map {
        let heading = format!("{}: {verdict}", escape::visible(&name));
        let drawn = map.draw(&heading, width, terminal::colour(streams.out_terminal));
        streams.answer(drawn.as_bytes())?;
    }
    let picture = || svg::draw(map, width, &name, verdict);
    match wanted.picture {
        None => Ok(()),
        Some(Picture::Alone) => streams.answer(picture().as_bytes()),
        Some(Picture::File(file)) => {
            output_file::replace(Path::new(file), picture().as_bytes(), &PICTURE)
        }
    }
}

/// The cells in a row: what was asked for, or what there is room for beside the rows' numbers.
fn cells(asked: Option<u64>, map: &Map, terminal: bool) -> usize {
    match asked {
        Some(width) => usize::try_from(width).unwrap_or(usize::MAX),
        None => {
            let room = terminal::width(terminal);
            room.saturating_sub(map.label() + 1).max(1)
        }
    }
}

/// The proved report: lines of a name, an equals sign and a value, the verdict the last.
struct Report {
    text: String,
    /// What the lines do not say.
    first_doubtful: Option<usize>,
}

impl Report {
    fn of(log: &[u8]) -> Result<Report, Failure> {
        let mut buffer = [0; BUFFER];
        let length = report(log, &mut buffer).map_err(Failure::refused)?;
        let text = String::from_utf8_lossy(&buffer[..length]).into_owned();
        let mut report = Report {
            text,
            first_doubtful: None,
        };
        if report.status() != DONE {
            let pieces = blocks::pieces(log).map_err(Failure::refused)?;
            report.first_doubtful = blocks::first_doubtful(&pieces);
        }
        Ok(report)
    }

    fn fields(&self) -> impl Iterator<Item = (&str, &str)> {
        self.text.lines().filter_map(|line| line.split_once('='))
    }

    fn verdict(&self) -> &str {
        let verdict = self.fields().find(|(name, _)| *name == "verdict");
        verdict.map_or("", |(_, value)| value)
    }

    fn status(&self) -> u8 {
        match self.verdict() {
            "sound" => DONE,
            _ => VERDICT_NOT_KNOWN,
        }
    }

    /// One object: numbers as they are, the verdict as a string, and the first doubtful sector or null.
    fn json(&self) -> String {
        let value = |value: &str| match value.bytes().all(|byte| byte.is_ascii_digit()) {
            true => value.to_string(),
            false => format!("\"{value}\""),
        };
        let fields = self.fields();
        let first = self.first_doubtful.map(|first| first.to_string());
        let first = first.unwrap_or("null".to_string());
        let fields: Vec<_> = fields
            .map(|(name, found)| format!("\"{name}\":{}", value(found)))
            .chain([format!("\"first_doubtful\":{first}")])
            .collect();
        format!("{{{}}}\n", fields.join(","))
    }
}
