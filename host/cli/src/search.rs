//! `search`: asks a query of every card of a root, or of one card.

use std::ffi::OsStr;
use std::path::Path;

use boundary::{fill, search, Refusal, Value};

use crate::arguments::Arguments;
use crate::card_text;
use crate::contents;
use crate::date::{self, Dates};
use crate::entry::LENGTH as ENTRY;
use crate::escape;
use crate::findings::{Finding, Findings, Row};
use crate::format::{used, Score, SECTOR};
use crate::gathered::{Answered, Gathered, BLANK};
use crate::hex;
use crate::index_file::Index;
use crate::output_file::{self, Kind};
use crate::page;
use crate::progress::Progress;
use crate::query::{self, Query};
use crate::reader;
use crate::saved::{self, SavedFile};
use crate::status::{Failure, DONE, PARTLY};
use crate::streams::Streams;
use crate::words;

/// A page may overwrite a page only.
const PAGE: Kind = Kind {
    option: "--html",
    name: "page",
    fronts: &["<!doctype html>"],
};

/// What is searched.
enum Target {
    Root(Score),
    Card([u8; ENTRY]),
}

pub fn run(arguments: &Arguments, streams: &mut Streams) -> Result<u8, Failure> {
    let asked = Asked::new(&arguments.words[2])?;
    let target = target(arguments)?;
    let page = wanted_page(arguments)?;
    let path = arguments.path(0);
    let mut log = reader::read(path, arguments.flag("--adopt"), streams)?;
    let (files, names_lost) = files(&mut log, &target, arguments)?;
    // Of a single card the index would take as long as the scan.
    let index = match files.len() {
        0 | 1 => Vec::new(),
        _ => Index::read(path, &log[..used(&log) * SECTOR]).into_lent(),
    };
    let mut log = Gathered::new(log, index)?;

    let mut rows = Vec::new();
    let (mut progress, count) = (Progress::start(), files.len());
    for (place, SavedFile { name, entry }) in (1..).zip(files) {
        progress.show_before(streams, || {
            format!("{} of {count} cards searched", rows.len())
        });
        let finding = asked.of(&mut log, entry)?;
        rows.push(Row {
            name,
            place,
            finding,
        });
    }
    streams.clear_progress();
    let findings = Findings { rows, names_lost };
    write(&findings, &asked, arguments, page, streams)?;
    let told = [findings.lost_names(), advice(&findings)];
    told.iter().flatten().for_each(|words| streams.tell(words));
    Ok(match findings.whole() {
        true => DONE,
        false => PARTLY,
    })
}

const HEAL: &str =
    " `skywimple list LOG` shows the doubtful sectors, and how to restore them from a \
    copy; saving the cards again (`skywimple save`) heals them too.";
const MISSING: &str = " A block of a card is not held in this log: saving the card again \
    (`skywimple save`) stores it.";
const OTHER_MAKE: &str = " An entry or tree that is ill-formed was written wrongly: save the card \
    again from its file, or check the entry that was given.";
const NO_CARD: &str = " `skywimple card FILE` says what is wrong with a file that is no card.";

/// What to do about a card that is refused so.
fn advice_for(refusal: Refusal) -> &'static str {
    match refusal {
        Refusal::NotKnown { .. } => HEAL,
        Refusal::NotHeld => MISSING,
        Refusal::Card => NO_CARD,
        _ => OTHER_MAKE,
    }
}

/// What to do about cards that could not be read: each advice once.
fn advice(findings: &Findings) -> Option<String> {
    let why = |row: &Row| match row.finding {
        Finding::Unreadable { refusal, .. } => Some(advice_for(refusal)),
        _ => None,
    };
    let advice: Vec<_> = findings.rows.iter().filter_map(why).collect();
    let count = match advice.len() {
        0 => return None,
        1 => "1 card".to_string(),
        count => format!("{count} cards"),
    };
    let given = [HEAL, MISSING, OTHER_MAKE, NO_CARD].into_iter();
    let given: String = given.filter(|words| advice.contains(words)).collect();
    Some(format!("{count} could not be read.{given}"))
}

/// A query that the proved call takes for one.
struct Asked<'a> {
    text: &'a str,
    query: Option<Query>,
}

impl Asked<'_> {
    fn new(word: &OsStr) -> Result<Asked<'_>, Failure> {
        let bytes = word.as_encoded_bytes();
        let judged = search(&[], &[], &BLANK, &no_card(), bytes);
        let read = query::read(bytes);
        match (judged, read, word.to_str()) {
            (Ok(_), read, Some(text)) => Ok(Asked {
                text,
                query: read.ok(),
            }),
            (_, Err(fault), _) => {
                let words = format!("{fault}. This is {}", words::refusal(Refusal::Query));
                Err(Failure::new(Refusal::Query.number(), words))
            }
            _ => Err(Failure::refused(Refusal::Query)),
        }
    }

    /// What comes of the card of an entry. The answer is the proved call's.
    fn of(
        &self,
        log: &mut Gathered,
        entry: Result<[u8; ENTRY], Refusal>,
    ) -> Result<Finding, Failure> {
        let entry = match entry {
            Ok(entry) => entry,
            Err(refusal) => return Ok(unreadable(refusal, "its entry cannot be read")),
        };
        let answered = log.search(&entry, self.text.as_bytes());
        match answered.answer {
            Ok(Value::Yes) => Ok(Finding::Yes),
            Ok(Value::No) => Ok(Finding::No),
            Ok(Value::NotKnown) => Ok(Finding::NotKnown {
                missing: self.missing(&card(&answered, &entry)),
            }),
            Err(Refusal::Query) => Err(Failure::refused(Refusal::Query)),
            Err(Refusal::Card) => Ok(unreadable(Refusal::Card, &ill_formed(&answered, &entry))),
            Err(refusal) => Ok(Finding::Unreadable {
                refusal,
                detail: None,
            }),
        }
    }

    /// The antigens that nobody tested and that keep the query open.
    fn missing(&self, card: &[u8]) -> Vec<String> {
        let says = |antigen: &str| card_text::says(card, antigen);
        let open = self.query.as_ref().and_then(|query| query.open(&says));
        let open = open.unwrap_or_default();
        open.into_iter().map(String::from).collect()
    }
}

fn unreadable(refusal: Refusal, detail: &str) -> Finding {
    Finding::Unreadable {
        refusal,
        detail: Some(detail.to_string()),
    }
}

/// The bytes of a card that was just read whole, and one more where it is too long for one.
fn card(answered: &Answered, entry: &[u8; ENTRY]) -> Vec<u8> {
    let size = contents::size(entry).min(card_text::MOST as u64 + 1);
    let mut card = vec![0; size as usize];
    let filled = fill(answered.log, answered.waiting, entry, 0, &mut card);
    card.truncate(filled.count);
    card
}

/// Where a file that is no card goes wrong.
fn ill_formed(answered: &Answered, entry: &[u8; ENTRY]) -> String {
    let size = contents::size(entry);
    if size > card_text::MOST as u64 {
        return format!("it has {size} bytes, and a card has at most 4,096");
    }
    let fault = card_text::fault(&card(answered, entry));
    fault.map_or(String::new(), |fault| fault.to_string())
}

/// An entry of no bytes: a card without lines, that is not read.
fn no_card() -> [u8; ENTRY] {
    let mut entry = [0; ENTRY];
    entry[5] = 40; // psize
    entry[7] = 1; // dsize
    entry[8] = 1; // active
    entry
}

/// The second word: a root's score, or an entry.
fn target(arguments: &Arguments) -> Result<Target, Failure> {
    let word = arguments.path(1).to_str().unwrap_or_default();
    let root = hex::decode(word).map(Target::Root);
    let found = root.or_else(|| hex::decode(word).map(Target::Card));
    found.ok_or_else(|| {
        let words = format!(
            "ROOT is a root's score, 40 hex digits, or a card's entry, 80, not {}",
            arguments.path(1).display()
        );
        Failure::usage(words)
    })
}

/// The cards to be searched, and why names are lost, if any are.
fn files(
    log: &mut [u8],
    target: &Target,
    arguments: &Arguments,
) -> Result<(Vec<SavedFile>, Option<Refusal>), Failure> {
    match target {
        Target::Root(score) => {
            let saved = saved::open(log, score)?;
            Ok((saved.files, saved.names_lost))
        }
        Target::Card(entry) => {
            let name = Some(arguments.path(1).display().to_string());
            let entry = Ok(*entry);
            Ok((vec![SavedFile { name, entry }], None))
        }
    }
}

/// A page that is asked for.
struct Page<'a> {
    file: &'a Path,
    /// The day that it tells, so that an old page is seen to be one.
    day: String,
}

impl Page<'_> {
    /// Whether it goes to standard output.
    fn is_answer(&self) -> bool {
        self.file == Path::new("-")
    }
}

/// The page that is asked for, if one is. Its file may be written then.
fn wanted_page(arguments: &Arguments) -> Result<Option<Page<'_>>, Failure> {
    let Some(file) = arguments.value("--html").map(Path::new) else {
        return Ok(None);
    };
    let day = date::hyphened(&Dates::choose(None)?.now()?);
    let page = Page { file, day };
    if !page.is_answer() {
        output_file::may_write(arguments.path(0), file, &PAGE)?;
    } else if arguments.flag("--json") {
        let words = "--html - has standard output for the page alone, without --json";
        return Err(Failure::usage(words));
    }
    Ok(Some(page))
}

/// Writes the page, and the table or the objects.
fn write(
    findings: &Findings,
    asked: &Asked,
    arguments: &Arguments,
    page: Option<Page>,
    streams: &mut Streams,
) -> Result<(), Failure> {
    if let Some(page) = page {
        let subject = page::Subject {
            query: asked.text,
            day: &page.day,
            log: &escape::visible_path(arguments.path(0)),
            target: &escape::visible_path(arguments.path(1)),
        };
        let drawn = page::draw(findings, &subject);
        if page.is_answer() {
            return streams.answer(drawn.as_bytes());
        }
        output_file::replace(page.file, drawn.as_bytes(), &PAGE)?;
    }
    let text = match arguments.flag("--json") {
        true => findings.json(),
        false => findings.text(asked.text),
    };
    streams.answer(text.as_bytes())
}
