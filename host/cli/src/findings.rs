//! What a search found: a row for each card, and its table as text and as JSON.

use boundary::Refusal;

use crate::escape;
use crate::markup::json_string;
use crate::words;

/// What came of one card.
#[derive(Clone, Debug, PartialEq, Eq)]
pub enum Finding {
    Yes,
    /// The antigens that nobody tested and that keep the query open.
    NotKnown {
        missing: Vec<String>,
    },
    /// The card is no answer at all: why, and of a text that is no card where it goes wrong.
    Unreadable {
        refusal: Refusal,
        detail: Option<String>,
    },
    No,
}

/// The answers, in the order in which they are listed.
pub const ANSWERS: [&str; 4] = ["yes", "not known", "unreadable", "no"];

impl Finding {
    pub fn answer(&self) -> &'static str {
        match self {
            Finding::Yes => "yes",
            Finding::NotKnown { .. } => "not known",
            Finding::Unreadable { .. } => "unreadable",
            Finding::No => "no",
        }
    }

    /// Why it is so, in words.
    pub fn why(&self) -> String {
        match self {
            Finding::Yes | Finding::No => String::new(),
            Finding::NotKnown { missing } if missing.is_empty() => String::new(),
            Finding::NotKnown { missing } => format!("nobody tested: {}", missing.join(", ")),
            Finding::Unreadable { refusal, detail } => match detail {
                Some(detail) => format!("{}: {detail}", words::brief(*refusal)),
                None => words::brief(*refusal),
            },
        }
    }
}

/// What stands in the place of a name that is lost, with the place of its card.
const LOST: &str = "(name lost:";

/// A card and what came of it.
#[derive(Debug)]
pub struct Row {
    /// None where the name is lost.
    pub name: Option<String>,
    /// Which file of the root it is, from 1 on.
    pub place: usize,
    pub finding: Finding,
}

impl Row {
    /// The name as it is shown. None is shown as one that is lost.
    pub fn shown(&self) -> String {
        match &self.name {
            Some(name) if name.starts_with(LOST) => {
                format!("\\u{{28}}{}", escape::visible(&name[1..]))
            }
            Some(name) => escape::visible(name),
            None => format!("{LOST} file {})", self.place),
        }
    }

    fn json(&self) -> String {
        let name = match &self.name {
            Some(name) => json_string(name),
            None => format!("null,\"place\":{}", self.place),
        };
        let answer = self.finding.answer();
        let more = match &self.finding {
            Finding::Yes | Finding::No => String::new(),
            Finding::NotKnown { missing } => {
                let missing: Vec<_> = missing.iter().map(|name| json_string(name)).collect();
                format!(",\"missing\":[{}]", missing.join(","))
            }
            Finding::Unreadable { refusal, .. } => {
                let sector = refusal.first_doubtful().map(|sector| sector.to_string());
                let sector = sector.unwrap_or("null".to_string());
                format!(",\"number\":{},\"sector\":{sector}", refusal.number())
            }
        };
        format!("{{\"name\":{name},\"answer\":\"{answer}\"{more}}}\n")
    }
}

/// The rows of a search.
pub struct Findings {
    pub rows: Vec<Row>,
    /// Why names are lost, if any are.
    pub names_lost: Option<Refusal>,
}

/// What is told beside cards that could not be read.
const NO_ANSWER: &str = "An unreadable card is no answer: it may be a yes or a no. \
    DO NOT READ IT AS ABSENT.";

impl Findings {
    /// The rows with an answer, in the order of the cards.
    pub fn with<'a>(&'a self, answer: &'a str) -> impl Iterator<Item = &'a Row> {
        self.rows
            .iter()
            .filter(move |row| row.finding.answer() == answer)
    }

    /// The rows as they are listed.
    fn listed(&self) -> impl Iterator<Item = &Row> {
        ANSWERS.iter().flat_map(|answer| self.with(answer))
    }

    pub fn unreadable(&self) -> usize {
        self.with("unreadable").count()
    }

    /// Whether all could be read, cards and names.
    pub fn whole(&self) -> bool {
        self.unreadable() == 0 && self.names_lost.is_none()
    }

    /// How many names are lost, why, and where the damage begins.
    pub fn lost_names(&self) -> Option<String> {
        let why = words::brief(self.names_lost?);
        let lost = match self.rows.iter().filter(|row| row.name.is_none()).count() {
            1 => "1 name is lost".to_string(),
            count => format!("{count} names are lost"),
        };
        Some(format!(
            "{lost}: {why}. A card that had one is listed by its place: it was the file N, from 1 on, \
             of those that `save` was given."
        ))
    }

    /// What is told beside the rows.
    pub fn warnings(&self) -> Vec<String> {
        let no_answer = (self.unreadable() > 0).then(|| NO_ANSWER.to_string());
        no_answer.into_iter().chain(self.lost_names()).collect()
    }

    /// How many cards there are, and how many of each answer.
    pub fn counts(&self) -> String {
        let counts = ANSWERS.map(|answer| format!("{} {answer}", self.with(answer).count()));
        let cards = if self.rows.len() == 1 {
            "card"
        } else {
            "cards"
        };
        format!("{} {cards}: {}", self.rows.len(), counts.join(", "))
    }

    /// The table: answer, name and why.
    pub fn text(&self, query: &str) -> String {
        let head = ["answer", "name", "why"].map(String::from);
        let row = |row: &Row| {
            [
                row.finding.answer().to_string(),
                row.shown(),
                row.finding.why(),
            ]
        };
        let rows: Vec<_> = [head].into_iter().chain(self.listed().map(row)).collect();
        let width = |at: usize| rows.iter().map(|row| row[at].chars().count()).max();
        let (first, second) = (width(0).unwrap_or(0), width(1).unwrap_or(0));
        let mut text = format!("query: {query}\n\n");
        for [answer, name, why] in &rows {
            let line = format!("{answer:first$}  {name:second$}  {why}");
            text += line.trim_end();
            text.push('\n');
        }
        text.push('\n');
        for warning in self.warnings() {
            text += &format!("{warning}\n");
        }
        text + &self.counts() + "\n"
    }

    /// The rows as JSON, an object a line.
    pub fn json(&self) -> String {
        self.listed().map(Row::json).collect()
    }
}
