//! What a search found as a page of HTML that stands alone and prints well. Answers are told by words
//! and by place, not by colour.

use crate::findings::{Findings, Row, ANSWERS};
use crate::markup::escaped;

const STYLE: &str = "\
body { font-family: sans-serif; margin: 2em auto; max-width: 60em; color: #000; background: #fff; }
dt { font-weight: bold; }
dd { margin: 0 0 0.5em 0; font-family: monospace; overflow-wrap: anywhere; }
table { border-collapse: collapse; width: 100%; }
th, td { text-align: left; vertical-align: top; padding: 0.3em 0.6em; border-bottom: 1px solid #777; }
td.name { font-family: monospace; overflow-wrap: anywhere; }
tr.group th { padding-top: 1.2em; font-size: 1.15em; border-bottom: 3px double #000; }
p.warning { border: 2px solid #000; padding: 0.5em; font-weight: bold; }
@media print {
  body { margin: 0; max-width: none; font-size: 10pt; }
  thead { display: table-header-group; }
  tr { break-inside: avoid; }
  tr.group { break-after: avoid; }
}
";

/// What was searched, and on which day.
pub struct Subject<'a> {
    pub query: &'a str,
    pub day: &'a str,
    pub log: &'a str,
    pub target: &'a str,
}

pub fn draw(findings: &Findings, subject: &Subject) -> String {
    let (query, log) = (escaped(subject.query), escaped(subject.log));
    let (target, day) = (escaped(subject.target), escaped(subject.day));
    let counts = findings.counts();
    let warning = |words: &String| format!("<p class=\"warning\">{}</p>\n", escaped(words));
    let warnings: String = findings.warnings().iter().map(warning).collect();
    let groups: String = ANSWERS
        .iter()
        .map(|answer| group(findings, answer))
        .collect();
    format!(
        "<!doctype html>\n<html lang=\"en\">\n<head>\n<meta charset=\"utf-8\">\n\
         <meta name=\"viewport\" content=\"width=device-width\">\n\
         <title>Card search of {day}: {query}</title>\n<style>\n{STYLE}</style>\n</head>\n<body>\n\
         <h1>Card search</h1>\n<dl>\n<dt>Query</dt><dd>{query}</dd>\n\
         <dt>Searched on</dt><dd>{day} (UTC)</dd>\n<dt>Log</dt><dd>{log}</dd>\n\
         <dt>Root or entry</dt><dd>{target}</dd>\n</dl>\n\
         <p>{counts}.</p>\n{warnings}<table>\n\
         <thead><tr><th scope=\"col\">Answer</th><th scope=\"col\">Card</th>\
         <th scope=\"col\">Why</th></tr></thead>\n{groups}</table>\n<p>{counts}.</p>\n</body>\n</html>\n"
    )
}

/// The cards with one answer under its head.
fn group(findings: &Findings, answer: &str) -> String {
    let rows: String = findings.with(answer).map(row).collect();
    let count = match findings.with(answer).count() {
        0 => "none".to_string(),
        count => count.to_string(),
    };
    format!(
        "<tbody>\n<tr class=\"group\"><th colspan=\"3\" scope=\"rowgroup\">{answer}: {count}</th></tr>\n\
         {rows}</tbody>\n"
    )
}

fn row(row: &Row) -> String {
    let (name, why) = (escaped(&row.shown()), escaped(&row.finding.why()));
    let answer = row.finding.answer();
    format!("<tr><td>{answer}</td><td class=\"name\">{name}</td><td>{why}</td></tr>\n")
}
