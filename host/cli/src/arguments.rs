//! The words of a command, taken apart.

use std::ffi::{OsStr, OsString};
use std::path::Path;

use boundary::Refusal;

use crate::date::{self, Dates};
use crate::format::Score;
use crate::hex;
use crate::status::Failure;

/// What a command takes.
pub struct Syntax {
    /// Options without a value.
    pub flags: &'static [&'static str],
    /// Options with one.
    pub values: &'static [&'static str],
    /// The other words that it cannot do without, by their names, and how many it may have.
    pub words: &'static [&'static str],
    pub most: usize,
}

/// The words of one command.
#[derive(Debug, Default)]
pub struct Arguments {
    pub words: Vec<OsString>,
    flags: Vec<String>,
    values: Vec<(String, OsString)>,
    pub help: bool,
}

impl Arguments {
    /// Takes the words apart. After `--` no word is an option.
    pub fn parse(syntax: &Syntax, words: &[OsString]) -> Result<Arguments, Failure> {
        let mut found = Arguments::default();
        let mut rest = words.iter();
        while let Some(word) = rest.next() {
            if word == "--" {
                found.words.extend(rest.cloned());
                break;
            }
            if word == "-" || !word.as_encoded_bytes().starts_with(b"-") {
                found.words.push(word.clone());
                continue;
            }
            found.option(syntax, word, &mut rest)?;
        }
        let count = found.words.len();
        if !found.help && count < syntax.words.len() {
            return Err(missing(&syntax.words[count..]));
        }
        if !found.help && count > syntax.most {
            let extra = found.words[syntax.most].display();
            return Err(Failure::usage(format!("one word too many: {extra}")));
        }
        Ok(found)
    }

    /// Takes one option, written `--name`, `--name value` or `--name=value`.
    fn option<'a>(
        &mut self,
        syntax: &Syntax,
        word: &OsStr,
        rest: &mut impl Iterator<Item = &'a OsString>,
    ) -> Result<(), Failure> {
        let unknown = || Failure::usage(format!("no such option here: {}", word.display()));
        let text = word.to_str().ok_or_else(unknown)?;
        let (name, value) = match text.split_once('=') {
            Some((name, value)) => (name, Some(OsString::from(value))),
            None => (text, None),
        };
        if matches!(text, "--help" | "-h") {
            self.help = true;
        } else if syntax.values.contains(&name) {
            let value = value.or_else(|| rest.next().cloned());
            let value = value.ok_or_else(|| Failure::usage(format!("{name} takes a value")))?;
            if self.value(name).is_some() {
                return Err(Failure::usage(format!("{name} is given twice")));
            }
            self.values.push((name.to_string(), value));
        } else if syntax.flags.contains(&text) {
            self.flags.push(text.to_string());
        } else {
            return Err(unknown());
        }
        Ok(())
    }

    /// The word at a place that the syntax makes sure of.
    pub fn path(&self, at: usize) -> &Path {
        Path::new(self.words.get(at).map_or(OsStr::new(""), |word| word))
    }

    pub fn flag(&self, name: &str) -> bool {
        self.flags.iter().any(|flag| flag == name)
    }

    pub fn value(&self, name: &str) -> Option<&OsStr> {
        let found = self.values.iter().find(|(given, _)| given == name);
        found.map(|(_, value)| value.as_os_str())
    }

    /// The value of an option that is a decimal number.
    pub fn number(&self, name: &str) -> Result<Option<u64>, Failure> {
        let Some(value) = self.value(name) else {
            return Ok(None);
        };
        match value.to_str().and_then(decimal) {
            Some(number) => Ok(Some(number)),
            None => {
                let words = format!("{name} takes a decimal number, not {}", value.display());
                Err(Failure::usage(words))
            }
        }
    }

    /// The block type that `--type` names, data if it isn't given.
    pub fn kind(&self) -> Result<u8, Failure> {
        let Some(value) = self.value("--type") else {
            return Ok(13);
        };
        let kind = value.to_str().and_then(kind);
        kind.ok_or_else(|| Failure::refused_about(Refusal::BlockType, value))
    }

    /// The dates of what is stored, by `--date` if it is given.
    pub fn dates(&self) -> Result<Dates, Failure> {
        Dates::choose(self.value("--date").map(date::parse).transpose()?)
    }

    /// The score at a place.
    pub fn score(&self, at: usize) -> Result<Score, Failure> {
        let word = self.path(at).as_os_str();
        let score = word.to_str().and_then(hex::decode);
        score.ok_or_else(|| {
            let words = format!("a score is 40 hex digits, not {}", word.display());
            Failure::usage(words)
        })
    }
}

/// Words that were not given.
fn missing(names: &[&str]) -> Failure {
    let are = if names.len() == 1 { "is" } else { "are" };
    Failure::usage(format!("{} {are} missing", names.join(" and ")))
}

/// A decimal number; those that are too large are the largest there is.
fn decimal(text: &str) -> Option<u64> {
    if text.is_empty() || !text.bytes().all(|byte| byte.is_ascii_digit()) {
        return None;
    }
    Some(text.parse().unwrap_or(u64::MAX))
}

/// One of the ten block types, by number or name.
fn kind(text: &str) -> Option<u8> {
    let kind = match text {
        "root" => 1,
        "dir" => 2,
        "data" => 13,
        _ => match text.strip_prefix("ptr") {
            Some(level) => decimal(level).filter(|level| (1..=7).contains(level))? + 2,
            None => decimal(text)?,
        },
    };
    let kind = u8::try_from(kind).ok()?;
    matches!(kind, 1..=9 | 13).then_some(kind)
}

#[cfg(test)]
mod tests {
    use super::*;

    const SYNTAX: Syntax = Syntax {
        flags: &["--adopt"],
        values: &["--type", "--count"],
        words: &["LOG"],
        most: 2,
    };

    fn parse(words: &[&str]) -> Result<Arguments, Failure> {
        let words: Vec<_> = words.iter().map(OsString::from).collect();
        Arguments::parse(&SYNTAX, &words)
    }

    #[test]
    fn options_stand_anywhere() {
        let found = parse(&["--type", "dir", "log", "--adopt", "--count=7", "-"]).unwrap();
        assert_eq!(found.words, ["log", "-"]);
        assert!(found.flag("--adopt"));
        assert_eq!(found.kind().unwrap(), 2);
        assert_eq!(found.number("--count").unwrap(), Some(7));
        let found = parse(&["--", "--adopt", "--type"]).unwrap();
        assert_eq!(found.words, ["--adopt", "--type"]);
        assert!(!found.flag("--adopt"));
    }

    #[test]
    fn what_makes_no_sense_is_usage() {
        let bad: [&[&str]; 8] = [
            &[],
            &["a", "b", "c"],
            &["a", "--typ", "1"],
            &["a", "--type"],
            &["a", "-x"],
            &["a", "--adopt=1"],
            &["a", "--count", "1", "--count", "2"],
            &["a", "--=", "b"],
        ];
        for words in bad {
            assert_eq!(parse(words).unwrap_err().status, 64, "{words:?}");
        }
    }

    #[test]
    fn what_is_missing_is_named() {
        assert!(parse(&[]).unwrap_err().words.contains("LOG is missing"));
        let two = missing(&["LOG", "SCORE"]).words;
        assert!(two.contains("LOG and SCORE are missing"));
    }

    #[test]
    fn numbers() {
        assert_eq!(decimal("0"), Some(0));
        assert_eq!(decimal("99999999999999999999999"), Some(u64::MAX));
        for bad in ["", "-1", "+1", "1.0", "0x1", " 1", "١"] {
            assert_eq!(decimal(bad), None, "{bad}");
        }
    }

    #[test]
    fn the_ten_types() {
        let named = ["root", "dir", "ptr1", "ptr7", "data", "1", "9", "13"];
        assert_eq!(
            named.map(|name| kind(name).unwrap()),
            [1, 2, 3, 9, 13, 1, 9, 13]
        );
        for bad in ["0", "10", "14", "269", "ptr0", "ptr8", "ptr", "Data", ""] {
            assert_eq!(kind(bad), None, "{bad}");
        }
    }
}
