//! What changed between two saved roots: a row for each file that was added, removed or changed, or that
//! could not be compared.

use std::collections::HashMap;

use boundary::{difference, Refusal};

use crate::entry::{Entry, LENGTH as ENTRY};
use crate::escape;
use crate::markup::json_string;
use crate::saved::{Saved, SavedFile};
use crate::words;

#[derive(Clone, Copy, Debug, PartialEq, Eq)]
pub enum Change {
    Added,
    Removed,
    Changed,
    /// It could not be compared.
    Unreadable(Refusal),
}

impl Change {
    fn word(&self) -> &'static str {
        match self {
            Change::Added => "added",
            Change::Removed => "removed",
            Change::Changed => "changed",
            Change::Unreadable(_) => "unreadable",
        }
    }
}

/// Which file a row is of.
#[derive(Clone, Copy, Debug, PartialEq, Eq)]
pub enum Named<'a> {
    Name(&'a str),
    /// Its name is lost. The place counts from 1 on; it is the place in both roots where none is told.
    Lost {
        root: Option<u8>,
        place: usize,
    },
}

#[derive(Clone, Copy, Debug, PartialEq, Eq)]
pub struct Row<'a> {
    pub file: Named<'a>,
    pub change: Change,
}

impl Row<'_> {
    pub fn is_unreadable(&self) -> bool {
        matches!(self.change, Change::Unreadable(_))
    }

    pub fn is_nameless(&self) -> bool {
        matches!(self.file, Named::Lost { .. })
    }

    pub fn text(&self) -> String {
        let name = match self.file {
            Named::Name(name) => escape::visible(name),
            Named::Lost {
                root: Some(root),
                place,
            } => format!("(name lost: file {place} of ROOT{root})"),
            Named::Lost { root: None, place } => format!("(name lost: file {place})"),
        };
        let word = self.change.word();
        match self.change {
            Change::Unreadable(refusal) => {
                format!("{word:10}  {name}: {}\n", words::brief(refusal))
            }
            _ => format!("{word:10}  {name}\n"),
        }
    }

    pub fn json(&self) -> String {
        let name = match self.file {
            Named::Name(name) => json_string(name),
            Named::Lost { root, place } => {
                let root = root.map_or(String::new(), |root| format!("\"root\":{root},"));
                format!("null,{root}\"place\":{place}")
            }
        };
        let more = match self.change {
            Change::Unreadable(refusal) => {
                let sector = refusal.first_doubtful().map(|sector| sector.to_string());
                let sector = sector.unwrap_or("null".to_string());
                format!(",\"number\":{},\"sector\":{sector}", refusal.number())
            }
            _ => String::new(),
        };
        let word = self.change.word();
        format!("{{\"name\":{name},\"change\":\"{word}\"{more}}}\n")
    }
}

/// Two roots to be compared.
pub struct Roots<'a> {
    pub first: &'a Saved,
    pub second: &'a Saved,
    /// Whether an entry that cannot be read at one place in both is one entry.
    pub unread_alike: bool,
}

/// A file with its place in its root.
type Placed<'a> = (usize, &'a SavedFile);

impl<'a> Roots<'a> {
    /// The rows in the order of the first root's files, then of those that only the second has.
    pub fn rows(&self) -> Vec<Row<'a>> {
        match self.one_list() && self.first.files.len() == self.second.files.len() {
            true => self.by_place(),
            false => self.by_name(),
        }
    }

    /// Whether both have one list of names, though it may be lost.
    fn one_list(&self) -> bool {
        match (&self.first.names, &self.second.names) {
            (Ok(ours), Ok(theirs)) => ours == theirs,
            (Err(_), Err(_)) => self.unread_alike,
            _ => false,
        }
    }

    /// With one list of names, files at one place have one name.
    fn by_place(&self) -> Vec<Row<'a>> {
        let pairs = placed(self.first).zip(placed(self.second));
        let row = |(ours, theirs): (Placed<'a>, Placed<'a>)| {
            let change = self.change(ours, theirs)?;
            let file = named(ours, None);
            Some(Row { file, change })
        };
        pairs.filter_map(row).collect()
    }

    fn by_name(&self) -> Vec<Row<'a>> {
        let (ours, theirs) = (names(self.first), names(self.second));
        let mut rows = Vec::new();
        for file in placed(self.first) {
            let change = match file.1.name.as_deref().map(|name| theirs.get(name)) {
                None => Some(lost(self.first, Change::Removed)),
                Some(None) => Some(lost(self.second, Change::Removed)),
                Some(Some(other)) => self.change(file, *other),
            };
            let file = named(file, Some(1));
            rows.extend(change.map(|change| Row { file, change }));
        }
        for file in placed(self.second) {
            let change = match file.1.name.as_deref().map(|name| ours.get(name)) {
                None => Some(lost(self.second, Change::Added)),
                Some(None) => Some(lost(self.first, Change::Added)),
                // It was compared already.
                Some(Some(_)) => None,
            };
            let file = named(file, Some(2));
            rows.extend(change.map(|change| Row { file, change }));
        }
        rows
    }

    /// What became of a file that both roots have.
    fn change(&self, (at, first): Placed, (place, second): Placed) -> Option<Change> {
        match (&first.entry, &second.entry) {
            (Ok(ours), Ok(theirs)) => entries(ours, theirs),
            (Err(_), Err(_)) if self.unread_alike && at == place => None,
            (Err(refusal), _) | (_, Err(refusal)) => Some(Change::Unreadable(*refusal)),
        }
    }
}

/// The files with their places, from 1 on.
fn placed(saved: &Saved) -> impl Iterator<Item = Placed<'_>> {
    (1..).zip(&saved.files)
}

fn names(saved: &Saved) -> HashMap<&str, Placed<'_>> {
    placed(saved)
        .filter_map(|file| file.1.name.as_deref().map(|name| (name, file)))
        .collect()
}

/// What to say of a name that may be among the lost ones of a root, and otherwise.
fn lost(saved: &Saved, otherwise: Change) -> Change {
    saved.names_lost.map_or(otherwise, Change::Unreadable)
}

fn named((place, file): Placed<'_>, root: Option<u8>) -> Named<'_> {
    match &file.name {
        Some(name) => Named::Name(name),
        None => Named::Lost { root, place },
    }
}

/// Two entries, by the proved call: equal ones are no difference, ill-formed or not.
fn entries(ours: &[u8; ENTRY], theirs: &[u8; ENTRY]) -> Option<Change> {
    let ill_formed = Entry::parse(ours).is_none() || Entry::parse(theirs).is_none();
    if ours != theirs && ill_formed {
        return Some(Change::Unreadable(Refusal::Entry));
    }
    match difference(ours, theirs) {
        Ok(found) => found.map(|_| Change::Changed),
        Err(refusal) => Some(Change::Unreadable(refusal)),
    }
}

#[cfg(test)]
mod tests {
    use super::*;

    const DAMAGED: Refusal = Refusal::NotKnown { sector: 7 };

    fn entry(seed: u8) -> [u8; ENTRY] {
        let mut entry = [0; ENTRY];
        (entry[5], entry[7], entry[8]) = (40, 1, 1);
        entry[20..].fill(seed);
        entry
    }

    /// A root with these files; the list of names is told by a number.
    fn saved(list: u8, files: &[(&str, u8)]) -> Saved {
        let file = |(name, seed): &(&str, u8)| SavedFile {
            name: Some(name.to_string()),
            entry: Ok(entry(*seed)),
        };
        Saved {
            names: Ok(entry(list)),
            files: files.iter().map(file).collect(),
            names_lost: None,
        }
    }

    fn rows<'a>(first: &'a Saved, second: &'a Saved) -> Vec<Row<'a>> {
        let unread_alike = false;
        let roots = Roots {
            first,
            second,
            unread_alike,
        };
        roots.rows()
    }

    fn texts(first: &Saved, second: &Saved) -> Vec<String> {
        rows(first, second).iter().map(Row::text).collect()
    }

    #[test]
    fn by_their_names() {
        let first = saved(1, &[("a", 1), ("b", 2), ("c", 3)]);
        let second = saved(2, &[("d", 2), ("c", 4), ("a", 1)]);
        let told = ["removed     b\n", "changed     c\n", "added       d\n"];
        assert_eq!(texts(&first, &second), told);
        let told = ["removed     d\n", "changed     c\n", "added       b\n"];
        assert_eq!(texts(&second, &first), told);
    }

    /// A name that is lost may be any: nothing is added, nothing removed.
    #[test]
    fn names_that_are_lost() {
        let mut first = saved(1, &[("a", 1), ("b", 2)]);
        let second = saved(2, &[("a", 3), ("b", 2), ("c", 1)]);
        first.files[1].name = None;
        first.names_lost = Some(DAMAGED);
        let why = words::brief(DAMAGED);
        let told = [
            "changed     a\n".to_string(),
            format!("unreadable  (name lost: file 2 of ROOT1): {why}\n"),
            format!("unreadable  b: {why}\n"),
            format!("unreadable  c: {why}\n"),
        ];
        assert_eq!(texts(&first, &second), told);
        let json: Vec<_> = rows(&first, &second).iter().map(Row::json).collect();
        let lost = "{\"name\":null,\"root\":1,\"place\":2,\"change\":\"unreadable\",\"number\":12,\"sector\":7}\n";
        assert_eq!(json[1], lost);
    }

    /// Where both have one list of names, files are told by their place, and are compared all the same.
    #[test]
    fn one_list_that_is_lost() {
        let nameless = |seeds: [u8; 3]| {
            let mut saved = saved(1, &seeds.map(|seed| ("", seed)));
            saved.files.iter_mut().for_each(|file| file.name = None);
            saved.names_lost = Some(DAMAGED);
            saved
        };
        let (first, mut second) = (nameless([1, 2, 3]), nameless([1, 4, 3]));
        assert_eq!(
            texts(&first, &second),
            ["changed     (name lost: file 2)\n"]
        );
        second.files[2].entry = Err(DAMAGED);
        let found = rows(&first, &second);
        assert_eq!(
            found[0].json(),
            "{\"name\":null,\"place\":2,\"change\":\"changed\"}\n"
        );
        assert!(found[1].is_unreadable() && found[1].is_nameless());
        assert_eq!(found.len(), 2);
    }

    /// An entry that is unread in both is one only at one place, and only if that is known.
    #[test]
    fn entries_that_are_unread() {
        let mut first = saved(1, &[("a", 1), ("b", 2)]);
        let mut second = saved(2, &[("a", 1), ("c", 2), ("b", 2)]);
        first.files.iter_mut().for_each(|f| f.entry = Err(DAMAGED));
        second.files.iter_mut().for_each(|f| f.entry = Err(DAMAGED));
        let names = |unread_alike| {
            let (first, second) = (&first, &second);
            let roots = Roots {
                first,
                second,
                unread_alike,
            };
            let rows = roots.rows().into_iter();
            rows.map(|row| (row.file, row.change.word())).collect()
        };
        let (a, b) = (Named::Name("a"), Named::Name("b"));
        let rest = [(b, "unreadable"), (Named::Name("c"), "added")];
        let rows: Vec<_> = names(true);
        assert_eq!(rows, rest);
        let rows: Vec<_> = names(false);
        assert_eq!(rows, [&[(a, "unreadable")], &rest[..]].concat());
    }

    #[test]
    fn entries_that_are_no_file() {
        let (good, mut bad) = (entry(1), entry(1));
        bad[9] = 1;
        let mut inactive = good;
        inactive[8] = 0;
        assert_eq!(entries(&good, &good), None);
        assert_eq!(entries(&bad, &bad), None);
        let refused = Some(Change::Unreadable(Refusal::Entry));
        assert_eq!(entries(&good, &bad), refused);
        assert_eq!(entries(&inactive, &good), refused);
        assert_eq!(entries(&good, &entry(2)), Some(Change::Changed));
    }
}
