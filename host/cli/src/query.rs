//! The text of a query taken apart: where it first goes wrong, and which antigens keep it open. What a
//! card answers, and whether a text is a query at all, the proved call says.

use std::fmt;

use boundary::Value;

use crate::card_text::{MOST_NAME, RESERVED};

/// The most bytes of a query, and the most brackets that are open at once.
const MOST: usize = 256;
const MOST_OPEN: usize = 16;

/// The most characters of a token that are told.
const MOST_TOLD: usize = 16;

const ONLY_LETTERS: &str = "a name has only letters (A to Z, a to z) and digits, and one space \
    stands between any two words or brackets";

/// The first token of a query that cannot stand where it does: its first byte, counted from 1, and why.
#[derive(Debug, PartialEq, Eq)]
pub struct Fault {
    byte: usize,
    words: String,
}

impl fmt::Display for Fault {
    fn fmt(&self, f: &mut fmt::Formatter) -> fmt::Result {
        write!(f, "at byte {}: {}", self.byte, self.words)
    }
}

/// Choices, of which any will do; in a choice terms, all of which have to hold.
#[derive(Debug)]
pub struct Query(Vec<Vec<Term>>);

#[derive(Debug)]
enum Term {
    Not(Box<Term>),
    Name(String),
    Group(Query),
}

/// Takes a query apart.
pub fn read(text: &[u8]) -> Result<Query, Fault> {
    let mut tokens = Tokens {
        text,
        next: 0,
        open: 0,
    };
    let query = tokens.query()?;
    match tokens.peek() {
        None if text.len() > MOST => Err(too_long()),
        None => Ok(query),
        Some(b")") => Err(tokens.fault("no bracket is open that this one could close")),
        Some(_) => Err(tokens.fault("`and` or `or` must stand here, or the end")),
    }
}

fn too_long() -> Fault {
    Fault {
        byte: MOST + 1,
        words: format!("a query has at most {MOST} bytes"),
    }
}

struct Tokens<'a> {
    text: &'a [u8],
    /// Where the next token begins; one past the end and its space where there is none.
    next: usize,
    open: usize,
}

impl Tokens<'_> {
    /// choice { "or" choice }, a choice being term { "and" term }.
    fn query(&mut self) -> Result<Query, Fault> {
        let mut choices = vec![self.choice()?];
        while self.take(b"or") {
            choices.push(self.choice()?);
        }
        Ok(Query(choices))
    }

    fn choice(&mut self) -> Result<Vec<Term>, Fault> {
        let mut terms = vec![self.term()?];
        while self.take(b"and") {
            terms.push(self.term()?);
        }
        Ok(terms)
    }

    /// "not" term | name | "(" query ")"
    fn term(&mut self) -> Result<Term, Fault> {
        if self.next >= MOST && self.text.len() > MOST {
            return Err(too_long());
        }
        if self.take(b"not") {
            return Ok(Term::Not(Box::new(self.term()?)));
        }
        if self.peek() == Some(b"(") {
            if self.open == MOST_OPEN {
                return Err(self.fault("at most 16 brackets may be open"));
            }
            self.take(b"(");
            self.open += 1;
            let group = self.query()?;
            if self.peek() != Some(b")") {
                return Err(self.fault("`and`, `or` or `)` must stand here"));
            }
            self.take(b")");
            self.open -= 1;
            return Ok(Term::Group(group));
        }
        self.name().map(Term::Name)
    }

    fn name(&mut self) -> Result<String, Fault> {
        let token = self.peek().unwrap_or_default();
        let name = str::from_utf8(token).unwrap_or_default();
        if RESERVED.contains(&name) || [")", ""].contains(&name) {
            return Err(self.fault("a name, `not` or `(` must stand here"));
        }
        if !name.bytes().all(|byte| byte.is_ascii_alphanumeric()) {
            return Err(self.fault(ONLY_LETTERS));
        }
        if name.len() > MOST_NAME {
            return Err(self.fault("a name has at most 8 letters and digits"));
        }
        let name = name.to_string();
        self.next += name.len() + 1;
        Ok(name)
    }

    /// The next token: what stands up to the next space. Of two spaces side by side the second begins
    /// an empty one, and so does one at the end.
    fn peek(&self) -> Option<&[u8]> {
        let rest = self.text.get(self.next..)?;
        rest.split(|byte| *byte == b' ').next()
    }

    /// Takes the next token if it is this one.
    fn take(&mut self, token: &[u8]) -> bool {
        let taken = self.peek() == Some(token);
        if taken {
            self.next += token.len() + 1;
        }
        taken
    }

    /// A fault at the next token.
    fn fault(&self, words: &str) -> Fault {
        let (byte, found) = match self.peek() {
            None => (self.text.len() + 1, "and the query ends".to_string()),
            Some(b"") if self.text.is_empty() => (1, "and the query is empty".to_string()),
            Some(b"") => (self.next + 1, "and there is a space too many".to_string()),
            Some(token) => (self.next + 1, format!("and not `{}`", front(token))),
        };
        Fault {
            byte,
            words: format!("{words}, {found}"),
        }
    }
}

/// A token as it is told: of a long one the front, which is enough to find it.
fn front(token: &[u8]) -> String {
    let text = String::from_utf8_lossy(token);
    let mut signs = text.chars();
    let front: String = signs.by_ref().take(MOST_TOLD).collect();
    match signs.next() {
        None => front,
        Some(_) => front + "...",
    }
}

/// Present is yes, absent is no, and an antigen of which nothing is said is not known.
type Says<'a> = &'a dyn Fn(&str) -> Option<bool>;

impl Query {
    /// The antigens, in the query's order, that nobody tested and that keep it open: those that stand in a
    /// part of the query that is not known, all parts around it being not known too. Testing all of
    /// them decides the query; testing any other changes nothing. None where the query is not open.
    pub fn open(&self, says: Says) -> Option<Vec<&str>> {
        if self.value(says) != Value::NotKnown {
            return None;
        }
        let mut names = Vec::new();
        self.collect(says, &mut names);
        Some(names)
    }

    fn collect<'a>(&'a self, says: Says, names: &mut Vec<&'a str>) {
        let open = |choice: &&Vec<Term>| all(choice, says) == Value::NotKnown;
        for term in self.0.iter().filter(open).flatten() {
            term.collect(says, names);
        }
    }

    fn value(&self, says: Says) -> Value {
        let choices = self.0.iter().map(|choice| negated(all(choice, says)));
        negated(least(choices))
    }
}

impl Term {
    fn collect<'a>(&'a self, says: Says, names: &mut Vec<&'a str>) {
        if self.value(says) != Value::NotKnown {
            return;
        }
        match self {
            Term::Not(term) => term.collect(says, names),
            Term::Group(query) => query.collect(says, names),
            Term::Name(name) if names.contains(&&**name) => {}
            Term::Name(name) => names.push(name),
        }
    }

    fn value(&self, says: Says) -> Value {
        match self {
            Term::Not(term) => negated(term.value(says)),
            Term::Group(query) => query.value(says),
            Term::Name(name) => match says(name) {
                Some(true) => Value::Yes,
                Some(false) => Value::No,
                None => Value::NotKnown,
            },
        }
    }
}

/// A choice: no if a term is, else not known if a term is.
fn all(choice: &[Term], says: Says) -> Value {
    least(choice.iter().map(|term| term.value(says)))
}

fn least(values: impl Iterator<Item = Value>) -> Value {
    values.fold(Value::Yes, |one, other| match (one, other) {
        (Value::No, _) | (_, Value::No) => Value::No,
        (Value::NotKnown, _) | (_, Value::NotKnown) => Value::NotKnown,
        _ => Value::Yes,
    })
}

fn negated(value: Value) -> Value {
    match value {
        Value::Yes => Value::No,
        Value::No => Value::Yes,
        Value::NotKnown => Value::NotKnown,
    }
}

#[cfg(test)]
mod tests {
    use super::*;
    use crate::card_text;
    use crate::format::SECTOR;
    use crate::session::Client;
    use boundary::{search, Refusal};

    /// The entry of a card of no bytes.
    fn no_card() -> [u8; 40] {
        let mut entry = [0; 40];
        entry[5] = 40;
        entry[7] = 1;
        entry[8] = 1;
        entry
    }

    #[test]
    fn where_a_query_goes_wrong() {
        let deep = |count: usize| format!("{}a{}", "( ".repeat(count), " )".repeat(count));
        let long = "not ".repeat(64) + "a";
        let cases = [
            (
                "",
                1,
                "a name, `not` or `(` must stand here, and the query is empty",
            ),
            (" a", 1, "a space too many"),
            (
                "a ",
                3,
                "`and` or `or` must stand here, or the end, and there is a space too many",
            ),
            ("a  and b", 3, "a space too many"),
            (
                "a and",
                6,
                "a name, `not` or `(` must stand here, and the query ends",
            ),
            ("a and and b", 7, "and not `and`"),
            (
                "a b",
                3,
                "`and` or `or` must stand here, or the end, and not `b`",
            ),
            ("a AND b", 3, "and not `AND`"),
            ("a or )", 6, "and not `)`"),
            ("a )", 3, "no bracket is open"),
            (
                "( a",
                4,
                "`and`, `or` or `)` must stand here, and the query ends",
            ),
            (
                "( a b",
                5,
                "`and`, `or` or `)` must stand here, and not `b`",
            ),
            ("(a )", 1, "one space stands between"),
            ("not", 4, "and the query ends"),
            ("Vel-1", 1, "only letters"),
            ("a and abcdefghi", 7, "at most 8"),
            ("a\tand b", 1, "only letters"),
            ("\u{e4}", 1, "only letters"),
            (&deep(17), 33, "at most 16 brackets"),
            (&long, 257, "at most 256 bytes"),
            (&"not ".repeat(1_000_000), 257, "at most 256 bytes"),
        ];
        for (text, byte, words) in cases {
            let fault = read(text.as_bytes()).unwrap_err();
            assert_eq!(fault.byte, byte, "{text}: {fault}");
            assert!(fault.words.contains(words), "{text}: {fault}");
            let proved = search(&[], &[], &[0], &no_card(), text.as_bytes());
            assert_eq!(proved, Err(Refusal::Query), "{text}");
        }
        assert!(read(b"\xff").is_err());
        assert!(read(deep(16).as_bytes()).is_ok());
        assert!(read(&long.as_bytes()[4..]).is_ok());
    }

    /// All texts of a few tokens: a fault is found exactly where the proved call finds no query.
    #[test]
    fn faults_are_the_proved_ones() {
        let tokens = ["a", "Vel", "and", "or", "not", "(", ")", ""];
        let mut texts: Vec<String> = tokens.map(String::from).to_vec();
        for _ in 0..4 {
            for text in &texts {
                let proved = search(&[], &[], &[0], &no_card(), text.as_bytes());
                assert_eq!(read(text.as_bytes()).is_ok(), proved.is_ok(), "{text:?}");
            }
            let longer = |text: &String| tokens.map(|token| format!("{text} {token}"));
            texts = texts.iter().flat_map(longer).collect();
        }
    }

    const NAMES: [&str; 4] = ["a", "b", "c", "d"];

    /// Queries over four names, from a small generator.
    fn queries() -> Vec<String> {
        let mut state = 7_u64;
        let mut next = move |below: u64| {
            state = state
                .wrapping_mul(6_364_136_223_846_793_005)
                .wrapping_add(1_442_695_040_888_963_407);
            (state >> 33) % below
        };
        fn term(depth: u32, next: &mut dyn FnMut(u64) -> u64) -> String {
            match next(if depth == 0 { 3 } else { 6 }) {
                0..=2 => NAMES[next(4) as usize].to_string(),
                3 => format!("not {}", term(depth - 1, next)),
                _ => {
                    let mut group = term(depth - 1, next);
                    for _ in 0..next(3) {
                        group += [" and ", " or "][next(2) as usize];
                        group += &term(depth - 1, next);
                    }
                    format!("( {group} )")
                }
            }
        }
        (0..300).map(|_| term(3, &mut next)).collect()
    }

    /// Each way to say present, absent or nothing of each name.
    fn cards() -> impl Iterator<Item = [Option<bool>; 4]> {
        let said = |digit: usize| [None, Some(false), Some(true)][digit % 3];
        (0..81).map(move |card| [said(card), said(card / 3), said(card / 9), said(card / 27)])
    }

    fn says(card: &[Option<bool>; 4]) -> impl Fn(&str) -> Option<bool> + '_ {
        |name| card[NAMES.iter().position(|known| *known == name).unwrap()]
    }

    /// Whether one card says all that another does.
    fn adds(more: &[Option<bool>; 4], card: &[Option<bool>; 4]) -> bool {
        more.iter()
            .zip(card)
            .all(|(more, card)| card.is_none() || more == card)
    }

    #[test]
    fn what_keeps_a_query_open() {
        let (mut tried, mut open) = (0, 0);
        for text in queries() {
            let Ok(query) = read(text.as_bytes()) else {
                continue; // too long
            };
            tried += 1;
            for card in cards() {
                let Some(names) = query.open(&says(&card)) else {
                    continue;
                };
                open += 1;
                assert!(!names.is_empty());
                assert!(names.iter().all(|name| says(&card)(name).is_none()));
                for more in cards().filter(|more| adds(more, &card)) {
                    let tested = |name: &&str| says(&more)(name).is_some();
                    let value = query.value(&says(&more));
                    if names.iter().all(tested) {
                        assert_ne!(value, Value::NotKnown, "{text}: {names:?}");
                    }
                    if !names.iter().any(tested) {
                        assert_eq!(value, Value::NotKnown, "{text}: {names:?}");
                    }
                }
            }
        }
        assert!(tried > 200 && open > 2000, "{tried} {open}");
    }

    /// What is told beside an answer goes by the same tables as the answer.
    #[test]
    fn values_are_the_proved_ones() {
        let texts: Vec<_> = queries().into_iter().step_by(5).collect();
        for card in cards() {
            let line = |(name, said): (&str, &Option<bool>)| {
                let word = said.map(|is| ["absent", "present"][usize::from(is)]);
                word.map_or(String::new(), |word| format!("{name}={word}\n"))
            };
            let text: String = NAMES.into_iter().zip(&card).map(line).collect();
            let mut log = vec![0; SECTOR];
            let mut client = Client::greet(&mut log).unwrap();
            let mut entry = no_card();
            entry[7] = 200; // dsize
            entry[19] = text.len() as u8; // size
            entry[20..].copy_from_slice(&client.write(&mut log, 13, text.as_bytes()).unwrap());
            for query in texts.iter().filter(|query| query.len() <= MOST) {
                let proved = search(&log, &[], &[0], &entry, query.as_bytes());
                let ours = read(query.as_bytes()).unwrap().value(&says(&card));
                assert_eq!(proved, Ok(ours), "{query}: {text}");
                let said = |name: &str| card_text::says(text.as_bytes(), name);
                assert!(NAMES.iter().all(|name| said(name) == says(&card)(name)));
            }
        }
    }

    #[test]
    fn only_what_is_open() {
        let query = read(b"Vel and ( K or not Fya ) or Kell and Jka").unwrap();
        let open = |said: &[(&str, bool)]| {
            let says = |name: &str| {
                said.iter()
                    .find(|(known, _)| *known == name)
                    .map(|(_, is)| *is)
            };
            query.open(&says)
        };
        assert_eq!(open(&[]).unwrap(), ["Vel", "K", "Fya", "Kell", "Jka"]);
        assert_eq!(open(&[("Vel", false)]).unwrap(), ["Kell", "Jka"]);
        assert_eq!(
            open(&[("Vel", true), ("Jka", false)]).unwrap(),
            ["K", "Fya"]
        );
        assert_eq!(
            open(&[("K", true), ("Kell", true)]).unwrap(),
            ["Vel", "Jka"]
        );
        assert_eq!(open(&[("Vel", false), ("Jka", false)]), None);
    }
}
