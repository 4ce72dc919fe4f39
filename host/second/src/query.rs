//! Queries: their text, how it is read, and what a card answers.

use std::cmp::{max, min};

use crate::card::{is_name, Line};

/// The most bytes of a query.
pub const MOST_QUERY: usize = 256;
/// The most brackets that are open at any point.
pub const MOST_OPEN: usize = 16;

/// An answer, the ones that are nearer to yes being greater.
#[derive(Clone, Copy, Debug, PartialEq, Eq, PartialOrd, Ord)]
pub enum Value {
    No,
    NotKnown,
    Yes,
}

impl Value {
    /// Strong Kleene: the lesser of two.
    pub fn and(self, other: Value) -> Value {
        min(self, other)
    }

    /// Strong Kleene: the greater of two.
    pub fn or(self, other: Value) -> Value {
        max(self, other)
    }

    /// Strong Kleene: yes and no swapped.
    pub fn negated(self) -> Value {
        match self {
            Value::No => Value::Yes,
            Value::NotKnown => Value::NotKnown,
            Value::Yes => Value::No,
        }
    }
}

/// One or more choices, of which any will do.
#[derive(Clone, Debug, PartialEq, Eq)]
pub struct List(pub Vec<Choice>);

/// One or more terms, all of which have to hold.
#[derive(Clone, Debug, PartialEq, Eq)]
pub struct Choice(pub Vec<Term>);

#[derive(Clone, Debug, PartialEq, Eq)]
pub enum Term {
    Not(Box<Term>),
    Name(Vec<u8>),
    /// A list in round brackets.
    Group(List),
}

/// The reading of a query, or 26.
pub fn read(query: &[u8]) -> Result<List, u8> {
    if query.len() > MOST_QUERY {
        return Err(26);
    }
    let mut tokens = Tokens {
        left: query.split(|&byte| byte == b' ').collect(),
        open: 0,
    };
    tokens.left.reverse();
    let list = tokens.list().ok_or(26)?;
    if tokens.left.is_empty() {
        Ok(list)
    } else {
        Err(26)
    }
}

struct Tokens<'a> {
    /// The tokens that are still to be read, the next one last. One space stands between any two, so a
    /// space too many makes an empty one.
    left: Vec<&'a [u8]>,
    /// The brackets that are open.
    open: usize,
}

impl Tokens<'_> {
    /// list = choice { "or" choice }
    fn list(&mut self) -> Option<List> {
        let mut choices = vec![self.choice()?];
        while self.take(b"or") {
            choices.push(self.choice()?);
        }
        Some(List(choices))
    }

    /// choice = term { "and" term }
    fn choice(&mut self) -> Option<Choice> {
        let mut terms = vec![self.term()?];
        while self.take(b"and") {
            terms.push(self.term()?);
        }
        Some(Choice(terms))
    }

    /// term = "not" term | name | "(" list ")"
    fn term(&mut self) -> Option<Term> {
        if self.take(b"not") {
            return Some(Term::Not(Box::new(self.term()?)));
        }
        if self.take(b"(") {
            self.open += 1;
            if self.open > MOST_OPEN {
                return None;
            }
            let list = self.list()?;
            self.open -= 1;
            return self.take(b")").then_some(Term::Group(list));
        }
        let name = self.left.pop()?;
        is_name(name).then(|| Term::Name(name.to_vec()))
    }

    /// Takes the next token if it is this one.
    fn take(&mut self, token: &[u8]) -> bool {
        let next = self.left.last() == Some(&token);
        if next {
            self.left.pop();
        }
        next
    }
}

impl List {
    pub fn value(&self, card: &[Line]) -> Value {
        let choices = self.0.iter().map(|choice| choice.value(card));
        choices.fold(Value::No, Value::or)
    }

    /// Its text.
    pub fn text(&self) -> String {
        let choices: Vec<String> = self.0.iter().map(Choice::text).collect();
        choices.join(" or ")
    }
}

impl Choice {
    fn value(&self, card: &[Line]) -> Value {
        let terms = self.0.iter().map(|term| term.value(card));
        terms.fold(Value::Yes, Value::and)
    }

    fn text(&self) -> String {
        let terms: Vec<String> = self.0.iter().map(Term::text).collect();
        terms.join(" and ")
    }
}

impl Term {
    fn value(&self, card: &[Line]) -> Value {
        match self {
            Term::Not(term) => term.value(card).negated(),
            Term::Group(list) => list.value(card),
            Term::Name(name) => match card.iter().find(|line| line.name == *name) {
                None => Value::NotKnown,
                Some(Line { present: true, .. }) => Value::Yes,
                Some(Line { present: false, .. }) => Value::No,
            },
        }
    }

    fn text(&self) -> String {
        match self {
            Term::Not(term) => format!("not {}", term.text()),
            Term::Group(list) => format!("( {} )", list.text()),
            Term::Name(name) => String::from_utf8_lossy(name).into_owned(),
        }
    }
}
