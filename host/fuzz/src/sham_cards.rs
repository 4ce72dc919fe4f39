//! Card searches with one rule broken each.

use second::card::{lines, Line};
use second::query::{read, Choice, List, Term, Value};
use second::search::read_card;
use second::Refusal;

use crate::shams::Broken;

/// What becomes of the right answer to a search.
pub fn search(
    right: Result<Value, Refusal>,
    (log, waiting, page, entry): (&[u8], &[u8], &[u8], &[u8]),
    query: &[u8],
    broken: Broken,
) -> Result<Value, Refusal> {
    let refused = right.map_or_else(|refusal| refusal.number, |_| 0);
    match (broken, refused) {
        (Broken::DamagedCardNotKnown, 11 | 12) => return Ok(Value::NotKnown),
        (Broken::CardDropsDoubt, 12) => return Err(12.into()),
        (Broken::QueryJudgedFirst, 11..=25) => {
            return read(query).map_err(Refusal::from).and(right)
        }
        (Broken::LongCardRead, 25) => {
            let mut short = entry.to_vec();
            if second::message::number(&entry[14..20]) == 4097 {
                short[19] = 0;
            }
            return second::search::search(log, waiting, page, &short, query);
        }
        (Broken::CardReadInLogAlone, _) => {
            return second::search::search(log, &[], page, entry, query);
        }
        (_, 0 | 25 | 26) => {}
        _ => return right,
    }
    let Ok(card) = read_card(log, waiting, page, entry) else {
        return right;
    };
    let lines = lines_of(&card, broken)?;
    let text = match broken {
        Broken::TwoSpacesAccepted => one_space(query),
        Broken::OrBindsTighter => swapped(query),
        Broken::BracketTooDeepAccepted => shallower(query),
        Broken::LongQueryAccepted if query.len() > 256 && query.starts_with(b"not not ") => {
            query[8..].to_vec()
        }
        _ => query.to_vec(),
    };
    Ok(of_list(&read(&text)?, &lines, broken))
}

/// The lines that are read of a card.
pub fn lines_of(card: &[u8], broken: Broken) -> Result<Vec<Line>, u8> {
    match broken {
        Broken::NamesInAnyOrder => lines_in_any_order(card),
        Broken::LastLineUnended => lines(&[card, b"\n"].concat()).or(lines(card)),
        Broken::ReservedOnCards => lines(&renamed(card)),
        _ => lines(card),
    }
}

/// The lines of a card sorted.
fn lines_in_any_order(card: &[u8]) -> Result<Vec<Line>, u8> {
    let mut sorted: Vec<&[u8]> = card.split_inclusive(|&byte| byte == b'\n').collect();
    sorted.sort_by_key(|line| line.split(|&byte| byte == b'=').next());
    lines(&sorted.concat())
}

/// A card with a name of nearly the same rank for each that is reserved.
fn renamed(card: &[u8]) -> Vec<u8> {
    let mut out = card.to_vec();
    for line in out.split_mut(|&byte| byte == b'\n') {
        for word in [&b"and="[..], b"or=", b"not="] {
            if line.starts_with(word) {
                line[word.len() - 2].make_ascii_uppercase();
            }
        }
    }
    out
}

/// A text without a second space beside a space.
fn one_space(text: &[u8]) -> Vec<u8> {
    let mut out = text.to_vec();
    out.dedup_by(|a, b| *a == b' ' && *b == b' ');
    out
}

/// "and" and "or" in each other's place.
fn swapped(text: &[u8]) -> Vec<u8> {
    let words = text.split(|&byte| byte == b' ');
    let swap = words.map(|word| match word {
        b"and" => &b"or"[..],
        b"or" => b"and",
        other => other,
    });
    swap.collect::<Vec<&[u8]>>().join(&b' ')
}

/// A text without its outermost brackets.
fn shallower(text: &[u8]) -> Vec<u8> {
    let inner = text.strip_prefix(b"( ").and_then(|t| t.strip_suffix(b" )"));
    inner.unwrap_or(text).to_vec()
}

fn of_list(list: &List, card: &[Line], broken: Broken) -> Value {
    let mut values = list.0.iter().map(|choice| of_choice(choice, card, broken));
    let first = values.next().unwrap_or(Value::No);
    match broken {
        Broken::OrBindsTighter => values.fold(first, Value::and),
        Broken::OrOfNotKnown => values.fold(first, |a, b| match a.or(b) {
            Value::Yes if a == Value::NotKnown || b == Value::NotKnown => Value::NotKnown,
            value => value,
        }),
        _ => values.fold(first, Value::or),
    }
}

fn of_choice(choice: &Choice, card: &[Line], broken: Broken) -> Value {
    let mut values = choice.0.iter().map(|term| of_term(term, card, broken));
    let first = values.next().unwrap_or(Value::Yes);
    match broken {
        Broken::OrBindsTighter => values.fold(first, Value::or),
        Broken::AndOfNotKnown => values.fold(first, |a, b| match a.and(b) {
            Value::No if a == Value::NotKnown || b == Value::NotKnown => Value::NotKnown,
            value => value,
        }),
        _ => values.fold(first, Value::and),
    }
}

fn of_term(term: &Term, card: &[Line], broken: Broken) -> Value {
    match term {
        Term::Not(inner) => match of_term(inner, card, broken) {
            Value::NotKnown if broken == Broken::NotOfNotKnownIsYes => Value::Yes,
            value => value.negated(),
        },
        Term::Group(list) => of_list(list, card, broken),
        Term::Name(name) => match card.iter().find(|line| line.name == *name) {
            None if broken == Broken::NoLineIsAbsent => Value::No,
            None => Value::NotKnown,
            Some(line) if line.present => Value::Yes,
            Some(_) => Value::No,
        },
    }
}
