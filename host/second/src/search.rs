//! The card search: a query put to the card that an entry leads to.

use crate::card::{lines, MOST_CARD};
use crate::log::well_lent;
use crate::query::{self, Value};
use crate::refusal::Refusal;
use crate::tree::{entry, fill};

/// What a card answers to a query, or why not. The page is the blank page. The card is read whole before
/// it is judged, and the query is judged last.
pub fn search(
    log: &[u8],
    waiting: &[u8],
    page: &[u8],
    bytes: &[u8],
    query: &[u8],
) -> Result<Value, Refusal> {
    let card = read_card(log, waiting, page, bytes)?;
    let lines = lines(&card)?;
    let query = query::read(query)?;
    Ok(query.value(&lines))
}

/// The bytes of the card that an entry leads to, or why not.
pub fn read_card(
    log: &[u8],
    waiting: &[u8],
    page: &[u8],
    bytes: &[u8],
) -> Result<Vec<u8>, Refusal> {
    if !well_lent(log.len(), waiting.len()) {
        return Err(3.into());
    }
    if page.is_empty() || page.iter().any(|&byte| byte != 0) {
        return Err(19.into());
    }
    let size = entry(bytes)?.size;
    if size > MOST_CARD {
        return Err(25.into());
    }
    let mut card = vec![0; size as usize];
    if size > 0 {
        fill(log, waiting, bytes, 0, &mut card).0?;
    }
    Ok(card)
}
