//! Cards: whether bytes are one, and what the card of an entry answers to a query.

use crate::{boundary, Refusal};

/// What a card answers to a query.
#[derive(Clone, Copy, Debug, PartialEq, Eq)]
pub enum Value {
    Yes,
    No,
    NotKnown,
}

/// Asks a query of the card that an entry leads to.
pub fn search(
    log: &[u8],
    waiting: &[u8],
    page: &[u8],
    entry: &[u8],
    query: &[u8],
) -> Result<Value, Refusal> {
    // SAFETY: the pointers and lengths are those of slices that outlive the call and are only read.
    searched(unsafe {
        boundary::skywimple_search(
            log.as_ptr(),
            log.len(),
            waiting.as_ptr(),
            waiting.len(),
            page.as_ptr(),
            page.len(),
            entry.as_ptr(),
            entry.len(),
            query.as_ptr(),
            query.len(),
        )
    })
}

/// What a result of search says: the number, the value, and behind them the first doubtful sector.
fn searched(result: u64) -> Result<Value, Refusal> {
    Refusal::with_sector((result % 256) as u8, (result / 65_536) as usize)?;
    Ok(match result / 256 % 256 {
        1 => Value::Yes,
        2 => Value::No,
        3 => Value::NotKnown,
        other => panic!("the library says {other}, which is no value"),
    })
}

/// Whether these bytes are a card: at most 4,096, and well-formed.
pub fn is_card(bytes: &[u8]) -> bool {
    // SAFETY: the pointer and the length are those of a slice that outlives the call.
    unsafe { boundary::skywimple_is_card(bytes.as_ptr(), bytes.len()) == 1 }
}

#[cfg(test)]
mod tests {
    use super::{searched, Refusal, Value};

    #[test]
    fn values_and_the_largest_result() {
        let values = [Value::Yes, Value::No, Value::NotKnown];
        for (number, value) in (1..).zip(values) {
            assert_eq!(searched(256 * number), Ok(value));
        }
        for sector in [0, 1, 42, 1_048_575, 1_048_830] {
            let refusal = Refusal::NotKnown { sector };
            assert_eq!(searched(12 + 65_536 * sector as u64), Err(refusal));
        }
        assert_eq!(searched(25), Err(Refusal::Card));
        assert_eq!(searched(26), Err(Refusal::Query));
    }

    #[test]
    #[should_panic = "no value"]
    fn neither_a_value_nor_a_refusal() {
        let _ = searched(0);
    }
}
