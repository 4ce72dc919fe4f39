//! One request.

use crate::{boundary, Refusal};

/// A session: open with no hello yet, greeted, or closed.
#[derive(Clone, Copy, Debug, PartialEq, Eq)]
pub enum Session {
    Fresh,
    Greeted,
    Closed,
}

/// What came of a request.
#[derive(Clone, Copy, Debug, PartialEq, Eq)]
pub struct Served {
    pub outcome: Result<(), Refusal>,
    /// The session afterwards.
    pub session: Session,
}

impl Session {
    pub(crate) fn number(self) -> u8 {
        match self {
            Session::Fresh => 0,
            Session::Greeted => 1,
            Session::Closed => 2,
        }
    }
}

impl Served {
    /// What a result says, with its reply.
    pub(crate) fn of(result: u32, reply: &[u8]) -> Served {
        Served {
            outcome: Refusal::of((result % 256) as u8).map_err(|refusal| match refusal {
                Refusal::NotKnown { .. } => Refusal::NotKnown {
                    sector: sector_in(reply).expect("the text of 12 tells the sector"),
                },
                other => other,
            }),
            session: match result / 256 {
                0 => Session::Fresh,
                1 => Session::Greeted,
                _ => Session::Closed,
            },
        }
    }
}

/// The bytes of an error reply before its text, and the text of 12 before the sector's digits.
const BEFORE_TEXT: usize = 6;
const DOUBT_AT: &[u8] = b"why=12 at=";

/// Answers one request. The reply stands at the front of `reply`, its length in the first two bytes;
/// an appended block in `waiting`, until a sync moves what is there into `log`. A waiting part begins
/// all zeros, and each request is lent the one that the last request left. An appended block gets
/// `date`, which is eight decimal digits with any message. A read looks its block up by `index`, of any
/// length and any bytes, and a write enters the block that it stores; an empty index is the scan.
pub fn serve(
    session: Session,
    message: &[u8],
    date: &[u8],
    log: &mut [u8],
    waiting: &mut [u8],
    index: &mut [u8],
    reply: &mut [u8],
) -> Served {
    // SAFETY: the pointers and lengths are those of slices that outlive the call; the mutable ones
    // are borrowed alone, so none overlaps another.
    let result = unsafe {
        boundary::skywimple_serve(
            session.number(),
            message.as_ptr(),
            message.len(),
            date.as_ptr(),
            date.len(),
            log.as_mut_ptr(),
            log.len(),
            waiting.as_mut_ptr(),
            waiting.len(),
            index.as_mut_ptr(),
            index.len(),
            reply.as_mut_ptr(),
            reply.len(),
        )
    };
    Served::of(result, reply)
}

/// The sector that the text of an error reply tells: eight lower-case hex digits.
fn sector_in(reply: &[u8]) -> Option<usize> {
    let text = reply.get(BEFORE_TEXT..BEFORE_TEXT + DOUBT_AT.len() + 8)?;
    let digits = text.strip_prefix(DOUBT_AT)?;
    let plain = |byte: &u8| matches!(byte, b'0'..=b'9' | b'a'..=b'f');
    let digits = digits.iter().all(plain).then_some(digits)?;
    usize::from_str_radix(str::from_utf8(digits).ok()?, 16).ok()
}

#[cfg(test)]
mod tests {
    use super::sector_in;

    #[test]
    fn the_sector_in_a_text() {
        let sector = |text: &str| sector_in(&[b"\0\x16\x01\x09\0\x12", text.as_bytes()].concat());
        assert_eq!(sector("why=12 at=0000002a"), Some(42));
        assert_eq!(sector("why=12 at=001000fe and more"), Some(0x10_00fe));
        for other in [
            "why=11 at=0000002a",
            "why=12 at=0000002A",
            "why=12 at=2a",
            "why=12",
            "",
        ] {
            assert_eq!(sector(other), None, "{other}");
        }
        assert_eq!(sector("why=12 at=+000002a"), None);
    }
}
