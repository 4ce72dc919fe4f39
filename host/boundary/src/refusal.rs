//! Why the archive said no.

use std::error::Error;
use std::fmt;

/// A refusal, by the names that `crates/refusal` has for them. One that says more than its number has
/// it in a field of its own; `number` and `with_sector` are all that knows the numbers.
#[derive(Clone, Copy, Debug, PartialEq, Eq, Hash)]
pub enum Refusal {
    /// Fewer than 4 bytes, or a size that isn't the count of bytes after it.
    Frame,
    /// A lent buffer that is too short.
    Buffer,
    /// A log or a waiting part that isn't whole sectors, or too long.
    LogLength,
    /// The session is closed.
    Closed,
    /// A message type that no request has.
    MessageType,
    /// An ill-formed body.
    Body,
    /// A request before a hello was accepted.
    NoHello,
    /// A second hello, or another version.
    Hello,
    /// A block type that isn't of the ten.
    BlockType,
    /// More data than a block may have.
    DataLength,
    /// The block is not held.
    NotHeld,
    /// Whether the block is held is not known: this is the log's first doubtful sector.
    NotKnown { sector: usize },
    /// The block is longer than the count.
    OverCount,
    /// Too few sectors are left after the used ones, in the log or in the waiting part.
    NoRoom,
    /// A block of that score and type has other bytes.
    Clash,
    /// An ill-formed entry or root.
    Entry,
    /// An offset at or past the file's size.
    Offset,
    /// A pointer block whose length isn't a multiple of 20.
    Pointers,
    /// A blank page that is empty or not all zeros.
    Page,
    /// Directories nested too deep.
    Nest,
    /// The allowance is used up.
    Spent,
    /// A pad target out of range, or a pointer length that isn't a multiple of 20.
    Pad,
    /// An allowance over the limit.
    Allowance,
    /// A date that isn't eight decimal digits.
    Date,
    /// An ill-formed card, or one that is too long.
    Card,
    /// An ill-formed query.
    Query,
}

impl Refusal {
    /// All of them, in the order of their numbers, 1 to 26. The doubt is at sector 0.
    pub const ALL: [Refusal; 26] = [
        Refusal::Frame,
        Refusal::Buffer,
        Refusal::LogLength,
        Refusal::Closed,
        Refusal::MessageType,
        Refusal::Body,
        Refusal::NoHello,
        Refusal::Hello,
        Refusal::BlockType,
        Refusal::DataLength,
        Refusal::NotHeld,
        Refusal::NotKnown { sector: 0 },
        Refusal::OverCount,
        Refusal::NoRoom,
        Refusal::Clash,
        Refusal::Entry,
        Refusal::Offset,
        Refusal::Pointers,
        Refusal::Page,
        Refusal::Nest,
        Refusal::Spent,
        Refusal::Pad,
        Refusal::Allowance,
        Refusal::Date,
        Refusal::Card,
        Refusal::Query,
    ];

    /// Its number.
    pub fn number(self) -> u8 {
        match self {
            Refusal::Frame => 1,
            Refusal::Buffer => 2,
            Refusal::LogLength => 3,
            Refusal::Closed => 4,
            Refusal::MessageType => 5,
            Refusal::Body => 6,
            Refusal::NoHello => 7,
            Refusal::Hello => 8,
            Refusal::BlockType => 9,
            Refusal::DataLength => 10,
            Refusal::NotHeld => 11,
            Refusal::NotKnown { .. } => 12,
            Refusal::OverCount => 13,
            Refusal::NoRoom => 14,
            Refusal::Clash => 15,
            Refusal::Entry => 16,
            Refusal::Offset => 17,
            Refusal::Pointers => 18,
            Refusal::Page => 19,
            Refusal::Nest => 20,
            Refusal::Spent => 21,
            Refusal::Pad => 22,
            Refusal::Allowance => 23,
            Refusal::Date => 24,
            Refusal::Card => 25,
            Refusal::Query => 26,
        }
    }

    /// Whether a message that is refused so gets no reply.
    pub fn is_silent(self) -> bool {
        matches!(self.number(), 1..=4 | 24)
    }

    /// The log's first doubtful sector, where that is why.
    pub fn first_doubtful(self) -> Option<usize> {
        match self {
            Refusal::NotKnown { sector } => Some(sector),
            _ => None,
        }
    }

    /// What a number of the library says that has no sector beside it: done for 0, else a refusal.
    pub(crate) fn of(number: u8) -> Result<(), Refusal> {
        Refusal::with_sector(number, 0)
    }

    /// The same where a sector stands beside the number: the first doubtful one for 12, and 0 for all
    /// other refusals. Beside 0 it says something else.
    pub(crate) fn with_sector(number: u8, sector: usize) -> Result<(), Refusal> {
        if number == 0 {
            return Ok(());
        }
        let mut all = Refusal::ALL.into_iter();
        match (all.find(|refusal| refusal.number() == number), sector) {
            (Some(Refusal::NotKnown { .. }), _) => Err(Refusal::NotKnown { sector }),
            (Some(refusal), 0) => Err(refusal),
            (Some(_), _) => panic!("the library says {number}, which has no sector, at {sector}"),
            (None, _) => panic!("the library says {number}, which is no refusal's number"),
        }
    }
}

impl fmt::Display for Refusal {
    fn fmt(&self, f: &mut fmt::Formatter) -> fmt::Result {
        write!(f, "refused with {}", self.number())?;
        match self.first_doubtful() {
            Some(sector) => write!(f, ", the first doubtful sector is {sector}"),
            None => Ok(()),
        }
    }
}

impl Error for Refusal {}

#[cfg(test)]
mod tests {
    use super::Refusal;

    #[test]
    fn numbers_and_back() {
        assert_eq!(Refusal::of(0), Ok(()));
        for (number, refusal) in (1..).zip(Refusal::ALL) {
            assert_eq!(refusal.number(), number);
            assert_eq!(Refusal::with_sector(number, 0), Err(refusal));
        }
        let named = [Refusal::NotHeld, Refusal::Allowance, Refusal::Query];
        assert_eq!(named.map(Refusal::number), [11, 23, 26]);
        assert_eq!(Refusal::Clash.to_string(), "refused with 15");
    }

    #[test]
    fn only_12_has_a_sector() {
        let refusal = Refusal::with_sector(12, 1_048_575).unwrap_err();
        assert_eq!(refusal, Refusal::NotKnown { sector: 1_048_575 });
        assert_eq!(refusal.number(), 12);
        assert_eq!(refusal.first_doubtful(), Some(1_048_575));
        let words = "refused with 12, the first doubtful sector is 1048575";
        assert_eq!(refusal.to_string(), words);
        assert_eq!(Refusal::NotHeld.first_doubtful(), None);
    }

    #[test]
    #[should_panic = "no refusal's number"]
    fn a_number_that_no_refusal_has() {
        let _ = Refusal::of(27);
    }

    #[test]
    #[should_panic = "no sector, at 5"]
    fn a_sector_beside_another_number() {
        let _ = Refusal::with_sector(11, 5);
    }
}
