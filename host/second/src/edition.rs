//! The two editions of a label: the first has no date, the second begins with one.

use crate::sector::CHECK;

/// Eight decimal digits. Which day they mean, if any, is the caller's affair.
pub type Date = [u8; 8];

/// What stands before the digits of a date.
const NAME: &[u8] = b"date=";
/// Bytes of its line.
const DATE_LINE: usize = NAME.len() + 8 + 1;
/// Bytes of the lines that both editions have.
const LINES: usize = 96;

/// The edition of a label, or of a block, all of whose labels have the same.
#[derive(Clone, Copy, Debug, PartialEq, Eq)]
pub enum Edition {
    First,
    Second(Date),
}

impl Edition {
    /// The edition that a request writes: the first where no date is lent with it, as the earlier
    /// program's had none. A date that isn't eight decimal digits is 24.
    pub fn of(date: Option<&[u8]>) -> Result<Edition, u8> {
        match date {
            None => Ok(Edition::First),
            Some(digits) => lawful(digits).map(Edition::Second).ok_or(24),
        }
    }

    /// The line of the date, nothing in the first edition.
    pub fn first_line(&self) -> Vec<u8> {
        match self {
            Edition::First => Vec::new(),
            Edition::Second(date) => [NAME, date, b"\n"].concat(),
        }
    }

    /// Bytes of that line.
    pub fn front(&self) -> usize {
        match self {
            Edition::First => 0,
            Edition::Second(_) => DATE_LINE,
        }
    }

    /// Bytes of the label: 96, or 110.
    pub fn label(&self) -> usize {
        self.front() + LINES
    }

    /// Bytes of payload in a sector: 403, or 389.
    pub fn payload(&self) -> usize {
        CHECK - self.label()
    }

    /// The sectors that so many bytes take.
    pub fn sectors_for(&self, size: usize) -> usize {
        size.div_ceil(self.payload())
    }
}

/// The date of a sector that begins with the line of one.
pub fn dated(sector: &[u8]) -> Option<Date> {
    let (digits, rest) = sector.strip_prefix(NAME)?.split_at_checked(8)?;
    rest.starts_with(b"\n").then(|| lawful(digits))?
}

/// A date, if it is exactly eight decimal digits.
fn lawful(digits: &[u8]) -> Option<Date> {
    let date = Date::try_from(digits).ok()?;
    date.iter().all(u8::is_ascii_digit).then_some(date)
}
