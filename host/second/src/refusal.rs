//! A refusal: its number, and where the doubt is.

/// Why a call says no.
#[derive(Clone, Copy, Debug, PartialEq, Eq)]
pub struct Refusal {
    /// The description's number.
    pub number: u8,
    /// For 12 the first doubtful sector; none for all others.
    pub at: Option<usize>,
}

impl From<u8> for Refusal {
    /// A refusal that tells of no sector.
    fn from(number: u8) -> Refusal {
        Refusal { number, at: None }
    }
}

impl Refusal {
    /// 12, with the first doubtful sector.
    pub fn not_known(first: usize) -> Refusal {
        Refusal {
            number: 12,
            at: Some(first),
        }
    }

    /// The text of its error reply.
    pub fn text(&self) -> String {
        match self.at {
            Some(sector) => format!("why={:02} at={sector:08x}", self.number),
            None => format!("why={:02}", self.number),
        }
    }
}
