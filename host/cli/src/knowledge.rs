//! What a server knows of its log from the last request, and when it is worth learning.
//!
//! With it a store, a read and a "not held" each cost what the block and one bucket of the index cost,
//! whatever the log's size. To learn it, every block of the log is looked at: that costs two or three times
//! as much as a "not held" without it, or as one to five hundred writes, fewer in a longer log.

use boundary::{serve, serve_known, Known, Refusal, Served, Session};

use crate::format::SECTOR;
use crate::session;

/// The lent log, what waits, and the index.
pub struct Lent<'a> {
    pub log: &'a mut [u8],
    pub waiting: &'a mut [u8],
    pub index: &'a mut [u8],
}

/// A log of so many sectors is looked at in no time.
const SMALL: usize = 1024;
/// What requests cost by scan before it is worth learning: a write is one, and a block that is not found as
/// much as all.
const WORTH: usize = 256;

#[derive(Default)]
pub struct Knowledge {
    known: Option<Known>,
    /// What the requests since it was last forgotten cost by scan.
    spent: usize,
}

impl Knowledge {
    /// Answers a request: by what is known, once it is worth learning.
    pub fn serve(
        &mut self,
        session: Session,
        message: &[u8],
        date: &[u8],
        lent: Lent,
        reply: &mut [u8],
    ) -> Served {
        let Lent {
            log,
            waiting,
            index,
        } = lent;
        if self.known.is_none() && (self.spent >= WORTH || log.len() <= SMALL * SECTOR) {
            self.known = Some(Known::learn(log, waiting, index));
        }
        if let Some(known) = &mut self.known {
            return serve_known(known, session, message, date, log, waiting, index, reply);
        }
        let served = serve(session, message, date, log, waiting, index, reply);
        self.spent += match served.outcome {
            Err(Refusal::NotHeld | Refusal::NotKnown { .. }) => WORTH,
            _ => usize::from(session::is_write(message)),
        };
        served
    }

    /// The log, what waits or the index is no longer what the last request left, but for blank sectors
    /// behind the log.
    pub fn forget(&mut self) {
        *self = Knowledge::default();
    }

    /// Whether the index is known to lead to every sound block, to the first of its type and score.
    pub fn is_exact(&self) -> bool {
        self.known.is_some_and(|known| known.is_exact())
    }
}
