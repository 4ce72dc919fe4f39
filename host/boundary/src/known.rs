//! Requests by what is known of the log from the last one.

use crate::{boundary, Served, Session};

/// The bytes of a `Known`: used[8] waits[8] doubt[8] exact[1].
pub const KNOWN: usize = 25;

/// What is known of a log, its waiting part and an index: where the used parts of both end, the first
/// doubtful sector or that there is none, and whether the index leads to every sound block.
#[derive(Clone, Copy, Debug, PartialEq, Eq)]
pub struct Known([u8; KNOWN]);

impl Known {
    /// Learned from their bytes: every block is looked at.
    pub fn learn(log: &[u8], waiting: &[u8], index: &[u8]) -> Known {
        let mut known = [0; KNOWN];
        // SAFETY: the pointers and lengths are those of slices that outlive the call; `known` is a local
        // array, so it overlaps none.
        unsafe {
            boundary::skywimple_learn(
                log.as_ptr(),
                log.len(),
                waiting.as_ptr(),
                waiting.len(),
                index.as_ptr(),
                index.len(),
                known.as_mut_ptr(),
                known.len(),
            )
        };
        Known(known)
    }

    /// Of any bytes: what cannot be known of parts of such lengths is learned anew by a request.
    pub fn of(bytes: [u8; KNOWN]) -> Known {
        Known(bytes)
    }

    pub fn bytes(&self) -> &[u8; KNOWN] {
        &self.0
    }

    /// Whether the index leads to every sound block.
    pub fn is_exact(&self) -> bool {
        self.0[KNOWN - 1] == 1
    }
}

/// Answers one request by what is known, and renews that. Where it is what `learn` would say, number, reply,
/// session, log, waiting part and index are those of `serve`, and it is again what `learn` would say. So it is
/// to be learned anew after whatever else changed one of the three; blank sectors behind a log change nothing.
#[allow(clippy::too_many_arguments)]
pub fn serve_known(
    known: &mut Known,
    session: Session,
    message: &[u8],
    date: &[u8],
    log: &mut [u8],
    waiting: &mut [u8],
    index: &mut [u8],
    reply: &mut [u8],
) -> Served {
    // SAFETY: the pointers and lengths are those of slices that outlive the call; the mutable ones
    // are borrowed alone, so none overlaps another.
    let result = unsafe {
        boundary::skywimple_serve_known(
            session.number(),
            message.as_ptr(),
            message.len(),
            date.as_ptr(),
            date.len(),
            log.as_mut_ptr(),
            log.len(),
            waiting.as_mut_ptr(),
            waiting.len(),
            index.as_mut_ptr(),
            index.len(),
            reply.as_mut_ptr(),
            reply.len(),
            known.0.as_mut_ptr(),
            known.0.len(),
        )
    };
    Served::of(result, reply)
}
