//! Storing a block: the four steps of a write.

use crate::edition::Edition;
use crate::log::{joined, used, write_in, Contents, Lookup};
use crate::sector::SECTOR;
use crate::sha1::{sha1, Score, ZERO_SCORE};

/// What became of data that was not refused.
#[derive(Clone, Copy, Debug, PartialEq, Eq)]
pub struct Stored {
    pub score: Score,
    /// The sector where the new block starts; none where nothing was written.
    pub new_at: Option<usize>,
}

/// Stores data unless it is empty or held, in either edition and of any date; else 15, then 14. A block
/// goes to the waiting part, or to the log itself where none is lent.
pub fn store(
    log: &mut [u8],
    waiting: Option<&mut [u8]>,
    edition: Edition,
    kind: u8,
    data: &[u8],
) -> Result<Stored, u8> {
    let score = sha1(data);
    let held = Stored {
        score,
        new_at: None,
    };
    if data.is_empty() {
        return Ok(held);
    }
    let both = joined(log, waiting.as_deref().unwrap_or(&[]));
    let contents = Contents::of(&both);
    if let Lookup::Found(block) = contents.lookup(kind, &score) {
        return if block.data(&both) == data {
            Ok(held)
        } else {
            Err(15)
        };
    }
    if score == ZERO_SCORE {
        return Err(15);
    }
    append(log, waiting, contents.used, edition, kind, data)?;
    Ok(Stored {
        score,
        new_at: Some(contents.used),
    })
}

/// Appends a block after the used sectors of both parts, or 14.
fn append(
    log: &mut [u8],
    waiting: Option<&mut [u8]>,
    used_of_both: usize,
    edition: Edition,
    kind: u8,
    data: &[u8],
) -> Result<(), u8> {
    let sectors = edition.sectors_for(data.len());
    let left_in_log = (log.len() / SECTOR).saturating_sub(used_of_both);
    let room = match waiting {
        None => &mut log[used_of_both * SECTOR..],
        Some(waiting) => {
            let used = used(waiting);
            &mut waiting[used * SECTOR..]
        }
    };
    if left_in_log < sectors || room.len() / SECTOR < sectors {
        return Err(14);
    }
    write_in(room, used_of_both, edition, kind, data);
    Ok(())
}
