//! Names that no other process takes, nor this one at another time.

use std::process;
use std::time::{SystemTime, UNIX_EPOCH};

pub fn name() -> String {
    let now = SystemTime::now().duration_since(UNIX_EPOCH);
    let now = now.map_or(0, |now| now.as_nanos());
    format!("{}-{now}", process::id())
}
