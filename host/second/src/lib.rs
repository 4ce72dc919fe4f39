//! The archive a second time, in ordinary Rust: written from the description alone, as plainly as
//! it goes, and sharing nothing with the proved code. Its answers are there to be compared with.
//!
//! Refusals are the description's numbers, 1 to 26; 0 stands for none. What looks up a block gives 12
//! with the first doubtful sector.

pub mod account;
pub mod card;
pub mod changes;
pub mod copy;
pub mod crc32;
pub mod edition;
pub mod index;
pub mod kind;
pub mod known;
pub mod known_request;
pub mod ledger;
pub mod log;
pub mod message;
pub mod query;
pub mod refusal;
pub mod report;
pub mod request;
pub mod search;
pub mod sector;
pub mod sha1;
pub mod store;
pub mod tree;
pub mod utf8;
pub mod walk;
pub mod writer;
pub mod zeros;

pub use edition::{Date, Edition};
pub use message::Session;
pub use refusal::Refusal;
pub use sha1::Score;
