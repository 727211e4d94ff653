//! The message store of document 01 in plain Rust: a reference to compare with, written from the papers alone.
//!
//! It is slow and obvious on purpose. The modules stand in the paper's order, and above the code that states a
//! sentence of document 01 that sentence is quoted. Arithmetic is over whole numbers ([`number::Whole`]), so nothing
//! wraps. What judges a call only borrows the lent bytes; what writes runs after every judgement.
//!
//! | Section of document 01 | Module |
//! |---|---|
//! | Sizes | [`sizes`] |
//! | Answer numbers | [`answer`] |
//! | The record | [`record`] (fields, soundness), [`commit_log`] (append, record reading) |
//! | Directory | [`directory`] |
//! | One dispatch step | [`dispatch`]; rules 2 to 4 are [`commit_log::entry_at`] |
//! | Properties and hashes | [`properties`], [`hash`] |
//! | The index | [`index_file`] (header, put, query), [`consume_queue`] (queue reading) |
//! | Lister | [`lister`] |
//!
//! | Request of document 02 | Module |
//! |---|---|
//! | Item 1, a shift report | [`report`] |
//! | Item 2, keys from the accented sites | [`utf8`]; the hash's units in [`hash`], soundness in [`record`], 17 in [`index_file`] |
//!
//! [`interface`] has the same operations, and six small functions that tell what a record makes, with the names, order
//! and structs of the C interface (include/swistopal.h).

pub mod number;

pub mod sizes;

pub mod answer;

pub mod commit_log;
pub mod record;

pub mod directory;

pub mod dispatch;

pub mod hash;
pub mod properties;

pub mod consume_queue;
pub mod index_file;

pub mod lister;

pub mod report;

pub mod utf8;

pub mod interface;

pub use answer::Answer;
pub use number::{LogPosition, QueuePlace};
