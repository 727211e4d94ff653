//! The same operations in fast plain Rust, with the same checks, answers and bytes: fields by `from_be_bytes`, copies by
//! `copy_from_slice`, a hash of eight bytes a turn where text is ASCII, properties in one pass of 16 bytes a turn that also
//! tells whether they are ASCII (where only that is asked, no more than it), other text judged by `from_utf8` and hashed
//! character by character, the index header kept in registers during a call of dispatch.

pub mod ahead;
pub mod append;
mod blocks;
mod bytes;
mod directory;
pub mod dispatch;
mod geometry;
pub mod hash;
pub mod index;
mod properties;
pub mod queue;
pub mod record;
pub mod report;
pub mod text;
pub mod trace;

/// Answer numbers.
mod answer {
    pub const DONE: u32 = 0;
    pub const BAD_SIZES: u32 = 1;
    pub const BAD_POSITION: u32 = 2;
    pub const BAD_DIRECTORY: u32 = 3;
    pub const BAD_HEADER: u32 = 4;
    pub const BAD_REQUEST: u32 = 5;
    pub const LOG_FULL: u32 = 6;
    pub const BLANK_WRITTEN: u32 = 7;
    pub const NOT_READABLE: u32 = 8;
    pub const BUDGET_SPENT: u32 = 9;
    pub const DAMAGED: u32 = 10;
    pub const QUEUE_NOT_LISTED: u32 = 11;
    pub const OUT_OF_STEP: u32 = 12;
    pub const QUEUE_FULL: u32 = 13;
    pub const INDEX_FULL: u32 = 14;
    pub const INDEX_AHEAD: u32 = 15;
    pub const CHAIN_BROKEN: u32 = 16;
    pub const MALFORMED: u32 = 17;
}
