//! Document 01, "Answer numbers".
//!
//! "'Whole steps' means that the steps reported stand and nothing of the next one does. Each number is given exactly when
//! its rule below says so. A call refused at the door, or a record reading answering 8 or 10, returns W and progress as
//! given and 0 for all else. Door checks run in this order: append 1, 2, 5, then 6 or 7; dispatch 1, 3, 2, 4; record
//! reading 1, 2; query 1, 4, 17; queue reading 1, 3, 2, 17."

/// An answer; its number is the table's, its name the header's (include/swistopal.h).
#[derive(Clone, Copy, Debug, PartialEq, Eq, PartialOrd, Ord)]
pub enum Answer {
    /// "done, caught up, chain ended or enough found"
    Done = 0,
    /// "S, B, R, K or N breaks its limit, or log or index has another length"
    BadSizes = 1,
    /// "position, readable end or entry count is bad"
    BadPosition = 2,
    /// "directory bad or not 1 to 16 rows, or queue buffer not rows × R × 20"
    BadDirectory = 3,
    /// "index header bad"
    BadHeader = 4,
    /// "append request outside the record rules"
    BadRequest = 5,
    /// "log full"
    LogFull = 6,
    /// "blank written, try again at the new position"
    BlankWritten = 7,
    /// "record not wholly below the readable end"
    NotReadable = 8,
    /// "budget spent"
    BudgetSpent = 9,
    /// "record damaged"
    Damaged = 10,
    /// "queue not listed"
    QueueNotListed = 11,
    /// "queue out of step"
    OutOfStep = 12,
    /// "queue full"
    QueueFull = 13,
    /// "index full"
    IndexFull = 14,
    /// "index ahead of the log"
    IndexAhead = 15,
    /// "chain broken"
    ChainBroken = 16,
    /// "query or queue reading malformed"
    Malformed = 17,
}

impl Answer {
    pub fn number(self) -> u32 {
        self as u32
    }
}
