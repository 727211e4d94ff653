use std::error::Error;
use std::fmt;

/// What a call answers; the numbers are the interface's.
#[derive(Clone, Copy, Debug, PartialEq, Eq, PartialOrd, Ord, Hash)]
pub enum Answer {
    /// Done, caught up, chain ended or enough found.
    Done = 0,
    /// A size breaks its limit, or the log or the index has another length.
    BadSizes = 1,
    /// A position, the readable end or an entry count is bad.
    BadPosition = 2,
    /// The directory is bad or has not 1 to 16 rows, or the queue buffer has another length.
    BadDirectory = 3,
    /// The index header is bad.
    BadHeader = 4,
    /// The append request is outside the record rules, or its text is no UTF-8.
    BadRequest = 5,
    /// The log is full.
    LogFull = 6,
    /// A blank was written; try again at the new position.
    BlankWritten = 7,
    /// The record is not wholly below the readable end.
    NotReadable = 8,
    /// The budget is spent.
    BudgetSpent = 9,
    /// The record is damaged, or its text is no UTF-8.
    Damaged = 10,
    /// The queue is not listed.
    QueueNotListed = 11,
    /// The queue is out of step.
    OutOfStep = 12,
    /// The queue is full.
    QueueFull = 13,
    /// The index is full.
    IndexFull = 14,
    /// The index is ahead of the log.
    IndexAhead = 15,
    /// The chain is broken.
    ChainBroken = 16,
    /// The query or the queue reading is malformed, or the query's topic or key is no UTF-8.
    Malformed = 17,
}

impl Answer {
    /// Every answer, at the place of its number.
    ///
    /// ```
    /// use swistopal::Answer;
    ///
    /// for (number, answer) in Answer::ALL.into_iter().enumerate() {
    ///     assert_eq!(answer.number() as usize, number);
    ///     assert!(!answer.to_string().is_empty());
    /// }
    /// ```
    pub const ALL: [Answer; 18] = [
        Answer::Done,
        Answer::BadSizes,
        Answer::BadPosition,
        Answer::BadDirectory,
        Answer::BadHeader,
        Answer::BadRequest,
        Answer::LogFull,
        Answer::BlankWritten,
        Answer::NotReadable,
        Answer::BudgetSpent,
        Answer::Damaged,
        Answer::QueueNotListed,
        Answer::OutOfStep,
        Answer::QueueFull,
        Answer::IndexFull,
        Answer::IndexAhead,
        Answer::ChainBroken,
        Answer::Malformed,
    ];

    /// The number.
    pub fn number(self) -> u32 {
        self as u32
    }

    /// The answer of a number, if it is one.
    ///
    /// ```
    /// use swistopal::Answer;
    ///
    /// assert_eq!(Answer::of_number(16), Some(Answer::ChainBroken));
    /// assert_eq!(Answer::of_number(18), None);
    /// ```
    pub fn of_number(number: u32) -> Option<Answer> {
        Answer::ALL.get(number as usize).copied()
    }

    /// What a call of the archive returned.
    pub(crate) fn returned(number: u32) -> Answer {
        Answer::of_number(number).expect("the archive answers 0 to 17")
    }
}

impl fmt::Display for Answer {
    fn fmt(&self, formatter: &mut fmt::Formatter) -> fmt::Result {
        formatter.write_str(match self {
            Answer::Done => "done, caught up, chain ended or enough found",
            Answer::BadSizes => "a size breaks its limit, or the log or the index has another length",
            Answer::BadPosition => "a position, the readable end or an entry count is bad",
            Answer::BadDirectory => {
                "the directory is bad or has not 1 to 16 rows, or the queue buffer has another length"
            }
            Answer::BadHeader => "the index header is bad",
            Answer::BadRequest => "the append request is outside the record rules",
            Answer::LogFull => "the log is full",
            Answer::BlankWritten => "a blank was written; try again at the new position",
            Answer::NotReadable => "the record is not wholly below the readable end",
            Answer::BudgetSpent => "the budget is spent",
            Answer::Damaged => "the record is damaged",
            Answer::QueueNotListed => "the queue is not listed",
            Answer::OutOfStep => "the queue is out of step",
            Answer::QueueFull => "the queue is full",
            Answer::IndexFull => "the index is full",
            Answer::IndexAhead => "the index is ahead of the log",
            Answer::ChainBroken => "the chain is broken",
            Answer::Malformed => "the query or the queue reading is malformed",
        })
    }
}

impl Error for Answer {}
