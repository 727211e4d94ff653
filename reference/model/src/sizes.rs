//! Document 01, "Sizes": the limits and door check 1.

use crate::number::{length, Whole};

/// 1,099,511,627,776 (2^40): the highest log position.
pub const LARGEST_POSITION: Whole = 1_099_511_627_776;

/// "Record: 92 to 4,194,304 bytes and at most S−8."
pub const SMALLEST_RECORD: Whole = 92;
pub const LARGEST_RECORD: Whole = 4_194_304;

/// "Topic 1 to 127, properties 0 to 32,767."
pub const LONGEST_TOPIC: Whole = 127;
pub const LONGEST_PROPERTIES: Whole = 32_767;

/// "Times: 0 to 281,474,976,710,655 (2^48−1)."
pub const LARGEST_TIME: Whole = 281_474_976_710_655;

/// "Queues: 1 to 16, each with R entries of 20 bytes".
pub const MOST_QUEUES: usize = 16;
pub const ENTRY_SIZE: Whole = 20;

/// S and B: how the log's bytes are divided and where they start.
#[derive(Clone, Copy, Debug, PartialEq, Eq)]
pub struct LogShape {
    pub segment_size: u64,
    pub first_position: u64,
}

impl LogShape {
    /// S.
    pub fn s(self) -> Whole {
        Whole::from(self.segment_size)
    }

    /// B.
    pub fn b(self) -> Whole {
        Whole::from(self.first_position)
    }

    /// Door check 1 on the log: no S, B or length of the log breaks its limit.
    pub fn fits(self, log: &[u8]) -> bool {
        // "Segment size S: 1,024 to 1,073,741,824."
        if self.s() < 1_024 || self.s() > 1_073_741_824 {
            return false;
        }
        // "Log length: a positive multiple of S."
        if length(log) == 0 || length(log) % self.s() != 0 {
            return false;
        }
        // "First position B: a multiple of S;"
        if self.b() % self.s() != 0 {
            return false;
        }
        // "B plus length at most 1,099,511,627,776 (2^40)."
        self.end(log) <= LARGEST_POSITION
    }

    /// B + length: the log's end.
    pub fn end(self, log: &[u8]) -> Whole {
        self.b() + length(log)
    }

    /// "Let r be the bytes from position p to its segment's end." B is a multiple of S, so segments end at the
    /// multiples of S; a position on a multiple is the first of its segment.
    pub fn bytes_to_segment_end(self, p: Whole) -> Whole {
        self.s() - p % self.s()
    }
}

/// "R from 1 to 300,000".
pub fn queue_entries_ok(queue_entries: u64) -> bool {
    (1..=300_000).contains(&queue_entries)
}

/// "A time within limits".
pub fn time_ok(time: Whole) -> bool {
    (0..=LARGEST_TIME).contains(&time)
}

/// K and N.
#[derive(Clone, Copy, Debug, PartialEq, Eq)]
pub struct IndexShape {
    pub slot_count: u64,
    pub item_count: u64,
}

impl IndexShape {
    /// K.
    pub fn k(self) -> Whole {
        Whole::from(self.slot_count)
    }

    /// N.
    pub fn n(self) -> Whole {
        Whole::from(self.item_count)
    }

    /// Door check 1 on the index.
    pub fn fits(self, index: &[u8]) -> bool {
        // "Index: K slots, 1 to 5,000,000; N items, 2 to 20,000,000;"
        if self.k() < 1 || self.k() > 5_000_000 {
            return false;
        }
        if self.n() < 2 || self.n() > 20_000_000 {
            return false;
        }
        // "length exactly 40 + 4K + 20N".
        length(index) == 40 + 4 * self.k() + 20 * self.n()
    }
}
