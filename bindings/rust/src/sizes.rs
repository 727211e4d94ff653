use crate::archive;

/// A position in the commit log. Not a place in a queue.
#[derive(Clone, Copy, Debug, Default, PartialEq, Eq, PartialOrd, Ord, Hash)]
#[repr(transparent)]
pub struct LogPosition(pub u64);

/// A place in a consume queue: an entry's number, or a count of entries. Not a log position.
#[derive(Clone, Copy, Debug, Default, PartialEq, Eq, PartialOrd, Ord, Hash)]
#[repr(transparent)]
pub struct QueueOffset(pub u64);

/// Bytes of a queue's entry.
pub const ENTRY_BYTES: u64 = 20;

/// The sizes of a store. A call looks only at those that it needs: the others may be anything.
#[derive(Clone, Copy, Debug, Default, PartialEq, Eq)]
pub struct Sizes {
    /// 1,024 to 1,073,741,824; the log's length is a positive multiple of it.
    pub segment_size: u64,
    /// A multiple of the segment size; with the log's length at most 2^40.
    pub first_position: LogPosition,
    /// Entries of each queue, 1 to 300,000.
    pub queue_entries: u64,
    /// Slots of the index file, 1 to 5,000,000.
    pub slot_count: u64,
    /// Items of the index file, 2 to 20,000,000. Place 0 is never used: one item fewer fits.
    pub item_count: u64,
}

impl Sizes {
    /// The length of a queue buffer with so many rows, if it has one.
    ///
    /// ```
    /// use swistopal::Sizes;
    ///
    /// let sizes = Sizes { queue_entries: 8, ..Sizes::default() };
    /// assert_eq!(sizes.queues_len(2), Some(320));
    /// assert_eq!(sizes.queues_len(u64::MAX), None);
    /// ```
    pub fn queues_len(&self, rows: u64) -> Option<usize> {
        let entries = rows.checked_mul(self.queue_entries)?;
        usize::try_from(entries.checked_mul(ENTRY_BYTES)?).ok()
    }

    /// The length of an index file, if it has one. An index of zeros is empty.
    ///
    /// ```
    /// use swistopal::Sizes;
    ///
    /// let sizes = Sizes { slot_count: 2, item_count: 4, ..Sizes::default() };
    /// assert_eq!(sizes.index_len(), Some(128));
    /// ```
    pub fn index_len(&self) -> Option<usize> {
        let slots = self.slot_count.checked_mul(4)?;
        let items = self.item_count.checked_mul(20)?;
        usize::try_from(slots.checked_add(items)?.checked_add(40)?).ok()
    }

    pub(crate) fn lent(&self) -> archive::Sizes {
        archive::Sizes {
            segment_size: self.segment_size,
            first_position: self.first_position.0,
            queue_entries: self.queue_entries,
            slot_count: self.slot_count,
            item_count: self.item_count,
        }
    }
}

/// How far dispatch has come: the next log position, and the entry counts of the directory's rows 0 to 15.
#[derive(Clone, Copy, Debug, Default, PartialEq, Eq)]
pub struct Progress {
    pub position: LogPosition,
    pub counts: [QueueOffset; 16],
}

impl Progress {
    /// Nothing dispatched yet, from this position on.
    pub fn from_position(position: LogPosition) -> Progress {
        Progress {
            position,
            ..Progress::default()
        }
    }

    pub(crate) fn lent(&self) -> archive::Progress {
        archive::Progress {
            position: self.position.0,
            counts: self.counts.map(|count| count.0),
        }
    }

    pub(crate) fn of(lent: &archive::Progress) -> Progress {
        Progress {
            position: LogPosition(lent.position),
            counts: lent.counts.map(QueueOffset),
        }
    }
}

/// A directory of these queues, in order: topic and queue id. Whether it is a good one, the calls that take it judge.
///
/// ```
/// let directory = swistopal::directory(&[(b"T", 3)]);
/// assert_eq!(directory, [9, 0, 1, 0, 3, 0, 0, 0, b'T']);
/// ```
pub fn directory(queues: &[(&[u8], u32)]) -> Vec<u8> {
    let mut directory = Vec::new();
    for (topic, queue_id) in queues {
        // A longer topic makes no row: the length says so as far as it can.
        let length = u16::try_from(8 + topic.len()).unwrap_or(u16::MAX);
        directory.extend(length.to_le_bytes());
        directory.extend(1u16.to_le_bytes());
        directory.extend(queue_id.to_le_bytes());
        directory.extend(*topic);
    }
    directory
}
