//! Document 01, "Directory".

use crate::number::{length, little_endian, part, Whole};
use crate::record::Message;
use crate::sizes::{ENTRY_SIZE, MOST_QUEUES};

/// One row: a consume queue's topic and queue id.
#[derive(Clone, Copy, Debug, PartialEq, Eq)]
pub struct Row<'a> {
    pub topic: &'a [u8],
    pub queue_id: Whole,
}

/// The directory's rows, or none where it is bad or has not 1 to 16 rows.
pub fn rows(directory: &[u8]) -> Option<Vec<Row<'_>>> {
    let mut rows: Vec<Row> = Vec::new();
    let mut rest = directory;
    // "Rows fill the buffer exactly;"
    while !rest.is_empty() {
        // "House format, little-endian, length first. Row: length of the whole row (2 bytes, 9 to 135), kind (2 bytes,
        // value 1), queue id (4 bytes, below 2^31), topic."
        if length(rest) < 9 {
            return None;
        }
        let row_length = little_endian(part(rest, 0, 2));
        if !(9..=135).contains(&row_length) || row_length > length(rest) {
            return None;
        }
        let kind = little_endian(part(rest, 2, 2));
        if kind != 1 {
            return None;
        }
        let queue_id = little_endian(part(rest, 4, 4));
        if queue_id >= 2_147_483_648 {
            return None;
        }
        let topic = part(rest, 8, row_length - 8);
        let row = Row { topic, queue_id };
        // "no two name the same topic and id."
        if rows.contains(&row) {
            return None;
        }
        rows.push(row);
        // "Queues: 1 to 16".
        if rows.len() > MOST_QUEUES {
            return None;
        }
        rest = part(rest, row_length, length(rest) - row_length);
    }
    if rows.is_empty() {
        return None;
    }
    Some(rows)
}

/// The number of the row that lists a message's queue, from 0, or none where the queue is unlisted. No two rows name
/// the same topic and id, so there is at most one.
pub fn listed(rows: &[Row], message: &Message) -> Option<usize> {
    rows.iter()
        .position(|row| row.topic == message.topic && row.queue_id == Whole::from(message.queue_id))
}

/// Door check 3: "directory bad or not 1 to 16 rows, or queue buffer not rows × R × 20" is refused.
pub fn fits(directory: &[u8], queue_entries: u64, queues: &[u8]) -> bool {
    match rows(directory) {
        None => false,
        Some(rows) => {
            let r = Whole::from(queue_entries);
            length(queues) == rows.len() as Whole * r * ENTRY_SIZE
        }
    }
}
