//! What the archive makes of one record, wherever it stands and whatever its number in its queue is: its tag's code and the
//! hashes of its keys. It is appended to a log of its own, without its body, and dispatched there.

use crate::index::{item_place, Bytes};
use crate::queues::{directory, Queue, QueueEntry, ENTRY};
use swistopal::{
    append, dispatch, Answer, Dispatch, Fields, LogPosition, Message, Progress, QueueOffset, Sizes,
};

/// A record without its body fits into the segment, whatever its topic and its properties are. Each key takes two bytes of
/// the properties at least.
const SIZES: Sizes = Sizes {
    segment_size: 65_536,
    first_position: LogPosition(0),
    queue_entries: 1,
    slot_count: 1,
    item_count: 16_500,
};

pub struct Maker {
    log: Vec<u8>,
    index: Vec<u8>,
    topic: Vec<u8>,
    directory: Vec<u8>,
    hashes: Vec<u32>,
}

pub struct Made<'m> {
    /// Its tag's code, if it makes an entry of its queue.
    pub code: Option<u64>,
    /// One for each item of the index, in order.
    pub hashes: &'m [u32],
}

impl Maker {
    pub fn new() -> Maker {
        Maker {
            log: vec![0; SIZES.segment_size as usize],
            index: vec![0; SIZES.index_len().expect("it fits into memory")],
            topic: Vec::new(),
            directory: Vec::new(),
            hashes: Vec::new(),
        }
    }

    pub fn make(&mut self, message: &Message) -> Result<Made<'_>, Answer> {
        self.list(message.topic);
        let message = Message {
            fields: Fields {
                queue_id: 0,
                queue_offset: QueueOffset(0),
                ..message.fields
            },
            body: &[],
            ..*message
        };
        let mut end = LogPosition(0);
        append(&mut self.log, &SIZES, &message, &mut end)?;
        // An empty index: the header and the one slot.
        self.index[..item_place(SIZES.slot_count, 0) as usize].fill(0);
        let call = Dispatch {
            log: &self.log,
            readable_end: end,
            sizes: SIZES,
            directory: &self.directory,
            budget: u64::MAX,
        };
        let mut progress = Progress::default();
        let mut entry = [0; ENTRY];
        let done = dispatch(&call, &mut entry, &mut self.index, &mut progress)?;
        if done.stop != Answer::Done {
            return Err(done.stop);
        }
        let made = progress.counts[0] > QueueOffset(0);
        Ok(Made {
            code: made.then_some(QueueEntry::of(&entry).code),
            hashes: self.take_hashes(),
        })
    }

    /// Lists the one queue of a record.
    fn list(&mut self, topic: &[u8]) {
        if self.topic != topic {
            self.topic = topic.to_vec();
            let topic = self.topic.clone();
            self.directory = directory(&[Queue { topic, id: 0 }]);
        }
    }

    fn take_hashes(&mut self) -> &[u32] {
        let index = Bytes(&self.index);
        let items = (1..index.used()).filter_map(|item| index.item_hash(SIZES.slot_count, item));
        self.hashes.clear();
        self.hashes.extend(items);
        &self.hashes
    }
}
