//! The memory traffic of a dispatch, without its work: what every dispatch of these records has to read and write.

use super::bytes::be32;
use super::directory::Directory;
use super::hash;
use super::properties::parts;
use super::queue::ENTRY;
use super::record::{entry_at, Entry, HEAD};
use super::text::Standard;
use crate::store::{Filed, Log};

const LINE: usize = 64;
const HEADER: usize = 40;
const SLOT: usize = 4;
const ITEM: usize = 20;

/// Where a record's bytes, entry and items are. Blanks have none.
struct Places {
    head: u64,
    tail: u64,
    end: u64,
    entry: u32,
    items: u32,
}

/// The traffic of a whole log of ordinary records.
pub struct Trace {
    records: Vec<Places>,
    slots: Vec<u32>,
}

/// How far a trace was followed.
#[derive(Default)]
pub struct Followed {
    record: usize,
    item: usize,
}

impl Trace {
    pub fn of(log: &Log, readable_end: u64, filed: &Filed) -> Trace {
        let directory = Directory::with_queues(
            &filed.directory,
            filed.sizes.queue_entries,
            filed.queues.len(),
        )
        .expect("a directory in order");
        let mut trace = Trace {
            records: Vec::new(),
            slots: Vec::new(),
        };
        let mut counts = [0; 16];
        let mut position = 0;
        while position < readable_end {
            let rest = log.sizes.segment_size - position % log.sizes.segment_size;
            let seen = &log.bytes[position as usize..readable_end as usize];
            let record = match entry_at(seen, position, rest).expect("a sound log") {
                Entry::Blank(rest) => {
                    position += rest;
                    continue;
                }
                Entry::Record(record) => record,
            };
            let row = directory
                .row_of(be32(record.head(), 12), record.topic)
                .expect("a listed queue");
            let text = record.text::<Standard>().expect("sound text");
            let values = text.values;
            let prefix = hash::of_topic(text.topic, text.topic_ascii);
            let before = trace.slots.len();
            for key in [values.unique_key].into_iter().chain(parts(values.keys)) {
                let hash = hash::of_key(prefix, key, values.ascii);
                trace.slots.push(hash % filed.sizes.slot_count as u32);
            }
            let total = record.own.len() as u64;
            trace.records.push(Places {
                head: position,
                tail: position + (HEAD + record.body_len) as u64,
                end: position + total,
                entry: (row * filed.sizes.queue_entries as usize + counts[row]) as u32,
                items: (trace.slots.len() - before) as u32,
            });
            counts[row] += 1;
            position += total;
        }
        trace
    }

    /// Touches the lines, entries, slots and items of the next records. The sum keeps the reads from being left out.
    pub fn follow(
        &self,
        log: &Log,
        filed: &mut Filed,
        followed: &mut Followed,
        records: usize,
    ) -> u64 {
        let mut sum = 0;
        let (entries, _) = filed.queues.as_chunks_mut::<ENTRY>();
        let slot_bytes = SLOT * filed.sizes.slot_count as usize;
        let (slots, items) = filed.index.bytes[HEADER..].split_at_mut(slot_bytes);
        let (slots, _) = slots.as_chunks_mut::<SLOT>();
        let (items, _) = items.as_chunks_mut::<ITEM>();
        let from = followed.record;
        let to = self.records.len().min(from + records);
        for places in &self.records[from..to] {
            let head = places.head as usize;
            sum += touch(&log.bytes, head, head + HEAD);
            sum += touch(&log.bytes, places.tail as usize, places.end as usize);
            entries[places.entry as usize] = [1; ENTRY];
            let last = followed.item + places.items as usize;
            while followed.item < last {
                let slot = &mut slots[self.slots[followed.item] as usize];
                followed.item += 1;
                let item = &mut items[followed.item];
                *item = [2; ITEM];
                item[16..].copy_from_slice(slot);
                *slot = (followed.item as u32).to_be_bytes();
            }
        }
        followed.record = to;
        sum
    }
}

/// One byte of each line from `from` to `to`.
#[inline(always)]
fn touch(bytes: &[u8], from: usize, to: usize) -> u64 {
    let mut sum = u64::from(bytes[to - 1]);
    for byte in bytes[from..to].iter().step_by(LINE) {
        sum += u64::from(*byte);
    }
    sum
}
