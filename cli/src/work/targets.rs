//! The work files while a rebuild runs: what they are to become stands in memory.

use crate::failure::{fault, Failure};
use crate::index::{item_place, slot_place, Bytes};
use crate::map::{begin_to_sync, page_size, Draft};
use crate::plan::Plan;
use crate::queues::{MOST_QUEUES, NO_RECORD};
use std::fs::File;
use std::io;
use std::ops::Range;
use std::os::unix::fs::FileExt;
use swistopal::{Answer, Progress, QueueOffset, ENTRY_BYTES};

/// Slots with fewer others between them are written as one piece.
const NEAR: u64 = 64;

/// A work file and what it is to become.
pub struct Target {
    pub file: File,
    pub bytes: Draft,
    /// Before it stands what the file is given by the journal alone.
    pub from: u64,
}

impl Target {
    /// Brings bytes to the file that nothing counts yet: from here on its pages stand for them. The disk may begin with them
    /// at once.
    fn bring(&mut self, bytes: Range<u64>) -> io::Result<()> {
        let (from, to) = (bytes.start as usize, bytes.end as usize);
        self.file.write_all_at(&self.bytes[from..to], bytes.start)?;
        begin_to_sync(&self.file, bytes.clone());
        let from = bytes.start.max(self.from.next_multiple_of(page_size()));
        self.bytes.settle(&self.file, from..bytes.end)
    }
}

pub struct Targets {
    pub queues: Target,
    pub index: Target,
    /// The used count up to which the index file has items.
    pub brought: u64,
}

impl Targets {
    pub fn used(&self) -> u64 {
        Bytes(&self.index.bytes).used()
    }

    /// Brings new items to the file, where they count once a journal says so.
    pub fn bring_items(&mut self, slots: u64) -> io::Result<()> {
        let used = self.used();
        if self.brought < used {
            let new = item_place(slots, self.brought)..item_place(slots, used);
            self.index.bring(new)?;
            self.brought = used;
        }
        Ok(())
    }

    /// The same for the entries of queues.
    pub fn bring_entries(
        &mut self,
        plan: &Plan,
        before: &Progress,
        after: &Progress,
    ) -> io::Result<()> {
        let region = plan.sizes.queue_entries * ENTRY_BYTES;
        let rows = before.counts.iter().zip(&after.counts).enumerate();
        for (number, (old, new)) in rows.filter(|(_, (old, new))| old < new) {
            let start = number as u64 * region;
            let bytes = start + entry_bytes(*old)..start + entry_bytes(*new);
            self.queues.bring(bytes)?;
        }
        Ok(())
    }

    /// Brings queues without an entry to their start.
    pub fn fill(&mut self, plan: &Plan, progress: &mut Progress) {
        let region = (plan.sizes.queue_entries * ENTRY_BYTES) as usize;
        for (number, row) in plan.rows.iter().enumerate() {
            if progress.counts[number] < row.start {
                progress.counts[number] = row.start;
                let (from, filled) = (number * region, filled(row.start));
                self.queues.bytes[from..from + filled.len()].copy_from_slice(&filled);
            }
        }
    }

    /// Brings changed slots and the header to the file.
    pub fn apply(&self, changes: &[Range<u64>]) -> io::Result<()> {
        let mut changes = changes.iter();
        changes.try_for_each(|change| {
            let bytes = &self.index.bytes[change.start as usize..change.end as usize];
            self.index.file.write_all_at(bytes, change.start)
        })
    }

    pub fn sync(&self) -> io::Result<()> {
        self.queues.file.sync_data()?;
        self.index.file.sync_data()
    }
}

/// The header and the slots that new items stand in. Apart from the items dispatch changes no other byte of the index.
pub fn index_changes(index: &Bytes, slots: u64, used_before: u64) -> Vec<Range<u64>> {
    let used = index.used();
    if used - used_before >= slots / NEAR {
        let all = 0..slot_place(slots);
        return vec![all];
    }
    let new = used_before..used;
    let mut changed: Vec<u64> = new
        .filter_map(|item| index.slot_of_item(slots, item))
        .collect();
    changed.sort_unstable();
    changed.dedup();
    let pieces = changed.chunk_by(|slot, next| next - slot <= NEAR);
    let pieces = pieces.map(|near| slot_place(near[0])..slot_place(near[near.len() - 1] + 1));
    let header = 0..slot_place(0);
    [header].into_iter().chain(pieces).collect()
}

/// The places before a queue's first entry, as RocketMQ fills them.
pub fn filled(start: QueueOffset) -> Vec<u8> {
    let mut entry = [0; 20];
    entry[8..12].copy_from_slice(&NO_RECORD.to_be_bytes());
    entry.repeat(start.0 as usize)
}

pub fn entry_bytes(count: QueueOffset) -> u64 {
    count.0 * ENTRY_BYTES
}

/// There is room for all queues that a plan may have.
pub fn queues_length(plan: &Plan) -> Result<usize, Failure> {
    let length = plan.sizes.queues_len(MOST_QUEUES as u64);
    length.map_or_else(|| fault(Answer::BadSizes.to_string()), Ok)
}

pub fn index_length(plan: &Plan) -> Result<usize, Failure> {
    let length = plan.sizes.index_len();
    length.map_or_else(|| fault(Answer::BadSizes.to_string()), Ok)
}
