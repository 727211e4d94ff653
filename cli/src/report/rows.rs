//! The queues of a report. The archive takes 16 of them at once; of more it is asked group by group.

use crate::failure::Failure;
use crate::log::Log;
use crate::queues::{directory, Numbered, Queue, MOST_QUEUES};
use swistopal::{Figures, LogPosition, Message};

pub struct Rows {
    queues: Numbered,
    groups: Vec<Group>,
    /// Whether they were named; otherwise they are those of the log, in the order of their first records.
    named: bool,
}

/// Queues that the archive is asked for at once.
#[derive(Default)]
struct Group {
    directory: Vec<u8>,
    records: [u64; MOST_QUEUES],
    /// Whether the stretch that comes next has a record of theirs.
    met: bool,
}

impl Rows {
    pub fn of(named: Option<Vec<Queue>>) -> Rows {
        let mut rows = Rows {
            queues: Numbered::default(),
            groups: Vec::new(),
            named: named.is_some(),
        };
        for queue in named.unwrap_or_default() {
            rows.add(queue);
        }
        rows
    }

    /// A record of the log, and whether it counts.
    pub fn meet(&mut self, message: &Message, counts: bool) {
        if self.named {
            return;
        }
        let number = match self.queues.number(message) {
            Some(number) => number,
            None => self.add(Queue::of(message)),
        };
        self.groups[number / MOST_QUEUES].met |= counts;
    }

    fn add(&mut self, queue: Queue) -> usize {
        let number = self.queues.add(queue);
        let (group, first) = (number / MOST_QUEUES, number / MOST_QUEUES * MOST_QUEUES);
        self.groups.resize_with(group + 1, Group::default);
        self.groups[group].directory = directory(&self.queues.list[first..]);
        number
    }

    /// The archive's figures of a stretch. The rows of each group are kept here, and what is in none of them is not listed.
    pub fn report(
        &mut self,
        log: &Log,
        from: LogPosition,
        to: LogPosition,
    ) -> Result<Figures, Failure> {
        let mut whole: Option<Figures> = None;
        for group in &mut self.groups {
            if !std::mem::take(&mut group.met) && !self.named {
                continue;
            }
            let figures = log.report(from, to, &group.directory)?;
            for (sum, records) in group.records.iter_mut().zip(figures.rows) {
                *sum += records;
            }
            match &mut whole {
                Some(whole) => whole.unlisted -= figures.rows.iter().sum::<u64>(),
                None => whole = Some(figures),
            }
        }
        match whole {
            Some(figures) => Ok(figures),
            None => log.report(from, to, &of_no_queue()),
        }
    }

    /// Each queue with its records.
    pub fn end(self) -> Vec<(Queue, u64)> {
        let records = self.groups.iter().flat_map(|group| group.records);
        self.queues.list.into_iter().zip(records).collect()
    }
}

/// For blanks alone, where no queue is known: the archive takes no directory without a row.
fn of_no_queue() -> Vec<u8> {
    directory(&[Queue {
        topic: b"-".to_vec(),
        id: 0,
    }])
}
