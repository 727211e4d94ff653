//! Queues and index as the archive makes them from the log, in memory.

use crate::failure::{At, Failure};
use crate::log::Log;
use crate::map::Draft;
use crate::plan::{Plan, Row};
use crate::queues::{directory, ENTRY, MOST_QUEUES};
use std::path::Path;
use swistopal::{dispatch, Answer, Dispatch, LogPosition, Progress, QueueOffset};

pub struct Made {
    pub plan: Plan,
    /// Whether only the queues of the plan are taken.
    listed: bool,
    directory: Vec<u8>,
    queues: Draft,
    pub index: Draft,
    pub progress: Progress,
    /// Why it does not go on; `Done` as long as it does.
    pub stop: Answer,
}

impl Made {
    pub fn new(log: &Log, plan: Plan, listed: bool) -> Result<Made, Failure> {
        let here = Path::new("memory");
        let rows = MOST_QUEUES.max(plan.rows.len()) as u64;
        let length = plan.sizes.queues_len(rows);
        let queues = Draft::of_zeros(length.unwrap_or(0)).at("take", here)?;
        let length = plan.sizes.index_len();
        let index = Draft::of_zeros(length.unwrap_or(0)).at("take", here)?;
        let mut progress = Progress::from_position(log.first());
        for (count, row) in progress.counts.iter_mut().zip(&plan.rows) {
            *count = row.start;
        }
        Ok(Made {
            directory: directory(&plan.queues()),
            plan,
            listed,
            queues,
            index,
            progress,
            stop: Answer::Done,
        })
    }

    /// A queue's first record is met. The queue is taken behind those that are there, whose entries stay where they are.
    pub fn meet(&mut self, log: &Log, position: LogPosition, row: Row) {
        let known = |known: &Row| known.queue == row.queue;
        let number = self.plan.rows.iter().position(known);
        let why = if row.start.0 > self.plan.sizes.queue_entries {
            Answer::QueueFull
        } else if let Some(number) = number {
            self.progress.counts[number] = row.start;
            self.plan.rows[number].start = row.start;
            return;
        } else if self.listed || self.plan.rows.len() == MOST_QUEUES {
            Answer::QueueNotListed
        } else {
            self.progress.counts[self.plan.rows.len()] = row.start;
            self.plan.rows.push(row);
            self.directory = directory(&self.plan.queues());
            return;
        };
        self.stop_at(log, position, why);
    }

    /// Nothing is made from a position on.
    pub fn stop_at(&mut self, log: &Log, position: LogPosition, why: Answer) {
        self.go_on(log, position);
        if self.stop == Answer::Done {
            self.stop = why;
        }
    }

    /// Dispatches what stands before a position.
    pub fn go_on(&mut self, log: &Log, to: LogPosition) {
        let nothing = self.plan.rows.is_empty() && !self.listed;
        if self.stop != Answer::Done || nothing {
            return;
        }
        let length = self.plan.sizes.queues_len(self.plan.rows.len() as u64);
        let call = Dispatch {
            log: log.bytes(),
            readable_end: to,
            sizes: self.plan.sizes,
            directory: &self.directory,
            budget: u64::MAX,
        };
        let queues = &mut self.queues[..length.unwrap_or(0)];
        self.stop = match dispatch(&call, queues, &mut self.index, &mut self.progress) {
            Ok(done) => done.stop,
            Err(refusal) => refusal,
        };
    }

    /// Whether a queue has got an entry.
    pub fn has_entries(&self) -> bool {
        let mut counts = self.plan.rows.iter().zip(&self.progress.counts);
        counts.any(|(row, count)| *count > row.start)
    }

    pub fn may_end(&self) -> bool {
        self.plan.may_end(self.stop, &self.progress)
    }

    pub fn stops(&self) -> String {
        let position = self.progress.position.0;
        let (number, answer) = (self.stop.number(), self.stop);
        format!("stops at {position} with {number}: {answer}")
    }

    /// The entries of a queue from its start on, and the number of the first one.
    pub fn entries(&self, row: usize) -> (u64, &[u8]) {
        let region = self.plan.sizes.queue_entries as usize * ENTRY;
        let QueueOffset(start) = self.plan.rows[row].start;
        let QueueOffset(count) = self.progress.counts[row];
        let place = |number: u64| row * region + number as usize * ENTRY;
        (start, &self.queues[place(start)..place(count)])
    }
}
