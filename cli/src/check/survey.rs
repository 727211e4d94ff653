//! One walk over the log: what is in it, which queues it has, what cannot be read, and which bodies are damaged. The archive
//! makes queues and index from it on the way, as long as no limit is met.

use super::made::Made;
use crate::crc;
use crate::failure::Failure;
use crate::log::{End, Log, Met, Skipped};
use crate::meter::Meter;
use crate::near::Near;
use crate::plan::Row;
use crate::queues::{Numbered, Queue};
use std::path::Path;
use swistopal::{makes_entry, Answer, Entry, LogPosition, Message, QueueOffset};

/// Entries of this topic's queues have the time of delivery in the place of a tag's code.
pub const DELAYED: &[u8] = b"SCHEDULE_TOPIC_XXXX";
/// Bytes that are walked before the archive makes queues and index from them: what was just read is read fast again.
const BLOCK: u64 = 1 << 18;

pub struct Survey {
    pub before: Counts,
    /// What was read behind damage.
    pub behind: Counts,
    /// The lowest and the highest store time.
    pub times: Option<(u64, u64)>,
    pub skipped: Vec<Skipped>,
    pub end: End,
    /// The queues that records of the log belong to.
    pub queues: Numbered,
    /// The highest number of an entry in each of them.
    pub last: Vec<u64>,
    pub bodies: Option<Bodies>,
    /// What the archive made, up to where it stopped.
    pub made: Option<Made>,
}

impl Survey {
    pub fn is_damaged(&self) -> bool {
        self.skipped.iter().any(Skipped::is_damage)
    }
}

#[derive(Default)]
pub struct Counts {
    pub records: u64,
    pub blanks: u64,
    /// Records of the delayed topic.
    pub delayed: u64,
}

/// Bodies that were judged by their checksums.
#[derive(Default)]
pub struct Bodies {
    pub judged: u64,
    pub bytes: u64,
    pub damaged: Vec<BadBody>,
}

pub struct BadBody {
    pub position: LogPosition,
    pub stored: u64,
    pub computed: u64,
}

pub fn walk(log: &Log, made: Option<Made>, judge_bodies: bool) -> Result<Survey, Failure> {
    let mut surveyor = Surveyor {
        log,
        survey: Survey {
            before: Counts::default(),
            behind: Counts::default(),
            times: None,
            skipped: Vec::new(),
            end: End::stopped(log.first(), Answer::Done),
            queues: Numbered::default(),
            last: Vec::new(),
            bodies: judge_bodies.then(Bodies::default),
            made,
        },
        meter: Meter::new("reading", log.first().0, log.files_end().0),
        steps: 0,
        block: log.first().0 + BLOCK,
        near: Near::new(log),
    };
    let end = log.walk_on(log.first(), |met| {
        surveyor.meet(met);
        Ok(true)
    })?;
    let mut survey = surveyor.survey;
    if let Some(made) = survey.made.as_mut() {
        made.go_on(log, end.position);
    }
    survey.end = end;
    Ok(survey)
}

struct Surveyor<'a> {
    log: &'a Log,
    survey: Survey,
    meter: Meter,
    steps: u64,
    /// Where the next block begins.
    block: u64,
    near: Near<'a>,
}

impl Surveyor<'_> {
    fn meet(&mut self, met: Met) {
        match met {
            Met::Entry {
                position,
                entry,
                behind,
            } => {
                self.near.look_ahead(position);
                if position.0 >= self.block {
                    self.end_block(position);
                }
                self.steps += 1;
                let survey = &mut self.survey;
                let counts = match behind {
                    false => &mut survey.before,
                    true => &mut survey.behind,
                };
                match entry {
                    Entry::Blank { .. } => counts.blanks += 1,
                    Entry::Record { message, .. } => {
                        counts.records += 1;
                        counts.delayed += u64::from(message.topic == DELAYED);
                        self.record(position, &message);
                    }
                }
            }
            Met::Skipped(skipped) => {
                if let Some(made) = self.survey.made.as_mut() {
                    let from = skipped.from.min(self.log.end());
                    made.stop_at(self.log, from, Answer::Damaged);
                }
                self.survey.skipped.push(skipped);
            }
        }
    }

    fn end_block(&mut self, position: LogPosition) {
        self.block = position.0 + BLOCK;
        self.meter.show(position.0, self.steps);
        if let Some(made) = self.survey.made.as_mut() {
            made.go_on(self.log, position);
        }
    }

    fn record(&mut self, position: LogPosition, message: &Message) {
        let survey = &mut self.survey;
        let time = message.fields.store_time;
        let (low, high) = survey.times.unwrap_or((time, time));
        survey.times = Some((low.min(time), high.max(time)));
        if let Some(bodies) = survey.bodies.as_mut() {
            bodies.judge(position, message);
        }
        if !makes_entry(message) {
            return;
        }
        let number = match survey.queues.number(message) {
            Some(number) => number,
            None => {
                let number = survey.queues.add(Queue::of(message));
                survey.last.push(0);
                self.new_queue(position, number, message.fields.queue_offset);
                number
            }
        };
        let last = &mut self.survey.last[number];
        *last = (*last).max(message.fields.queue_offset.0);
    }

    /// The archive makes this queue too, from its first record on.
    fn new_queue(&mut self, position: LogPosition, number: usize, offset: QueueOffset) {
        let queue = self.survey.queues.list[number].clone();
        if let Some(made) = self.survey.made.as_mut() {
            // Only a name that is a folder's can be there.
            if queue.folder(Path::new("")).is_err() {
                return made.stop_at(self.log, position, Answer::QueueNotListed);
            }
            let start = match self.log.first() {
                LogPosition(0) => QueueOffset(0),
                _ => offset,
            };
            made.meet(self.log, position, Row { queue, start });
        }
    }
}

impl Bodies {
    fn judge(&mut self, position: LogPosition, message: &Message) {
        self.judged += 1;
        self.bytes += message.body.len() as u64;
        let (stored, computed) = (message.fields.body_crc, crc::of_body(message.body));
        if stored != computed {
            self.damaged.push(BadBody {
                position,
                stored,
                computed,
            });
        }
    }
}
