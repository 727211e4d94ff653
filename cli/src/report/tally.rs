//! The log in figures. The archive reports stretch by stretch, and what it says is added up; which entries make a stretch is
//! told by the records' own store times.

use super::rows::Rows;
use crate::failure::Failure;
use crate::log::{End, Log, Met, Passed};
use crate::meter::Meter;
use crate::near::Near;
use crate::queues::Queue;
use crate::time::HOUR;
use crate::wanted::Wanted;
use std::collections::BTreeMap;
use swistopal::{Answer, Entry, Figures, LogPosition, Message};

/// Bytes that are walked before the archive reports on them: what was just read is read fast again.
const BLOCK: u64 = 1 << 18;

/// What was counted.
pub struct Tally {
    /// Its rows stay 0: there may be more queues than it has rows.
    pub total: Figures,
    /// The queues in order, with their records.
    pub queues: Vec<(Queue, u64)>,
    /// The hours that have a record, by their number since 1970.
    pub hours: BTreeMap<u64, Figures>,
    /// None if there is no record.
    pub reach: Option<Reach>,
    pub passed: Passed,
    pub end: End,
    /// Whether the log goes on behind damage or behind a fault of its files.
    pub stopped: bool,
}

/// From where to where the records that count go.
#[derive(Clone, Copy)]
pub struct Reach {
    /// The lowest and the highest store time.
    pub times: (u64, u64),
    /// The first and the last in the log's order.
    pub records: (LogPosition, LogPosition),
}

impl Tally {
    /// The hours that have a record, and before each how many have none since the one before.
    pub fn hours_in_order(&self) -> impl Iterator<Item = (u64, u64, &Figures)> {
        let mut next = None;
        self.hours.iter().map(move |(hour, figures)| {
            let without = next.map_or(0, |next| hour - next);
            next = Some(hour + 1);
            (without, *hour, figures)
        })
    }
}

/// What an entry counts for. A blank goes with the record before it.
#[derive(Clone, Copy, PartialEq, Eq)]
enum Class {
    /// A blank before all records goes with the first of them.
    Open,
    Hour(u64),
    /// It is not wanted.
    Outside,
}

struct Counter<'a, 'w> {
    log: &'a Log,
    wanted: &'a mut Wanted<'w>,
    meter: Meter,
    near: Near<'a>,
    rows: Rows,
    /// Of the entry before.
    class: Class,
    /// Entries of that class that the archive has still to report on, from the first byte to the one behind the last.
    stretch: Option<(LogPosition, LogPosition)>,
    /// Blanks before all records.
    open: Figures,
    tally: Tally,
}

/// Counts what is wanted, up to the log's end or to damage.
pub fn count(log: &Log, wanted: &mut Wanted, named: Option<Vec<Queue>>) -> Result<Tally, Failure> {
    let mut counter = Counter {
        log,
        wanted,
        meter: Meter::new("reading", log.first().0, log.files_end().0),
        near: Near::new(log),
        rows: Rows::of(named),
        class: Class::Open,
        stretch: None,
        open: Figures::default(),
        tally: Tally {
            total: Figures::default(),
            queues: Vec::new(),
            hours: BTreeMap::new(),
            reach: None,
            passed: Passed::default(),
            end: End::stopped(log.first(), Answer::Done),
            stopped: false,
        },
    };
    let (end, stopped) = log.walk_to_damage(log.first(), |met| {
        counter.meet(&met)?;
        Ok(true)
    })?;
    counter.finish(end, stopped)
}

impl Counter<'_, '_> {
    fn meet(&mut self, met: &Met) -> Result<(), Failure> {
        match met {
            Met::Entry {
                position, entry, ..
            } => self.entry(*position, entry),
            Met::Skipped(skipped) => {
                self.tally.passed.add(skipped);
                self.end_stretch()
            }
        }
    }

    fn entry(&mut self, position: LogPosition, entry: &Entry) -> Result<(), Failure> {
        self.near.look_ahead(position);
        self.meter.read(position.0);
        let class = match entry {
            Entry::Blank { .. } => self.class,
            Entry::Record { message, .. } => match self.wanted.takes(entry) {
                true => Class::Hour(message.fields.store_time / HOUR),
                false => Class::Outside,
            },
        };
        if class != self.class || self.is_full(position) {
            self.end_stretch()?;
        }
        if let Entry::Record { message, .. } = entry {
            if self.class == Class::Open {
                let open = std::mem::take(&mut self.open);
                self.add(class, &open);
            }
            self.record(position, message, class != Class::Outside);
        }
        self.class = class;
        if class != Class::Outside {
            let from = self.stretch.map_or(position, |(from, _)| from);
            self.stretch = Some((from, LogPosition(position.0 + entry.total())));
        }
        Ok(())
    }

    /// A stretch is in one segment, and so in one mapping.
    fn is_full(&self, position: LogPosition) -> bool {
        let starts_segment = position.0.is_multiple_of(self.log.sizes.segment_size);
        let long = |(from, to): (LogPosition, LogPosition)| to.0 - from.0 >= BLOCK;
        starts_segment || self.stretch.is_some_and(long)
    }

    fn record(&mut self, position: LogPosition, message: &Message, counts: bool) {
        self.rows.meet(message, counts);
        if counts {
            let time = message.fields.store_time;
            let reach = self.tally.reach.get_or_insert(Reach {
                times: (time, time),
                records: (position, position),
            });
            reach.times = (reach.times.0.min(time), reach.times.1.max(time));
            reach.records.1 = position;
        }
    }

    fn end_stretch(&mut self) -> Result<(), Failure> {
        if let Some((from, to)) = self.stretch.take() {
            let figures = self.rows.report(self.log, from, to)?;
            self.add(self.class, &figures);
        }
        Ok(())
    }

    fn add(&mut self, class: Class, figures: &Figures) {
        match class {
            Class::Open => add(&mut self.open, figures),
            Class::Hour(hour) => {
                add(&mut self.tally.total, figures);
                add(self.tally.hours.entry(hour).or_default(), figures);
            }
            Class::Outside => {}
        }
    }

    fn finish(mut self, end: End, stopped: bool) -> Result<Tally, Failure> {
        self.end_stretch()?;
        // Without a record blanks have no time.
        if self.wanted.takes_all() {
            add(&mut self.tally.total, &self.open);
        }
        Ok(Tally {
            queues: self.rows.end(),
            end,
            stopped,
            ..self.tally
        })
    }
}

/// Adds the figures of another stretch. Smallest and largest come only from stretches that have a record.
fn add(sum: &mut Figures, part: &Figures) {
    sum.smallest = match (sum.records, part.records) {
        (_, 0) => sum.smallest,
        (0, _) => part.smallest,
        _ => sum.smallest.min(part.smallest),
    };
    sum.largest = sum.largest.max(part.largest);
    for (sum, part) in [
        (&mut sum.records, part.records),
        (&mut sum.blanks, part.blanks),
        (&mut sum.body_bytes, part.body_bytes),
        (&mut sum.unlisted, part.unlisted),
        (&mut sum.none, part.none),
        (&mut sum.prepared, part.prepared),
        (&mut sum.commit, part.commit),
        (&mut sum.rollback, part.rollback),
        (&mut sum.items, part.items),
    ] {
        *sum += part;
    }
}

#[cfg(test)]
mod tests {
    use super::*;

    #[test]
    fn stretches_without_a_record_have_no_smallest() {
        let of = |records, smallest, largest| Figures {
            records,
            smallest,
            largest,
            none: records,
            ..Figures::default()
        };
        let blank = Figures {
            blanks: 1,
            ..Figures::default()
        };
        let parts = [blank, of(2, 100, 300), blank, of(1, 92, 92), blank];
        let mut sum = Figures::default();
        for part in &parts {
            add(&mut sum, part);
        }
        let whole = Figures {
            blanks: 3,
            ..of(3, 92, 300)
        };
        assert_eq!(sum, whole);
    }
}
