//! Queues and index beside the log: quickly if they are the same, otherwise record by record.

use super::exact::{self, Differs};
use super::maker::Maker;
use super::merge::Merge;
use super::reach::Reach;
use super::results::Results;
use super::sides::{Given, Sides};
use super::survey::Survey;
use crate::failure::Failure;
use crate::log::{Log, Met};
use crate::meter::Meter;
use crate::near::Near;
use crate::queues::{Queue, QueueEntry};
use std::path::Path;
use swistopal::{Answer, Entry, LogPosition, Message};

pub struct Compared<'a> {
    pub sides: Sides<'a>,
    pub index: Found<'a>,
    /// Records that the archive did not take apart; none, as long as archive and tool are of one mind.
    pub refused: Option<(LogPosition, Answer)>,
}

pub enum Found<'a> {
    /// The index is what the archive made, byte for byte.
    Same,
    /// None is there: so many items are missing, the first one of the record at this position.
    Absent {
        items: u64,
        first: u64,
    },
    Merged {
        merge: Merge<'a>,
        rest: Others,
    },
}

/// Seconds, links, slots and header of the one index.
pub enum Others {
    NotCompared,
    Same,
    Differ(Differs),
}

pub struct Comparer<'a> {
    pub store: &'a Path,
    pub log: &'a Log,
    pub survey: &'a Survey,
    pub reach: &'a Reach,
    pub results: &'a Results,
    pub listed: Option<Vec<Queue>>,
}

impl<'a> Comparer<'a> {
    pub fn compare(&self) -> Result<Compared<'a>, Failure> {
        let mut compared = match self.at_once()? {
            Some(compared) => compared,
            None => self.one_by_one()?,
        };
        let on_disk = self.results.on_disk.clone();
        compared.sides.end(on_disk, self.reach)?;
        Ok(compared)
    }

    fn sides(&self) -> Sides<'a> {
        let cut = self.log.first() > LogPosition(0);
        Sides::new(self.store, cut, self.listed.clone())
    }

    /// Queues and index, if each is the same as what the archive made of the whole log, or is not there at all.
    fn at_once(&self) -> Result<Option<Compared<'a>>, Failure> {
        let whole = self.survey.made.as_ref().filter(|made| {
            made.stop == Answer::Done && made.progress.position == self.survey.end.position
        });
        let Some(made) = whole else {
            return Ok(None);
        };
        let mut sides = self.sides();
        let indexes = &self.results.indexes;
        let same = self.results.refused.is_empty()
            && exact::index_is_same(made, indexes)
            && exact::queues_are_same(made, &mut sides)?;
        let none = indexes.is_empty() && self.results.empty.is_empty();
        let index = match exact::items(made) {
            (items, Some(first)) if none => Found::Absent { items, first },
            (_, Some(_)) if indexes.is_empty() => return Ok(None),
            _ => Found::Same,
        };
        Ok(same.then_some(Compared {
            sides,
            index,
            refused: None,
        }))
    }

    fn one_by_one(&self) -> Result<Compared<'a>, Failure> {
        let mut pass = Pass {
            sides: self.sides(),
            merge: Merge::new(self.log, self.reach, &self.results.indexes),
            maker: Maker::new(),
            near: Near::new(self.log),
            meter: Meter::new("comparing", self.log.first().0, self.log.files_end().0),
            steps: 0,
            passed: 0,
            refused: None,
        };
        self.log.walk_on(self.log.first(), |met| {
            pass.meet(met)?;
            Ok(true)
        })?;
        pass.merge.end();
        let rest = self.others(&pass.merge);
        Ok(Compared {
            sides: pass.sides,
            index: Found::Merged {
                merge: pass.merge,
                rest,
            },
            refused: pass.refused,
        })
    }

    /// Where the items of the one index are those of the log, the rest of it can be compared too.
    fn others(&self, merge: &Merge) -> Others {
        let made = self.survey.made.as_ref();
        let made = made.filter(|made| made.stop == Answer::Done);
        match (made, &merge.files[..]) {
            (Some(made), [merged]) if merged.same == merge.given && merged.is_all_the_same() => {
                let cut = self.log.first() > LogPosition(0);
                match exact::difference(made, merged.index, cut) {
                    Some(differs) => Others::Differ(differs),
                    None => Others::Same,
                }
            }
            _ => Others::NotCompared,
        }
    }
}

/// The second walk over the log.
struct Pass<'a> {
    sides: Sides<'a>,
    merge: Merge<'a>,
    maker: Maker,
    near: Near<'a>,
    meter: Meter,
    steps: u64,
    /// Parts of the log that were passed over.
    passed: usize,
    refused: Option<(LogPosition, Answer)>,
}

impl Pass<'_> {
    fn meet(&mut self, met: Met) -> Result<(), Failure> {
        let (position, total, message, behind) = match met {
            Met::Skipped(_) => {
                self.passed += 1;
                return Ok(());
            }
            Met::Entry {
                position,
                entry: Entry::Record { total, message },
                behind,
            } => (position, total, message, behind),
            Met::Entry { .. } => return Ok(()),
        };
        self.near.look_ahead(position);
        self.steps += 1;
        if self.steps.is_multiple_of(1024) {
            self.meter.show(position.0, self.steps);
        }
        self.record(position, total, &message, behind)
    }

    fn record(
        &mut self,
        position: LogPosition,
        total: u64,
        message: &Message,
        behind: bool,
    ) -> Result<(), Failure> {
        let made = match self.maker.make(message) {
            Ok(made) => made,
            Err(answer) => {
                self.refused.get_or_insert((position, answer));
                return Ok(());
            }
        };
        self.merge.take(position, made.hashes);
        if let Some(code) = made.code {
            self.sides.take(&Given {
                entry: QueueEntry {
                    position: position.0,
                    size: total as u32,
                    code,
                },
                number: message.fields.queue_offset.0,
                message,
                passed: self.passed,
                behind,
            })?;
        }
        Ok(())
    }
}
