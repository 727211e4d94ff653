//! How far the log was read: what an entry or an item that no record of it made may name.

use super::survey::Survey;
use crate::log::{Log, Skipped};

pub struct Reach {
    pub first: u64,
    pub end: u64,
    skipped: Vec<Skipped>,
    /// Whether all of the log was read, up to its own end: nothing can be behind it.
    pub whole: bool,
}

/// Where a position is.
#[derive(Clone, Copy, PartialEq, Eq)]
pub enum Place {
    /// In segments that were removed.
    Older,
    /// Within the log, where it can be read.
    Inside,
    /// Where the log cannot be read.
    NotRead,
    /// Behind the log's own end.
    Behind,
}

/// How many entries or items have no record, by where they point.
#[derive(Default)]
pub struct Rest {
    pub older: u64,
    pub not_read: u64,
    pub behind: u64,
    pub strays: Tally<(u64, u64)>,
}

/// How many, and the first of them.
pub struct Tally<T> {
    pub count: u64,
    pub first: Option<T>,
}

impl<T> Default for Tally<T> {
    fn default() -> Tally<T> {
        Tally {
            count: 0,
            first: None,
        }
    }
}

impl<T> Tally<T> {
    pub fn add(&mut self, one: T) {
        self.count += 1;
        self.first.get_or_insert(one);
    }
}

impl Reach {
    pub fn of(log: &Log, survey: &Survey, end_given: bool) -> Reach {
        let all_read = survey.skipped.is_empty() && log.faults.is_empty() && log.limits.is_empty();
        Reach {
            first: log.first().0,
            end: survey.end.position.0,
            skipped: survey.skipped.clone(),
            whole: all_read && !end_given,
        }
    }

    pub fn place(&self, position: u64) -> Place {
        if position < self.first {
            return Place::Older;
        }
        if position >= self.end {
            return match self.whole {
                true => Place::Behind,
                false => Place::NotRead,
            };
        }
        let before = |skipped: &Skipped| skipped.to.0 <= position;
        let next = self.skipped.partition_point(before);
        match self.skipped.get(next) {
            Some(skipped) if skipped.from.0 <= position => Place::NotRead,
            _ => Place::Inside,
        }
    }
}

impl Rest {
    /// An entry or item of this number names a position.
    pub fn add(&mut self, reach: &Reach, number: u64, position: u64) {
        match reach.place(position) {
            Place::Older => self.older += 1,
            Place::NotRead => self.not_read += 1,
            Place::Behind => self.behind += 1,
            Place::Inside => self.strays.add((number, position)),
        }
    }
}
