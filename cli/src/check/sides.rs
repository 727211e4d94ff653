//! The queues that are there beside those that the log gives, record by record.

use super::reach::{Reach, Rest, Tally};
use super::survey::DELAYED;
use crate::failure::Failure;
use crate::files::Refused;
use crate::queues::{self, Queue, QueueEntry, QueueFile, ENTRY, NO_RECORD};
use std::collections::HashMap;
use std::ops::Range;
use std::path::Path;
use swistopal::Message;

/// One queue.
pub struct Side {
    pub queue: Queue,
    pub files: Vec<QueueFile>,
    /// Files that are not looked into.
    pub refused: Vec<Refused>,
    /// Why the queue can have no files.
    pub impossible: Option<String>,
    /// Its records in the log.
    pub given: u64,
    pub same: u64,
    /// Those of them that were read behind damage.
    pub same_behind: u64,
    /// Records without an entry: the entry's number, the record's position.
    pub missing: Tally<(u64, u64)>,
    pub differing: Tally<Difference>,
    pub out_of_step: Tally<Jump>,
    pub rest: Rest,
    /// What is wrong with its files where nothing else is.
    pub holes: Vec<String>,
    /// The numbers of the entries that were compared.
    compared: Vec<Range<u64>>,
    next: Option<u64>,
    /// How many parts of the log had been passed over at its last record.
    passed: usize,
}

pub struct Difference {
    pub number: u64,
    pub found: QueueEntry,
    pub made: QueueEntry,
}

/// A record whose entry's number does not follow the one before it.
#[derive(Clone, Copy)]
pub struct Jump {
    pub position: u64,
    pub number: u64,
    pub expected: u64,
}

/// What a record gives its queue.
pub struct Given<'a> {
    pub entry: QueueEntry,
    pub number: u64,
    pub message: &'a Message<'a>,
    /// How many parts of the log have been passed over before it.
    pub passed: usize,
    /// Whether it was read behind damage.
    pub behind: bool,
}

pub struct Sides<'a> {
    store: &'a Path,
    /// Where older segments were removed, a queue may start with any number.
    cut: bool,
    /// Only these, if they were listed.
    listed: Option<Vec<Queue>>,
    pub list: Vec<Side>,
    numbers: HashMap<Vec<u8>, HashMap<u64, Option<usize>>>,
    /// Records of queues that are not listed.
    pub unlisted: u64,
}

impl<'a> Sides<'a> {
    pub fn new(store: &'a Path, cut: bool, listed: Option<Vec<Queue>>) -> Sides<'a> {
        Sides {
            store,
            cut,
            listed,
            list: Vec::new(),
            numbers: HashMap::new(),
            unlisted: 0,
        }
    }

    pub fn take(&mut self, given: &Given) -> Result<(), Failure> {
        let message = given.message;
        let known = self.numbers.get(message.topic);
        let known = known.and_then(|ids| ids.get(&message.fields.queue_id).copied());
        let number = match known {
            Some(number) => number,
            None => self.add(Queue::of(message))?,
        };
        match number {
            Some(number) => self.list[number].take(given, self.cut),
            None => self.unlisted += 1,
        }
        Ok(())
    }

    /// The number of a queue that was not met before; none, if it is not listed.
    fn add(&mut self, queue: Queue) -> Result<Option<usize>, Failure> {
        let wanted = self.listed.as_ref();
        let number = match wanted.is_none_or(|listed| listed.contains(&queue)) {
            true => Some(self.list.len()),
            false => None,
        };
        let ids = self.numbers.entry(queue.topic.clone()).or_default();
        ids.insert(queue.id.into(), number);
        if number.is_some() {
            self.list.push(Side::open(self.store, queue)?);
        }
        Ok(number)
    }

    /// All entries of a queue at once, from a number on; whether they are the same, or none is there.
    pub fn take_all(&mut self, queue: &Queue, first: u64, made: &[u8]) -> Result<bool, Failure> {
        let number = self.add(queue.clone())?;
        let same = number.is_some_and(|number| self.list[number].take_all(first, made));
        Ok(same)
    }

    /// Looks at the entries that no record gave, also in queues of which the log has no record.
    pub fn end(&mut self, on_disk: Vec<Queue>, reach: &Reach) -> Result<(), Failure> {
        let listed = self.listed.clone().unwrap_or_default();
        for queue in listed.into_iter().chain(on_disk) {
            let known = self.numbers.get(&queue.topic);
            if known.is_none_or(|ids| !ids.contains_key(&queue.id.into())) {
                self.add(queue)?;
            }
        }
        for side in &mut self.list {
            side.end(reach);
        }
        Ok(())
    }
}

impl Side {
    fn open(store: &Path, queue: Queue) -> Result<Side, Failure> {
        let impossible = match queue.folder(Path::new("")) {
            Ok(_) => None,
            Err(Failure::Fault(sentence)) => Some(sentence),
            Err(other) => return Err(other),
        };
        let (mut files, mut refused) = (Vec::new(), Vec::new());
        if impossible.is_none() {
            for file in queues::open_each(store, &queue)? {
                match file {
                    Ok(file) => files.push(file),
                    Err(why) => refused.push(why),
                }
            }
        }
        Ok(Side {
            queue,
            files,
            refused,
            impossible,
            given: 0,
            same: 0,
            same_behind: 0,
            missing: Tally::default(),
            differing: Tally::default(),
            out_of_step: Tally::default(),
            rest: Rest::default(),
            holes: Vec::new(),
            compared: Vec::new(),
            next: None,
            passed: 0,
        })
    }

    pub fn is_delayed(&self) -> bool {
        self.queue.topic == DELAYED
    }

    fn take(&mut self, given: &Given, cut: bool) {
        let number = given.number;
        let expected = match self.next {
            Some(next) => Some(next),
            None => (!cut && given.passed == 0).then_some(0),
        };
        // Records may be missing where the log was passed over.
        let may_jump = given.passed > self.passed && expected.is_none_or(|next| number > next);
        if let Some(expected) = expected.filter(|expected| *expected != number && !may_jump) {
            self.out_of_step.add(Jump {
                position: given.entry.position,
                number,
                expected,
            });
        }
        self.next = Some(number.saturating_add(1));
        self.passed = given.passed;
        self.given += 1;
        match self.compared.last_mut() {
            Some(range) if range.end == number => range.end += 1,
            _ => self.compared.push(number..number.saturating_add(1)),
        }
        self.compare(given);
    }

    fn take_all(&mut self, first: u64, made: &[u8]) -> bool {
        let end = first + (made.len() / ENTRY) as u64;
        self.given = end - first;
        if self.files.is_empty() {
            if let Some(entry) = made.first_chunk() {
                self.missing = Tally {
                    count: self.given,
                    first: Some((first, QueueEntry::of(entry).position)),
                };
            }
            return self.refused.is_empty() && self.impossible.is_none();
        }
        let mut next = first;
        for file in &self.files {
            let to = file.end().min(end);
            if next < file.first || next >= to {
                continue;
            }
            let places = |first: u64| {
                let [from, to] = [next, to].map(|number| (number - first) as usize * ENTRY);
                from..to
            };
            if file.bytes[places(file.first)] != made[places(first)] {
                return false;
            }
            next = to;
        }
        self.same = next - first;
        self.compared.push(first..next);
        next == end && self.refused.is_empty() && self.impossible.is_none()
    }

    fn compare(&mut self, given: &Given) {
        let (number, made) = (given.number, given.entry);
        let place = self.files.partition_point(|file| file.end() <= number);
        let file = self.files.get(place);
        let found = file.and_then(|file| file.entry(number));
        let Some(found) = found.filter(|found| found.size != 0) else {
            // It may stand in a file that is not looked into.
            if self.refused.is_empty() {
                self.missing.add((number, made.position));
            }
            return;
        };
        let same_record = (found.position, found.size) == (made.position, made.size);
        if found == made || same_record && self.is_delayed() {
            self.same += 1;
            self.same_behind += u64::from(given.behind);
            return;
        }
        self.differing.add(Difference {
            number,
            found,
            made,
        });
    }

    fn end(&mut self, reach: &Reach) {
        self.compared.sort_by_key(|range| range.start);
        for file in &self.files {
            for number in file.first..file.first + file.count {
                let before = |range: &Range<u64>| range.end <= number;
                let next = self.compared.partition_point(before);
                let compared = self.compared.get(next);
                if compared.is_some_and(|range| range.contains(&number)) {
                    continue;
                }
                let entry = file.entry(number).filter(|entry| entry.size != NO_RECORD);
                if let Some(entry) = entry {
                    self.rest.add(reach, number, entry.position);
                }
            }
        }
        if self.is_sound() {
            self.holes = queues::faults(&self.files);
        }
    }

    /// Whether nothing is wrong with it.
    pub fn is_sound(&self) -> bool {
        self.refused.is_empty()
            && self.impossible.is_none()
            && self.missing.count == 0
            && self.differing.count == 0
            && self.rest.behind == 0
            && self.rest.strays.count == 0
            && self.holes.is_empty()
    }
}
