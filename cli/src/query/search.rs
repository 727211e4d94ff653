//! The records that carry a key, told apart by what stands in the log.

use crate::failure::Failure;
use crate::index::{Bytes, Index};
use crate::log::{Log, Met, Passed, Place, Skipped, LAST_END};
use crate::record::{self, LeftOut, Read};
use crate::text::{counted, grouped};
use crate::wanted::Seen;
use std::cmp::Reverse;
use swistopal::{
    find_values, has_item, item_count, query, Answer, Entry, LogPosition, Message, Query,
};

/// What is looked for.
pub struct Asked<'a> {
    /// Without one: in all topics.
    pub topic: Option<&'a [u8]>,
    pub key: &'a [u8],
    /// Only as the unique key.
    pub unique: bool,
    pub times: (u64, u64),
    pub limit: u64,
}

impl Asked<'_> {
    fn is_for(&self, message: &Message) -> bool {
        let topic = self.topic.unwrap_or(message.topic);
        has_item(message, topic, self.key) && self.accepts(message)
    }

    /// Of a record that carries the key.
    fn accepts(&self, message: &Message) -> bool {
        let (first, last) = self.times;
        (first..=last).contains(&message.fields.store_time)
            && (!self.unique || find_values(message.properties).unique_key == Some(self.key))
    }
}

pub struct Search<'a> {
    pub log: &'a Log,
    pub asked: &'a Asked<'a>,
    pub found: Vec<Read<'a>>,
    /// How many there are above the limit, as far as was looked.
    pub more: u64,
    /// How many topics the index was asked for.
    pub topics: u64,
    pub by_index: bool,
    pub same_hash_only: u64,
    pub items_read: u64,
    pub records_read: u64,
    pub faults: Vec<String>,
    /// What is not read because of a limit of the archive.
    pub limits: Vec<String>,
    pub left_out: LeftOut,
    /// What a look through the whole log saw.
    seen: Seen,
    /// The first damage that was met.
    damage: Option<LogPosition>,
}

impl<'a> Search<'a> {
    pub fn new(log: &'a Log, asked: &'a Asked<'a>) -> Search<'a> {
        Search {
            log,
            asked,
            found: Vec::new(),
            more: 0,
            topics: 0,
            by_index: false,
            same_hash_only: 0,
            items_read: 0,
            records_read: 0,
            faults: log.faults.clone(),
            limits: log.limits.clone(),
            left_out: LeftOut::default(),
            seen: Seen::default(),
            damage: None,
        }
    }

    /// How many records are looked for: one above the limit tells whether there are more.
    pub fn places(&self) -> u64 {
        self.asked.limit.saturating_add(1)
    }

    pub fn passed_over(&mut self, skipped: &Skipped) {
        if skipped.is_damage() {
            self.damaged_at(skipped.from);
        }
    }

    fn damaged_at(&mut self, position: LogPosition) {
        let first = self.damage.unwrap_or(position);
        self.damage = Some(first.min(position));
    }

    /// The indexes that the archive can be asked. One that goes on above the limit of positions is left out.
    pub fn within_limits<'i>(&mut self, indexes: &'i [Index]) -> Vec<&'i Index> {
        let mut within = Vec::new();
        for index in indexes {
            match Bytes(&index.bytes).last_position() {
                Some(last) if last > LAST_END => self.limits.push(format!(
                    "index {}: it goes on to position {last}, above 2^40, up to which this tool reads an index; it is not asked, \
                     and the log was looked through instead",
                    index.name
                )),
                _ => within.push(index),
            }
        }
        within
    }

    /// Asks one index for so many records at most, and says how many there are. Keys that only share the hash take places
    /// in its answer, so it is asked for more until enough records are the right ones or the chain has ended.
    pub fn ask(&mut self, question: &Query, name: &str, most: u64) -> Result<u64, Failure> {
        self.by_index = true;
        let items = question.sizes.item_count;
        let mut wanted = most.min(items);
        loop {
            let mut places = vec![LogPosition(0); wanted as usize];
            let question = Query {
                wanted,
                ..*question
            };
            let answered = match query(&question, &mut places) {
                Ok(found) => found,
                Err(refusal) => {
                    let number = refusal.number();
                    self.faults.push(format!(
                        "index {name}: answer {number}: {refusal}; --scan looks through the log itself"
                    ));
                    return Ok(0);
                }
            };
            let mut once = Search::new(self.log, self.asked);
            once.faults.clear();
            once.limits.clear();
            once.read_back(question.topic, answered.positions, name);
            let enough = once.found.len() as u64 >= most;
            let all_seen = (answered.positions.len() as u64) < wanted || wanted == items;
            if !enough && !all_seen {
                wanted = wanted.saturating_mul(4).min(items);
                continue;
            }
            if answered.stop == Answer::ChainBroken {
                once.faults.push(format!(
                    "index {name}: answer 16 after {}: {}; older records may be missing here, and --scan looks through the log \
                     itself",
                    counted(answered.items_read, "item", "items"),
                    answered.stop
                ));
            }
            once.found.truncate(most as usize);
            once.items_read = answered.items_read;
            let found = once.found.len() as u64;
            self.take(once);
            return Ok(found);
        }
    }

    fn take(&mut self, mut other: Search<'a>) {
        self.found.append(&mut other.found);
        self.faults.append(&mut other.faults);
        self.limits.append(&mut other.limits);
        self.left_out.add(other.left_out);
        self.same_hash_only += other.same_hash_only;
        self.items_read += other.items_read;
        if let Some(position) = other.damage {
            self.damaged_at(position);
        }
    }

    fn read_back(&mut self, topic: &[u8], positions: &[LogPosition], name: &str) {
        let mut before = None;
        for &position in positions {
            // A record that has the key twice has two items; they follow each other.
            if before.replace(position) == Some(position) {
                continue;
            }
            match self.log.entry(position) {
                Ok(Entry::Record { total, message }) => {
                    self.read_item(topic, position, total, message)
                }
                Ok(Entry::Blank { .. }) => self.faults.push(format!(
                    "index {name}: it names position {}, where the log has a blank",
                    position.0
                )),
                Err(answer) => self.not_read(position, answer, name),
            }
        }
    }

    fn read_item(&mut self, topic: &[u8], position: LogPosition, total: u64, message: Message<'a>) {
        if !has_item(&message, topic, self.asked.key) {
            self.same_hash_only += 1;
        } else if self.asked.accepts(&message) {
            self.found.push(Read {
                position,
                total,
                message,
                behind: self.log.is_behind_a_fault(position),
            });
        }
    }

    /// An index names a position where no record is read.
    fn not_read(&mut self, position: LogPosition, answer: Answer, name: &str) {
        if self.left_out.takes(self.log, position) {
            return;
        }
        self.damaged_at(position);
        self.faults.push(format!(
            "index {name}: it names position {}, {}",
            position.0,
            record::not_read(self.log, position, answer)
        ));
    }

    /// Looks through the log from a position on.
    pub fn scan(&mut self, from: LogPosition) -> Result<(), Failure> {
        let log = self.log;
        let mut passed_over = Vec::new();
        log.walk_on(from, |met| {
            match met {
                Met::Entry {
                    position,
                    entry,
                    behind,
                } => {
                    if let Entry::Record { total, message } = entry {
                        self.records_read += 1;
                        self.seen.add(&message);
                        self.see(&Read {
                            position,
                            total,
                            message,
                            behind,
                        });
                    }
                }
                Met::Skipped(skipped) => passed_over.push(skipped),
            }
            Ok(true)
        })?;
        self.tell_passed_over(passed_over);
        Ok(())
    }

    /// What there is where a look through the whole log found nothing.
    pub fn hints_on_scan(&self) -> Vec<String> {
        match self.found.is_empty() {
            true => self
                .seen
                .hints("the log", self.asked.topic, self.asked.times),
            false => Vec::new(),
        }
    }

    fn see(&mut self, read: &Read<'a>) {
        if self.asked.is_for(&read.message) {
            self.found.push(*read);
        }
    }

    /// What was passed over while the log was looked through.
    fn tell_passed_over(&mut self, parts: Vec<Skipped>) {
        let mut passed = Passed::default();
        for skipped in &parts {
            self.passed_over(skipped);
            passed.add(skipped);
        }
        let damaged = passed.damaged.sentence().map(|sentence| {
            format!("the log cannot be read {sentence}; what is behind was looked through")
        });
        self.faults.extend(damaged);
        let left_out = passed.left_out.sentence();
        self.limits
            .extend(left_out.map(|sentence| format!("left out {sentence}")));
    }

    /// Looks through the part of the log that the index does not reach: from the last record that has an item on. That there
    /// are records with keys, or damage, is a fault. Zeros are taken for the log's end: what may stand behind them is for
    /// `check` to look at.
    pub fn look_behind(&mut self, indexes: &[&Index], store: &str) -> Result<(), Failure> {
        let log = self.log;
        let last_of = |index: &&&Index| Bytes(&index.bytes).last_position().map(LogPosition);
        let Some(newest) = indexes.iter().max_by_key(last_of) else {
            return self.scan(log.first());
        };
        let (name, last) = (&newest.name, last_of(&newest));
        let start = last.unwrap_or_default().max(log.first());
        let mut missed = Missed { last, first: None };
        let start = self.start_behind(start, name)?;
        let position = self.read_on(start, &mut missed);
        if !log.ends_at(position) {
            let mut passed_over = Vec::new();
            log.walk_on(position, |met| {
                match met {
                    Met::Entry {
                        position,
                        entry,
                        behind,
                    } => self.see_behind(position, entry, behind, &mut missed),
                    Met::Skipped(skipped) => passed_over.push(skipped),
                }
                Ok(true)
            })?;
            self.tell_passed_over(passed_over);
        }
        if let Some(first) = missed.first {
            let reach = match last {
                Some(last) => format!("it ends with the record at position {}", last.0),
                None => String::from("it is empty"),
            };
            let records = counted(self.records_read, "record", "records");
            self.faults.push(format!(
                "index {name}: {reach}, but the log goes on with keys: it lacks {records} from position {} on, which were \
                 looked through here; `swistopal check {store}` says what to do",
                first.0
            ));
        }
        Ok(())
    }

    /// Where the look behind an index starts. Its last position may be any.
    fn start_behind(&mut self, start: LogPosition, name: &str) -> Result<LogPosition, Failure> {
        match self.log.place(start)? {
            Place::Entry { position, entry } if position < start => {
                self.faults.push(format!(
                    "index {name}: its last position {} is inside the {} at {}",
                    start.0,
                    record::kind(&entry),
                    position.0
                ));
                Ok(position)
            }
            _ => Ok(start),
        }
    }

    /// Reads on to the first stop.
    fn read_on(&mut self, from: LogPosition, missed: &mut Missed) -> LogPosition {
        let log = self.log;
        let mut position = from;
        while let Ok(entry) = log.entry(position) {
            self.see_behind(position, entry, log.is_behind_a_fault(position), missed);
            position.0 += entry.total();
        }
        position
    }

    fn see_behind(
        &mut self,
        position: LogPosition,
        entry: Entry<'a>,
        behind: bool,
        missed: &mut Missed,
    ) {
        match entry {
            Entry::Record { total, message }
                if Some(position) > missed.last && item_count(&message) > 0 =>
            {
                self.records_read += 1;
                missed.first.get_or_insert(position);
                self.see(&Read {
                    position,
                    total,
                    message,
                    behind,
                });
            }
            _ => {}
        }
    }

    /// Newest first, each once, and no more than the limit.
    pub fn arrange(&mut self) -> Result<(), Failure> {
        if let Some(last) = self.found.iter().map(|found| found.position).max() {
            let damage = self.log.damage_before(last)?;
            damage
                .into_iter()
                .for_each(|damage| self.damaged_at(damage));
        }
        let damage = self.damage;
        for found in &mut self.found {
            found.behind |= damage.is_some_and(|damage| damage < found.position);
        }
        self.found.sort_by_key(|found| Reverse(found.position));
        self.found.dedup_by_key(|found| found.position);
        let limit = usize::try_from(self.asked.limit).unwrap_or(usize::MAX);
        self.more = self.found.len().saturating_sub(limit) as u64;
        self.found.truncate(limit);
        Ok(())
    }

    /// That there are more than the limit. An index is not asked for how many.
    pub fn cut(&self) -> Option<String> {
        let more = match (self.more, self.by_index) {
            (0, _) => return None,
            (_, true) => String::from("there are more"),
            (1, false) => String::from("there is 1 more"),
            (more, false) => format!("there are {} more", grouped(more)),
        };
        Some(format!(
            "cut at --limit {}: {more}; a higher --limit shows them",
            self.asked.limit
        ))
    }

    pub fn judge_bodies(&mut self) {
        let faults = self.found.iter().filter_map(record::checksum_fault);
        self.faults.extend(faults);
    }
}

/// Records with keys that the index does not have.
struct Missed {
    /// The position of the last one that it has.
    last: Option<LogPosition>,
    first: Option<LogPosition>,
}
