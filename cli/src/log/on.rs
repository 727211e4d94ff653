//! Reading on behind damage: from the next place where a sound record or blank stands. The archive's own reading decides; only
//! where to ask it is found here, by the magic that every record and every blank has.

use super::frame::BadText;
use super::segments::{MAGIC, MESSAGE};
use super::{End, Log, Stretch, Why};
use crate::failure::Failure;
use crate::text::{counted, grouped};
use swistopal::{Answer, Entry, LogPosition};

const BLANK: [u8; 4] = [0xcb, 0xd4, 0x31, 0x94];

/// What a reader meets that goes on behind damage.
pub enum Met<'l> {
    Entry {
        position: LogPosition,
        entry: Entry<'l>,
        /// Whether damage stands before it.
        behind: bool,
    },
    Skipped(Skipped),
}

/// What a position lies in.
pub enum Place<'l> {
    /// A record or a blank that starts there or before.
    Entry {
        position: LogPosition,
        entry: Entry<'l>,
    },
    Skipped(Skipped),
    /// Nothing: the log ends there or before.
    End,
}

/// A part of the log that cannot be read: from its first byte to the one behind its last.
#[derive(Clone, Copy, Debug, PartialEq, Eq)]
pub struct Skipped {
    pub from: LogPosition,
    pub to: LogPosition,
    pub why: Cause,
}

#[derive(Clone, Copy, Debug, PartialEq, Eq)]
pub enum Cause {
    /// What the archive answers at its first byte.
    Answer(Answer),
    /// It answers 10 there, and the text of the record is all that is wrong.
    Text(BadText),
    /// Zeros stand at its first byte, but something else again behind it.
    Zeros,
    /// No file that can be read has its first byte.
    NoFile,
    /// So many records with hosts of 20 bytes, which the archive does not read. It is no damage.
    LongHosts(u64),
}

impl Skipped {
    pub fn is_damage(&self) -> bool {
        !matches!(self.why, Cause::LongHosts(_))
    }

    pub fn bytes(&self) -> u64 {
        self.to.0 - self.from.0
    }

    /// A sentence: from where to where, and why.
    pub fn sentence(&self) -> String {
        let why = match self.why {
            Cause::Answer(answer) => format!("answer {}: {answer}", answer.number()),
            Cause::Text(text) => format!("answer 10: {}; {}", Answer::Damaged, text.sentence()),
            Cause::Zeros => String::from("zeros stand there, though the log goes on behind them"),
            Cause::NoFile => String::from("no file that can be read has them"),
            Cause::LongHosts(records) => format!(
                "{} with hosts of 20 bytes (IPv6), which this tool does not read; that is no damage",
                counted(records, "record", "records")
            ),
        };
        let (from, to) = (self.from.0, self.to.0);
        let bytes = grouped(self.bytes());
        format!("from {from} to {to}, {bytes} bytes: {why}")
    }
}

/// What was passed over: damage, and what this tool does not read.
#[derive(Default)]
pub struct Passed {
    pub damaged: Parts,
    pub left_out: Parts,
}

impl Passed {
    pub fn add(&mut self, skipped: &Skipped) {
        match skipped.is_damage() {
            true => self.damaged.add(skipped),
            false => self.left_out.add(skipped),
        }
    }
}

/// Several parts of the log that cannot be read, told together.
#[derive(Default)]
pub struct Parts {
    first: Option<Skipped>,
    pub count: u64,
    pub bytes: u64,
    /// Records with long hosts in them.
    pub long_hosts: u64,
}

impl Parts {
    fn add(&mut self, skipped: &Skipped) {
        self.first.get_or_insert(*skipped);
        self.count += 1;
        self.bytes += skipped.bytes();
        if let Cause::LongHosts(records) = skipped.why {
            self.long_hosts += records;
        }
    }

    /// On one part it is its own sentence.
    pub fn sentence(&self) -> Option<String> {
        let first = self.first?.sentence();
        Some(match self.count {
            1 => first,
            _ => format!(
                "in {}, {} bytes in all, the first one {first}",
                counted(self.count, "part", "parts"),
                grouped(self.bytes)
            ),
        })
    }
}

impl Log {
    /// Reads from a position to the end of all files. `each` sees what is read, and each part that is passed over; it goes on
    /// by answering true.
    pub fn walk_on<'l>(
        &'l self,
        from: LogPosition,
        mut each: impl FnMut(Met<'l>) -> Result<bool, Failure>,
    ) -> Result<End, Failure> {
        let mut position = from;
        let mut behind = false;
        loop {
            behind |= self.is_behind_a_fault(position);
            let (met, next) = match self.entry(position) {
                Ok(entry) => {
                    let next = LogPosition(position.0 + entry.total());
                    let met = Met::Entry {
                        position,
                        entry,
                        behind,
                    };
                    (met, next)
                }
                Err(answer) => match self.skipped(position, answer) {
                    Some(skipped) => {
                        behind |= skipped.is_damage();
                        (Met::Skipped(skipped), skipped.to)
                    }
                    None => return Ok(self.last_end(position)),
                },
            };
            if !each(met)? {
                return Ok(End::stopped(position, Answer::BudgetSpent));
            }
            position = next;
        }
    }

    /// The same up to the first damage, and whether there is any. Who starts behind a fault of the files has seen it.
    pub fn walk_to_damage<'l>(
        &'l self,
        from: LogPosition,
        mut each: impl FnMut(Met<'l>) -> Result<bool, Failure>,
    ) -> Result<(End, bool), Failure> {
        let behind_at_first = self.is_behind_a_fault(from);
        let mut damaged = false;
        let end = self.walk_on(from, |met| {
            damaged = match &met {
                Met::Entry { behind, .. } => *behind && !behind_at_first,
                Met::Skipped(skipped) => skipped.is_damage(),
            };
            Ok(!damaged && each(met)?)
        })?;
        let end = match self.entry(end.position) {
            _ if !damaged => end,
            Err(answer) if behind_at_first => self.stop_at(end.position, answer),
            _ => self.walk(end.position, |_, _| Ok(true))?,
        };
        Ok((end, damaged))
    }

    /// What a position lies in. Reading starts at its segment's start, where something always starts.
    pub fn place(&self, position: LogPosition) -> Result<Place<'_>, Failure> {
        if let Ok(entry) = self.entry(position) {
            return Ok(Place::Entry { position, entry });
        }
        let size = self.sizes.segment_size;
        let start = LogPosition(position.0 / size * size).max(self.first());
        let mut found = Place::End;
        self.walk_on(start, |met| {
            let (place, end) = match met {
                Met::Entry {
                    position, entry, ..
                } => {
                    let end = position.0 + entry.total();
                    (Place::Entry { position, entry }, end)
                }
                Met::Skipped(skipped) => (Place::Skipped(skipped), skipped.to.0),
            };
            let reached = end > position.0;
            if reached {
                found = place;
            }
            Ok(!reached)
        })?;
        Ok(found)
    }

    /// Whether a file with a fault stands before a position: one that is missing, cut short, too long or cannot be read.
    pub fn is_behind_a_fault(&self, position: LogPosition) -> bool {
        self.stretch_number(position) > 0
    }

    /// Whether a file that can be read has this byte of the log.
    pub fn has(&self, position: LogPosition) -> bool {
        self.stretch_before(position).has(position)
    }

    /// Whether nothing follows a place that is not read but zeros, as far as its first bytes tell.
    pub fn ends_at(&self, position: LogPosition) -> bool {
        let last = &self.stretches[self.stretches.len() - 1];
        position >= last.end || (last.has(position) && last.zeros_at(position))
    }

    fn last_end(&self, position: LogPosition) -> End {
        let why = match position < self.files_end() {
            true => Why::Zeros,
            false => Why::Bytes,
        };
        End {
            position,
            answer: Answer::Done,
            why,
        }
    }

    /// What is passed over from a place on that the archive does not read. Nothing, if the log ends there.
    fn skipped(&self, from: LogPosition, answer: Answer) -> Option<Skipped> {
        if from >= self.files_end() {
            return None;
        }
        if let Some((records, to)) = self.all_long_hosts(from) {
            let why = Cause::LongHosts(records);
            return Some(Skipped { from, to, why });
        }
        let zeros = self.zeros_at(from);
        let last = &self.stretches[self.stretches.len() - 1];
        let rest_is_empty = zeros && !self.end_given && last.has(from);
        if rest_is_empty && last.data_after(from).is_none() {
            return None;
        }
        let why = if !self.has(from) {
            Cause::NoFile
        } else if zeros {
            Cause::Zeros
        } else {
            let text = self.bad_text(from, answer);
            text.map_or(Cause::Answer(answer), Cause::Text)
        };
        let to = self.next_sound(from);
        let to = to.unwrap_or_else(|| self.data_end(from));
        Some(Skipped { from, to, why })
    }

    /// How many records with long hosts follow each other from a position on, and where they end.
    fn all_long_hosts(&self, from: LogPosition) -> Option<(u64, LogPosition)> {
        let (mut records, mut to) = (0, from);
        while let Some(length) = self.long_hosts(to) {
            records += 1;
            to.0 += length;
        }
        (records > 0).then_some((records, to))
    }

    /// The next place behind a position where something stands that can be read.
    fn next_sound(&self, position: LogPosition) -> Option<LogPosition> {
        let mut stretches = self.stretches.iter();
        stretches.find_map(|stretch| {
            let from = stretch.first().0.max(position.0 + 1);
            stretch.next_sound(LogPosition(from))
        })
    }

    /// Where nothing that can be read follows: the end of what is not zero, and at least the start of the last stretch.
    fn data_end(&self, from: LogPosition) -> LogPosition {
        let last = &self.stretches[self.stretches.len() - 1];
        if self.end_given {
            return last.end;
        }
        let start = from.max(last.first());
        let rest = last.rest(start);
        let mut length = rest.len();
        while let Some(block) = rest[..length].last_chunk::<4096>() {
            if *block != [0; 4096] {
                break;
            }
            length -= block.len();
        }
        let data = rest[..length].iter().rposition(|byte| *byte != 0);
        LogPosition(start.0 + data.map_or(0, |at| at as u64 + 1))
    }
}

impl Stretch {
    /// The first place from a position on where a record or a blank stands. In a segment records come first: nothing is ever
    /// written behind a blank, so what looks like one before a record is part of something else.
    fn next_sound(&self, position: LogPosition) -> Option<LogPosition> {
        let size = self.sizes.segment_size;
        let mut from = position.0;
        while from < self.end.0 {
            let to = self.end.0.min((from / size + 1) * size);
            let found = self.first_with(MESSAGE, from, to);
            let found = found.or_else(|| self.first_with(BLANK, from, to));
            if found.is_some() {
                return found;
            }
            from = to;
        }
        None
    }

    /// The first place within a segment that has a magic and can be read.
    fn first_with(&self, magic: [u8; 4], from: u64, to: u64) -> Option<LogPosition> {
        let first = self.first().0;
        let bytes = &self.bytes[..(to - first) as usize];
        let mut at = (from - first) as usize + MAGIC;
        while let Some(found) = bytes.get(at..).and_then(|rest| place_of(magic, rest)) {
            at += found;
            let place = LogPosition(first + (at - MAGIC) as u64);
            if self.entry(place).is_ok() || self.long_hosts(place).is_some() {
                return Some(place);
            }
            at += 1;
        }
        None
    }
}

/// Where four bytes stand among others. Blocks without the first of them are passed over quickly.
fn place_of(wanted: [u8; 4], bytes: &[u8]) -> Option<usize> {
    const BLOCK: usize = 256;
    for (number, block) in bytes.chunks(BLOCK).enumerate() {
        let has_first = block
            .iter()
            .fold(false, |has, byte| has | (*byte == wanted[0]));
        if has_first {
            let from = number * BLOCK;
            let to = bytes.len().min(from + BLOCK + wanted.len() - 1);
            let mut windows = bytes[from..to].windows(wanted.len());
            if let Some(at) = windows.position(|window| window == wanted) {
                return Some(from + at);
            }
        }
    }
    None
}

#[cfg(test)]
mod tests {
    use super::*;

    #[test]
    fn four_bytes_are_found_wherever_they_stand() {
        for length in [4, 5, 255, 256, 257, 258, 259, 260, 511, 512, 515, 1000] {
            assert_eq!(place_of(MESSAGE, &vec![0xda; length]), None);
            for at in 0..=length - 4 {
                let mut bytes = vec![0xda; length];
                bytes[at..at + 4].copy_from_slice(&MESSAGE);
                assert_eq!(place_of(MESSAGE, &bytes), Some(at));
            }
        }
        assert_eq!(place_of(BLANK, &BLANK[..3]), None);
    }
}
