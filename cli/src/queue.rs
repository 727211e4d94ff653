//! `swistopal queue`: the records of one queue, in order.

use crate::args::Args;
use crate::failure::{fault, usage, Failure, Outcome};
use crate::form::{Form, Results};
use crate::log::{self, Log};
use crate::note;
use crate::queues::{self, Queue, QueueFile};
use crate::record::{self, LeftOut, Read, With};
use crate::shell;
use crate::text::{counted, grouped, shown, shown_path, strings, Object};
use crate::wanted;
use std::collections::BTreeSet;
use std::os::unix::ffi::OsStrExt;
use swistopal::{
    read_queue, Answer, Entry, LogPosition, Progress, QueueOffset, QueueReading, Sizes,
};

/// The topic in which a broker keeps delayed messages.
const DELAYED: &[u8] = b"SCHEDULE_TOPIC_XXXX";

pub fn run(args: &Args) -> Result<Outcome, Failure> {
    let form = Form::of(args)?;
    let asked = Asked::of(args)?;
    let queue = &asked.queue;
    let log = Log::open(args)?;
    if args.place().is_file() {
        return usage(format!("{}: a folder is needed", shown_path(args.place())));
    }
    let files = queues::open(args.place(), queue)?;
    let Some(count) = queues::count(&files) else {
        log::tell(&log.faults);
        return absent(args, queue);
    };
    let file_faults = queues::faults(&files);
    let entries = file_faults.is_empty().then_some(count);
    let (positions, more) = asked.positions(&files, entries)?;

    let mut reading = Reading::new(&log, queue);
    if let Some(last) = positions.iter().max() {
        reading.damage = log.damage_before(*last)?;
    }
    let store = shell::place(args.place().as_os_str().as_bytes());
    for fault in file_faults {
        let next = format!("`swistopal check {store}` says what to do");
        reading.faults.push(format!("{fault}; {next}"));
    }
    let head = Object::new()
        .bytes("topic", &queue.topic)
        .number("queue", queue.id.into())
        .number("entries", count);
    let mut results = Results::start(form, head, "records")?;
    for position in positions {
        reading.show(position, args.flag("--body"), &mut results)?;
    }
    let mut hints = asked.hints(more);
    hints.extend(reading.left_out.sentences(&log, "entry", "entries"));
    reading.end(&mut results, more, &hints)?;
    reading.tell(entries);
    log::tell(&hints);
    log::tell(&log.limits);
    log::tell(&reading.faults);
    Ok(match reading.faults.is_empty() {
        true => Outcome::Sound,
        false => Outcome::Fault,
    })
}

struct Asked<'a> {
    queue: Queue,
    start: u64,
    limit: u64,
    tag: Option<&'a str>,
}

impl Asked<'_> {
    fn of(args: &Args) -> Result<Asked<'_>, Failure> {
        let topic = args.text("--topic")?.as_bytes().to_vec();
        let Some(id) = args.number_within("--queue", 0, (1 << 31) - 1)? else {
            return usage("--queue is needed");
        };
        let id = id as u32;
        let tag = args.optional_text("--tag")?;
        Ok(Asked {
            queue: Queue { topic, id },
            start: args.number("--start")?.unwrap_or(0),
            limit: args.number("--limit")?.unwrap_or(u64::MAX),
            tag,
        })
    }

    /// The positions up to the limit, and how many there are above it. `entries` is how many the queue has, if its files
    /// are whole.
    fn positions(
        &self,
        files: &[QueueFile],
        entries: Option<u64>,
    ) -> Result<(Vec<LogPosition>, u64), Failure> {
        if let Some(entries) = entries.filter(|entries| self.start > *entries) {
            return usage(format!(
                "--start {}: queue {} has {}",
                self.start,
                self.queue.shown(),
                counted(entries, "entry", "entries")
            ));
        }
        let code = self.tag.map(tag_code).transpose()?;
        let mut positions = Vec::new();
        for file in files {
            positions.extend(read(file, &self.queue, self.start, code)?);
        }
        let limit = usize::try_from(self.limit).unwrap_or(usize::MAX);
        let more = positions.len().saturating_sub(limit) as u64;
        positions.truncate(limit);
        Ok((positions, more))
    }

    fn hints(&self, more: u64) -> Vec<String> {
        let mut hints = Vec::new();
        if more > 0 {
            let are = if more == 1 { "is" } else { "are" };
            hints.push(format!(
                "cut at --limit {}: there {are} {} more",
                self.limit,
                grouped(more)
            ));
        }
        if self.tag.is_some() && self.queue.topic == DELAYED {
            hints.push(String::from(
                "the codes of delayed messages are the times of their delivery: no tag is found among them",
            ));
        }
        hints
    }
}

/// The queue has no file: what there is instead.
fn absent(args: &Args, queue: &Queue) -> Result<Outcome, Failure> {
    let on_disk = queues::on_disk(args.place())?;
    let topics: BTreeSet<Vec<u8>> = on_disk.iter().map(|queue| queue.topic.clone()).collect();
    let of_topic = on_disk.iter().filter(|other| other.topic == queue.topic);
    let ids: Vec<String> = of_topic.map(|other| other.id.to_string()).collect();
    let instead = match ids.is_empty() {
        true => wanted::no_topic("consumequeue", &queue.topic, &topics),
        false => format!("that topic has the queues {}", ids.join(", ")),
    };
    let store = shell::place(args.place().as_os_str().as_bytes());
    fault(format!(
        "{}: no queue {} in it: {instead}; `swistopal list --long {store}` shows topic and queue of each record, \
         `swistopal check {store}` says what is missing",
        shown_path(args.place()),
        queue.shown()
    ))
}

/// The records of a queue while they are shown.
struct Reading<'a> {
    log: &'a Log,
    queue: &'a Queue,
    /// The first damage before its last record.
    damage: Option<LogPosition>,
    records: u64,
    behind: u64,
    left_out: LeftOut,
    faults: Vec<String>,
}

impl Reading<'_> {
    fn new<'a>(log: &'a Log, queue: &'a Queue) -> Reading<'a> {
        Reading {
            log,
            queue,
            damage: None,
            records: 0,
            behind: 0,
            left_out: LeftOut::default(),
            faults: log.faults.clone(),
        }
    }

    fn show(&mut self, at: LogPosition, body: bool, results: &mut Results) -> Result<(), Failure> {
        let (position, queue) = (at.0, self.queue);
        match self.log.entry(at) {
            Ok(Entry::Record { total, message }) if queue.is_of(&message) => {
                let read = Read {
                    position: at,
                    total,
                    message,
                    behind: self.log.is_behind_a_fault(at)
                        || self.damage.is_some_and(|damage| damage < at),
                };
                self.behind += u64::from(read.behind);
                let fault = record::checksum_fault(&read).filter(|_| body);
                self.faults.extend(fault);
                self.show_record(&read, body, results)?;
            }
            Ok(_) => self.faults.push(format!(
                "queue {}: an entry names position {position}, where no record of this queue stands",
                queue.shown()
            )),
            Err(answer) => self.not_read(at, answer),
        }
        Ok(())
    }

    fn show_record(
        &mut self,
        read: &Read,
        body: bool,
        results: &mut Results,
    ) -> Result<(), Failure> {
        let with = With { topic: false, body };
        if !results.is_text() {
            results.add(&record::object(read, body))?;
        } else {
            if self.records == 0 {
                record::heading(results.text(), with)?;
            }
            record::line(results.text(), read, with)?;
        }
        self.records += 1;
        Ok(())
    }

    fn not_read(&mut self, position: LogPosition, answer: Answer) {
        if self.left_out.takes(self.log, position) {
            return;
        }
        self.faults.push(format!(
            "queue {}: an entry names position {}, {}",
            self.queue.shown(),
            position.0,
            record::not_read(self.log, position, answer)
        ));
    }

    fn end(&self, results: &mut Results, more: u64, hints: &[String]) -> Result<(), Failure> {
        let tail = Object::new()
            .number("more", more)
            .number("older_than_the_log", self.left_out.older)
            .raw("hints", &strings(hints))
            .raw("limits", &strings(&self.log.limits))
            .raw("faults", &strings(&self.faults));
        results.end(tail)
    }

    fn tell(&self, entries: Option<u64>) {
        let records = counted(self.records, "record", "records");
        let entries = entries.map_or(String::new(), |entries| {
            format!(", which has {}", counted(entries, "entry", "entries"))
        });
        note(&format!(
            "{records} of queue {}{entries}",
            self.queue.shown()
        ));
        if self.behind > 0 {
            let behind = counted(self.behind, "record", "records");
            note(&format!("{behind} read behind damage"));
        }
    }
}

/// Positions from one file of the queue, as the archive reads them.
fn read(
    file: &QueueFile,
    queue: &Queue,
    start: u64,
    tag_code: Option<u64>,
) -> Result<Vec<LogPosition>, Failure> {
    let start = start.saturating_sub(file.first).max(file.without_record());
    if start > file.count {
        return Ok(Vec::new());
    }
    let mut progress = Progress::default();
    progress.counts[0] = QueueOffset(file.count);
    let mut places = vec![LogPosition(0); file.count as usize];
    let reading = QueueReading {
        queues: &file.bytes,
        sizes: Sizes {
            queue_entries: file.entries,
            ..Sizes::default()
        },
        directory: &queues::directory(std::slice::from_ref(queue)),
        progress: &progress,
        row: 0,
        start: QueueOffset(start),
        wanted: places.len() as u64,
        tag_code,
    };
    match read_queue(&reading, &mut places) {
        Ok(found) => Ok(found.to_vec()),
        Err(refusal) => fault(format!(
            "{}: answer {}: {refusal}",
            file.place,
            refusal.number()
        )),
    }
}

/// A tag's code, if a record can have the tag.
fn tag_code(tag: &str) -> Result<u64, Failure> {
    if tag.is_empty() || tag.len() > 32_000 || tag.contains(['\u{1}', '\u{2}']) {
        return usage(format!(
            "--tag {}: a tag has 1 to 32,000 bytes, none of them 01 or 02",
            shown(tag.as_bytes())
        ));
    }
    Ok(swistopal::tag_code(tag.as_bytes()))
}

#[cfg(test)]
mod tests {
    use super::*;

    #[test]
    fn tag_codes_are_those_of_the_bench() {
        let code = |tag: &str| tag_code(tag).ok();
        assert_eq!(code("Aa"), Some(2112));
        assert_eq!(code("é"), Some(233));
        assert_eq!(code("\u{1f600}"), Some(1_772_899));
        assert_eq!(code("polygenelubricants"), Some(0xffff_ffff_8000_0000));
        assert_eq!(code(""), None);
        assert_eq!(code("a\u{1}"), None);
    }
}
