//! Findings about queues, in words and numbers.

use super::reach::{Reach, Rest};
use super::report::{fault, limit, missing, sound, Finding, Report};
use super::sides::{Side, Sides};
use crate::files::{Refused, Unfit};
use crate::queues::Queue;
use crate::text::{counted, grouped};

/// A file that was not looked into.
pub fn refused(part: &'static str, refused: &Refused) -> Finding {
    let sentence = refused.sentence.clone();
    match refused.unfit {
        Unfit::Limit => limit("file", sentence),
        Unfit::Unreadable => fault(part, "unreadable", sentence),
        Unfit::Content => fault(part, "file", sentence),
    }
}

pub fn queues(sides: &Sides, reach: &Reach, listed: Option<&[Queue]>, report: &mut Report) {
    let is_listed = |side: &Side| listed.is_some_and(|listed| listed.contains(&side.queue));
    let given = |side: &&Side| side.given > 0 || is_listed(side);
    let of_log: Vec<&Side> = sides.list.iter().filter(given).collect();
    let same = of_log.iter().filter(|side| side.is_sound()).count() as u64;
    let entries: u64 = of_log.iter().map(|side| side.same).sum();
    let behind: u64 = of_log.iter().map(|side| side.same_behind).sum();
    let marked = match behind {
        0 => String::new(),
        behind => format!(", {} of them read behind damage", grouped(behind)),
    };
    let sentence = format!(
        "{same} of {} as the log gives them, {}{marked}",
        counted(of_log.len() as u64, "queue", "queues"),
        counted(entries, "entry", "entries")
    );
    report.add(
        sound("queues", "queues", sentence)
            .number("queues", of_log.len() as u64)
            .number("same", same)
            .number("entries", entries)
            .number("entries_behind_damage", behind),
    );
    if sides.unlisted > 0 {
        let records = counted(sides.unlisted, "record", "records");
        let sentence = format!("{records} of queues that are not listed were not compared");
        report.add(sound("queues", "unlisted", sentence).number("records", sides.unlisted));
    }
    rest(sides, reach, report);
    for side in &sides.list {
        queue(side, report);
    }
}

/// Entries without a record, where that is nothing wrong.
fn rest(sides: &Sides, reach: &Reach, report: &mut Report) {
    let of = |count: fn(&Rest) -> u64| {
        let counts = sides.list.iter().map(|side| count(&side.rest));
        let counts: Vec<u64> = counts.filter(|count| *count > 0).collect();
        (counts.iter().sum::<u64>(), counts.len() as u64)
    };
    let (older, queues) = of(|rest| rest.older);
    if older > 0 {
        let sentence = format!(
            "{} of {} older than the log, which starts at {}",
            counted(older, "entry", "entries"),
            counted(queues, "queue is", "queues are"),
            reach.first
        );
        report.add(sound("queues", "older", sentence).number("entries", older));
    }
    let (not_read, _) = of(|rest| rest.not_read);
    if not_read > 0 {
        let entries = counted(not_read, "entry", "entries");
        let sentence = format!("{entries} of records where the log was not read; not compared");
        report.add(sound("queues", "not-read", sentence).number("entries", not_read));
    }
}

fn queue(side: &Side, report: &mut Report) {
    let of_queue = |finding: Finding| {
        let finding = finding.bytes("topic", &side.queue.topic);
        finding.number("queue", u64::from(side.queue.id))
    };
    if let Some(sentence) = &side.impossible {
        report.add(of_queue(fault("queues", "topic", sentence.clone())));
        return;
    }
    for file in &side.refused {
        report.add(of_queue(refused("queues", file)));
    }
    out_of_step(side, report);
    lacking(side, report);
    differing(side, report);
    superfluous(side, report);
    for sentence in &side.holes {
        report.add(of_queue(fault("queues", "hole", sentence.clone())));
    }
}

fn differing(side: &Side, report: &mut Report) {
    let name = side.queue.shown();
    if let Some(first) = &side.differing.first {
        let (found, made) = (first.found, first.made);
        let sentence = format!(
            "{name}: entry {} differs from the log's: position {}, size {}, code {}; by the log position {}, size {}, code {}{}",
            first.number,
            found.position,
            found.size,
            found.code as i64,
            made.position,
            made.size,
            made.code as i64,
            more(side.differing.count)
        );
        report.add(
            fault("queues", "differs", sentence)
                .bytes("topic", &side.queue.topic)
                .number("queue", u64::from(side.queue.id))
                .number("entries", side.differing.count)
                .number("entry", first.number)
                .number("position", found.position)
                .number("size", u64::from(found.size))
                .signed("code", found.code)
                .number("position_by_log", made.position)
                .number("size_by_log", u64::from(made.size))
                .signed("code_by_log", made.code),
        );
    }
}

/// How many there are besides the one that is told.
pub fn more(count: u64) -> String {
    match count {
        0 | 1 => String::new(),
        more => format!(" ({} in all)", grouped(more)),
    }
}

fn out_of_step(side: &Side, report: &mut Report) {
    if let Some(jump) = side.out_of_step.first {
        let sentence = format!(
            "out of step at {}: the record there is entry {} of queue {}, though entry {} comes next{}",
            jump.position,
            jump.number,
            side.queue.shown(),
            jump.expected,
            more(side.out_of_step.count)
        );
        report.add(
            fault("log", "out-of-step", sentence)
                .number("position", jump.position)
                .bytes("topic", &side.queue.topic)
                .number("queue", u64::from(side.queue.id))
                .number("entry", jump.number)
                .number("entry_expected", jump.expected),
        );
    }
}

/// Entries that the log gives and that are not there.
fn lacking(side: &Side, report: &mut Report) {
    let Some((number, position)) = side.missing.first else {
        return;
    };
    let name = side.queue.shown();
    let given = counted(side.given, "entry", "entries");
    let finding = if side.files.is_empty() {
        missing("queue", format!("queue {name}: {given} by the log"))
    } else {
        let lacking = grouped(side.missing.count);
        let sentence = format!(
            "{name}: {lacking} of {given} by the log not there, the first is entry {number}, of the record at {position}"
        );
        let finding = fault("queues", "short", sentence);
        finding.number("entry", number).number("position", position)
    };
    report.add(
        finding
            .bytes("topic", &side.queue.topic)
            .number("queue", u64::from(side.queue.id))
            .number("entries", side.missing.count)
            .number("entries_by_log", side.given),
    );
}

/// Entries that the log does not give.
fn superfluous(side: &Side, report: &mut Report) {
    let name = side.queue.shown();
    let used: u64 = side.files.iter().map(|file| file.count).sum();
    let used = counted(used, "entry", "entries");
    let of_queue = |finding: Finding, entries: u64| {
        let finding = finding.bytes("topic", &side.queue.topic);
        let finding = finding.number("queue", u64::from(side.queue.id));
        finding.number("entries", entries)
    };
    let behind = side.rest.behind;
    if behind > 0 {
        let sentence = format!(
            "{name}: {used}, {} of them behind the log's end",
            grouped(behind)
        );
        report.add(of_queue(fault("queues", "behind-end", sentence), behind));
    }
    let strays = &side.rest.strays;
    if let Some((number, position)) = strays.first {
        let sentence = match side.given {
            0 => format!("{name}: {used}, but the log has no record of it; entry {number} names position {position}"),
            _ => format!(
                "{name}: entry {number} names position {position}, where the log has no such record{}",
                more(strays.count)
            ),
        };
        let finding = fault("queues", "stray", sentence).number("entry", number);
        report.add(of_queue(finding.number("position", position), strays.count));
    }
}
