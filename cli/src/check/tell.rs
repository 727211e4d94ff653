//! Findings about log, bodies and limits, in words and numbers.

use super::report::{fault, limit, sound, Report};
use super::survey::Survey;
use crate::index::MOST_ITEMS;
use crate::log::{Cause, Log, Skipped};
use crate::queues::{MOST_ENTRIES, MOST_QUEUES};
use crate::text::{counted, grouped};
use crate::time;
use swistopal::Answer;

pub fn log(log: &Log, survey: &Survey, report: &mut Report) {
    let counts = &survey.before;
    let size = log.sizes.segment_size;
    let sentence = format!(
        "{} of {} bytes from {}: {}, {}",
        counted(log.segments, "segment", "segments"),
        grouped(size),
        log.first().0,
        counted(counts.records, "record", "records"),
        counted(counts.blanks, "blank", "blanks")
    );
    report.add(
        sound("log", "log", sentence)
            .number("segments", log.segments)
            .number("segment_size", size)
            .number("first_position", log.first().0)
            .number("records", counts.records)
            .number("blanks", counts.blanks),
    );
    if let Some((first, last)) = survey.times {
        let (from, to) = (time::shown(first), time::shown(last));
        let span = format!("stored from {from} ({first}) to {to} ({last})");
        let span = sound("log", "times", span).number("first_time", first);
        report.add(span.number("last_time", last));
    }
    for skipped in survey.skipped.iter().filter(|skipped| skipped.is_damage()) {
        let finding = fault("log", "damage", stop(skipped, survey))
            .number("position", skipped.from.0)
            .number("goes_on", skipped.to.0)
            .number("answer", answer(skipped));
        report.add(match skipped.why {
            Cause::Text(text) => finding.raw("no_utf8", text.object()),
            _ => finding,
        });
    }
    end(survey, report);
    for sentence in &log.faults {
        report.add(fault("log", "segment", sentence.clone()));
    }
}

/// The number of the answer at a place that cannot be read; zeros are damage, and so is what no file has.
fn answer(skipped: &Skipped) -> u64 {
    match skipped.why {
        Cause::Answer(answer) => u64::from(answer.number()),
        _ => u64::from(Answer::Damaged.number()),
    }
}

fn stop(skipped: &Skipped, survey: &Survey) -> String {
    let why = match skipped.why {
        Cause::Answer(answer) => format!("with {}: {answer}", answer.number()),
        Cause::Text(text) => format!("with 10: {}; {}", Answer::Damaged, text.sentence()),
        Cause::Zeros => String::from("with 10: zeros stand there"),
        Cause::NoFile => String::from("as no file that can be read has what follows"),
        Cause::LongHosts(_) => String::from("at hosts of 20 bytes"),
    };
    let (from, to) = (skipped.from.0, skipped.to);
    let on = match to < survey.end.position {
        true => format!("it can be read again from {} on", to.0),
        false => String::from("nothing that can be read follows"),
    };
    format!("it stops at {from} {why}; {on}")
}

fn end(survey: &Survey, report: &mut Report) {
    let position = survey.end.position.0;
    let counts = &survey.behind;
    if counts.records + counts.blanks > 0 {
        let sentence = format!(
            "read behind damage: {}, {}",
            counted(counts.records, "record", "records"),
            counted(counts.blanks, "blank", "blanks")
        );
        let behind = sound("log", "behind-damage", sentence).number("records", counts.records);
        report.add(behind.number("blanks", counts.blanks));
    }
    let sentence = match survey.is_damaged() {
        false => format!("it {}", survey.end.sentence()),
        true => format!("it was read up to {position}"),
    };
    report.add(sound("log", "end", sentence).number("position", position));
}

pub fn bodies(survey: &Survey, report: &mut Report) {
    let Some(bodies) = &survey.bodies else {
        return;
    };
    let sentence = format!(
        "{} of {} as the checksums say, {} bytes",
        grouped(bodies.judged - bodies.damaged.len() as u64),
        counted(bodies.judged, "body", "bodies"),
        grouped(bodies.bytes)
    );
    report.add(
        sound("bodies", "bodies", sentence)
            .number("judged", bodies.judged)
            .number("damaged", bodies.damaged.len() as u64)
            .number("bytes", bodies.bytes),
    );
    for bad in &bodies.damaged {
        let sentence = format!(
            "the body of the record at {} is damaged: checksum {}, by its bytes {}",
            bad.position.0, bad.stored, bad.computed
        );
        report.add(
            fault("bodies", "body", sentence)
                .number("position", bad.position.0)
                .number("stored", bad.stored)
                .number("computed", bad.computed),
        );
    }
}

/// What this tool cannot do with the log, whatever queues and index there are.
pub fn limits(log: &Log, survey: &Survey, report: &mut Report) {
    for sentence in &log.limits {
        report.add(limit("position", sentence.clone()));
    }
    long_hosts(survey, report);
    let queues = survey.queues.list.len();
    if queues > MOST_QUEUES {
        let sentence = format!("{queues} queues; this tool makes {MOST_QUEUES} at once");
        let found = limit("queues", sentence).number("queues", queues as u64);
        report.add(found.number("most", MOST_QUEUES as u64));
    }
    let long = survey.queues.list.iter().zip(&survey.last);
    let long = long.filter(|(_, last)| **last >= MOST_ENTRIES);
    if let Some((longest, last)) = long.clone().max_by_key(|(_, last)| **last) {
        let (entries, most) = (last + 1, MOST_ENTRIES);
        let sentence = format!(
            "{} past {} entries, which is what this tool makes of one; {} has {}",
            counted(long.count() as u64, "queue goes", "queues go"),
            grouped(most),
            longest.shown(),
            grouped(entries)
        );
        report.add(
            limit("entries", sentence)
                .bytes("topic", &longest.topic)
                .number("queue", u64::from(longest.id))
                .number("entries", entries)
                .number("most", most),
        );
    }
    delayed(survey, report);
}

fn long_hosts(survey: &Survey, report: &mut Report) {
    let parts = survey
        .skipped
        .iter()
        .filter_map(|skipped| match skipped.why {
            Cause::LongHosts(records) => Some((skipped.from.0, records)),
            _ => None,
        });
    let records: u64 = parts.clone().map(|(_, records)| records).sum();
    if let Some((first, _)) = parts.clone().next() {
        let sentence = format!(
            "{} with hosts of 20 bytes (IPv6), the first at {first}; this tool does not read them, and that is no damage",
            counted(records, "record", "records")
        );
        let hosts = limit("hosts", sentence).number("records", records);
        report.add(hosts.number("position", first));
    }
}

fn delayed(survey: &Survey, report: &mut Report) {
    let delayed = survey.before.delayed + survey.behind.delayed;
    if delayed > 0 {
        let sentence = format!(
            "{} of SCHEDULE_TOPIC_XXXX: the code of an entry is the time of delivery there; position and size are compared",
            counted(delayed, "record", "records")
        );
        report.add(limit("delayed", sentence).number("records", delayed));
    }
}

/// More items than one index takes.
pub fn items(given: u64, report: &mut Report) {
    let most = MOST_ITEMS - 1;
    if given > most {
        let (items, most_shown) = (grouped(given), grouped(most));
        let sentence = format!("{items} items; an index that this tool makes has {most_shown}");
        let found = limit("items", sentence).number("items", given);
        report.add(found.number("most", most));
    }
}
