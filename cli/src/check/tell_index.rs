//! Findings about the index, in words and numbers.

use super::compared::{Compared, Found, Others};
use super::merge::{Merge, Merged};
use super::reach::Reach;
use super::report::{fault, limit, missing, sound, Finding, Report};
use super::results::Results;
use super::tell;
use super::tell_queues::{more, refused};
use crate::index::{Bytes, Index};
use crate::text::{counted, grouped};

pub fn index(compared: &Compared, results: &Results, reach: &Reach, report: &mut Report) {
    for file in &results.refused {
        report.add(refused("index", file));
    }
    match &compared.index {
        Found::Same => {
            for index in &results.indexes {
                let sentence = format!("{}; as the log gives it", sizes(index));
                report.add(index_finding(sound("index", "index", sentence), index));
            }
        }
        Found::Absent { items, first } => {
            lacking_items(*items, *items, Some(*first), results, report)
        }
        Found::Merged { merge, rest } => {
            merged(merge, rest, results, reach, report);
            tell::items(merge.given, report);
        }
    }
    files(results, report);
}

fn merged(merge: &Merge, rest: &Others, results: &Results, reach: &Reach, report: &mut Report) {
    for merged in &merge.files {
        merged_file(merged, rest, reach, report);
    }
    if let (Others::Differ(differs), [merged]) = (rest, &merge.files[..]) {
        let sentence = format!("{}: {}", merged.index.name, differs.sentence());
        let finding = fault("index", "differs", sentence).text("what", &differs.what);
        let finding = finding.number("value", differs.found);
        report.add(finding.number("value_by_log", differs.made));
    }
    if results.refused.is_empty() {
        let missing = &merge.missing;
        lacking_items(missing.count, merge.given, missing.first, results, report);
    }
}

/// Files that were cut, those without an item, and how many there are.
fn files(results: &Results, report: &mut Report) {
    for cut in &results.cut {
        let (bytes, whole) = (grouped(cut.bytes), grouped(cut.whole));
        let sentence = format!(
            "{}: {bytes} bytes of {whole}; it is cut short, unless it was made with --items {}: name that here too, then",
            cut.name, cut.items
        );
        let finding = fault("index", "cut", sentence).text("name", &cut.name);
        let finding = finding.number("bytes", cut.bytes);
        report.add(finding.number("bytes_whole", cut.whole));
    }
    for name in &results.empty {
        let sentence = format!("{name}: no item yet");
        report.add(sound("index", "empty", sentence).text("name", name));
    }
    let files = results.indexes.len() + results.empty.len();
    if files > 1 {
        let sentence = format!("{files} index files; this tool makes one");
        report.add(limit("indexes", sentence).number("files", files as u64));
    }
}

/// Its name, items and slots.
fn sizes(index: &Index) -> String {
    let found = Bytes(&index.bytes);
    format!(
        "{}: {} of {}, {} of {} slots filled",
        index.name,
        counted(found.used() - 1, "item", "items"),
        grouped(index.sizes.item_count - 1),
        grouped(found.filled()),
        grouped(index.sizes.slot_count)
    )
}

fn index_finding(finding: Finding, index: &Index) -> Finding {
    let found = Bytes(&index.bytes);
    finding
        .text("name", &index.name)
        .number("items", found.used() - 1)
        .number("most_items", index.sizes.item_count - 1)
        .number("filled_slots", found.filled())
        .number("slots", index.sizes.slot_count)
}

fn merged_file(merged: &Merged, others: &Others, reach: &Reach, report: &mut Report) {
    let index = merged.index;
    let mut sentence = sizes(index);
    if matches!(others, Others::Same) {
        sentence += "; as the log gives it";
    } else if merged.is_sound() && merged.same > 0 {
        let same = counted(merged.same, "item", "items");
        sentence += &format!("; {same} as the log gives them, links and slots not compared");
    }
    let finding = index_finding(sound("index", "index", sentence), index);
    report.add(finding.number("same", merged.same));
    items_without_record(merged, reach, report);
    wrong_items(merged, report);
}

/// Items that no record gives, in the places where they point.
fn items_without_record(merged: &Merged, reach: &Reach, report: &mut Report) {
    let Merged { index, rest, .. } = merged;
    let name = &index.name;
    if rest.older > 0 {
        let older = counted(rest.older, "item is", "items are");
        let sentence = format!(
            "{name}: {older} older than the log, which starts at {}",
            reach.first
        );
        let finding = sound("index", "older", sentence).text("name", name);
        report.add(finding.number("items", rest.older));
    }
    if merged.repeated > 0 {
        let items = counted(merged.repeated, "item", "items");
        let sentence =
            format!("{name}: {items} once more, as a broker leaves them that did not end in order");
        let finding = sound("index", "repeated", sentence).text("name", name);
        report.add(finding.number("items", merged.repeated));
    }
    if rest.not_read > 0 {
        let items = counted(rest.not_read, "item", "items");
        let sentence =
            format!("{name}: {items} of records where the log was not read; not compared");
        let finding = sound("index", "not-read", sentence).text("name", name);
        report.add(finding.number("items", rest.not_read));
    }
    if rest.behind > 0 {
        let items = counted(rest.behind, "item", "items");
        let sentence = format!("{name}: {items} behind the log's end at {}", reach.end);
        let finding = fault("index", "behind-end", sentence).text("name", name);
        report.add(finding.number("items", rest.behind));
    }
}

fn wrong_items(merged: &Merged, report: &mut Report) {
    let name = &merged.index.name;
    if let Some(first) = &merged.differing.first {
        let (found, made) = (first.found, first.made);
        let sentence = format!(
            "{name}: item {} differs from the log's: hash {}, position {}; by the log hash {}, position {}{}",
            first.number,
            found.hash,
            found.position,
            made.hash,
            made.position,
            more(merged.differing.count)
        );
        report.add(
            fault("index", "differs", sentence)
                .text("name", name)
                .number("items", merged.differing.count)
                .number("item", first.number)
                .number("hash", u64::from(found.hash))
                .number("position", found.position)
                .number("hash_by_log", u64::from(made.hash))
                .number("position_by_log", made.position),
        );
    }
    if let Some((number, position)) = merged.rest.strays.first {
        let count = merged.rest.strays.count;
        let sentence = format!(
            "{name}: item {number} names position {position}, where no record gives it{}",
            more(count)
        );
        let finding = fault("index", "stray", sentence).text("name", name);
        let finding = finding.number("items", count).number("item", number);
        report.add(finding.number("position", position));
    }
}

/// Items that the log gives and that are not there, the first of them of the record at a position.
fn lacking_items(
    lacking: u64,
    given: u64,
    first: Option<u64>,
    results: &Results,
    report: &mut Report,
) {
    let Some(position) = first else {
        return;
    };
    let items = counted(given, "item", "items");
    let finding = if results.indexes.is_empty() && results.empty.is_empty() {
        missing("index", format!("index: {items} by the log"))
    } else {
        let sentence = format!(
            "{} of {items} by the log not there, the first is of the record at {position}",
            grouped(lacking)
        );
        fault("index", "short", sentence).number("position", position)
    };
    let finding = finding.number("items", lacking);
    report.add(finding.number("items_by_log", given));
}
