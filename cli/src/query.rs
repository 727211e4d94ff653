//! `swistopal query`: what happened to this parcel?

mod search;

use crate::args::Args;
use crate::failure::{fault, usage, Failure, Outcome};
use crate::form::{Form, Results};
use crate::index::{self, Bytes, Index, Opened};
use crate::log::{self, Log, Met};
use crate::note;
use crate::queues;
use crate::record::{self, With};
use crate::shell;
use crate::text::{counted, shown, shown_path, strings, NoText, Object};
use crate::wanted::{self, times, Seen};
use search::{Asked, Search};
use std::collections::BTreeSet;
use std::os::unix::ffi::OsStrExt;
use swistopal::{Entry, Query};

const DEFAULT_LIMIT: u64 = 32;

pub fn run(args: &Args) -> Result<Outcome, Failure> {
    let asked = asked(args)?;
    let form = Form::of(args)?;
    let log = Log::open(args)?;
    let mut search = Search::new(&log, &asked);
    let mut hints = wanted::seconds(args, &["--from", "--to"]);
    if args.flag("--scan") {
        search.scan(log.first())?;
        hints.extend(search.hints_on_scan());
    } else {
        let Opened { indexes, faults } = index::open_all(args)?;
        if indexes.is_empty() && faults.is_empty() {
            log::tell(&log.faults);
            return fault(format!(
                "{}: no index in it; --scan looks through the log itself, and `swistopal check {}` says how to make an index",
                shown_path(args.place()),
                shell::place(args.place().as_os_str().as_bytes())
            ));
        }
        search.faults.extend(faults);
        by_index(args, &mut search, &indexes)?;
        hints.extend(hints_on_index(args, &search, &indexes)?);
    }
    search.arrange()?;
    let body = args.flag("--body");
    if body {
        search.judge_bodies();
    }
    hints.extend(search.cut());
    let left_out = &search.left_out;
    hints.extend(left_out.sentences(&log, "item of the index", "items of the index"));
    print(form, &search, body, &hints)?;
    search.tell();
    log::tell(&hints);
    log::tell(&search.faults);
    log::tell(&search.limits);
    Ok(match search.faults.is_empty() {
        true => Outcome::Sound,
        false => Outcome::Fault,
    })
}

fn asked(args: &Args) -> Result<Asked<'_>, Failure> {
    let (key, unique) = match (args.value("--key"), args.value("--unique-key")) {
        (Some(_), Some(_)) => return usage("--key and --unique-key: one of them is enough"),
        (None, Some(_)) => (args.text("--unique-key")?.as_bytes(), true),
        _ => (args.text("--key")?.as_bytes(), false),
    };
    let topic = args.optional_text("--topic")?.map(str::as_bytes);
    let topic_fits = topic.is_none_or(|topic| (1..=127).contains(&topic.len()));
    if !topic_fits || !(1..=32_767).contains(&key.len()) {
        return usage("a topic has 1 to 127 bytes, a key 1 to 32,767");
    }
    let limit = args.number_within("--limit", 1, u64::MAX)?;
    Ok(Asked {
        topic,
        key,
        unique,
        times: times(args, "--from", "--to")?,
        limit: limit.unwrap_or(DEFAULT_LIMIT),
    })
}

/// Asks the indexes, then looks through the part of the log that they do not reach.
fn by_index(args: &Args, search: &mut Search, indexes: &[Index]) -> Result<(), Failure> {
    let topics = match search.asked.topic {
        Some(topic) => BTreeSet::from([topic.to_vec()]),
        None => topics(args, search)?,
    };
    search.topics = topics.len() as u64;
    let indexes = search.within_limits(indexes);
    for index in &indexes {
        search.faults.extend(index.doubt.clone());
    }
    for topic in &topics {
        // Newest first: the names are times.
        let mut left = search.places();
        for index in indexes.iter().rev() {
            let question = Query {
                index: &index.bytes,
                sizes: index.sizes,
                topic,
                key: search.asked.key,
                // All times: where a clock fell or the first time is 0, an item's time is not its record's.
                first_time: 0,
                last_time: crate::time::LAST,
                wanted: 0,
            };
            if left > 0 {
                left -= search.ask(&question, &index.name, left)?;
            }
        }
    }
    search.look_behind(&indexes, &shell::place(args.place().as_os_str().as_bytes()))
}

/// The topics of the store: those of its queues, and those of its log, which is read for them.
fn topics(args: &Args, search: &mut Search) -> Result<BTreeSet<Vec<u8>>, Failure> {
    let on_disk = queues::on_disk(args.place())?.into_iter();
    let mut seen = Seen::default();
    seen.topics.extend(on_disk.map(|queue| queue.topic));
    let log = search.log;
    log.walk_on(log.first(), |met| {
        match met {
            Met::Entry {
                entry: Entry::Record { message, .. },
                ..
            } => seen.add(&message),
            Met::Entry { .. } => {}
            Met::Skipped(skipped) => search.passed_over(&skipped),
        }
        Ok(true)
    })?;
    let mut topics = seen.topics;
    // The archive asks for no other ones; a folder may have any name.
    topics.retain(|topic| (1..=127).contains(&topic.len()) && NoText::of(topic).is_none());
    Ok(topics)
}

/// What may help where the index found nothing.
fn hints_on_index(args: &Args, search: &Search, indexes: &[Index]) -> Result<Vec<String>, Failure> {
    let asked = search.asked;
    let mut hints = Vec::new();
    if !search.found.is_empty() {
        return Ok(hints);
    }
    let place = shown_path(args.place());
    if let Some(topic) = asked.topic {
        let on_disk = queues::on_disk(args.place())?.into_iter();
        let topics: BTreeSet<Vec<u8>> = on_disk.map(|queue| queue.topic).collect();
        if topics.is_empty() {
            hints.push(format!(
                "there are no queues to tell whether the store has topic {}; --scan looks through the log itself",
                shown(topic)
            ));
        } else if !topics.contains(topic) {
            hints.push(wanted::no_topic("consumequeue", topic, &topics));
        }
    }
    let times = indexes
        .iter()
        .filter_map(|index| Bytes(&index.bytes).times());
    let times = times.reduce(|one, other| (one.0.min(other.0), one.1.max(other.1)));
    hints.extend(wanted::outside(&place, asked.times, times));
    Ok(hints)
}

fn print(form: Form, search: &Search, body: bool, hints: &[String]) -> Result<(), Failure> {
    let asked = search.asked;
    let head = match asked.topic {
        Some(topic) => Object::new().bytes("topic", topic),
        None => Object::new().raw("topic", "null"),
    };
    let head = head
        .bytes("key", asked.key)
        .truth("unique", asked.unique)
        .time("from", asked.times.0)
        .time("to", asked.times.1);
    let mut results = Results::start(form, head, "records")?;
    let with = With {
        topic: asked.topic.is_none(),
        body,
    };
    for (number, found) in search.found.iter().enumerate() {
        if !results.is_text() {
            results.add(&record::object(found, body))?;
            continue;
        }
        if number == 0 {
            record::heading(results.text(), with)?;
        }
        record::line(results.text(), found, with)?;
    }
    let tail = Object::new()
        .truth("more", search.more > 0)
        .number("older_than_the_log", search.left_out.older)
        .number("same_hash_only", search.same_hash_only)
        .number("items_read", search.items_read)
        .number("records_read", search.records_read)
        .raw("hints", &strings(hints))
        .raw("limits", &strings(&search.limits))
        .raw("faults", &strings(&search.faults));
    results.end(tail)
}

impl Search<'_> {
    fn tell(&self) {
        let found = counted(self.found.len() as u64, "record", "records");
        let topic = match self.asked.topic {
            Some(topic) => format!(" of topic {}", shown(topic)),
            None => String::new(),
        };
        let among = match self.asked.topic {
            None if self.topics > 0 => {
                format!(" in {}", counted(self.topics, "topic", "topics"))
            }
            _ => String::new(),
        };
        let key = if self.asked.unique {
            "unique key"
        } else {
            "key"
        };
        let items = counted(self.items_read, "item", "items");
        let records = counted(self.records_read, "record", "records");
        let read = match (self.by_index, self.records_read) {
            (true, 0) => format!("{items} of the index read"),
            (true, _) => format!("{items} of the index and {records} of the log read"),
            (false, _) => format!("{records} of the log read"),
        };
        note(&format!(
            "{found}{topic} with {key} {}{among}, newest first; {read}",
            shown(self.asked.key)
        ));
        if self.same_hash_only > 0 {
            let others = counted(self.same_hash_only, "record", "records");
            note(&format!(
                "{others} left out: another key with the same hash"
            ));
        }
        let behind = self.found.iter().filter(|found| found.behind).count() as u64;
        if behind > 0 {
            note(&format!(
                "{} read behind damage",
                counted(behind, "record", "records")
            ));
        }
    }
}
