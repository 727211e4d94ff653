//! A record, and a part of the log that cannot be read, as a line of text and as JSON.

use crate::crc;
use crate::log::{Cause, Log, Skipped};
use crate::text::{array, counted, of_bytes, shown, Object};
use crate::time;
use std::io::{self, Write};
use swistopal::{find_values, Answer, Entry, LogPosition, Message, Values};

/// Text shows a body up to so many bytes; JSON has it whole.
const BODY_SHOWN: usize = 4096;

const BEHIND: &str = "  (behind damage)";

/// What else a line of text has.
#[derive(Clone, Copy)]
pub struct With {
    pub topic: bool,
    pub body: bool,
}

/// The line above records.
pub fn heading(out: &mut impl Write, with: With) -> io::Result<()> {
    let topic = if with.topic { "topic / " } else { "" };
    writeln!(
        out,
        "{:24}  {:13} {:>12} {:>7} {:>5} {:>6}  {topic}tags / keys",
        "time", "milliseconds", "position", "length", "queue", "entry"
    )
}

/// A record that was read.
#[derive(Clone, Copy)]
pub struct Read<'a> {
    pub position: LogPosition,
    pub total: u64,
    pub message: Message<'a>,
    /// Whether damage stands before it.
    pub behind: bool,
}

/// The keys as they are shown: the unique key, then the words of KEYS.
pub fn keys<'a>(values: &Values<'a>) -> impl Iterator<Item = &'a [u8]> {
    let words = values.keys.unwrap_or_default().split(|byte| *byte == b' ');
    let words = words.filter(|word| !word.is_empty());
    values.unique_key.into_iter().chain(words)
}

/// One line for a record: time, position, length, queue, its number there, tags and keys; then the body, if asked for.
pub fn line(out: &mut impl Write, read: &Read, with: With) -> io::Result<()> {
    let message = &read.message;
    let values = find_values(message.properties);
    let keys: Vec<String> = keys(&values).map(shown).collect();
    let keys = if keys.is_empty() {
        String::from("-")
    } else {
        keys.join(" ")
    };
    let topic = if with.topic {
        shown(message.topic) + " / "
    } else {
        String::new()
    };
    let mark = if read.behind { BEHIND } else { "" };
    writeln!(
        out,
        "{:24}  {:<13} {:>12} {:>7} {:>5} {:>6}  {topic}{} / {keys}{mark}",
        time::shown(message.fields.store_time),
        message.fields.store_time,
        read.position.0,
        read.total,
        message.fields.queue_id,
        message.fields.queue_offset.0,
        shown(values.tags.unwrap_or(b"-")),
    )?;
    if with.body {
        let start = &message.body[..message.body.len().min(BODY_SHOWN)];
        writeln!(out, "    {}", shown(start))?;
        if start.len() < message.body.len() {
            let more = message.body.len() - start.len();
            writeln!(out, "    .. and {more} bytes more; --json has them")?;
        }
        if let Some(differs) = checksum_differs(message) {
            writeln!(out, "    ! {differs}")?;
        }
    }
    Ok(())
}

/// How a body does not match the checksum that its record has.
fn checksum_differs(message: &Message) -> Option<String> {
    let (stored, computed) = (message.fields.body_crc, crc::of_body(message.body));
    (stored != computed).then(|| {
        format!("the body does not match its checksum: the record has {stored:08x}, the body gives {computed:08x}")
    })
}

/// The same as a fault.
pub fn checksum_fault(read: &Read) -> Option<String> {
    let differs = checksum_differs(&read.message)?;
    Some(format!("the record at {}: {differs}", read.position.0))
}

/// Why no record is read at a position that an index or a queue names.
pub fn not_read(log: &Log, position: LogPosition, answer: Answer) -> String {
    if (log.first()..log.files_end()).contains(&position) && !log.has(position) {
        String::from("which no file of the log has that can be read")
    } else {
        let end = match position < log.files_end() {
            true => String::new(),
            false => format!("; its files end at {}", log.files_end().0),
        };
        let text = log.bad_text(position, answer);
        let text = text.map_or(String::new(), |text| format!("; {}", text.sentence()));
        let number = answer.number();
        format!("where reading the log answers {number}: {answer}{text}{end}")
    }
}

/// The same as a JSON object.
pub fn object(read: &Read, with_body: bool) -> String {
    let message = &read.message;
    let values = find_values(message.properties);
    let keys: Vec<String> = keys(&values).map(of_bytes).collect();
    let mut object = Object::new()
        .number("position", read.position.0)
        .number("length", read.total)
        .bytes("topic", message.topic)
        .number("queue", message.fields.queue_id)
        .number("entry", message.fields.queue_offset.0)
        .time("time", message.fields.store_time)
        .number("system_flag", message.fields.system_flag);
    object = match values.tags {
        Some(tags) => object.bytes("tags", tags),
        None => object.raw("tags", "null"),
    };
    object = object
        .raw("keys", &array(&keys))
        .truth("behind_damage", read.behind);
    if with_body {
        let sound = checksum_differs(message).is_none();
        object = object
            .bytes("body", message.body)
            .number("body_checksum", message.fields.body_crc)
            .truth("body_checksum_matches", sound);
    }
    object.end()
}

/// Positions that an index or a queue names and that are left out, as they are older than the log or the archive does not
/// read them. None of it is a fault.
#[derive(Default)]
pub struct LeftOut {
    pub older: u64,
    long_hosts: Vec<LogPosition>,
    above: u64,
}

impl LeftOut {
    /// Whether a position where no record is read is one of these.
    pub fn takes(&mut self, log: &Log, position: LogPosition) -> bool {
        if position < log.first() {
            self.older += 1;
        } else if log.is_above_limit(position) {
            self.above += 1;
        } else if log.long_hosts(position).is_some() {
            self.long_hosts.push(position);
        } else {
            return false;
        }
        true
    }

    pub fn add(&mut self, mut other: LeftOut) {
        self.older += other.older;
        self.above += other.above;
        self.long_hosts.append(&mut other.long_hosts);
    }

    /// A sentence for each kind; `one` and `many` say what names the positions.
    pub fn sentences(&self, log: &Log, one: &str, many: &str) -> Vec<String> {
        let mut sentences = Vec::new();
        if self.older > 0 {
            let older = counted(self.older, one, many);
            let LogPosition(first) = log.first();
            sentences.push(format!(
                "{older} older than the log, which starts at {first}"
            ));
        }
        if self.above > 0 {
            let above = counted(self.above, one, many);
            sentences.push(format!(
                "{above} left out: the positions are above 2^40, up to which this tool reads a log; that is no damage"
            ));
        }
        if let Some(first) = self.long_hosts.iter().min() {
            let long = counted(self.long_hosts.len() as u64, one, many);
            sentences.push(format!(
                "{long} left out, the first at position {}: hosts of 20 bytes (IPv6), which this tool does not read; that is no \
                 damage",
                first.0
            ));
        }
        sentences
    }
}

pub fn kind(entry: &Entry) -> &'static str {
    match entry {
        Entry::Record { .. } => "record",
        Entry::Blank { .. } => "blank",
    }
}

/// A part of the log that cannot be read, in the lister's style: position, length, what it is, why.
pub fn skipped_line(skipped: &Skipped) -> String {
    let why = match skipped.why {
        Cause::Answer(answer) => format!("damage {}", answer.number()),
        Cause::Text(_) => format!("damage {}", Answer::Damaged.number()),
        Cause::Zeros => String::from("damage zeros"),
        Cause::NoFile => String::from("damage missing"),
        Cause::LongHosts(records) => format!("long-hosts {records}"),
    };
    format!("{} {} {why}", skipped.from.0, skipped.bytes())
}

/// The same as a JSON object.
pub fn skipped_object(skipped: &Skipped) -> String {
    let object = Object::new()
        .number("position", skipped.from.0)
        .number("length", skipped.bytes())
        .truth("damage", skipped.is_damage());
    let object = match skipped.why {
        Cause::Answer(answer) => object.number("answer", answer.number().into()),
        Cause::Text(text) => {
            let object = object.number("answer", Answer::Damaged.number().into());
            object.raw("no_utf8", &text.object())
        }
        Cause::Zeros => object.truth("zeros", true),
        Cause::NoFile => object.truth("missing", true),
        Cause::LongHosts(records) => object.number("long_hosts", records),
    };
    object.text("sentence", &skipped.sentence()).end()
}

#[cfg(test)]
mod tests {
    use super::*;

    #[test]
    fn keys_are_shown_with_the_unique_one_first() {
        let shown = |properties| {
            keys(&find_values(properties))
                .map(shown)
                .collect::<Vec<_>>()
        };
        let twice = b"UNIQ_KEY\x01a\x02KEYS\x01x  y x\x02UNIQ_KEY\x01u\x02KEYS\x01\x02";
        assert_eq!(shown(twice), ["u", "x", "y", "x"]);
        assert!(shown(b"TAGS\x01t\x02KEYS\x01  ").is_empty());
    }
}
