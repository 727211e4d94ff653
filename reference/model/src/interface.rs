//! The operations as the C interface has them (include/swistopal.h): its names, its order of arguments, its structs. A
//! slice stands for a pointer and a length, `&mut` for a pointer to what is written.

// The order and number of arguments are the interface's.
#![allow(clippy::too_many_arguments)]

use crate::commit_log::{self, Entry};
use crate::consume_queue::{self, QueueRequest};
use crate::dispatch::{self, Call, State};
use crate::hash;
use crate::index_file::{self, Question};
use crate::lister;
use crate::number::{self, LogPosition, QueuePlace};
use crate::properties;
use crate::record::{self, Message};
use crate::report;
use crate::sizes::{IndexShape, LogShape};
use crate::Answer;

/// "The sizes of a store. A call looks only at those that its answer 1 names."
#[derive(Clone, Copy, Debug, Default, PartialEq, Eq)]
pub struct Sizes {
    pub segment_size: u64,
    pub first_position: u64,
    pub queue_entries: u64,
    pub slot_count: u64,
    pub item_count: u64,
}

impl Sizes {
    /// The members, in the header's order.
    pub fn numbers(&self) -> [u64; 5] {
        [
            self.segment_size,
            self.first_position,
            self.queue_entries,
            self.slot_count,
            self.item_count,
        ]
    }

    fn log_shape(&self) -> LogShape {
        LogShape {
            segment_size: self.segment_size,
            first_position: self.first_position,
        }
    }

    fn index_shape(&self) -> IndexShape {
        IndexShape {
            slot_count: self.slot_count,
            item_count: self.item_count,
        }
    }
}

/// "How far dispatch has come: the next log position, and the entry counts of the directory's rows 0 to 15."
#[derive(Clone, Copy, Debug, Default, PartialEq, Eq)]
pub struct Progress {
    pub position: u64,
    pub counts: [u64; 16],
}

impl Progress {
    /// The members, in the header's order.
    pub fn numbers(&self) -> [u64; 17] {
        let mut numbers = [0; 17];
        numbers[0] = self.position;
        numbers[1..].copy_from_slice(&self.counts);
        numbers
    }

    pub fn from_numbers(numbers: &[u64; 17]) -> Progress {
        let mut counts = [0; 16];
        counts.copy_from_slice(&numbers[1..]);
        Progress {
            position: numbers[0],
            counts,
        }
    }
}

impl From<Progress> for dispatch::Progress {
    fn from(progress: Progress) -> dispatch::Progress {
        dispatch::Progress {
            position: LogPosition(progress.position),
            counts: progress.counts.map(QueuePlace),
        }
    }
}

impl From<dispatch::Progress> for Progress {
    fn from(progress: dispatch::Progress) -> Progress {
        Progress {
            position: progress.position.0,
            counts: progress.counts.map(|count| count.0),
        }
    }
}

/// "The numbers of a record that its sender or the broker chose. A record keeps body_crc, queue_id, flag, system_flag and
/// reconsume_times in 4 bytes."
#[derive(Clone, Copy, Debug, Default, PartialEq, Eq)]
pub struct Fields {
    pub body_crc: u64,
    pub queue_id: u64,
    pub flag: u64,
    pub queue_offset: u64,
    pub system_flag: u64,
    pub born_time: u64,
    pub store_time: u64,
    pub reconsume_times: u64,
    pub prepared_offset: u64,
}

impl Fields {
    /// The members, in the header's order.
    pub fn numbers(&self) -> [u64; 9] {
        [
            self.body_crc,
            self.queue_id,
            self.flag,
            self.queue_offset,
            self.system_flag,
            self.born_time,
            self.store_time,
            self.reconsume_times,
            self.prepared_offset,
        ]
    }

    pub fn of(message: &Message) -> Fields {
        Fields {
            body_crc: message.body_crc,
            queue_id: message.queue_id,
            flag: message.flag,
            queue_offset: message.queue_offset,
            system_flag: message.system_flag,
            born_time: message.born_time,
            store_time: message.store_time,
            reconsume_times: message.reconsume_times,
            prepared_offset: message.prepared_offset,
        }
    }
}

/// "A run of bytes."
#[derive(Clone, Copy, Debug, Default, PartialEq, Eq)]
pub struct Place {
    pub at: u64,
    pub length: u64,
}

impl From<number::Place> for Place {
    fn from(place: number::Place) -> Place {
        Place {
            at: place.at as u64,
            length: place.length as u64,
        }
    }
}

/// "Kinds of a swistopal_record."
pub const RECORD: u64 = 1;
pub const BLANK: u64 = 2;

/// "What stands at a log position. Places count from the record's first byte; an empty part is where it would stand."
#[derive(Clone, Copy, Debug, Default, PartialEq, Eq)]
pub struct Record {
    /// "SWISTOPAL_RECORD or SWISTOPAL_BLANK; 0 on every answer but 0"
    pub kind: u64,
    /// "of the record or the blank"
    pub total: u64,
    /// "the record's own log position field"
    pub position: u64,
    pub fields: Fields,
    pub born_host: Place,
    pub store_host: Place,
    pub body: Place,
    pub topic: Place,
    pub properties: Place,
}

impl Record {
    /// The members, in the header's order.
    pub fn numbers(&self) -> [u64; 22] {
        let mut numbers = [0; 22];
        numbers[0] = self.kind;
        numbers[1] = self.total;
        numbers[2] = self.position;
        numbers[3..12].copy_from_slice(&self.fields.numbers());
        let places = [
            self.born_host,
            self.store_host,
            self.body,
            self.topic,
            self.properties,
        ];
        for (pair, place) in numbers[12..].chunks_mut(2).zip(places) {
            pair.copy_from_slice(&[place.at, place.length]);
        }
        numbers
    }

    fn of(record: &record::Record) -> Record {
        Record {
            kind: RECORD,
            total: record.total as u64,
            position: record.log_position.0,
            fields: Fields::of(&record.message),
            born_host: record.places.born_host.into(),
            store_host: record.places.store_host.into(),
            body: record.places.body.into(),
            topic: record.places.topic.into(),
            properties: record.places.properties.into(),
        }
    }
}

/// "What a query found: so many positions stand at the start of the output, and so many items were read."
#[derive(Clone, Copy, Debug, Default, PartialEq, Eq)]
pub struct Found {
    pub positions: u64,
    pub items_read: u64,
}

impl Found {
    /// The members, in the header's order.
    pub fn numbers(&self) -> [u64; 2] {
        [self.positions, self.items_read]
    }
}

/// "Where the three values that matter stand in a record's properties; length 0 where there is none."
#[derive(Clone, Copy, Debug, Default, PartialEq, Eq)]
pub struct Values {
    pub tags: Place,
    pub keys: Place,
    pub unique_key: Place,
}

impl Values {
    /// The members, in the header's order.
    pub fn numbers(&self) -> [u64; 6] {
        let [tags, keys, unique_key] = [self.tags, self.keys, self.unique_key];
        [
            tags.at,
            tags.length,
            keys.at,
            keys.length,
            unique_key.at,
            unique_key.length,
        ]
    }
}

/// "Figures of the log from position to readable_end." "Rows that the directory does not have are 0."
#[derive(Clone, Copy, Debug, Default, PartialEq, Eq)]
pub struct Figures {
    pub records: u64,
    pub blanks: u64,
    pub body_bytes: u64,
    pub smallest: u64,
    pub largest: u64,
    /// "records of any type"
    pub rows: [u64; 16],
    pub unlisted: u64,
    pub none: u64,
    pub prepared: u64,
    pub commit: u64,
    pub rollback: u64,
    pub items: u64,
}

impl Figures {
    /// The members, in the header's order.
    pub fn numbers(&self) -> [u64; 27] {
        let mut numbers = [0; 27];
        numbers[..5].copy_from_slice(&[
            self.records,
            self.blanks,
            self.body_bytes,
            self.smallest,
            self.largest,
        ]);
        numbers[5..21].copy_from_slice(&self.rows);
        numbers[21..].copy_from_slice(&[
            self.unlisted,
            self.none,
            self.prepared,
            self.commit,
            self.rollback,
            self.items,
        ]);
        numbers
    }
}

impl From<report::Figures> for Figures {
    fn from(figures: report::Figures) -> Figures {
        Figures {
            records: figures.records as u64,
            blanks: figures.blanks as u64,
            body_bytes: figures.body_bytes as u64,
            smallest: figures.smallest as u64,
            largest: figures.largest as u64,
            rows: figures.rows.map(|records| records as u64),
            unlisted: figures.unlisted as u64,
            none: figures.none as u64,
            prepared: figures.prepared as u64,
            commit: figures.commit as u64,
            rollback: figures.rollback as u64,
            items: figures.items as u64,
        }
    }
}

/// "Append one record at *write_position."
pub fn append(
    log: &mut [u8],
    sizes: &Sizes,
    fields: &Fields,
    born_host: &[u8],
    store_host: &[u8],
    body: &[u8],
    topic: &[u8],
    properties: &[u8],
    write_position: &mut u64,
) -> u32 {
    let message = Message {
        body_crc: fields.body_crc,
        queue_id: fields.queue_id,
        flag: fields.flag,
        queue_offset: fields.queue_offset,
        system_flag: fields.system_flag,
        born_time: fields.born_time,
        born_host,
        store_time: fields.store_time,
        store_host,
        reconsume_times: fields.reconsume_times,
        prepared_offset: fields.prepared_offset,
        body,
        topic,
        properties,
    };
    let w = LogPosition(*write_position);
    let appended = commit_log::append(log, sizes.log_shape(), &message, w);
    *write_position = appended.write_position.0;
    appended.answer.number()
}

/// "Read what stands at position: a record or a blank."
pub fn read_record(
    log: &[u8],
    sizes: &Sizes,
    position: u64,
    readable_end: u64,
    record: &mut Record,
) -> u32 {
    let (p, e) = (LogPosition(position), LogPosition(readable_end));
    let reading = commit_log::read_record(log, sizes.log_shape(), p, e);
    *record = match reading.entry {
        // "On 1, 2, 8 and 10 all of *record is 0."
        None => Record::default(),
        // "of a blank all but kind and total are 0"
        Some(Entry::Blank { r }) => Record {
            kind: BLANK,
            total: r as u64,
            ..Record::default()
        },
        Some(Entry::Record(read)) => Record::of(&read),
    };
    reading.answer.number()
}

/// "Dispatch records from progress->position on to their queues and to the index, one step for each record or blank, at
/// most budget steps. files is the index file."
pub fn dispatch(
    log: &[u8],
    readable_end: u64,
    sizes: &Sizes,
    directory: &[u8],
    queues: &mut [u8],
    files: &mut [u8],
    budget: u64,
    progress: &mut Progress,
    steps: &mut u64,
) -> u32 {
    let call = Call {
        log,
        log_shape: sizes.log_shape(),
        readable_end: LogPosition(readable_end),
        directory,
        queue_entries: sizes.queue_entries,
        index_shape: sizes.index_shape(),
        budget,
    };
    let mut state = State {
        progress: (*progress).into(),
        queues: queues.to_vec(),
        index: files.to_vec(),
    };
    let dispatched = dispatch::dispatch(&call, &mut state);
    *progress = state.progress.into();
    queues.copy_from_slice(&state.queues);
    files.copy_from_slice(&state.index);
    *steps = dispatched.steps;
    dispatched.answer.number()
}

/// "Read log positions from a queue". "tag_given 0: every entry; anything else: those with tag_code." "Of progress only
/// the counts are looked at."
pub fn read_queue(
    queues: &[u8],
    sizes: &Sizes,
    directory: &[u8],
    progress: &Progress,
    row: u64,
    start: u64,
    wanted: u64,
    tag_given: u32,
    tag_code: u64,
    out: &mut [u64],
    found: &mut u64,
) -> u32 {
    let request = QueueRequest {
        counts: progress.counts.map(QueuePlace),
        row,
        start: QueuePlace(start),
        wanted,
        tag_code: if tag_given == 0 { None } else { Some(tag_code) },
    };
    let read = consume_queue::read_queue(queues, sizes.queue_entries, directory, &request, out);
    *found = read.found;
    read.answer.number()
}

/// "Query one index file".
pub fn query(
    index: &[u8],
    sizes: &Sizes,
    topic: &[u8],
    key: &[u8],
    first_time: u64,
    last_time: u64,
    wanted: u64,
    out: &mut [u64],
    found: &mut Found,
) -> u32 {
    let question = Question {
        topic,
        key,
        first_time,
        last_time,
        wanted,
    };
    let queried = index_file::query(index, sizes.index_shape(), &question, out);
    *found = Found {
        positions: queried.found,
        items_read: queried.read,
    };
    queried.answer.number()
}

/// "List one segment as text".
pub fn list(segment: &[u8], text: &mut [u8], written: &mut u64) -> u32 {
    // "text_len is below 65,536: *written is 0, text is unchanged"
    if text.len() < 65_536 {
        *written = 0;
        return Answer::Malformed.number();
    }
    let listing = lister::list(segment);
    // "On 1, 10 and 0 *written is the text's length; text past it is unchanged."
    text[..listing.text.len()].copy_from_slice(listing.text.as_bytes());
    *written = listing.text.len() as u64;
    listing.answer.number()
}

/// "The answer is 1, 3 or 2 with every figure 0, or the number that the report stopped with (0, 8, 10); a stop keeps the
/// figures of what stands before it."
pub fn report(
    log: &[u8],
    sizes: &Sizes,
    position: u64,
    readable_end: u64,
    directory: &[u8],
    figures: &mut Figures,
) -> u32 {
    let (p, e) = (LogPosition(position), LogPosition(readable_end));
    let report = report::report(log, sizes.log_shape(), p, e, directory);
    *figures = report.figures.into();
    report.answer.number()
}

// "None of these has an answer: the number returned is the thing itself, 1 and 0 are yes and no."

/// "A tag's code, as a queue entry holds it." Of bytes that are not UTF-8, which no tag of a sound record is, the code of
/// the characters before the first place where none stands ([`crate::utf8::units`]).
pub fn tag_code(tag: &[u8]) -> u64 {
    // Signed numbers are passed as their bit patterns.
    hash::tag_code(tag) as i64 as u64
}

/// "Whether a record with this system flag makes a queue entry."
pub fn makes_entry(system_flag: u64) -> u32 {
    u32::from(dispatch::makes(system_flag).entry)
}

/// "How many index items a record with this system flag and these properties makes."
pub fn item_count(system_flag: u64, properties: &[u8]) -> u64 {
    dispatch::item_keys(system_flag, properties).len() as u64
}

/// "Whether a topic and key are among the items of a record with this system flag, topic and properties."
pub fn has_item(
    system_flag: u64,
    record_topic: &[u8],
    properties: &[u8],
    topic: &[u8],
    key: &[u8],
) -> u32 {
    u32::from(dispatch::has_item(
        system_flag,
        record_topic,
        properties,
        topic,
        key,
    ))
}

/// "Where the values of TAGS, KEYS and UNIQ_KEY stand in a record's properties: of each name the last pair."
pub fn find_values(properties: &[u8], values: &mut Values) {
    let found = properties::values(properties);
    let place = |value: Option<number::Place>| value.map_or(Place::default(), Place::from);
    *values = Values {
        tags: place(found.tags),
        keys: place(found.keys),
        unique_key: place(found.unique_key),
    };
}

/// "Whether an index file has its length and a sound header: 1 for K, N or index_len, 4 for the header, 0 for neither."
pub fn check_index(index: &[u8], sizes: &Sizes) -> u32 {
    match index_file::check(index, sizes.index_shape()) {
        Ok(()) => Answer::Done.number(),
        Err(answer) => answer.number(),
    }
}
