//! The operations but the report, each through the C interface and through the model, and the comparison of all they
//! leave.

use std::fmt::Display;

use model::interface::{self, Fields, Found, Progress, Record, Sizes};
use model::record::Message;

use crate::archive;
use crate::figures::NeighbourCounts;
use crate::judge::{shown, Check, Judge, ARCHIVE_AND_MODEL};
use crate::lent::{Lent, Twin};
use crate::random::Random;
use crate::requests::RequestCounts;
use crate::trials::TrialCounts;

/// The operations, and the small functions that tell what a record makes.
#[derive(Clone, Copy, Debug, PartialEq, Eq)]
pub enum Operation {
    Append,
    ReadRecord,
    Dispatch,
    ReadQueue,
    Query,
    List,
    Report,
    TagCode,
    MakesEntry,
    ItemCount,
    HasItem,
    FindValues,
    CheckIndex,
}

impl Operation {
    pub const ALL: [Operation; 13] = [
        Operation::Append,
        Operation::ReadRecord,
        Operation::Dispatch,
        Operation::ReadQueue,
        Operation::Query,
        Operation::List,
        Operation::Report,
        Operation::TagCode,
        Operation::MakesEntry,
        Operation::ItemCount,
        Operation::HasItem,
        Operation::FindValues,
        Operation::CheckIndex,
    ];

    pub fn name(self) -> &'static str {
        match self {
            Operation::Append => "append",
            Operation::ReadRecord => "read_record",
            Operation::Dispatch => "dispatch",
            Operation::ReadQueue => "read_queue",
            Operation::Query => "query",
            Operation::List => "list",
            Operation::Report => "report",
            Operation::TagCode => "tag_code",
            Operation::MakesEntry => "makes_entry",
            Operation::ItemCount => "item_count",
            Operation::HasItem => "has_item",
            Operation::FindValues => "find_values",
            Operation::CheckIndex => "check_index",
        }
    }

    /// What the operation can give: the answers of its door checks, its rules' numbers and 0; of a function that has none,
    /// the kinds of number that it gives.
    pub fn outcomes(self) -> &'static [u32] {
        match self {
            Operation::Append => &[0, 1, 2, 5, 6, 7],
            Operation::ReadRecord => &[0, 1, 2, 8, 10],
            Operation::Dispatch => &[0, 1, 2, 3, 4, 8, 9, 10, 11, 12, 13, 14, 15, 16],
            Operation::ReadQueue => &[0, 1, 2, 3, 17],
            Operation::Query => &[0, 1, 4, 16, 17],
            Operation::List => &[0, 1, 10, 17],
            Operation::Report => &[0, 1, 2, 3, 8, 10],
            Operation::TagCode => &[0, 1, 2],
            Operation::MakesEntry => &[0, 1],
            Operation::ItemCount => &[0, 1, 2],
            Operation::HasItem => &[0, 1],
            Operation::FindValues => &[0, 1, 2, 3, 4, 5, 6, 7],
            Operation::CheckIndex => &[0, 1, 4],
        }
    }

    /// An outcome as the report says it.
    pub fn outcome_name(self, outcome: u32) -> &'static str {
        const NUMBERS: [&str; 18] = [
            "0", "1", "2", "3", "4", "5", "6", "7", "8", "9", "10", "11", "12", "13", "14", "15",
            "16", "17",
        ];
        const CODES: [&str; 3] = ["zero", "positive", "negative"];
        const ITEMS: [&str; 3] = ["none", "one", "more"];
        // A bit for each name: TAGS, KEYS, UNIQ_KEY.
        const VALUES: [&str; 8] = ["-", "T", "K", "TK", "U", "TU", "KU", "TKU"];
        let names: &[&str] = match self {
            Operation::TagCode => &CODES,
            Operation::ItemCount => &ITEMS,
            Operation::FindValues => &VALUES,
            _ => &NUMBERS,
        };
        names[outcome as usize]
    }
}

/// How often an operation gave an outcome, how often requests were refused for one fault, how many lists of dispatch calls
/// were tried, how many neighbouring stretches were added up, and how often each kind of text was tried.
#[derive(Clone, Default)]
pub struct Counts {
    pub outcomes: [[u64; 18]; Operation::ALL.len()],
    pub requests: RequestCounts,
    pub lists: ListCounts,
    pub neighbours: NeighbourCounts,
    pub trials: TrialCounts,
}

/// Lists of dispatch calls, by what demand 3 says about them.
#[derive(Clone, Default)]
pub struct ListCounts {
    /// The last call was accepted and did not spend its budget: one call from the start does the same.
    pub one_call: u64,
    /// Otherwise: n steps from the start leave the same.
    pub steps_only: u64,
    pub none_accepted: u64,
    /// Of all these, lists with a refused call before an accepted one.
    pub refused_between: u64,
    pub calls: u64,
    pub steps: u64,
}

impl Counts {
    pub fn add(&mut self, other: &Counts) {
        for (row, other_row) in self.outcomes.iter_mut().zip(&other.outcomes) {
            for (count, other_count) in row.iter_mut().zip(other_row) {
                *count += other_count;
            }
        }
        self.requests.add(&other.requests);
        self.neighbours.add(&other.neighbours);
        self.trials.add(&other.trials);
        let lists = &mut self.lists;
        lists.one_call += other.lists.one_call;
        lists.steps_only += other.lists.steps_only;
        lists.none_accepted += other.lists.none_accepted;
        lists.refused_between += other.lists.refused_between;
        lists.calls += other.lists.calls;
        lists.steps += other.lists.steps;
    }
}

/// The members of the structs that the archive is lent, in the header's order.
pub const SIZES: [&str; 5] = [
    "segment_size",
    "first_position",
    "queue_entries",
    "slot_count",
    "item_count",
];
const FIELDS: [&str; 9] = [
    "body_crc",
    "queue_id",
    "flag",
    "queue_offset",
    "system_flag",
    "born_time",
    "store_time",
    "reconsume_times",
    "prepared_offset",
];
const PROGRESS: [&str; 17] = [
    "position",
    "counts[0]",
    "counts[1]",
    "counts[2]",
    "counts[3]",
    "counts[4]",
    "counts[5]",
    "counts[6]",
    "counts[7]",
    "counts[8]",
    "counts[9]",
    "counts[10]",
    "counts[11]",
    "counts[12]",
    "counts[13]",
    "counts[14]",
    "counts[15]",
];
const RECORD: [&str; 22] = [
    "kind",
    "total",
    "position",
    "fields.body_crc",
    "fields.queue_id",
    "fields.flag",
    "fields.queue_offset",
    "fields.system_flag",
    "fields.born_time",
    "fields.store_time",
    "fields.reconsume_times",
    "fields.prepared_offset",
    "born_host.at",
    "born_host.length",
    "store_host.at",
    "store_host.length",
    "body.at",
    "body.length",
    "topic.at",
    "topic.length",
    "properties.at",
    "properties.length",
];
const FOUND: [&str; 2] = ["positions", "items_read"];

// A struct is lent as its numbers.
const _: () = {
    assert!(size_of::<archive::Sizes>() == 8 * SIZES.len());
    assert!(size_of::<archive::Fields>() == 8 * FIELDS.len());
    assert!(size_of::<archive::Progress>() == 8 * PROGRESS.len());
    assert!(size_of::<archive::Record>() == 8 * RECORD.len());
    assert!(size_of::<archive::Found>() == 8 * FOUND.len());
};

/// The sizes that a call's answer 1 names.
#[derive(Clone, Copy)]
pub enum LookedAt {
    Log,
    Queue,
    Index,
    All,
}

/// What dispatch changes.
#[derive(Clone)]
pub struct State {
    pub progress: Twin<u64>,
    pub queues: Twin<u8>,
    pub index: Twin<u8>,
}

/// What a dispatch call gives apart from that.
#[derive(Clone, Copy)]
pub struct DispatchCall<'a> {
    pub log: &'a Twin<u8>,
    pub sizes: Sizes,
    pub readable_end: u64,
    pub directory: &'a Twin<u8>,
    pub budget: u64,
}

pub struct QueueReading<'a> {
    pub queues: &'a Twin<u8>,
    pub sizes: Sizes,
    pub directory: &'a Twin<u8>,
    pub counts: [u64; 16],
    pub row: u64,
    pub start: u64,
    pub wanted: u64,
    pub tag_given: u32,
    pub tag_code: u64,
    pub places: usize,
}

pub struct Question<'a> {
    pub index: &'a Twin<u8>,
    pub sizes: Sizes,
    pub topic: &'a [u8],
    pub key: &'a [u8],
    pub first_time: u64,
    pub last_time: u64,
    pub wanted: u64,
    pub places: usize,
}

/// What numbers and outputs hold before a call, so that a number left alone is seen.
pub const OLD: u64 = 0x0BAD_0BAD_0BAD_0BAD;

/// Runs the operations of one scenario.
pub struct Bench {
    pub counts: Counts,
    pub number: u64,
    /// Says each operation, and looks for the least budget at which a dispatch differs.
    careful: bool,
    /// Numbers for what a call does not look at.
    noise: Random,
}

impl Bench {
    pub fn new(careful: bool, noise: Random) -> Bench {
        Bench {
            counts: Counts::default(),
            number: 0,
            careful,
            noise,
        }
    }

    /// A number that the call does not look at: mostly another one than is meant.
    fn unseen(&self, meant: u64) -> u64 {
        match self.noise.below(4) {
            0 => meant,
            1 => self.noise.next(),
            _ => self.noise.absurd(),
        }
    }

    /// The sizes, with any number in those that the call does not look at.
    pub fn sizes(&self, meant: &Sizes, looked_at: LookedAt) -> Sizes {
        let any = Sizes {
            segment_size: self.unseen(meant.segment_size),
            first_position: self.unseen(meant.first_position),
            queue_entries: self.unseen(meant.queue_entries),
            slot_count: self.unseen(meant.slot_count),
            item_count: self.unseen(meant.item_count),
        };
        match looked_at {
            LookedAt::Log => Sizes {
                segment_size: meant.segment_size,
                first_position: meant.first_position,
                ..any
            },
            LookedAt::Queue => Sizes {
                queue_entries: meant.queue_entries,
                ..any
            },
            LookedAt::Index => Sizes {
                slot_count: meant.slot_count,
                item_count: meant.item_count,
                ..any
            },
            LookedAt::All => *meant,
        }
    }

    /// Compares the answers and counts them.
    pub fn answered(&mut self, judge: &Judge, archive: u32, model: u32) -> Check<()> {
        judge.same("answer", archive, model)?;
        self.came_to(judge, archive, || format!("answers {archive}"))
    }

    /// Counts an outcome that both sides agree in.
    pub fn came_to(
        &mut self,
        judge: &Judge,
        outcome: u32,
        said: impl FnOnce() -> String,
    ) -> Check<()> {
        if !judge.operation.outcomes().contains(&outcome) {
            return judge.difference("answer", outcome, "not one that the operation can give");
        }
        self.counts.outcomes[judge.operation as usize][outcome as usize] += 1;
        if self.careful {
            println!("{:>4}. {}", judge.number, (judge.call)());
            println!("      {} {}", judge.operation.name(), said());
        }
        Ok(())
    }

    /// Append. The write position moves as the answer says.
    pub fn append(
        &mut self,
        log: &mut Twin<u8>,
        sizes: &Sizes,
        message: &Message,
        write_position: &mut u64,
    ) -> Check<u32> {
        self.number += 1;
        let w = *write_position;
        let log_length = log.len();
        let sizes = self.sizes(sizes, LookedAt::Log);
        let fields = Fields::of(message);
        let describe = || {
            format!(
                "append at W {w}, {sizes:?}, log of {log_length} bytes: {fields:?}, born_host {}, store_host {}, body of {} bytes, \
                 topic {}, properties {}",
                shown(message.born_host),
                shown(message.store_host),
                message.body.len(),
                shown(message.topic),
                shown(message.properties)
            )
        };
        let judge = Judge {
            operation: Operation::Append,
            number: self.number,
            sides: ARCHIVE_AND_MODEL,
            call: &describe,
        };
        let lent_sizes = Lent::new(&sizes.numbers());
        let lent_fields = Lent::new(&fields.numbers());
        let born_host = Lent::new(message.born_host);
        let store_host = Lent::new(message.store_host);
        let body = Lent::new(message.body);
        let topic = Lent::new(message.topic);
        let properties = Lent::new(message.properties);
        let mut archive_w = Lent::new(&[w]);
        // SAFETY: every pointer comes with its length, none is null, a struct is its numbers, and no two buffers overlap.
        let archive = unsafe {
            archive::swistopal_append(
                log.archive.pointer_mut(),
                log.archive.len(),
                lent_sizes.pointer().cast(),
                lent_fields.pointer().cast(),
                born_host.pointer(),
                born_host.len(),
                store_host.pointer(),
                store_host.len(),
                body.pointer(),
                body.len(),
                topic.pointer(),
                topic.len(),
                properties.pointer(),
                properties.len(),
                archive_w.pointer_mut(),
            )
        };
        let mut model_w = w;
        let model = judge.model(|| {
            interface::append(
                &mut log.model,
                &sizes,
                &fields,
                message.born_host,
                message.store_host,
                message.body,
                message.topic,
                message.properties,
                &mut model_w,
            )
        })?;
        self.answered(&judge, archive, model)?;
        judge.same_cells("write_position", &archive_w, &[model_w])?;
        judge.same_cells("log", &log.archive, &log.model)?;
        judge.same_members("sizes", &SIZES, &lent_sizes, &sizes.numbers())?;
        judge.same_members("fields", &FIELDS, &lent_fields, &fields.numbers())?;
        judge.same_cells("born_host", &born_host, message.born_host)?;
        judge.same_cells("store_host", &store_host, message.store_host)?;
        judge.same_cells("body", &body, message.body)?;
        judge.same_cells("topic", &topic, message.topic)?;
        judge.same_cells("properties", &properties, message.properties)?;
        *write_position = model_w;
        Ok(archive)
    }

    /// Record reading: the answer, and what stands at the position.
    pub fn read_record(
        &mut self,
        log: &Twin<u8>,
        sizes: &Sizes,
        position: u64,
        readable_end: u64,
    ) -> Check<(u32, Record)> {
        self.number += 1;
        let sizes = self.sizes(sizes, LookedAt::Log);
        let describe = || {
            format!(
                "read_record at {position} below {readable_end}, {sizes:?}, log of {} bytes",
                log.len()
            )
        };
        let judge = Judge {
            operation: Operation::ReadRecord,
            number: self.number,
            sides: ARCHIVE_AND_MODEL,
            call: &describe,
        };
        let lent_sizes = Lent::new(&sizes.numbers());
        let mut archive_record = Lent::new(&[OLD; 22]);
        // SAFETY: every pointer comes with its length, none is null, a struct is its numbers, and no two buffers overlap.
        let archive = unsafe {
            archive::swistopal_read_record(
                log.archive.pointer(),
                log.archive.len(),
                lent_sizes.pointer().cast(),
                position,
                readable_end,
                archive_record.pointer_mut().cast(),
            )
        };
        let mut record = old_record();
        let model = judge.model(|| {
            interface::read_record(&log.model, &sizes, position, readable_end, &mut record)
        })?;
        self.answered(&judge, archive, model)?;
        judge.same_members("record", &RECORD, &archive_record, &record.numbers())?;
        judge.same_members("sizes", &SIZES, &lent_sizes, &sizes.numbers())?;
        judge.same_cells("log", &log.archive, &log.model)?;
        Ok((archive, record))
    }

    /// Dispatch: the answer and the steps.
    pub fn dispatch(&mut self, call: &DispatchCall, state: &mut State) -> Check<(u32, u64)> {
        if !self.careful {
            return self.dispatch_once(call, state);
        }
        let before = state.clone();
        self.dispatch_once(call, state).map_err(|mut difference| {
            difference.note = self.least_budget(call, &before);
            difference
        })
    }

    /// The least budget at which the same call differs.
    fn least_budget(&self, call: &DispatchCall, before: &State) -> Option<String> {
        let mut quiet = Bench::new(false, Random::of_scenario(0, 0));
        for budget in 0..call.budget.min(1_000) {
            let shorter = DispatchCall { budget, ..*call };
            if let Err(difference) = quiet.dispatch_once(&shorter, &mut before.clone()) {
                let [(_, archive), (_, model)] = &difference.sides;
                return Some(format!(
                    "with a budget of {budget} it differs too: {} is {archive} in the archive and {model} in the model",
                    difference.field
                ));
            }
        }
        None
    }

    fn dispatch_once(&mut self, call: &DispatchCall, state: &mut State) -> Check<(u32, u64)> {
        self.number += 1;
        let sizes = self.sizes(&call.sizes, LookedAt::All);
        let given = state.progress.get().to_vec();
        let (queues_length, index_length) = (state.queues.len(), state.index.len());
        let describe = || {
            format!(
                "dispatch from {} to {} with budget {}, {sizes:?}, log of {} bytes, counts {:?}, directory {}, queues of \
                 {queues_length} bytes, index of {index_length} bytes",
                given[0],
                call.readable_end,
                call.budget,
                call.log.len(),
                &given[1..],
                shown(call.directory.get())
            )
        };
        let judge = Judge {
            operation: Operation::Dispatch,
            number: self.number,
            sides: ARCHIVE_AND_MODEL,
            call: &describe,
        };
        let lent_sizes = Lent::new(&sizes.numbers());
        let mut archive_steps = Lent::new(&[OLD]);
        // SAFETY: every pointer comes with its length, none is null, a struct is its numbers, and no two buffers overlap.
        let archive = unsafe {
            archive::swistopal_dispatch(
                call.log.archive.pointer(),
                call.log.archive.len(),
                call.readable_end,
                lent_sizes.pointer().cast(),
                call.directory.archive.pointer(),
                call.directory.archive.len(),
                state.queues.archive.pointer_mut(),
                queues_length,
                state.index.archive.pointer_mut(),
                index_length,
                call.budget,
                state.progress.archive.pointer_mut().cast(),
                archive_steps.pointer_mut(),
            )
        };
        let given = given.as_slice().try_into().expect("17 numbers");
        let mut progress = Progress::from_numbers(given);
        let mut steps = OLD;
        let model = judge.model(|| {
            interface::dispatch(
                &call.log.model,
                call.readable_end,
                &sizes,
                &call.directory.model,
                &mut state.queues.model,
                &mut state.index.model,
                call.budget,
                &mut progress,
                &mut steps,
            )
        })?;
        let progress = progress.numbers();
        state.progress.model.copy_from_slice(&progress);
        self.answered(&judge, archive, model)?;
        judge.same_cells("steps", &archive_steps, &[steps])?;
        judge.same_members("progress", &PROGRESS, &state.progress.archive, &progress)?;
        judge.same_cells("queues", &state.queues.archive, &state.queues.model)?;
        judge.same_cells("files", &state.index.archive, &state.index.model)?;
        judge.same_members("sizes", &SIZES, &lent_sizes, &sizes.numbers())?;
        judge.same_cells("log", &call.log.archive, &call.log.model)?;
        judge.same_cells("directory", &call.directory.archive, &call.directory.model)?;
        Ok((archive, steps))
    }

    /// Queue reading: the answer and the number found.
    pub fn read_queue(&mut self, reading: &QueueReading) -> Check<(u32, u64)> {
        self.number += 1;
        let sizes = self.sizes(&reading.sizes, LookedAt::Queue);
        let progress = Progress {
            position: self.noise.absurd(),
            counts: reading.counts,
        };
        let describe = || {
            format!(
                "read_queue of row {} from {} wanted {} into {} places, tag_given {}, tag_code {:#x}, {sizes:?}, {progress:?}, \
                 directory {}, queues of {} bytes",
                reading.row,
                reading.start,
                reading.wanted,
                reading.places,
                reading.tag_given,
                reading.tag_code,
                shown(reading.directory.get()),
                reading.queues.len()
            )
        };
        let judge = Judge {
            operation: Operation::ReadQueue,
            number: self.number,
            sides: ARCHIVE_AND_MODEL,
            call: &describe,
        };
        let mut out = vec![OLD; reading.places];
        let mut archive_out = Lent::new(&out);
        let mut archive_found = Lent::new(&[OLD]);
        let lent_sizes = Lent::new(&sizes.numbers());
        let lent_progress = Lent::new(&progress.numbers());
        // SAFETY: every pointer comes with its length, none is null, a struct is its numbers, and no two buffers overlap.
        let archive = unsafe {
            archive::swistopal_read_queue(
                reading.queues.archive.pointer(),
                reading.queues.archive.len(),
                lent_sizes.pointer().cast(),
                reading.directory.archive.pointer(),
                reading.directory.archive.len(),
                lent_progress.pointer().cast(),
                reading.row,
                reading.start,
                reading.wanted,
                reading.tag_given,
                reading.tag_code,
                archive_out.pointer_mut(),
                archive_out.len(),
                archive_found.pointer_mut(),
            )
        };
        let mut found = OLD;
        let model = judge.model(|| {
            interface::read_queue(
                &reading.queues.model,
                &sizes,
                &reading.directory.model,
                &progress,
                reading.row,
                reading.start,
                reading.wanted,
                reading.tag_given,
                reading.tag_code,
                &mut out,
                &mut found,
            )
        })?;
        self.answered(&judge, archive, model)?;
        judge.same_cells("found", &archive_found, &[found])?;
        judge.same_cells("out", &archive_out, &out)?;
        judge.same_members("sizes", &SIZES, &lent_sizes, &sizes.numbers())?;
        judge.same_members("progress", &PROGRESS, &lent_progress, &progress.numbers())?;
        judge.same_cells("queues", &reading.queues.archive, &reading.queues.model)?;
        judge.same_cells(
            "directory",
            &reading.directory.archive,
            &reading.directory.model,
        )?;
        Ok((archive, found))
    }

    /// Query: the answer, and the positions found and items read.
    pub fn query(&mut self, question: &Question) -> Check<(u32, Found)> {
        self.number += 1;
        let sizes = self.sizes(&question.sizes, LookedAt::Index);
        let describe = || {
            format!(
                "query of topic {}, key {}, times {} to {}, wanted {} into {} places, {sizes:?}, index of {} bytes",
                shown(question.topic),
                shown(question.key),
                question.first_time,
                question.last_time,
                question.wanted,
                question.places,
                question.index.len()
            )
        };
        let judge = Judge {
            operation: Operation::Query,
            number: self.number,
            sides: ARCHIVE_AND_MODEL,
            call: &describe,
        };
        let mut out = vec![OLD; question.places];
        let mut archive_out = Lent::new(&out);
        let mut archive_found = Lent::new(&[OLD; 2]);
        let lent_sizes = Lent::new(&sizes.numbers());
        let topic = Lent::new(question.topic);
        let key = Lent::new(question.key);
        // SAFETY: every pointer comes with its length, none is null, a struct is its numbers, and no two buffers overlap.
        let archive = unsafe {
            archive::swistopal_query(
                question.index.archive.pointer(),
                question.index.archive.len(),
                lent_sizes.pointer().cast(),
                topic.pointer(),
                topic.len(),
                key.pointer(),
                key.len(),
                question.first_time,
                question.last_time,
                question.wanted,
                archive_out.pointer_mut(),
                archive_out.len(),
                archive_found.pointer_mut().cast(),
            )
        };
        let mut found = Found {
            positions: OLD,
            items_read: OLD,
        };
        let model = judge.model(|| {
            interface::query(
                &question.index.model,
                &sizes,
                question.topic,
                question.key,
                question.first_time,
                question.last_time,
                question.wanted,
                &mut out,
                &mut found,
            )
        })?;
        self.answered(&judge, archive, model)?;
        judge.same_members("found", &FOUND, &archive_found, &found.numbers())?;
        judge.same_cells("out", &archive_out, &out)?;
        judge.same_members("sizes", &SIZES, &lent_sizes, &sizes.numbers())?;
        judge.same_cells("topic", &topic, question.topic)?;
        judge.same_cells("key", &key, question.key)?;
        judge.same_cells("index", &question.index.archive, &question.index.model)?;
        Ok((archive, found))
    }

    /// The lister: the answer.
    pub fn list(&mut self, segment: &[u8], text_length: usize) -> Check<u32> {
        self.number += 1;
        let describe = || format!("list of {} bytes into {text_length} bytes", segment.len());
        let judge = Judge {
            operation: Operation::List,
            number: self.number,
            sides: ARCHIVE_AND_MODEL,
            call: &describe,
        };
        let lent_segment = Lent::new(segment);
        let mut text = vec![b'~'; text_length];
        let mut archive_text = Lent::new(&text);
        let mut archive_written = Lent::new(&[OLD]);
        // SAFETY: every pointer comes with its length, none is null, and no two buffers overlap.
        let archive = unsafe {
            archive::swistopal_list(
                lent_segment.pointer(),
                lent_segment.len(),
                archive_text.pointer_mut(),
                archive_text.len(),
                archive_written.pointer_mut(),
            )
        };
        let mut written = OLD;
        let model = judge.model(|| interface::list(segment, &mut text, &mut written))?;
        self.answered(&judge, archive, model)?;
        judge.same_cells("written", &archive_written, &[written])?;
        judge.same_cells("text", &archive_text, &text)?;
        judge.same_cells("segment", &lent_segment, segment)?;
        Ok(archive)
    }

    /// What the archive alone did against what is known.
    pub fn expect<T: PartialEq + Display>(
        &self,
        operation: Operation,
        call: &str,
        field: &str,
        archive: T,
        expected: T,
    ) -> Check<()> {
        let describe = || call.to_string();
        let judge = Judge {
            operation,
            number: self.number,
            sides: ["archive", "expected"],
            call: &describe,
        };
        judge.same(field, archive, expected)
    }

    /// Demand 3 on the archive alone: what a list of calls left, and what one call from its start leaves.
    pub fn same_end(
        &self,
        call: &str,
        list: (u32, u64, &State),
        one_call: (u32, u64, &State),
    ) -> Check<()> {
        let describe = || call.to_string();
        let judge = Judge {
            operation: Operation::Dispatch,
            number: self.number,
            sides: ["one call", "list"],
            call: &describe,
        };
        judge.same("answer", one_call.0, list.0)?;
        judge.same("steps", one_call.1, list.1)?;
        let (one_call, list) = (one_call.2, list.2);
        let content = list.progress.archive.content();
        judge.same_members("progress", &PROGRESS, &one_call.progress.archive, content)?;
        let content = list.queues.archive.content();
        judge.same_cells("queues", &one_call.queues.archive, content)?;
        let content = list.index.archive.content();
        judge.same_cells("files", &one_call.index.archive, content)
    }
}

/// What a record holds before it is read, in the model: as the archive is lent it.
fn old_record() -> Record {
    let place = interface::Place {
        at: OLD,
        length: OLD,
    };
    Record {
        kind: OLD,
        total: OLD,
        position: OLD,
        fields: Fields {
            body_crc: OLD,
            queue_id: OLD,
            flag: OLD,
            queue_offset: OLD,
            system_flag: OLD,
            born_time: OLD,
            store_time: OLD,
            reconsume_times: OLD,
            prepared_offset: OLD,
        },
        born_host: place,
        store_host: place,
        body: place,
        topic: place,
        properties: place,
    }
}
