//! Dispatch that reads some records ahead, so that the cache misses of their slots overlap, and that looks at 16 bytes of
//! the properties at a time. Reading ahead changes no byte and no answer: the log is only read, and each record is judged
//! in its turn.

use super::answer;
use super::blocks::{each, Space};
use super::bytes::{be32, be64};
use super::dispatch::{call, duties, Job, Lent};
use super::hash;
use super::properties::Values;
use super::record::{Entry, Record, Text};
use super::text::OnePass;
use crate::archive::{Progress, Sizes};
use std::arch::x86_64::{_mm_prefetch, _MM_HINT_T0};

/// Records read before the first of them is filed.
const RECORDS: usize = 16;

/// Items whose hashes are kept; a record with more has them made again.
const KEPT: usize = 4;

/// A record or blank that was read.
#[derive(Clone, Copy, Default)]
struct Read<'a> {
    total: u64,
    is_record: bool,
    makes_entry: bool,
    row: Option<u8>,
    prefix: u32,
    queue_offset: u64,
    tag_code: u64,
    store_time: u64,
    values: Values<'a>,
    items: usize,
    kept: [(u32, u32); KEPT],
}

/// Calls `visit` with the unique key and each part of KEYS.
#[inline(always)]
fn each_key<'a>(values: &Values<'a>, mut visit: impl FnMut(&'a [u8])) {
    if !values.unique_key.is_empty() {
        visit(values.unique_key);
    }
    let keys = values.keys;
    let mut start = 0;
    each::<Space>(keys, |i| {
        if i > start {
            visit(&keys[start..i]);
        }
        start = i + 1;
    });
    if keys.len() > start {
        visit(&keys[start..]);
    }
}

#[inline(always)]
fn read_record<'a>(job: &Job<'a>, record: &Record<'a>, read: &mut Read<'a>) -> Result<(), u32> {
    let Text {
        topic,
        topic_ascii,
        values,
    } = record.text::<OnePass>()?;
    let head = record.head();
    let (makes_entry, makes_items) = duties(be32(head, 36));
    read.total = record.own.len() as u64;
    read.is_record = true;
    read.makes_entry = makes_entry;
    read.queue_offset = be64(head, 20);
    read.store_time = be64(head, 56);
    read.values = values;
    read.items = 0;
    if makes_entry {
        let row = job.directory.row_of(be32(head, 12), topic);
        read.row = row.map(|row| row as u8);
        read.tag_code = hash::tag_code(values.tags, values.ascii);
    }
    if makes_items {
        let prefix = hash::of_topic(topic, topic_ascii);
        let mut items = 0;
        each_key(&values, |key| {
            if let Some(kept) = read.kept.get_mut(items) {
                let hash = hash::of_key(prefix, key, values.ascii);
                let slot = job.index.slot_of(hash);
                // A fetch of a lent byte; it changes nothing.
                unsafe { _mm_prefetch::<_MM_HINT_T0>(job.index.slot_address(slot).cast()) };
                *kept = (hash, slot as u32);
            }
            items += 1;
        });
        read.prefix = prefix;
        read.items = items;
    }
    Ok(())
}

/// The hashes and slots of a record's items.
#[inline(always)]
fn items_of<'r>(job: &Job, read: &'r Read, more: &'r mut Vec<(u32, u32)>) -> &'r [(u32, u32)] {
    if read.items <= KEPT {
        return &read.kept[..read.items];
    }
    more.clear();
    each_key(&read.values, |key| {
        let hash = hash::of_key(read.prefix, key, read.values.ascii);
        more.push((hash, job.index.slot_of(hash) as u32));
    });
    more
}

/// Rules 6 and 7 on what was read, then entry and items.
#[inline(always)]
fn file(job: &mut Job, read: &Read, more: &mut Vec<(u32, u32)>) -> Result<(), u32> {
    if !read.is_record {
        return Ok(());
    }
    let row = if read.makes_entry {
        Some(job.judge_entry(read.row.map(usize::from), read.queue_offset)?)
    } else {
        None
    };
    let items = items_of(job, read, more);
    if !items.is_empty() {
        job.index.judge(job.position, items.len())?;
        if items
            .iter()
            .any(|(_, slot)| job.index.is_bad(*slot as usize))
        {
            return Err(answer::CHAIN_BROKEN);
        }
    }
    if let Some(row) = row {
        job.enter(row, job.position, read.total as u32, read.tag_code);
    }
    if !items.is_empty() {
        let items = items.iter().map(|(hash, slot)| (*hash, *slot as usize));
        job.index.put_all(job.position, read.store_time, items);
    }
    Ok(())
}

/// Steps until one is stopped: the answer and the steps done.
#[inline(always)]
fn run(job: &mut Job) -> (u32, u64) {
    let mut ring = [Read::default(); RECORDS];
    let mut more = Vec::new();
    let mut stop = None;
    let mut read_position = job.position;
    let mut read_steps = 0;
    let mut steps: u64 = 0;
    loop {
        while stop.is_none() && read_steps - steps < RECORDS as u64 {
            if read_steps == job.budget {
                stop = Some(answer::BUDGET_SPENT);
                break;
            }
            let place = &mut ring[read_steps as usize % RECORDS];
            match job.entry(read_position) {
                Err(answer) => {
                    stop = Some(answer);
                    break;
                }
                Ok(Entry::Blank(rest)) => {
                    place.total = rest;
                    place.is_record = false;
                }
                Ok(Entry::Record(record)) => {
                    if let Err(answer) = read_record(job, &record, place) {
                        stop = Some(answer);
                        break;
                    }
                }
            }
            read_position += place.total;
            read_steps += 1;
        }
        if steps == read_steps {
            return (stop.unwrap_or(answer::DONE), steps);
        }
        let read = &ring[steps as usize % RECORDS];
        if let Err(answer) = file(job, read, &mut more) {
            return (answer, steps);
        }
        job.position += read.total;
        steps += 1;
    }
}

/// `swistopal_dispatch`.
///
/// # Safety
/// As the C interface asks.
pub unsafe extern "C" fn dispatch(
    log: *const u8,
    log_len: usize,
    readable_end: u64,
    sizes: *const Sizes,
    directory: *const u8,
    directory_len: usize,
    queues: *mut u8,
    queues_len: usize,
    files: *mut u8,
    files_len: usize,
    budget: u64,
    progress: *mut Progress,
    steps: *mut u64,
) -> u32 {
    call(
        Lent {
            log: std::slice::from_raw_parts(log, log_len),
            readable_end,
            sizes: &*sizes,
            directory: std::slice::from_raw_parts(directory, directory_len),
            queues: std::slice::from_raw_parts_mut(queues, queues_len),
            files: std::slice::from_raw_parts_mut(files, files_len),
            budget,
        },
        &mut *progress,
        &mut *steps,
        run,
    )
}
