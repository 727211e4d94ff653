//! One call of dispatch with a budget of 0 or 1 on the smallest and the largest index and store: it must not grow.

use crate::data::{directory, filed, index, message, Keys, Script, TOPIC};
use crate::effort::Effort;
use crate::report::Point;
use crate::store::{Filed, Log, Store, ARCHIVE, PLAIN};
use crate::timing::{interleave, Laps};
use std::hint::black_box;

/// Calls of a batch.
const CALLS: usize = 400;

const SMALLEST: (u64, u64) = (1, 2);
const LARGEST: (u64, u64) = (5_000_000, 20_000_000);

struct Context {
    log: Log,
    end: u64,
    filed: Filed,
    budget: u64,
}

/// A log of one record with one key, and empty queues and index.
fn context(
    log_size: usize,
    rows: Vec<u8>,
    queues: u64,
    entries: u64,
    sizes: (u64, u64),
) -> Context {
    let mut log = Log::new(log_size, log_size as u64);
    let mut end = 0;
    let answer = ARCHIVE.append(
        &mut log,
        &message(0, Script::Ascii, Keys::Many(1), 100),
        &mut end,
    );
    assert_eq!(answer, 0, "append of a record");
    let filed = filed(&log, rows, queues, entries, index(sizes.0, sizes.1));
    Context {
        log,
        end,
        filed,
        budget: 0,
    }
}

/// One call on an empty index: the bytes that a call before it has written there are taken back.
#[inline(always)]
fn call(store: &Store, context: &mut Context, slot: usize) -> (u32, u64) {
    context.filed.progress.position = 0;
    context.filed.progress.counts[0] = 0;
    context.filed.index.bytes[..40].fill(0);
    context.filed.index.bytes[slot..slot + 4].fill(0);
    store.dispatch(
        &context.log,
        context.end,
        &mut context.filed,
        context.budget,
    )
}

fn side(store: &'static Store, slot: usize) -> impl Fn(&mut Context, &mut Laps) {
    move |context, laps| {
        laps.time(|| {
            for _ in 0..CALLS {
                black_box(call(store, context, slot));
            }
        });
    }
}

/// The bytes that a call can write: header, slots up to the one that is taken, first items; the first queue entries.
fn written_bytes(context: &Context, slot: usize) -> Vec<u8> {
    let index = &context.filed.index;
    let items = 40 + 4 * index.sizes.slot_count as usize;
    let mut bytes = index.bytes[..40].to_vec();
    bytes.extend_from_slice(&index.bytes[slot..slot + 4]);
    bytes.extend_from_slice(&index.bytes[items..items + 40]);
    bytes.extend_from_slice(&context.filed.queues[..20]);
    bytes
}

/// The place of the slot that the record's item takes.
fn slot_taken(context: &mut Context) -> usize {
    let budget = std::mem::replace(&mut context.budget, 1);
    assert_eq!(call(&ARCHIVE, context, 40), (9, 1), "a step");
    let expected = context.filed.index.bytes[40..]
        .chunks_exact(4)
        .position(|slot| slot == 1u32.to_be_bytes())
        .map(|number| 40 + 4 * number)
        .expect("a slot that is taken");
    let bytes = written_bytes(context, expected);
    assert_eq!(call(&PLAIN, context, expected), (9, 1), "a step");
    assert!(written_bytes(context, expected) == bytes, "bytes of a step");
    context.budget = budget;
    expected
}

fn measure(effort: Effort, context: &mut Context) -> (f64, f64) {
    let slot = slot_taken(context);
    let times = interleave(
        effort.batches(4000),
        context,
        &[&side(&ARCHIVE, slot), &side(&PLAIN, slot)],
    );
    (times[0] / CALLS as f64, times[1] / CALLS as f64)
}

pub fn run(effort: Effort, put: &mut dyn FnMut(Point)) {
    let one_row = || directory(1, TOPIC);
    let mut stores = [
        ("smallest store", context(1024, one_row(), 1, 1, SMALLEST)),
        ("largest index", context(1024, one_row(), 1, 1, LARGEST)),
        (
            "largest index and queue, log of 1 GiB",
            context(1 << 30, one_row(), 1, 300_000, LARGEST),
        ),
        (
            "smallest index, 16 rows, 15 of them of 135 bytes",
            context(1024, longest_rows(), 16, 1, SMALLEST),
        ),
    ];
    for budget in [0, 1] {
        let mut first = None;
        for (name, context) in &mut stores {
            context.budget = budget;
            let (archive, rust) = measure(effort, context);
            put(Point {
                check: format!("call with budget {budget}, {name}, warm"),
                archive,
                rust,
                growth: archive / *first.get_or_insert(archive),
            });
        }
    }
}

/// A directory of 16 rows: the record's queue, then 15 of the longest topic.
fn longest_rows() -> Vec<u8> {
    let mut rows = directory(1, TOPIC);
    rows.extend(directory(15, &[b't'; 127]));
    rows
}
