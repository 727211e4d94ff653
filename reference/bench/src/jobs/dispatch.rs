//! Dispatch of a whole log into empty queues and an empty index.

use crate::archive::Progress;
use crate::data::{directory, entries_for, filed, index, written, Keys, Script, Written};
use crate::effort::Effort;
use crate::plain::trace::{Followed, Trace};
use crate::report::{Point, Row};
use crate::store::{Filed, Store, ARCHIVE, FURTHER, PLAIN};
use crate::timing::{interleave, Laps, Sweep};
use std::hint::black_box;

/// Records of one call.
const LAP: u64 = 3000;

const BUDGET_SPENT: u32 = 9;

struct Context {
    written: Written,
    filed: Filed,
    sweep: Sweep,
}

/// Empties queues and index and puts all bytes out of the caches.
fn empty(context: &mut Context) {
    context.filed.queues.fill(0);
    context.filed.index.bytes.fill(0);
    context.filed.progress = Progress::default();
    context.sweep.run();
}

/// The last answer and the steps of all calls.
fn dispatch_all(store: &Store, context: &mut Context, laps: &mut Laps) -> (u32, u64) {
    let mut all = 0;
    loop {
        let written = &context.written;
        let filed = &mut context.filed;
        let (answer, steps) = laps.time(|| store.dispatch(&written.log, written.end, filed, LAP));
        all += steps;
        if answer != BUDGET_SPENT {
            return (answer, all);
        }
    }
}

fn side(store: &'static Store) -> impl Fn(&mut Context, &mut Laps) {
    move |context, laps| {
        empty(context);
        dispatch_all(store, context, laps);
    }
}

/// Progress, queues and index after each side are the same.
fn check(context: &mut Context) {
    empty(context);
    let ended = dispatch_all(&ARCHIVE, context, &mut Laps::default());
    assert_eq!(ended.0, 0, "dispatch catches up");
    let progress = context.filed.progress;
    let queues = context.filed.queues.clone();
    let index = context.filed.index.bytes.clone();
    for store in [&PLAIN, &FURTHER] {
        empty(context);
        let same = dispatch_all(store, context, &mut Laps::default());
        assert_eq!(same, ended, "answer and steps of dispatch");
        assert_eq!(context.filed.progress, progress, "progress of dispatch");
        assert!(context.filed.queues == queues, "queues after dispatch");
        assert!(context.filed.index.bytes == index, "index after dispatch");
    }
}

fn context(script: Script, records: u64, queues: u64, slot_count: u64, item_count: u64) -> Context {
    let written = written(records, queues, script, Keys::Distinct);
    let filed = filed(
        &written.log,
        directory(queues, script.topic()),
        queues,
        entries_for(records, queues),
        index(slot_count, item_count),
    );
    Context {
        written,
        filed,
        sweep: Sweep::new(),
    }
}

pub fn run(effort: Effort, put: &mut dyn FnMut(Row)) {
    let records = effort.records(300_000);
    for (script, slot_count) in [
        (Script::Ascii, 500_000),
        (Script::Ascii, 5_000_000),
        (Script::Greek, 500_000),
        (Script::Chinese, 500_000),
    ] {
        let mut context = context(script, records, 8, slot_count, 3 * records + 2);
        check(&mut context);
        let trace = Trace::of(&context.written.log, context.written.end, &context.filed);
        let traffic = |context: &mut Context, laps: &mut Laps| {
            empty(context);
            let mut followed = Followed::default();
            for _ in 0..records.div_ceil(LAP) {
                let log = &context.written.log;
                let filed = &mut context.filed;
                let sum = laps.time(|| trace.follow(log, filed, &mut followed, LAP as usize));
                black_box(sum);
            }
        };
        let times = interleave(
            effort.batches(30),
            &mut context,
            &[&side(&ARCHIVE), &side(&PLAIN), &side(&FURTHER), &traffic],
        );
        let of_record = |time: f64| time / records as f64;
        put(Row {
            job: format!("dispatch of {records}, K = {slot_count}{}", script.note()),
            state: "cold, empty index; a record".to_string(),
            archive: of_record(times[0]),
            rust: of_record(times[1]),
            further: Some(of_record(times[2])),
            limit: Some(of_record(times[3])),
            target: Some(script.target()),
        });
    }
}

/// The cost of a record by the number of records.
pub fn run_growth(effort: Effort, put: &mut dyn FnMut(Point)) {
    let most = effort.records(3_000_000);
    let mut first = None;
    for (records, batches) in [
        (effort.records(30_000), 60),
        (effort.records(300_000), 20),
        (most, 6),
    ] {
        let mut context = context(Script::Ascii, records, 16, 5_000_000, 3 * most + 2);
        check(&mut context);
        let times = interleave(
            effort.batches(batches),
            &mut context,
            &[&side(&ARCHIVE), &side(&PLAIN)],
        );
        let archive = times[0] / records as f64;
        put(Point {
            check: format!("dispatch of {records} records, K = 5000000, cold: a record"),
            archive,
            rust: times[1] / records as f64,
            growth: archive / *first.get_or_insert(archive),
        });
    }
}
