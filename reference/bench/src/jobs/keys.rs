//! Dispatch of records with many keys: the cost of a key must not grow.

use crate::archive::Progress;
use crate::data::{directory, entries_for, filed, index, written, Keys, Script, Written, TOPIC};
use crate::effort::Effort;
use crate::report::Point;
use crate::store::{Filed, Store, ARCHIVE, PLAIN};
use crate::timing::{interleave, Laps};

const SLOTS: u64 = 500_000;

struct Context {
    written: Written,
    filed: Filed,
}

fn dispatch(store: &Store, context: &mut Context, laps: &mut Laps) -> (u32, u64) {
    context.filed.index.bytes.fill(0);
    context.filed.progress = Progress::default();
    let written = &context.written;
    let filed = &mut context.filed;
    laps.time(|| store.dispatch(&written.log, written.end, filed, u64::MAX))
}

fn side(store: &'static Store) -> impl Fn(&mut Context, &mut Laps) {
    move |context, laps| {
        dispatch(store, context, laps);
    }
}

fn check(context: &mut Context) {
    let ended = dispatch(&ARCHIVE, context, &mut Laps::default());
    assert_eq!(ended.0, 0, "dispatch catches up");
    let progress = context.filed.progress;
    let queues = context.filed.queues.clone();
    let index = context.filed.index.bytes.clone();
    context.filed.queues.fill(0);
    let same = dispatch(&PLAIN, context, &mut Laps::default());
    assert_eq!(same, ended, "answer and steps of dispatch");
    assert_eq!(context.filed.progress, progress, "progress of dispatch");
    assert!(context.filed.queues == queues, "queues after dispatch");
    assert!(context.filed.index.bytes == index, "index after dispatch");
}

pub fn run(effort: Effort, put: &mut dyn FnMut(Point)) {
    let all = effort.records(4000);
    let mut first = None;
    for keys in [1, 2, 10, 100, 1000] {
        let records = (all / keys).max(1);
        let written = written(records, 1, Script::Ascii, Keys::Many(keys));
        let filed = filed(
            &written.log,
            directory(1, TOPIC),
            1,
            entries_for(records, 1),
            index(SLOTS, records * keys + 1),
        );
        let mut context = Context { written, filed };
        check(&mut context);
        let times = interleave(
            effort.batches(400),
            &mut context,
            &[&side(&ARCHIVE), &side(&PLAIN)],
        );
        let of_key = |time: f64| time / (records * keys) as f64;
        let archive = of_key(times[0]);
        put(Point {
            check: format!("record with {keys} keys, K = {SLOTS}, emptied before: a key"),
            archive,
            rust: of_key(times[1]),
            growth: archive / *first.get_or_insert(archive),
        });
    }
}
