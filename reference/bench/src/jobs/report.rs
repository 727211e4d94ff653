//! The shift report of a log, and how its cost grows with the stretch.

use crate::archive::Figures;
use crate::data::{directory, written, Keys, Script, Written};
use crate::effort::Effort;
use crate::report::{Point, Row};
use crate::store::{Store, ARCHIVE, FURTHER, PLAIN};
use crate::timing::{interleave, Laps, Side, State, Sweep};
use std::hint::black_box;

/// Records of a log that fits into the second cache.
const NEAR: u64 = 800;

struct Context {
    written: Written,
    directory: Vec<u8>,
    state: State,
    sweep: Sweep,
}

fn side(store: &'static Store) -> impl Fn(&mut Context, &mut Laps) {
    move |context, laps| {
        context.state.prepare(&context.sweep);
        let Written { log, end } = &context.written;
        laps.time(|| black_box(store.report(log, *end, &context.directory)));
    }
}

/// A log of so many records in so many queues. What each side reports of it is the same.
fn context(script: Script, records: u64, queues: u64, keys: Keys, state: State) -> Context {
    let context = Context {
        written: written(records, queues, script, keys),
        directory: directory(queues, script.topic()),
        state,
        sweep: Sweep::new(),
    };
    let Written { log, end } = &context.written;
    let (answer, figures) = ARCHIVE.report(log, *end, &context.directory);
    assert_eq!((answer, figures.records), (0, records), "the whole log");
    for store in [&PLAIN, &FURTHER] {
        let same: (u32, Figures) = store.report(log, *end, &context.directory);
        assert_eq!(same, (answer, figures), "report");
    }
    context
}

fn times(script: Script, context: &mut Context, batches: usize) -> Vec<f64> {
    let sides: [Side<Context>; 3] = [&side(&ARCHIVE), &side(&PLAIN), &side(&FURTHER)];
    interleave(batches, context, &sides[..script.sides(2)])
}

pub fn run(effort: Effort, put: &mut dyn FnMut(Row)) {
    let all = effort.records(300_000);
    let logs = [
        (Script::Ascii, State::Warm, NEAR, 1, Keys::Distinct),
        (Script::Ascii, State::Warm, NEAR, 8, Keys::Distinct),
        (Script::Ascii, State::Warm, NEAR, 16, Keys::Distinct),
        (Script::Ascii, State::Warm, 20, 1, Keys::Many(1000)),
        (Script::Ascii, State::Cold, all, 8, Keys::Distinct),
        (Script::Greek, State::Warm, NEAR, 8, Keys::Distinct),
        (Script::Greek, State::Cold, all, 8, Keys::Distinct),
        (Script::Chinese, State::Warm, NEAR, 8, Keys::Distinct),
        (Script::Chinese, State::Cold, all, 8, Keys::Distinct),
    ];
    for (script, state, records, queues, keys) in logs {
        let mut context = context(script, records, queues, keys, state);
        let batches = match state {
            State::Warm => effort.batches(2000),
            State::Cold => effort.batches(15),
        };
        let times = times(script, &mut context, batches);
        let of_record = |time: f64| time / records as f64;
        let made = match keys {
            Keys::Many(number) => format!("{number} keys"),
            _ => "about 300 bytes".to_string(),
        };
        put(Row {
            job: format!("report, {queues} queues{}", script.note()),
            state: format!("{}; a record of {made}", state.name()),
            archive: of_record(times[0]),
            rust: of_record(times[1]),
            further: times.get(2).copied().map(of_record),
            limit: None,
            target: Some(script.target()),
        });
    }
}

pub fn run_stretch(effort: Effort, put: &mut dyn FnMut(Point)) {
    let mut first = None;
    for records in [100, 1000, 10_000, 100_000] {
        let mut context = context(Script::Ascii, records, 8, Keys::Distinct, State::Cold);
        let times = times(Script::Ascii, &mut context, effort.batches(15));
        let archive = times[0] / records as f64;
        put(Point {
            check: format!("report of {records} records, 8 queues, cold: a record"),
            archive,
            rust: times[1] / records as f64,
            growth: archive / *first.get_or_insert(archive),
        });
    }
}
