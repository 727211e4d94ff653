//! Append, until a log is full.

use crate::data::{message, Keys, Script};
use crate::effort::Effort;
use crate::report::Row;
use crate::store::{Log, Message, Store, ARCHIVE, FURTHER, PLAIN};
use crate::timing::{interleave, Laps, Side, State, Sweep};
use std::hint::black_box;

struct Context {
    log: Log,
    message: Message,
    /// Records of a lap.
    lap: usize,
    state: State,
    sweep: Sweep,
}

/// Up to a lap's records from the position on; the number of those that fit.
fn append_lap(store: &Store, context: &mut Context, position: &mut u64) -> usize {
    for records in 0..context.lap {
        if store.append(&mut context.log, black_box(&context.message), position) != 0 {
            return records;
        }
    }
    context.lap
}

/// Appends until the log is full; the number of records.
fn fill(store: &Store, context: &mut Context, laps: &mut Laps) -> usize {
    let mut position = 0;
    let mut records = 0;
    loop {
        let appended = laps.time(|| append_lap(store, context, &mut position));
        records += appended;
        if appended < context.lap {
            return records;
        }
    }
}

fn side(store: &'static Store) -> impl Fn(&mut Context, &mut Laps) {
    move |context, laps| {
        context.state.prepare(&context.sweep);
        fill(store, context, laps);
    }
}

/// The log's bytes after each side are the same.
fn check(context: &mut Context) -> usize {
    context.log.bytes.fill(0);
    let records = fill(&ARCHIVE, context, &mut Laps::default());
    let expected = context.log.bytes.clone();
    for store in [&PLAIN, &FURTHER] {
        context.log.bytes.fill(0);
        let same = fill(store, context, &mut Laps::default());
        assert_eq!(same, records, "records appended");
        assert!(context.log.bytes == expected, "bytes appended");
    }
    records
}

pub fn run(effort: Effort, put: &mut dyn FnMut(Row)) {
    for body in [64, 256, 1024, 64 << 10] {
        for state in State::BOTH {
            put(measure(effort, Script::Ascii, body, state));
        }
    }
    for script in Script::WIDE {
        for state in State::BOTH {
            put(measure(effort, script, 256, state));
        }
    }
}

fn measure(effort: Effort, script: Script, body: usize, state: State) -> Row {
    let (log_size, batches) = match state {
        State::Warm if body <= 1024 => (256 << 10, effort.batches(4000)),
        State::Warm => (512 << 10, effort.batches(4000)),
        State::Cold => (effort.records(96) as usize * (1 << 20), effort.batches(15)),
    };
    let mut context = Context {
        log: Log::new(log_size, log_size as u64),
        message: message(1, script, Keys::Distinct, body),
        lap: (256 << 10) / body,
        state,
        sweep: Sweep::new(),
    };
    let records = check(&mut context);
    let head = context.log.bytes[..4].try_into().expect("4 bytes");
    let total = u32::from_be_bytes(head) as usize;
    let record = context.log.bytes[..total].to_vec();
    let copy = |context: &mut Context, laps: &mut Laps| {
        context.state.prepare(&context.sweep);
        for lap in context.log.bytes.chunks_mut(context.lap * total) {
            laps.time(|| {
                let places = lap.chunks_exact_mut(total);
                places.for_each(|place| place.copy_from_slice(black_box(&record)));
            });
        }
    };
    let sides: [Side<Context>; 4] = [&side(&ARCHIVE), &side(&PLAIN), &copy, &side(&FURTHER)];
    let times = interleave(batches, &mut context, &sides[..script.sides(3)]);
    let of_record = |time: f64| time / records as f64;
    Row {
        job: format!("append, body of {body}{}", script.note()),
        state: format!("{}; a record of {total} bytes", state.name()),
        archive: of_record(times[0]),
        rust: of_record(times[1]),
        further: times.get(3).copied().map(of_record),
        limit: Some(of_record(times[2])),
        target: Some(script.target()),
    }
}
