//! Record reading, one record after the other.

use crate::archive::Record;
use crate::data::{written, Keys, Script, Written};
use crate::effort::Effort;
use crate::report::Row;
use crate::store::{Store, ARCHIVE, FURTHER, PLAIN, UNREAD};
use crate::timing::{interleave, Laps, Side, State, Sweep};
use std::hint::black_box;

/// Records of a lap: they fit into the second cache.
const LAP: usize = 800;

/// The kind of a record that is no blank.
const RECORD: u64 = 1;

struct Context {
    written: Written,
    /// Where the records are that are read.
    positions: Vec<u64>,
    state: State,
    sweep: Sweep,
}

fn side(store: &'static Store) -> impl Fn(&mut Context, &mut Laps) {
    move |context, laps| {
        context.state.prepare(&context.sweep);
        let Written { log, end } = &context.written;
        for positions in context.positions.chunks(LAP) {
            laps.time(|| {
                let mut record = Record::default();
                for position in positions {
                    black_box(store.read_record(log, *position, *end, &mut record));
                    black_box(&record);
                }
            });
        }
    }
}

/// As many bytes as the output has, from each record.
fn load(context: &mut Context, laps: &mut Laps) {
    context.state.prepare(&context.sweep);
    let bytes = &context.written.log.bytes;
    for positions in context.positions.chunks(LAP) {
        laps.time(|| {
            for position in positions {
                let at = *position as usize;
                let mut out = [0; size_of::<Record>()];
                out.copy_from_slice(&bytes[at..at + size_of::<Record>()]);
                black_box(&out);
            }
        });
    }
}

/// What each side reads is the same; the records' positions.
fn check(written: &Written) -> Vec<u64> {
    let mut positions = Vec::new();
    let mut position = 0;
    while position < written.end {
        let mut expected = UNREAD;
        let answer = ARCHIVE.read_record(&written.log, position, written.end, &mut expected);
        assert_eq!(answer, 0, "a record or blank that reads");
        for store in [&PLAIN, &FURTHER] {
            let mut read = Record::default();
            let same = store.read_record(&written.log, position, written.end, &mut read);
            assert_eq!((same, read), (answer, expected), "record reading");
        }
        if expected.kind == RECORD {
            positions.push(position);
        }
        position += expected.total;
    }
    positions
}

pub fn run(effort: Effort, put: &mut dyn FnMut(Row)) {
    for script in Script::ALL {
        measure(effort, script, put);
    }
}

fn measure(effort: Effort, script: Script, put: &mut dyn FnMut(Row)) {
    let written = written(effort.records(300_000), 8, script, Keys::Distinct);
    let positions = check(&written);
    let mut context = Context {
        written,
        positions: Vec::new(),
        state: State::Warm,
        sweep: Sweep::new(),
    };
    for state in State::BOTH {
        let (records, batches) = match state {
            State::Warm => (LAP, effort.batches(6000)),
            State::Cold => (positions.len(), effort.batches(15)),
        };
        context.state = state;
        context.positions = positions[..records].to_vec();
        let sides: [Side<Context>; 4] = [&side(&ARCHIVE), &side(&PLAIN), &load, &side(&FURTHER)];
        let times = interleave(batches, &mut context, &sides[..script.sides(3)]);
        let of_record = |time: f64| time / records as f64;
        put(Row {
            job: format!("record reading{}", script.note()),
            state: format!("{}; a record of about 300 bytes", state.name()),
            archive: of_record(times[0]),
            rust: of_record(times[1]),
            further: times.get(3).copied().map(of_record),
            limit: Some(of_record(times[2])),
            target: Some(script.target()),
        });
    }
}
