//! Queue reading, all entries or those with a tag.

use crate::data::{directory, entries_for, filed, index, written, Keys, Script, TOPIC};
use crate::effort::Effort;
use crate::report::Row;
use crate::store::{Filed, Store, ARCHIVE, PLAIN};
use crate::timing::{interleave, Laps};
use std::hint::black_box;

const QUEUES: u64 = 8;
const RECORDS: u64 = 40_000;

/// The entry that is read first.
const FIRST: u64 = 7;

/// Tags that the records have, about as many of each.
const TAGS: usize = 4;

/// The tag code of `RUSH`, one of them.
const TAG_CODE: u64 = 2_527_192;

struct Context {
    filed: Filed,
    wanted: u64,
    tag_code: Option<u64>,
    out: Vec<u64>,
    /// How often a lap reads from each queue.
    rounds: u64,
}

fn read_all(store: &Store, context: &mut Context, mut visit: impl FnMut((u32, u64), &[u64])) {
    for row in 0..QUEUES {
        let read = store.read_queue(
            &context.filed,
            row,
            FIRST,
            context.wanted,
            context.tag_code,
            &mut context.out,
        );
        visit(read, &context.out);
    }
}

fn side(store: &'static Store) -> impl Fn(&mut Context, &mut Laps) {
    move |context, laps| {
        laps.time(|| {
            for _ in 0..context.rounds {
                read_all(store, context, |_, out| {
                    black_box(out);
                });
            }
        });
    }
}

fn results(store: &Store, context: &mut Context) -> Vec<((u32, u64), Vec<u64>)> {
    context.out.fill(u64::MAX);
    let mut results = Vec::new();
    read_all(store, context, |read, out| {
        results.push((read, out.to_vec()))
    });
    results
}

/// The entries up to the last one found: their positions, or their tag codes where these decide, read and written in the
/// order of the entries.
fn load(context: &mut Context, laps: &mut Laps) {
    let wanted = context.wanted as usize;
    let region = context.filed.sizes.queue_entries as usize;
    let (at, times) = match context.tag_code {
        None => (0, 1),
        Some(_) => (12, TAGS),
    };
    laps.time(|| {
        let (entries, _) = context.filed.queues.as_chunks::<20>();
        for row in 0..(QUEUES * context.rounds) as usize {
            let first = row % QUEUES as usize * region + FIRST as usize;
            let entries = &entries[first..][..wanted * times];
            for part in entries.chunks_exact(wanted) {
                for (place, entry) in context.out.iter_mut().zip(part) {
                    *place = u64::from_ne_bytes(entry[at..at + 8].try_into().expect("8 bytes"));
                }
            }
            black_box(&context.out);
        }
    });
}

pub fn run(effort: Effort, put: &mut dyn FnMut(Row)) {
    let written = written(RECORDS, QUEUES, Script::Ascii, Keys::Distinct);
    let mut filed = filed(
        &written.log,
        directory(QUEUES, TOPIC),
        QUEUES,
        entries_for(RECORDS, QUEUES),
        index(1000, 3 * RECORDS),
    );
    let (answer, _) = ARCHIVE.dispatch(&written.log, written.end, &mut filed, u64::MAX);
    assert_eq!(answer, 0, "dispatch catches up");
    let mut context = Context {
        filed,
        wanted: 0,
        tag_code: None,
        out: Vec::new(),
        rounds: 0,
    };
    for wanted in [32, 1000] {
        for tag_code in [None, Some(TAG_CODE)] {
            context.wanted = wanted;
            context.tag_code = tag_code;
            context.out = vec![0; wanted as usize];
            context.rounds = 2000 / wanted;
            put(measure(effort, &mut context));
        }
    }
}

fn measure(effort: Effort, context: &mut Context) -> Row {
    let expected = results(&ARCHIVE, context);
    assert!(
        expected
            .iter()
            .all(|(read, _)| *read == (0, context.wanted)),
        "queues with enough entries"
    );
    assert!(results(&PLAIN, context) == expected, "queue reading");
    let times = interleave(
        effort.batches(6000),
        context,
        &[&side(&ARCHIVE), &side(&PLAIN), &load],
    );
    let calls = (QUEUES * context.rounds) as f64;
    let of_call = |time: f64| time / calls;
    let which = match context.tag_code {
        None => "all entries",
        Some(_) => "one tag in 4",
    };
    Row {
        job: format!("queue reading, {} found, {which}", context.wanted),
        state: "warm; a call".to_string(),
        archive: of_call(times[0]),
        rust: of_call(times[1]),
        further: None,
        limit: Some(of_call(times[2])),
        target: Some(1.0),
    }
}
