//! The hash of a key, as the time that its bytes add to a query on an empty index.

use crate::archive::Found;
use crate::data::{directory, filed, index, message, mixed, Keys, Script};
use crate::effort::Effort;
use crate::report::Row;
use crate::store::{Index, Log, Range, Store, ARCHIVE, BYTEWISE, PLAIN};
use crate::timing::{interleave, Laps};
use std::hint::black_box;

/// Queries of a batch.
const QUERIES: usize = 400;

struct Context {
    index: Index,
    key: Vec<u8>,
    out: Vec<u64>,
}

const TOPIC: &[u8] = b"T";

const ALL_TIMES: Range = Range {
    first_time: 0,
    last_time: (1 << 48) - 1,
    wanted: 1,
};

const RANGE: Range = Range {
    first_time: 0,
    last_time: 0,
    wanted: 1,
};

/// One item read, and its position found.
const ONE: Found = Found {
    positions: 1,
    items_read: 1,
};

fn side(store: &'static Store, length: usize) -> impl Fn(&mut Context, &mut Laps) {
    move |context, laps| {
        laps.time(|| {
            for _ in 0..QUERIES {
                let key = black_box(&context.key[..length]);
                black_box(store.query(&context.index, TOPIC, key, &RANGE, &mut context.out));
            }
        });
    }
}

/// Each side finds the key in an index that has it, and nothing in the empty one.
fn check(context: &mut Context, length: usize) {
    let key = &context.key[..length];
    let with_key = index_with(key);
    for store in [&ARCHIVE, &PLAIN, &BYTEWISE] {
        let found = store.query(&with_key, TOPIC, key, &ALL_TIMES, &mut context.out);
        assert_eq!(found, (0, ONE), "a query for a key");
        let missed = store.query(&context.index, TOPIC, key, &RANGE, &mut context.out);
        assert_eq!(missed, (0, Found::default()), "a query on an empty index");
    }
}

/// The index of a log with one record, which has this key.
fn index_with(key: &[u8]) -> Index {
    let mut log = Log::new(4096, 4096);
    let mut record = message(0, Script::Ascii, Keys::Distinct, 0);
    record.topic = TOPIC.to_vec();
    record.properties = [b"KEYS\x01", key].concat();
    let mut end = 0;
    let appended = ARCHIVE.append(&mut log, &record, &mut end);
    assert_eq!(appended, 0, "append of a record");
    let mut filed = filed(&log, directory(1, TOPIC), 1, 1, index(1, 2));
    let dispatched = ARCHIVE.dispatch(&log, end, &mut filed, 1);
    assert_eq!(dispatched, (9, 1), "a step");
    filed.index
}

pub fn run(effort: Effort, put: &mut dyn FnMut(Row)) {
    let mut context = Context {
        index: index(1, 2),
        key: (0..1024).map(|i| b'A' + (mixed(i) % 26) as u8).collect(),
        out: vec![0],
    };
    for length in [8, 16, 23, 32, 40, 100, 256, 1024] {
        check(&mut context, length);
        let times = interleave(
            effort.batches(4000),
            &mut context,
            &[
                &side(&ARCHIVE, length),
                &side(&BYTEWISE, length),
                &side(&PLAIN, length),
                &side(&ARCHIVE, 1),
                &side(&BYTEWISE, 1),
                &side(&PLAIN, 1),
            ],
        );
        let of_hash = |side: usize| (times[side] - times[side + 3]) / QUERIES as f64;
        put(Row {
            job: format!("hash of {length} bytes"),
            state: "warm; against the loop byte by byte".to_string(),
            archive: of_hash(0),
            rust: of_hash(1),
            further: Some(of_hash(2)),
            limit: None,
            target: (length >= 40).then_some(0.6),
        });
    }
}
