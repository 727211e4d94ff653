//! Queries on an index that is larger than the caches, keys in no order.

use crate::data::{
    depot_key, directory, entries_for, filed, index, missing_key, mixed, order_key, unique_key,
    written, Keys, Script,
};
use crate::effort::Effort;
use crate::report::Row;
use crate::store::{Index, Range, Store, ARCHIVE, FURTHER, PLAIN};
use crate::timing::{interleave, Laps, Side, State, Sweep};
use std::hint::black_box;

const QUEUES: u64 = 8;
const SLOTS: u64 = 5_000_000;

/// Keys of one length, one behind the other.
struct Texts {
    bytes: Vec<u8>,
    length: usize,
}

impl Texts {
    fn of(count: u64, text: impl Fn(u64) -> String) -> Texts {
        let length = text(0).len();
        let bytes = (0..count).flat_map(|i| text(i).into_bytes()).collect();
        Texts { bytes, length }
    }

    fn laps(&self, keys: usize) -> impl Iterator<Item = impl Iterator<Item = &[u8]>> {
        let laps = self.bytes.chunks(keys * self.length);
        laps.map(|lap| lap.chunks_exact(self.length))
    }
}

struct Context {
    script: Script,
    index: Index,
    texts: Texts,
    /// Keys of a lap.
    lap: usize,
    range: Range,
    out: Vec<u64>,
    state: State,
    sweep: Sweep,
}

fn side(store: &'static Store) -> impl Fn(&mut Context, &mut Laps) {
    move |context, laps| {
        context.state.prepare(&context.sweep);
        let topic = context.script.topic();
        for keys in context.texts.laps(context.lap) {
            laps.time(|| {
                for key in keys {
                    let out = &mut context.out;
                    black_box(store.query(&context.index, topic, key, &context.range, out));
                    black_box(&context.out);
                }
            });
        }
    }
}

/// The slot and the number of items that a query reads.
struct Chain {
    slot: usize,
    items: u64,
}

fn number_at(index: &Index, at: usize) -> usize {
    let bytes = index.bytes[at..at + 4].try_into().expect("4 bytes");
    u32::from_be_bytes(bytes) as usize
}

/// The same slots and items and nothing else. Each place waits for the load before it, as it does for a caller who waits
/// for an answer before he asks again.
fn follow(index: &Index, chains: &[Chain]) -> usize {
    let items = 40 + 4 * index.sizes.slot_count as usize;
    let mut last = 0;
    for chain in chains {
        let mut number = number_at(index, chain.slot + (black_box(last) >> 32));
        for _ in 0..chain.items {
            number = number_at(index, items + 20 * number + 16);
        }
        last = number;
    }
    last
}

/// A key's slot, by the definition.
fn slot_of(topic: &[u8], key: &[u8]) -> usize {
    let text = String::from_utf8([topic, b"#", key].concat()).expect("text");
    let hash = text.encode_utf16().fold(0u32, |hash, unit| {
        hash.wrapping_mul(31).wrapping_add(u32::from(unit))
    });
    let magnitude = (hash as i32).checked_abs().unwrap_or(0) as usize;
    40 + 4 * (magnitude % SLOTS as usize)
}

/// What each side answers, counts and finds is the same; the chains that the queries read.
fn check(context: &Context, matches: u64) -> Vec<Chain> {
    let topic = context.script.topic();
    let mut chains = Vec::new();
    for key in context.texts.laps(1).flatten() {
        let query = |store: &Store| {
            let mut out = vec![u64::MAX; context.out.len()];
            let read = store.query(&context.index, topic, key, &context.range, &mut out);
            (read, out)
        };
        let expected = query(&ARCHIVE);
        let (answer, found) = expected.0;
        assert_eq!(answer, 0, "answer of a query");
        // Another key may have the same hash.
        assert!(found.positions >= matches, "matches of a query");
        for store in [&PLAIN, &FURTHER] {
            assert!(query(store) == expected, "query");
        }
        chains.push(Chain {
            slot: slot_of(topic, key),
            items: found.items_read,
        });
    }
    chains
}

/// Keys of one kind: the matches of each, the keys of a lap and of the whole, the text of a key.
struct Kind {
    name: &'static str,
    matches: u64,
    lap: usize,
    keys: u64,
    all: u64,
    text: fn(Script, u64) -> String,
}

pub fn run(effort: Effort, put: &mut dyn FnMut(Row)) {
    for script in Script::ALL {
        measure_all(effort, script, put);
    }
}

/// The kinds of keys, with longer chains only in ASCII: they cost the same in every script.
fn measure_all(effort: Effort, script: Script, put: &mut dyn FnMut(Row)) {
    let depots = effort.records(500);
    let records = 2000 * depots;
    let orders = records / 32;
    let written = written(records, QUEUES, script, Keys::Grouped { orders, depots });
    let mut filed = filed(
        &written.log,
        directory(QUEUES, script.topic()),
        QUEUES,
        entries_for(records, QUEUES),
        index(SLOTS, 3 * records),
    );
    let (answer, _) = ARCHIVE.dispatch(&written.log, written.end, &mut filed, u64::MAX);
    assert_eq!(answer, 0, "dispatch catches up");
    drop(written);
    let mut context = Context {
        script,
        index: filed.index,
        texts: Texts::of(0, |i| unique_key(script, i)),
        lap: 0,
        range: Range {
            first_time: 0,
            last_time: (1 << 48) - 1,
            wanted: 0,
        },
        out: Vec::new(),
        state: State::Cold,
        sweep: Sweep::new(),
    };
    let kinds = [
        Kind {
            name: "missing key",
            matches: 0,
            lap: 1000,
            keys: records / 4,
            all: records,
            text: missing_key,
        },
        Kind {
            name: "1 match",
            matches: 1,
            lap: 1000,
            keys: records / 4,
            all: records,
            text: unique_key,
        },
        Kind {
            name: "32 matches",
            matches: 32,
            lap: 100,
            keys: orders,
            all: orders,
            text: order_key,
        },
        Kind {
            name: "1000 matches",
            matches: 1000,
            lap: 5,
            keys: depots,
            all: depots,
            text: depot_key,
        },
    ];
    let kinds = match script {
        Script::Ascii => &kinds[..],
        _ => &kinds[..2],
    };
    for kind in kinds {
        for state in State::BOTH {
            context.state = state;
            put(measure(effort, kind, &mut context));
        }
    }
}

fn measure(effort: Effort, kind: &Kind, context: &mut Context) -> Row {
    let (keys, batches) = match context.state {
        State::Warm => (kind.lap as u64, effort.batches(2000)),
        State::Cold => (kind.keys, effort.batches(12)),
    };
    context.texts = Texts::of(keys, |i| (kind.text)(context.script, mixed(i) % kind.all));
    context.lap = kind.lap;
    context.range.wanted = kind.matches;
    context.out = vec![0; kind.matches.max(32) as usize];
    let chains = check(context, kind.matches);
    let loads = |context: &mut Context, laps: &mut Laps| {
        context.state.prepare(&context.sweep);
        for chains in chains.chunks(kind.lap) {
            black_box(laps.time(|| follow(&context.index, chains)));
        }
    };
    let sides: [Side<Context>; 4] = [&side(&ARCHIVE), &side(&PLAIN), &loads, &side(&FURTHER)];
    let sides = &sides[..context.script.sides(3)];
    let times = interleave(batches, context, sides);
    let of_query = |time: f64| time / keys as f64;
    Row {
        job: format!("query, {}{}", kind.name, context.script.note()),
        state: format!("{}; a query", context.state.name()),
        archive: of_query(times[0]),
        rust: of_query(times[1]),
        further: times.get(3).copied().map(of_query),
        limit: Some(of_query(times[2])),
        target: Some(context.script.target()),
    }
}
