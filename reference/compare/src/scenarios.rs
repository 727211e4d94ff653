//! The scenarios. Each has a generator of its own; most work on small stores built by appends.

use model::interface::{self, Place, Record, Sizes};

use crate::figures::Stretch;
use crate::items::{made_by_record, made_by_records};
use crate::judge::Check;
use crate::lent::Twin;
use crate::lists::run_list;
use crate::messages::{properties, Draft, KEYS, LARGEST_TIME, TOPICS};
use crate::operations::{Bench, DispatchCall, Operation, Question, QueueReading};
use crate::random::Random;
use crate::reports::reports;
use crate::requests::{requests, Fault};
use crate::store::{row, Plan, Store, BLANK_MAGIC, LARGEST_POSITION};
use crate::texts::{faulty_text, mostly_text};
use crate::trials::trials;
use crate::variation::Variation;

/// Scenarios with buffers at the limits of the sizes come at fixed numbers: they take long.
const LARGEST_SIZES_EVERY: u64 = 50_000;
const LARGEST_SIZES_AT: u64 = 900;
const LARGEST_RECORD_EVERY: u64 = 5_000;
const LARGEST_RECORD_AT: u64 = 600;

/// Runs scenario `number` of a seed.
pub fn run(bench: &mut Bench, seed: u64, number: u64) -> Check<()> {
    let random = &Random::of_scenario(seed, number);
    if number % LARGEST_SIZES_EVERY == LARGEST_SIZES_AT {
        return largest_sizes(bench, random);
    }
    if number % LARGEST_RECORD_EVERY == LARGEST_RECORD_AT {
        return largest_record(bench);
    }
    match random.below(100) {
        0..=34 => life(bench, random, false),
        35..=41 => reports(bench, random),
        42..=48 => edges(bench, random),
        49..=62 => worn_index(bench, random),
        63..=75 => doors(bench, random),
        76..=79 => trials(bench, random),
        80..=84 => directories(bench, random),
        85..=91 => listings(bench, random),
        92..=94 => requests(bench, random),
        95..=98 => made_by_records(bench, random),
        _ if random.one_in(3) => life(bench, random, true),
        _ => life(bench, random, false),
    }
}

/// A store's life: appended, perhaps damaged, read, dispatched by a list of calls, queues read, index queried.
fn life(bench: &mut Bench, random: &Random, wide: bool) -> Check<()> {
    let sound = random.one_in(2);
    let plan = Plan {
        wide,
        roomy: sound,
        troubled: !sound && random.one_in(2),
        single: false,
    };
    let mut store = Store::filled(bench, random, plan)?;
    if !sound && random.one_in(2) {
        for _ in 0..random.between(1, 3) {
            match random.below(8) {
                0..=4 => store.damage_log(random),
                5 => store.damage_slot(random),
                6 => store.damage_header(random),
                _ => store.invent_header(random),
            }
        }
    }
    if !sound && random.one_in(5) {
        // From any progress.
        let position = store.sizes.first_position + random.below(store.log.len() as u64 + 1);
        let entry = match store.entries.as_slice() {
            [] => position,
            entries => random.pick(entries),
        };
        store
            .state
            .progress
            .set(0, &[random.pick(&[position, entry, entry])]);
    }
    read_records(bench, random, &store)?;
    run_list(bench, random, &mut store)?;
    if random.one_in(3) {
        // The sender goes on.
        store.fill(bench, random, plan)?;
        run_list(bench, random, &mut store)?;
    }
    for _ in 0..random.below(6) {
        let counts = counts_of(&store);
        let reading = queue_reading(random, &store, counts);
        bench.read_queue(&reading)?;
    }
    for _ in 0..random.below(10) {
        query(bench, random, &store)?;
    }
    append_anywhere(bench, random, &mut store)
}

/// Reads at the starts of records and blanks and around them, with readable ends around their own.
fn read_records(bench: &mut Bench, random: &Random, store: &Store) -> Check<()> {
    for _ in 0..random.below(8) {
        let position = store.some_position(random);
        let whole = bench.read_record(&store.log, &store.sizes, position, store.log_end())?;
        let length = whole.1.total;
        let near =
            position + random.pick(&[0, 1, 7, 8, 9, 91, 92, length.max(1) - 1, length, length + 1]);
        for end in [
            near,
            store.written_end.max(position),
            random.beside(position),
        ] {
            bench.read_record(&store.log, &store.sizes, position, end)?;
        }
        if whole.1.kind == interface::RECORD && random.one_in(3) {
            append_again(bench, store, position, &whole.1)?;
            let own = &store.log.get()[store.place(position)..];
            let (topic, properties) = (part(own, whole.1.topic), part(own, whole.1.properties));
            made_by_record(bench, random, whole.1.fields.system_flag, topic, properties)?;
        }
    }
    Ok(())
}

/// One damage after the other to single records and blanks, each read and dispatched with readable ends around it.
fn edges(bench: &mut Bench, random: &Random) -> Check<()> {
    let plan = Plan {
        roomy: true,
        ..Plan::default()
    };
    let mut store = Store::filled(bench, random, plan)?;
    let sound = store.log.clone();
    for _ in 0..8 {
        let position = match store.entries.as_slice() {
            [] => return Ok(()),
            entries => random.pick(entries),
        };
        store.log = sound.clone();
        for _ in 0..random.pick(&[0, 1, 1, 1, 2]) {
            store.damage_entry(random, position);
        }
        for readable_end in store.ends_around(random, position) {
            bench.read_record(&store.log, &store.sizes, position, readable_end)?;
            let mut state = store.state.clone();
            state.progress.set(0, &[position]);
            let call = DispatchCall {
                readable_end,
                ..store.call(random.pick(&[1, 2, u64::MAX]))
            };
            bench.dispatch(&call, &mut state)?;
        }
    }
    Ok(())
}

/// The bytes at a place of a record.
fn part(own: &[u8], place: Place) -> &[u8] {
    &own[place.at as usize..][..place.length as usize]
}

/// "a sound record appended again at its place gives its own bytes".
fn append_again(bench: &mut Bench, store: &Store, position: u64, record: &Record) -> Check<()> {
    let bytes = store.log.get();
    let own = &bytes[store.place(position)..];
    let fields = &record.fields;
    let draft = Draft {
        body_crc: fields.body_crc,
        queue_id: fields.queue_id,
        flag: fields.flag,
        queue_offset: fields.queue_offset,
        system_flag: fields.system_flag,
        born_time: fields.born_time,
        born_host: part(own, record.born_host).to_vec(),
        store_time: fields.store_time,
        store_host: part(own, record.store_host).to_vec(),
        reconsume_times: fields.reconsume_times,
        prepared_offset: fields.prepared_offset,
        body: part(own, record.body).to_vec(),
        topic: part(own, record.topic).to_vec(),
        properties: part(own, record.properties).to_vec(),
    };
    let mut log = store.log.clone();
    let mut write_position = position;
    let answer = bench.append(
        &mut log,
        &store.sizes,
        &draft.message(),
        &mut write_position,
    )?;
    let call = format!("append again of the record read at {position}");
    let expect =
        |field, archive, expected| bench.expect(Operation::Append, &call, field, archive, expected);
    expect("answer", u64::from(answer), 0)?;
    expect("write_position", write_position, position + record.total)?;
    let changed = log.get().iter().zip(bytes).filter(|(new, old)| new != old);
    expect("bytes changed", changed.count() as u64, 0)
}

fn counts_of(store: &Store) -> [u64; 16] {
    let mut counts = [0; 16];
    counts.copy_from_slice(&store.state.progress.get()[1..]);
    counts
}

fn queue_reading<'a>(random: &Random, store: &'a Store, mut counts: [u64; 16]) -> QueueReading<'a> {
    let rows = store.rows.len() as u64;
    let row = if random.one_in(12) {
        random.pick(&[rows, rows + 1, 15, 16, 1 << 32, u64::MAX])
    } else {
        random.below(rows)
    };
    if random.one_in(3) {
        // Entries that nobody dispatched are read as they stand.
        let row = random.below(rows.max(row.saturating_add(1).min(16))) as usize;
        counts[row] = random.between(0, store.sizes.queue_entries);
    }
    if random.one_in(20) {
        counts[random.below(16) as usize] =
            random.pick(&[store.sizes.queue_entries + 1, 1 << 32, u64::MAX]);
    }
    let count = counts.get(row as usize).copied().unwrap_or(0);
    let start = match random.below(12) {
        0 => count.wrapping_add(1),
        1 => count,
        2 => count.saturating_sub(1),
        3 => random.absurd(),
        4..=6 => 0,
        _ => random.below(count.clamp(1, 300_001)),
    };
    let places = random.pick(&[0, 1, 2, 5, 40]);
    let wanted = match random.below(10) {
        0 => places + 1,
        1 => random.absurd(),
        2 => 0,
        3 => random.below(places + 1),
        _ => places,
    };
    let tag_code = some_tag_code(random, store, row.min(rows - 1));
    QueueReading {
        queues: &store.state.queues,
        sizes: store.sizes,
        directory: &store.directory,
        counts,
        row,
        start,
        wanted,
        tag_given: random.pick(&[0, 1, 1, 1, 2, 256, 1 << 31, u32::MAX]),
        tag_code,
        places: places as usize,
    }
}

/// A tag code that an entry of the row holds, or one like it.
fn some_tag_code(random: &Random, store: &Store, row: u64) -> u64 {
    let queues = store.state.queues.get();
    let entry = row * store.sizes.queue_entries + random.below(store.sizes.queue_entries.min(6));
    let place = entry as usize * 20 + 12;
    let held = match queues.get(place..place + 8) {
        Some(bytes) => u64::from_be_bytes(bytes.try_into().expect("8 bytes")),
        None => 0,
    };
    match random.below(8) {
        0 => held & 0xFFFF_FFFF,
        1 => held.wrapping_add(1),
        2 => 0,
        3 => 2112,
        4 => held ^ 1 << random.below(64),
        _ => held,
    }
}

fn header_time(store: &Store) -> u64 {
    let bytes = &store.state.index.get()[..8];
    u64::from_be_bytes(bytes.try_into().expect("8 bytes"))
}

/// A time at which a query's range may begin or end: the recorded time of an item, or beside it.
fn range_time(random: &Random, store: &Store) -> u64 {
    let first = header_time(store);
    let time = match store.times.as_slice() {
        [] => first,
        times => random.pick(times),
    };
    let recorded = if time > first {
        first.wrapping_add((time - first) / 1000 * 1000)
    } else {
        first
    };
    match random.below(12) {
        0 => time,
        1 => first,
        2 => recorded.wrapping_add(1),
        3 => recorded.wrapping_sub(1),
        4 => recorded.wrapping_add(1_000),
        5 => first.wrapping_add(1_000 * (i32::MAX as u64)),
        6 => random.below(1 << 48),
        _ => recorded,
    }
}

/// A query for a key that senders use, mostly well formed.
fn query(bench: &mut Bench, random: &Random, store: &Store) -> Check<()> {
    let (topic, _) = random.pick(&store.rows);
    let mut topic = if random.one_in(10) {
        random.pick(&TOPICS).to_vec()
    } else {
        topic
    };
    let mut key = match random.below(12) {
        0 => [random.pick(&KEYS), b" ", random.pick(&KEYS)].concat(),
        1 => b"b".to_vec(),
        _ => random.pick(&KEYS).to_vec(),
    };
    let (mut first_time, mut last_time) = match random.below(6) {
        0..=2 => (0, LARGEST_TIME),
        3 => (range_time(random, store), LARGEST_TIME),
        4 => (0, range_time(random, store)),
        _ => {
            let times = [range_time(random, store), range_time(random, store)];
            (times[0].min(times[1]), times[0].max(times[1]))
        }
    };
    let places = random.pick(&[1, 2, 3, 5, 31, 32, 32, 33, 70]);
    let mut wanted = if random.one_in(3) {
        0
    } else {
        random.between(1, places)
    };
    let mut places = places as usize;
    if random.one_in(12) {
        match random.below(10) {
            0 => topic = mostly_text(random, random.pick(&[0, 127, 128, 129, 255, 256])),
            1 => {
                let length = random.pick(&[0, 0, 1, 255, 256, 32_767, 32_768, 65_536]);
                key = mostly_text(random, length);
            }
            8 => topic = faulty_text(random, random.pick(&[1, 2, 20, 127])),
            9 => key = faulty_text(random, random.pick(&[1, 2, 20, 300, 32_767])),
            2 => first_time = random.pick(&[LARGEST_TIME, 1 << 48, 1 << 63, u64::MAX]),
            3 => last_time = random.pick(&[LARGEST_TIME, 1 << 48, 1 << 63, u64::MAX]),
            4 => (first_time, last_time) = (last_time, first_time),
            5 => wanted = random.pick(&[places as u64, places as u64 + 1, 1 << 32, u64::MAX]),
            6 => wanted = random.absurd(),
            _ => {
                places = 0;
                wanted = random.pick(&[0, 1]);
            }
        }
    }
    bench.query(&Question {
        index: &store.state.index,
        sizes: store.sizes,
        topic: &topic,
        key: &key,
        first_time,
        last_time,
        wanted,
        places,
    })?;
    Ok(())
}

/// Appends at positions that no append led to.
fn append_anywhere(bench: &mut Bench, random: &Random, store: &mut Store) -> Check<()> {
    for _ in 0..random.below(4) {
        let (topic, queue_id) = random.pick(&store.rows);
        let mut draft = Draft {
            queue_id: u64::from(queue_id),
            ..Draft::least(&topic)
        };
        draft.scatter(random);
        let segments = store.log.len() as u64 / store.sizes.segment_size;
        let segment_end =
            store.sizes.first_position + store.sizes.segment_size * random.between(1, segments);
        let mut position = match random.below(8) {
            0 => store.log_end(),
            1 => store.log_end() + 1,
            2 => store
                .sizes
                .first_position
                .wrapping_sub(random.pick(&[1, 8, 92, 100])),
            3 => random.absurd(),
            4 => store.sizes.first_position + random.below(store.log.len() as u64),
            _ => segment_end - random.below(120),
        };
        match random.below(9) {
            0 => draft.topic.clear(),
            1 => draft.store_time = 1 << 48,
            2..=4 => {
                let r = store.sizes.segment_size - position % store.sizes.segment_size;
                draft.grow_to((r + 1).saturating_sub(random.between(7, 11)), random);
            }
            5 => draft.grow_to(store.sizes.segment_size - random.between(6, 9), random),
            6 => random.pick(&Fault::ALL).put(&mut draft, random),
            _ => {}
        }
        bench.append(
            &mut store.log,
            &store.sizes,
            &draft.message(),
            &mut position,
        )?;
    }
    Ok(())
}

/// A dispatched store whose index is worn: links, seconds, positions, slots and header fields.
fn worn_index(bench: &mut Bench, random: &Random) -> Check<()> {
    let plan = Plan::default();
    let mut store = Store::filled(bench, random, plan)?;
    let mut state = store.state.clone();
    let budget = random.pick(&[1, 2, 3, 5, u64::MAX, u64::MAX, u64::MAX]);
    bench.dispatch(&store.call(budget), &mut state)?;
    store.state = state;
    for _ in 0..random.between(1, 4) {
        query(bench, random, &store)?;
    }
    for _ in 0..random.between(1, 3) {
        match random.below(10) {
            0..=5 => store.damage_item(random),
            6..=7 => store.damage_slot(random),
            8 => store.damage_header(random),
            _ => store.invent_header(random),
        }
    }
    bench.check_index(&store.state.index, &store.sizes)?;
    for _ in 0..random.between(1, 8) {
        query(bench, random, &store)?;
    }
    if random.one_in(3) {
        // From an earlier record: the index is ahead of it.
        if let [first, ..] = store.entries.as_slice() {
            let first = *first;
            let position = random.pick(&store.entries);
            store
                .state
                .progress
                .set(0, &[random.pick(&[first, position])]);
            if random.one_in(2) {
                store.state.progress.set(1, &[0; 16]);
            }
        }
    }
    let mut state = store.state.clone();
    bench.dispatch(&store.call(u64::MAX), &mut state)?;
    Ok(())
}

/// Calls with faults at several doors at once, and absurd numbers in every parameter.
fn doors(bench: &mut Bench, random: &Random) -> Check<()> {
    let plan = Plan::default();
    let mut store = Store::filled(bench, random, plan)?;
    if random.one_in(2) {
        let mut state = store.state.clone();
        bench.dispatch(&store.call(u64::MAX), &mut state)?;
        store.state = state;
    }
    for _ in 0..4 {
        dispatch_doors(bench, random, &store)?;
        queue_doors(bench, random, &store)?;
        query_doors(bench, random, &store)?;
        log_doors(bench, random, &store)?;
    }
    Ok(())
}

fn dispatch_doors(bench: &mut Bench, random: &Random, store: &Store) -> Check<()> {
    let mut other = Variation::of(store, random.absurd());
    let mut state = store.state.clone();
    let position = state.progress.get()[0];
    if random.one_in(5) {
        other.spoil_log(random);
    }
    if random.one_in(8) {
        other.spoil_queue_entries(random);
    }
    if random.one_in(8) {
        other.spoil_index_shape(random);
    }
    if random.one_in(5) {
        other.spoil_directory(random);
    }
    if random.one_in(5) {
        other.spoil_end(random, position);
    }
    if random.one_in(5) {
        let number = random.below(17) as usize;
        let number = random.pick(&[0, number, 16]);
        let value = if number == 0 {
            random.beside(position)
        } else {
            random.pick(&[
                store.sizes.queue_entries,
                store.sizes.queue_entries + 1,
                1 << 32,
                u64::MAX,
            ])
        };
        state.progress.set(number, &[value]);
    }
    if random.one_in(4) {
        let used = random.pick(&[0, store.sizes.item_count as u32 + 1, 1 << 31, u32::MAX]);
        state.index.set(36, &used.to_be_bytes());
        state
            .index
            .set(0, &random.pick(&[0u64, 1 << 48, 1 << 63]).to_be_bytes());
    }
    if random.one_in(10) {
        let length = state.queues.len();
        let length = random.pick(&[0, 1, length - 1, length + 1, length - 20, length + 20]);
        let mut bytes = state.queues.get().to_vec();
        bytes.resize(length, 7);
        state.queues = Twin::new(&bytes);
    }
    if random.one_in(10) {
        let length = state.index.len();
        let length = random.pick(&[
            0,
            1,
            39,
            40,
            length - 1,
            length + 1,
            length - 20,
            length + 20,
        ]);
        let mut bytes = state.index.get().to_vec();
        bytes.resize(length, 0);
        state.index = Twin::new(&bytes);
    }
    if random.one_in(10) {
        // An index that fits what is wrong.
        (other.sizes.slot_count, other.sizes.item_count) = few(random, store);
        state.index = Twin::zeros(Store::index_length(
            other.sizes.slot_count,
            other.sizes.item_count,
        ));
    }
    if random.one_in(4) {
        // One parameter beside what is meant, fault or not.
        match random.below(7) {
            0 => other.sizes.segment_size = random.beside(other.sizes.segment_size),
            1 => other.sizes.first_position = random.beside(other.sizes.first_position),
            2 => other.readable_end = random.beside(other.readable_end),
            3 => other.sizes.queue_entries = random.beside(other.sizes.queue_entries),
            4 => other.sizes.slot_count = random.beside(other.sizes.slot_count),
            5 => other.sizes.item_count = random.beside(other.sizes.item_count),
            _ => {
                let place = random.below(17) as usize;
                let value = random.beside(state.progress.get()[place]);
                state.progress.set(place, &[value]);
            }
        }
    }
    bench.dispatch(&other.call(), &mut state)?;
    Ok(())
}

fn queue_doors(bench: &mut Bench, random: &Random, store: &Store) -> Check<()> {
    let mut other = Variation::of(store, 0);
    let mut reading = queue_reading(random, store, counts_of(store));
    if random.one_in(4) {
        other.spoil_queue_entries(random);
        reading.sizes = other.sizes;
    }
    if random.one_in(4) {
        other.spoil_directory(random);
    }
    reading.directory = &other.directory;
    if random.one_in(4) {
        let number = random.below(16) as usize;
        reading.counts[number] = random.beside(reading.counts[number]);
    }
    match random.below(6) {
        0 => reading.row = random.beside(reading.row),
        1 => reading.start = random.beside(reading.start),
        2 => reading.wanted = random.beside(reading.wanted),
        3 => reading.sizes.queue_entries = random.beside(reading.sizes.queue_entries),
        _ => {}
    }
    let queues;
    if random.one_in(8) {
        let length = random.pick(&[0, 1, reading.queues.len() - 1, reading.queues.len() + 1]);
        let mut bytes = reading.queues.get().to_vec();
        bytes.resize(length, 7);
        queues = Twin::new(&bytes);
        reading.queues = &queues;
    }
    bench.read_queue(&reading)?;
    Ok(())
}

/// Too few slots or items, or as few as can be.
fn few(random: &Random, store: &Store) -> (u64, u64) {
    let (k, n) = (store.sizes.slot_count, store.sizes.item_count);
    random.pick(&[(0, n), (k, 1), (k, 0), (0, 0), (1, 1), (1, 2)])
}

fn query_doors(bench: &mut Bench, random: &Random, store: &Store) -> Check<()> {
    let mut other = Variation::of(store, 0);
    let mut index = store.state.index.get().to_vec();
    if random.one_in(4) {
        other.spoil_index_shape(random);
    }
    if random.one_in(4) {
        let place = random.pick(&[0, 8, 16, 24, 32, 36]);
        index[place] ^= 1 << random.below(8);
    }
    if random.one_in(6) {
        let length = index.len();
        index.resize(random.pick(&[0, 1, 39, 40, length - 1, length + 1]), 0);
    }
    if random.one_in(10) {
        (other.sizes.slot_count, other.sizes.item_count) = few(random, store);
        index = vec![0; Store::index_length(other.sizes.slot_count, other.sizes.item_count)];
    }
    if random.one_in(8) {
        other.sizes.slot_count = random.beside(other.sizes.slot_count);
    }
    if random.one_in(8) {
        other.sizes.item_count = random.beside(other.sizes.item_count);
    }
    let index = Twin::new(&index);
    bench.check_index(&index, &other.sizes)?;
    let topic_length = random.pick(&[0, 1, 1, 1, 2, 127, 128]);
    let key_length = random.pick(&[0, 1, 1, 1, 2, 300]);
    let times = [random.absurd() >> random.pick(&[0, 16]), LARGEST_TIME];
    bench.query(&Question {
        index: &index,
        sizes: other.sizes,
        topic: &mostly_text(random, topic_length),
        key: &mostly_text(random, key_length),
        first_time: random.pick(&[0, times[0], times[1]]),
        last_time: random.pick(&[times[0], times[1], times[1]]),
        wanted: random.pick(&[0, 1, 2, times[0]]),
        places: random.pick(&[0, 1, 31, 32, 33]),
    })?;
    Ok(())
}

/// Append and record reading.
fn log_doors(bench: &mut Bench, random: &Random, store: &Store) -> Check<()> {
    let mut other = Variation::of(store, 0);
    if random.one_in(3) {
        other.spoil_log(random);
    }
    match random.below(6) {
        0 => other.sizes.segment_size = random.beside(other.sizes.segment_size),
        1 => other.sizes.first_position = random.beside(other.sizes.first_position),
        _ => {}
    }
    let end = other
        .sizes
        .first_position
        .wrapping_add(other.log.len() as u64);
    let near_end = end.wrapping_sub(random.below(10));
    let position = random.pick(&[
        other.sizes.first_position,
        near_end,
        end.wrapping_add(1),
        store.written_end,
    ]);
    let position = if random.one_in(3) {
        random.beside(position)
    } else {
        position
    };
    let readable_end = random.pick(&[
        end,
        end,
        end.wrapping_add(1),
        position,
        position.wrapping_sub(1),
    ]);
    bench.read_record(&other.log, &other.sizes, position, readable_end)?;
    let mut draft = Draft::least(b"T");
    draft.scatter(random);
    match random.below(15) {
        0 => draft.topic.clear(),
        1 => draft.topic = vec![b't'; random.pick(&[127, 128, 129, 255, 256])],
        13 => draft.topic = mostly_text(random, random.pick(&[1, 2, 30, 126, 127])),
        14 => draft.properties = properties(random),
        2 => draft.store_time = random.absurd(),
        3 => draft.queue_id = random.absurd(),
        4 => draft.system_flag = random.absurd(),
        5 => draft.grow_to(
            other.sizes.segment_size.clamp(200, 3_000) - random.between(6, 9),
            random,
        ),
        6 => draft.queue_offset = random.absurd(),
        7 => random.pick(&Fault::ALL).put(&mut draft, random),
        8 => draft.body_crc = random.absurd(),
        9 => draft.flag = random.absurd(),
        10 => draft.reconsume_times = random.absurd(),
        _ => {}
    }
    let mut write_position = position;
    bench.append(
        &mut other.log,
        &other.sizes,
        &draft.message(),
        &mut write_position,
    )?;
    Ok(())
}

/// Directories of every make, read by the three operations that take one.
fn directories(bench: &mut Bench, random: &Random) -> Check<()> {
    let plan = Plan::default();
    let mut store = Store::empty(random, plan);
    for _ in 0..6 {
        let mut rows: Vec<Vec<u8>> = Vec::new();
        let number = random.pick(&[0, 1, 1, 2, 2, 3, 5, 15, 16, 17, 18]);
        while rows.len() < number {
            let topic = match random.below(6) {
                0 => random.pick(&TOPICS).to_vec(),
                1 => b"T".to_vec(),
                2 => {
                    let length = random.pick(&[1, 2, 126, 127, 127]);
                    random.bytes(length)
                }
                _ => format!("topic-{}", rows.len()).into_bytes(),
            };
            let queue_id = random.pick(&[0, 1, 1 << 24, 0x7FFF_FFFF, 256]);
            rows.push(row(&topic, queue_id));
        }
        if random.one_in(8) && !rows.is_empty() {
            rows.push(random.pick(&rows));
        }
        if random.one_in(8) && !rows.is_empty() {
            // A topic too short or too long, all else in order.
            let place = random.below(rows.len() as u64) as usize;
            let length = random.pick(&[0, 0, 128, 129]);
            rows[place] = row(&vec![b't'; length], 5);
        }
        if random.one_in(6) && !rows.is_empty() {
            let last = rows.len() as u64 - 1;
            let spoiled = &mut rows[random.pick(&[0, last, random.below(last + 1)]) as usize];
            match random.below(6) {
                0 => spoiled[0] = random.pick(&[0, 8, 9, 134, 135, 136, 255]),
                1 => spoiled[1] = random.pick(&[1, 0x80, 0xFF]),
                2 => spoiled[2] = random.pick(&[0, 2, 0xFF]),
                3 => spoiled[3] = random.pick(&[1, 0x80, 0xFF]),
                4 => spoiled[7] ^= 0x80,
                _ => {
                    spoiled.pop();
                }
            }
        }
        let mut bytes = rows.concat();
        if random.one_in(10) {
            let extra = random.between(1, 9);
            bytes.extend(random.bytes(extra));
        }
        let claimed = rows.len() as u64;
        store.directory = Twin::new(&bytes);
        store.sizes.queue_entries = random.pick(&[1, 2, 3]);
        let length = 20 * claimed * store.sizes.queue_entries;
        let length = if random.one_in(12) {
            random.beside(length) % 2_000
        } else {
            length
        };
        store.state.queues = Twin::new(&random.bytes(length));
        store.state.progress.set(1, &[0; 16]);
        if random.one_in(8) {
            let place = random.between(1, 16) as usize;
            let count = random.between(store.sizes.queue_entries, store.sizes.queue_entries + 1);
            store.state.progress.set(place, &[count]);
        }
        store.written_end = store.sizes.first_position;
        let mut state = store.state.clone();
        bench.dispatch(&store.call(random.pick(&[0, 1])), &mut state)?;
        bench.report(&store.stretch(store.written_end, store.written_end))?;
        let counts = [random.pick(&[0, store.sizes.queue_entries]); 16];
        bench.read_queue(&QueueReading {
            queues: &store.state.queues,
            sizes: store.sizes,
            directory: &store.directory,
            counts,
            row: random.pick(&[0, claimed.saturating_sub(1), claimed, 15, 16]),
            start: 0,
            wanted: random.pick(&[0, 3]),
            tag_given: 0,
            tag_code: 0,
            places: 3,
        })?;
    }
    Ok(())
}

/// Segments for the lister.
fn listings(bench: &mut Bench, random: &Random) -> Check<()> {
    let plan = Plan {
        wide: random.one_in(60),
        single: true,
        ..Plan::default()
    };
    let mut store = Store::filled(bench, random, plan)?;
    if random.one_in(3) {
        store.damage_log(random);
    }
    let mut segment = store.log.get().to_vec();
    if !random.one_in(4) && store.written_end < segment.len() as u64 {
        // Another length, closed by a blank.
        let written = store.written_end as usize;
        let length = if random.one_in(8) {
            random.pick(&[65_535, 65_536, 65_537, 70_000])
        } else {
            random.pick(&[written + 8, written + 9, 1_023, 1_024, 1_025, segment.len()])
        };
        let r = (length as u64).saturating_sub(written as u64) as u32;
        segment.truncate(written);
        segment.extend(r.to_be_bytes());
        segment.extend(BLANK_MAGIC);
        segment.resize(length, 0x42);
    }
    if random.one_in(20) {
        segment.truncate(random.pick(&[0, 1, 8, 1_023]));
    }
    let text_length = random.pick(&[
        65_536, 65_536, 65_536, 65_536, 65_536, 65_537, 65_535, 0, 27,
    ]);
    bench.list(&segment, text_length)?;
    Ok(())
}

/// Records of 4,194,304 bytes and one more, in segments that are just too short for the first, just long enough, longer.
fn largest_record(bench: &mut Bench) -> Check<()> {
    const LARGEST: u64 = 4_194_304;
    let directory = Twin::new(&row(b"T", 0));
    for s in [LARGEST + 7, LARGEST + 8, LARGEST + 200] {
        let sizes = Sizes {
            segment_size: s,
            ..Sizes::default()
        };
        let mut log = Twin::zeros(s as usize);
        for total in [LARGEST, LARGEST + 1] {
            let mut draft = Draft::least(b"T");
            draft.body = vec![0xBD; total as usize - 92];
            let mut write_position = 0;
            bench.append(&mut log, &sizes, &draft.message(), &mut write_position)?;
            log.set(0, &(total as u32).to_be_bytes());
            for end in [8, total - 1, total, s] {
                bench.read_record(&log, &sizes, 0, end.min(s))?;
                bench.report(&Stretch {
                    log: &log,
                    sizes,
                    directory: &directory,
                    position: 0,
                    readable_end: end.min(s),
                })?;
            }
        }
    }
    Ok(())
}

/// Each size at its limit and one above it. The buffers are zeros, so most of them takes no memory.
fn largest_sizes(bench: &mut Bench, random: &Random) -> Check<()> {
    let directory = Twin::new(&row(b"T", 0));
    for queue_entries in [300_000, 300_001] {
        let queues = Twin::zeros(20 * queue_entries as usize);
        let mut counts = [0; 16];
        counts[0] = queue_entries;
        bench.read_queue(&QueueReading {
            queues: &queues,
            sizes: Sizes {
                queue_entries,
                ..Sizes::default()
            },
            directory: &directory,
            counts,
            row: 0,
            start: queue_entries - 3,
            wanted: 5,
            tag_given: 0,
            tag_code: 0,
            places: 5,
        })?;
        let plan = Plan::default();
        let mut store = Store::filled(bench, random, plan)?;
        store.sizes.queue_entries = queue_entries;
        store.state.queues = Twin::zeros(20 * queue_entries as usize * store.rows.len());
        let mut state = store.state.clone();
        bench.dispatch(&store.call(u64::MAX), &mut state)?;
    }
    for (slot_count, item_count) in [
        (5_000_000, 2),
        (5_000_001, 2),
        (1, 20_000_000),
        (1, 20_000_001),
    ] {
        let index = Twin::zeros(Store::index_length(slot_count, item_count));
        let sizes = Sizes {
            slot_count,
            item_count,
            ..Sizes::default()
        };
        bench.check_index(&index, &sizes)?;
        bench.query(&Question {
            index: &index,
            sizes,
            topic: b"T",
            key: b"k",
            first_time: 0,
            last_time: LARGEST_TIME,
            wanted: 1,
            places: 1,
        })?;
    }
    for s in [1 << 30, (1 << 30) + 1] {
        let mut log = Twin::zeros(s as usize);
        let b = LARGEST_POSITION / s * s - s;
        let sizes = Sizes {
            segment_size: s,
            first_position: b,
            ..Sizes::default()
        };
        let mut write_position = b + s - 500;
        bench.append(
            &mut log,
            &sizes,
            &Draft::least(b"T").message(),
            &mut write_position,
        )?;
        bench.read_record(&log, &sizes, b + s - 500, b + s)?;
        bench.report(&Stretch {
            log: &log,
            sizes,
            directory: &directory,
            position: b + s - 500,
            readable_end: write_position,
        })?;
    }
    for length in [1_023u32, 1_024, 65_535, 65_536, 65_537] {
        let mut segment = vec![0; length as usize];
        segment[..4].copy_from_slice(&length.to_be_bytes());
        segment[4..8].copy_from_slice(&BLANK_MAGIC);
        bench.list(&segment, 65_536)?;
    }
    Ok(())
}
