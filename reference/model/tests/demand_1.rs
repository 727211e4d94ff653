//! Demand 1: any bytes and any numbers bring an answer from the table; refusals change nothing; stops keep whole steps.

mod common;

use std::collections::BTreeSet;

use common::random::{random_properties, random_store, trouble, Plan};
use common::*;
use model::interface::{self, Fields, Figures, Found, Progress, Sizes};

/// A number from the edges of the limits, or any.
fn number(rng: &mut Rng) -> u64 {
    let near = rng.pick(&[
        0,
        1,
        2,
        8,
        16,
        32,
        92,
        127,
        1_024,
        2_048,
        32_767,
        300_000,
        4_194_304,
        5_000_000,
        20_000_000,
        1_073_741_824,
        1 << 31,
        1 << 32,
        TWO_40,
        TWO_48,
        1 << 63,
        MAX,
    ]);
    match rng.below(8) {
        0 => rng.next(),
        1 => near.wrapping_add(1),
        2 => near.wrapping_sub(1),
        3 => near.wrapping_mul(rng.below(5)),
        _ => near,
    }
}

/// Mostly the good number, else any.
fn mostly(rng: &mut Rng, good: u64) -> u64 {
    if rng.one_in(12) {
        number(rng)
    } else {
        good
    }
}

/// The store's sizes, each mostly; those that a call does not look at are any.
fn mostly_sizes(rng: &mut Rng, store: &Store, looked_at: [bool; 5]) -> Sizes {
    let [s, b, r, k, n] = store.sizes().numbers();
    let mut size = |good: u64, looked_at: bool| {
        if looked_at {
            mostly(rng, good)
        } else {
            number(rng)
        }
    };
    Sizes {
        segment_size: size(s, looked_at[0]),
        first_position: size(b, looked_at[1]),
        queue_entries: size(r, looked_at[2]),
        slot_count: size(k, looked_at[3]),
        item_count: size(n, looked_at[4]),
    }
}

const OF_THE_LOG: [bool; 5] = [true, true, false, false, false];
const OF_A_QUEUE: [bool; 5] = [false, false, true, false, false];
const OF_THE_INDEX: [bool; 5] = [false, false, false, true, true];
const ALL: [bool; 5] = [true; 5];

/// Mostly the good bytes, else longer, shorter, or with some bytes changed.
fn mostly_bytes(rng: &mut Rng, good: &[u8]) -> Vec<u8> {
    let mut bytes = good.to_vec();
    match rng.below(16) {
        0 => bytes.push(rng.next() as u8),
        1 => {
            bytes.pop();
        }
        2 => {
            let length = rng.below(40);
            bytes = rng.bytes(length);
        }
        3 | 4 if !bytes.is_empty() => {
            for _ in 0..rng.between(1, 4) {
                let place = rng.below(bytes.len() as u64) as usize;
                bytes[place] = rng.pick(&[0, 1, 0x7F, 0x80, 0xFF, 0x31]);
            }
        }
        _ => {}
    }
    bytes
}

/// A troubled store, some of it not even that.
fn any_store(rng: &mut Rng) -> Store {
    let plan = Plan {
        troubled: true,
        rising: false,
    };
    let (mut store, _) = random_store(rng, plan);
    trouble(&mut store, rng);
    store.log = mostly_bytes(rng, &store.log);
    store.directory = mostly_bytes(rng, &store.directory);
    store.state.queues = mostly_bytes(rng, &store.state.queues);
    store.state.index = mostly_bytes(rng, &store.state.index);
    store
}

#[test]
fn append_answers_from_the_table() {
    let mut seen = BTreeSet::new();
    for_seeds(4_000, |_, rng| {
        let store = any_store(rng);
        let sizes = mostly_sizes(rng, &store, OF_THE_LOG);
        let (s, b) = (sizes.segment_size, sizes.first_position);
        let good_w = b.wrapping_add(rng.below(store.log.len() as u64 + 9));
        let given = mostly(rng, good_w);
        let (properties, _, _) = random_properties(rng);
        let properties = mostly_bytes(rng, &properties);
        let topic = mostly_bytes(rng, b"T");
        let body_length = rng.pick(&[0, 1, 200, 900, 932]);
        let body = rng.bytes(body_length);
        let fields = Fields {
            body_crc: mostly(rng, MAX_4),
            queue_id: mostly(rng, 0),
            flag: mostly(rng, MAX_4),
            queue_offset: number(rng),
            system_flag: mostly(rng, 4),
            born_time: number(rng),
            store_time: mostly(rng, 77),
            reconsume_times: mostly(rng, MAX_4),
            prepared_offset: number(rng),
        };
        let host = rng.bytes(8);
        let (born_host, store_host) = (mostly_bytes(rng, &host), mostly_bytes(rng, &host));
        let mut log = store.log.clone();
        let mut w = given;
        let answer = interface::append(
            &mut log,
            &sizes,
            &fields,
            &born_host,
            &store_host,
            &body,
            &topic,
            &properties,
            &mut w,
        );
        seen.insert(answer);
        let written = match answer {
            0 => 91 + body.len() + topic.len() + properties.len(),
            7 => 8,
            _ => 0,
        };
        match answer {
            0 => assert_eq!(w - given, written as u64),
            7 => assert_eq!((w % s, w > given, w - given <= s), (0, true, true)),
            _ => assert_eq!(w, given),
        }
        let place = given.wrapping_sub(b).min(log.len() as u64) as usize;
        assert_eq!(log[..place], store.log[..place]);
        let rest = (place + written).min(log.len());
        assert_eq!(log[rest..], store.log[rest..]);
    });
    assert_eq!(seen, BTreeSet::from([0, 1, 2, 5, 6, 7]));
}

#[test]
fn record_reading_answers_from_the_table() {
    let mut seen = BTreeSet::new();
    for_seeds(4_000, |_, rng| {
        let store = any_store(rng);
        let s = mostly(rng, store.log_shape.segment_size);
        let b = mostly(rng, store.log_shape.first_position);
        let good_p = if rng.one_in(2) {
            b
        } else {
            b.wrapping_add(rng.below(store.log.len() as u64 + 1))
        };
        let p = mostly(rng, good_p);
        let e = mostly(rng, store.readable_end);
        let (answer, record) = read(&store.log, s, b, p, e);
        seen.insert(answer);
        if answer == 0 {
            assert!(matches!(record.kind, 1 | 2));
            assert!(record.total >= 8 && p + record.total <= e);
        }
        if record.kind == 1 {
            let properties = record.properties;
            assert_eq!(properties.at + properties.length, record.total);
        }
    });
    assert_eq!(seen, BTreeSet::from([0, 1, 2, 8, 10]));
}

#[test]
fn dispatch_answers_from_the_table() {
    let mut seen = BTreeSet::new();
    for_seeds(4_000, |_, rng| {
        let store = any_store(rng);
        let sizes = mostly_sizes(rng, &store, ALL);
        let b = sizes.first_position;
        let e = if rng.one_in(4) {
            b.wrapping_add(rng.below(store.log.len() as u64 + 2))
        } else {
            mostly(rng, store.readable_end)
        };
        let budget = rng.pick(&[0, 1, 3, 100, MAX]);
        let mut given = Progress::from(store.state.progress).numbers();
        if rng.one_in(12) {
            given[rng.below(17) as usize] = number(rng);
        }
        let given = Progress::from_numbers(&given);
        let call = |budget: u64| {
            let mut progress = given;
            let mut queues = store.state.queues.clone();
            let mut index = store.state.index.clone();
            let mut steps = 77;
            let answer = interface::dispatch(
                &store.log,
                e,
                &sizes,
                &store.directory,
                &mut queues,
                &mut index,
                budget,
                &mut progress,
                &mut steps,
            );
            (answer, steps, progress, queues, index)
        };
        let (answer, steps, progress, queues, index) = call(budget);
        seen.insert(answer);
        if (1..=4).contains(&answer) {
            assert_eq!(steps, 0);
            assert_eq!(progress, given);
            assert_eq!(queues, store.state.queues);
            assert_eq!(index, store.state.index);
        } else {
            // The steps reported stand, and nothing of the next one does.
            assert!(steps <= budget);
            assert_eq!(answer == 9, steps == budget);
            assert_eq!(call(steps), (9, steps, progress, queues, index));
        }
    });
    let table = [0, 1, 2, 3, 4, 8, 9, 10, 11, 12, 13, 14, 15, 16];
    assert_eq!(seen, BTreeSet::from(table));
}

#[test]
fn query_answers_from_the_table() {
    let mut seen = BTreeSet::new();
    for_seeds(4_000, |_, rng| {
        let mut store = any_store(rng);
        if !rng.one_in(4) {
            store.run(100);
            store.state.index = mostly_bytes(rng, &store.state.index);
            if rng.one_in(4) && store.state.index.len() > 300 {
                // Damage where the links are.
                let place = 40 + rng.below(200) as usize;
                store.state.index[place] = rng.pick(&[0, 1, 2, 0x80]);
            }
        }
        let before = store.state.index.clone();
        let sizes = mostly_sizes(rng, &store, OF_THE_INDEX);
        let topic = mostly_bytes(rng, b"T");
        let key = rng.pick(&common::random::KEYS);
        let key = mostly_bytes(rng, key.as_bytes());
        let (first, last) = (mostly(rng, 0), mostly(rng, TWO_48 - 1));
        let good_wanted = rng.below(5);
        let wanted = mostly(rng, good_wanted);
        let places = rng.pick(&[0, 1, 4, 32, 40]);
        let mut out = vec![UNWRITTEN; places];
        let mut found = Found {
            positions: 7,
            items_read: 7,
        };
        let answer = interface::query(
            &store.state.index,
            &sizes,
            &topic,
            &key,
            first,
            last,
            wanted,
            &mut out,
            &mut found,
        );
        seen.insert(answer);
        let positions = found.positions as usize;
        assert!(found.positions <= found.items_read);
        assert!(out[positions..].iter().all(|place| *place == UNWRITTEN));
        assert!(out[..positions].iter().all(|position| *position <= TWO_40));
        if matches!(answer, 1 | 4 | 17) {
            assert_eq!(found, Found::default());
        }
        // The check of an index file gives what the query's door gives of it.
        let checked = interface::check_index(&store.state.index, &sizes);
        assert_eq!(checked, if matches!(answer, 1 | 4) { answer } else { 0 });
        assert_eq!(store.state.index, before);
    });
    assert_eq!(seen, BTreeSet::from([0, 1, 4, 16, 17]));
}

#[test]
fn queue_reading_answers_from_the_table() {
    let mut seen = BTreeSet::new();
    for_seeds(4_000, |_, rng| {
        let mut store = any_store(rng);
        store.run(100);
        let sizes = mostly_sizes(rng, &store, OF_A_QUEUE);
        let mut progress = Progress::from(store.state.progress);
        progress.position = number(rng);
        if rng.one_in(12) {
            progress.counts[rng.below(16) as usize] = number(rng);
        }
        let row = mostly(rng, 0);
        let good_start = rng.below(3);
        let start = mostly(rng, good_start);
        let good_wanted = rng.below(5);
        let wanted = mostly(rng, good_wanted);
        let mut out = vec![UNWRITTEN; rng.pick(&[0, 3, 40])];
        let mut found = 7;
        let answer = interface::read_queue(
            &store.state.queues,
            &sizes,
            &store.directory,
            &progress,
            row,
            start,
            wanted,
            rng.below(2) as u32,
            rng.pick(&[0, 2_112]),
            &mut out,
            &mut found,
        );
        seen.insert(answer);
        assert!(found <= wanted);
        assert!(answer == 0 || found == 0);
        assert!(out[found as usize..]
            .iter()
            .all(|place| *place == UNWRITTEN));
    });
    assert_eq!(seen, BTreeSet::from([0, 1, 2, 3, 17]));
}

#[test]
fn the_report_answers_from_the_table() {
    let mut seen = BTreeSet::new();
    for_seeds(4_000, |_, rng| {
        let store = any_store(rng);
        let sizes = mostly_sizes(rng, &store, OF_THE_LOG);
        let good_p = if rng.one_in(2) {
            sizes.first_position
        } else {
            sizes
                .first_position
                .wrapping_add(rng.below(store.log.len() as u64 + 1))
        };
        let p = mostly(rng, good_p);
        let e = mostly(rng, store.readable_end);
        let mut figures = Figures {
            records: 7,
            items: 7,
            ..Figures::default()
        };
        let answer = interface::report(&store.log, &sizes, p, e, &store.directory, &mut figures);
        seen.insert(answer);
        match answer {
            0 | 8 | 10 => assert!(92 * figures.records + 8 * figures.blanks <= e - p),
            _ => assert_eq!(figures.numbers(), [0; 27]),
        }
    });
    assert_eq!(seen, BTreeSet::from([0, 1, 2, 3, 8, 10]));
}

#[test]
fn bytes_that_nobody_made() {
    // Short random buffers and any numbers, everywhere at once.
    for_seeds(20_000, |_, rng| {
        let mut buffers: Vec<Vec<u8>> = Vec::new();
        for _ in 0..4 {
            let length = rng.pick(&[0, 1, 40, 84, 100, 1_024, 2_048]);
            let mut bytes = rng.bytes(length);
            if rng.one_in(2) {
                bytes.fill(0);
            }
            buffers.push(bytes);
        }
        let numbers: Vec<u64> = (0..24).map(|_| number(rng)).collect();
        let sizes = Sizes {
            segment_size: numbers[0],
            first_position: numbers[1],
            queue_entries: numbers[2],
            slot_count: numbers[21],
            item_count: numbers[22],
        };
        let mut record = interface::Record::default();
        let (position, readable_end) = (numbers[2], numbers[3]);
        let a = interface::read_record(&buffers[0], &sizes, position, readable_end, &mut record);
        assert!(matches!(a, 0 | 1 | 2 | 8 | 10));
        let mut figures = Figures::default();
        let a = interface::report(
            &buffers[0],
            &sizes,
            position,
            readable_end,
            &buffers[1],
            &mut figures,
        );
        assert!(matches!(a, 0 | 1 | 2 | 3 | 8 | 10));
        let (log, rest) = buffers.split_at_mut(1);
        let (directory, rest) = rest.split_at_mut(1);
        let (queues, index) = rest.split_at_mut(1);
        let given = numbers[4..21].try_into().unwrap();
        let mut progress = Progress::from_numbers(given);
        let mut steps = 0;
        let a = interface::dispatch(
            &log[0],
            readable_end,
            &sizes,
            &directory[0],
            &mut queues[0],
            &mut index[0],
            numbers[23],
            &mut progress,
            &mut steps,
        );
        assert!(a <= 16);
        let a = model::lister::list(&log[0]).answer.number();
        assert!(matches!(a, 0 | 1 | 10));
        let mut out = [0; 5];
        let mut found = Found::default();
        let a = interface::query(
            &index[0],
            &sizes,
            &directory[0],
            &queues[0],
            numbers[2],
            numbers[3],
            numbers[4],
            &mut out,
            &mut found,
        );
        assert!(matches!(a, 0 | 1 | 4 | 16 | 17));
        let mut found = 0;
        let a = interface::read_queue(
            &queues[0],
            &sizes,
            &directory[0],
            &progress,
            numbers[2],
            numbers[3],
            numbers[4],
            numbers[5] as u32,
            numbers[6],
            &mut out,
            &mut found,
        );
        assert!(matches!(a, 0 | 1 | 2 | 3 | 17));
        // The small functions, on the same.
        assert!(interface::makes_entry(numbers[7]) <= 1);
        let items = interface::item_count(numbers[7], &queues[0]);
        assert!(items <= queues[0].len() as u64);
        let a = interface::has_item(numbers[7], &log[0], &queues[0], &log[0], &directory[0]);
        assert!(a <= 1 && u64::from(a) <= items);
        let code = interface::tag_code(&queues[0]) as i64;
        assert_eq!(code, i64::from(code as i32));
        let mut values = interface::Values::default();
        interface::find_values(&queues[0], &mut values);
        for place in [values.tags, values.keys, values.unique_key] {
            assert!(place.at + place.length <= queues[0].len() as u64);
        }
        assert!(matches!(
            interface::check_index(&index[0], &sizes),
            0 | 1 | 4
        ));
    });
}
