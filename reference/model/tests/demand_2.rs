//! Demand 2: byte for byte; read back; append again; the query on an index built from empty (readings A95 to A99).

mod common;

use common::random::{random_store, Plan, Sent};
use common::*;
use model::commit_log::{entry_at, read_record, Entry};
use model::index_file::{empty, Question};
use model::LogPosition;

const GOOD: Plan = Plan {
    troubled: false,
    rising: false,
};

/// The hash by its other definition: the sum of unit × 31^(units after it), modulo 2^32, signed at the end. The units are
/// those of Rust's library.
fn plain_hash(bytes: &[u8]) -> i64 {
    let text = std::str::from_utf8(bytes).unwrap();
    let units: Vec<u16> = text.encode_utf16().collect();
    let mut sum: u64 = 0;
    let mut power: u64 = 1;
    for unit in units.iter().rev() {
        sum = (sum + u64::from(*unit) * power) % 4_294_967_296;
        power = power * 31 % 4_294_967_296;
    }
    i64::from(sum as u32 as i32)
}

fn plain_index_hash(topic: &[u8], key: &[u8]) -> i64 {
    match plain_hash(&[topic, b"#", key].concat()) {
        -2_147_483_648 => 0,
        hash => hash.abs(),
    }
}

/// One index item, as the records sent say it.
#[derive(Debug)]
struct Expected {
    hash: i64,
    position: u64,
    seconds: u64,
}

/// The items of an index built from empty by these records.
fn expected_items(sent: &[Sent]) -> Vec<Expected> {
    let mut items = Vec::new();
    let mut first_time = None;
    for message in sent.iter().filter(|message| message.makes_items()) {
        for key in &message.keys {
            let first = *first_time.get_or_insert(message.store_time);
            let passed = message.store_time.saturating_sub(first) / 1_000;
            items.push(Expected {
                hash: plain_index_hash(&message.topic, key),
                position: message.position,
                seconds: if first == 0 {
                    0
                } else {
                    passed.min(2_147_483_647)
                },
            });
        }
    }
    items
}

#[test]
fn a95_a_record_read_back_has_the_fields_appended() {
    for_seeds(2_000, |_, rng| {
        let (store, sent) = random_store(rng, GOOD);
        let shape = store.log_shape;
        let end = shape.first_position + store.log.len() as u64;
        for message in sent {
            // The log around it may hold anything.
            let mut log = rng.bytes(store.log.len() as u64);
            let place = (message.position - shape.first_position) as usize;
            let total = message.total();
            let (answer, w) = append(
                &mut log,
                shape.segment_size,
                shape.first_position,
                &message.message(),
                message.position,
            );
            assert_eq!((answer, w), (0, message.position + total));
            assert_eq!(
                log[place..place + total as usize],
                raw(&message.message(), message.position)
            );
            for e in [w, rng.between(w, end), end] {
                let p = LogPosition(message.position);
                let reading = read_record(&log, shape, p, LogPosition(e));
                assert_eq!(reading.answer.number(), 0);
                let Some(Entry::Record(record)) = reading.entry else {
                    panic!("no record");
                };
                assert_eq!(record.total, i128::from(total));
                assert_eq!(record.log_position, p);
                assert_eq!(record.message, message.message());
                // Each part stands at its place in the record.
                let own = &log[place..place + total as usize];
                for (part, expected) in [
                    (record.places.born_host, &message.other.born_host),
                    (record.places.store_host, &message.other.store_host),
                    (record.places.body, &message.body),
                    (record.places.topic, &message.topic),
                    (record.places.properties, &message.properties),
                ] {
                    assert_eq!(part.of(own), expected);
                }
            }
        }
    });
}

#[test]
fn a96_a_sound_record_appended_again_gives_its_own_bytes() {
    let mut tried = 0;
    for_seeds(150, |_, rng| {
        let (mut store, sent) = random_store(rng, GOOD);
        // Change some bytes of the records, and try every position that reads as a record.
        for message in &sent {
            let place = (message.position - store.log_shape.first_position) as usize;
            let change = rng.below(message.total());
            if rng.one_in(2) {
                store.log[place + change as usize] = rng.next() as u8;
            }
        }
        let shape = store.log_shape;
        let b = shape.first_position;
        for p in b..store.readable_end {
            let end = LogPosition(b + store.log.len() as u64);
            let reading = read_record(&store.log, shape, LogPosition(p), end);
            if let Some(Entry::Record(record)) = reading.entry {
                let mut log = store.log.clone();
                let again = append(&mut log, shape.segment_size, b, &record.message, p);
                assert_eq!(again, (0, p + record.total as u64));
                assert_eq!(log, store.log);
                tried += 1;
            }
        }
    });
    assert!(tried > 1_000);
}

#[test]
fn records_entries_and_items_byte_for_byte() {
    for_seeds(1_500, |_, rng| {
        let (mut store, sent) = random_store(rng, GOOD);
        assert!(empty(&store.state.index));
        let mut expected = store.state.clone();
        let (answer, steps) = store.run(MAX);
        assert_eq!(answer, 0);
        let b = store.log_shape.first_position;
        let s = store.log_shape.segment_size;

        // A step for each record and each blank between them.
        let rolls = sent
            .windows(2)
            .filter(|pair| pair[0].position / s != pair[1].position / s)
            .count();
        assert_eq!(steps, (sent.len() + rolls) as u64);
        assert_eq!(store.position(), store.readable_end);

        // Queues.
        let rows = model::directory::rows(&store.directory).unwrap();
        let mut counts = [0; 16];
        for message in sent.iter().filter(|message| message.makes_entry()) {
            let row = rows
                .iter()
                .position(|row| {
                    row.topic == message.topic && row.queue_id == i128::from(message.queue_id)
                })
                .unwrap();
            let tag_code = message.tags.as_ref().map_or(0, |tags| plain_hash(tags));
            let entry = [
                &message.position.to_be_bytes()[..],
                &(message.total() as u32).to_be_bytes(),
                &tag_code.to_be_bytes(),
            ]
            .concat();
            let place = 20 * (row * store.queue_entries as usize + counts[row]);
            patch(&mut expected.queues, place, &entry);
            counts[row] += 1;
        }
        for (row, count) in counts.iter().enumerate() {
            assert_eq!(store.count(row), *count as u64);
        }
        assert_eq!(store.state.queues, expected.queues);

        // Index.
        let items = expected_items(&sent);
        let k = store.index_shape.slot_count;
        let mut slots = vec![0; k as usize];
        for (number, item) in items.iter().enumerate() {
            let slot = (item.hash as u64 % k) as usize;
            let bytes = [
                &(item.hash as u32).to_be_bytes()[..],
                &item.position.to_be_bytes(),
                &(item.seconds as u32).to_be_bytes(),
                &(slots[slot] as u32).to_be_bytes(),
            ]
            .concat();
            let place = store.item_place(number + 1);
            patch(&mut expected.index, place, &bytes);
            slots[slot] = number + 1;
        }
        for (slot, value) in slots.iter().enumerate() {
            let bytes = (*value as u32).to_be_bytes();
            patch(&mut expected.index, 40 + 4 * slot, &bytes);
        }
        let with_items: Vec<&Sent> = sent
            .iter()
            .filter(|message| message.makes_items() && !message.keys.is_empty())
            .collect();
        if let (Some(first), Some(last)) = (with_items.first(), with_items.last()) {
            let header = Header {
                first_time: first.store_time as i64,
                last_time: last.store_time as i64,
                first_position: first.position as i64,
                last_position: last.position as i64,
                filled: slots.iter().filter(|value| **value != 0).count() as i32,
                used: items.len() as i32 + 1,
            };
            patch(&mut expected.index, 0, &header.bytes());
        }
        assert_eq!(store.state.index, expected.index);

        // What append wrote is what the rules read.
        for message in &sent {
            let place = (message.position - b) as usize;
            let bytes = raw(&message.message(), message.position);
            assert_eq!(store.log[place..place + bytes.len()], bytes);
        }
    });
}

#[test]
fn a97_to_a99_a_query_on_an_index_built_from_empty() {
    let mut found_some = 0;
    let mut falling = 0;
    for_seeds(1_500, |_, rng| {
        let rising = !rng.one_in(4);
        let plan = Plan { rising, ..GOOD };
        let (mut store, sent) = random_store(rng, plan);
        assert_eq!(store.run(MAX).0, 0);
        let items = expected_items(&sent);
        let first_time = items.first().map_or(0, |item| {
            sent.iter()
                .find(|message| message.position == item.position)
                .map_or(0, |message| message.store_time)
        });
        // "recorded seconds never falling": by item number, whatever the store times do.
        if items.windows(2).any(|two| two[0].seconds > two[1].seconds) {
            falling += 1;
            return;
        }
        for _ in 0..16 {
            let topic = rng.pick(&["T", "T", "TT", "\u{ff}U"]).as_bytes();
            let key = rng.pick(&common::random::KEYS).as_bytes();
            let spread = rng.pick(&[0, 999, 1_000, 30_000, 90_000]);
            let first = (first_time + rng.below(60_000))
                .saturating_sub(rng.pick(&[0, 30_000]))
                .min(TWO_48 - 1);
            let last = (first + spread).min(TWO_48 - 1);
            let wanted = rng.pick(&[0, 1, 2, 5, 100]);
            let asked = if wanted == 0 { 32 } else { wanted };

            let hash = plain_index_hash(topic, key);
            let matches: Vec<u64> = items
                .iter()
                .rev()
                .filter(|item| {
                    let time = first_time + 1_000 * item.seconds;
                    item.hash == hash && first <= time && time <= last
                })
                .map(|item| item.position)
                .take(asked as usize)
                .collect();
            let (answer, found, read) = query(
                &store.state.index,
                store.index_shape,
                &Question {
                    topic,
                    key,
                    first_time: first,
                    last_time: last,
                    wanted,
                },
                asked as usize + 2,
            );
            assert_eq!(answer, 0);
            assert_eq!(found, matches);
            assert!(read >= found.len() as u64 && read <= items.len() as u64);
            found_some += usize::from(!found.is_empty());
        }
    });
    assert!(found_some > 1_000, "{found_some}");
    assert!(falling > 20, "{falling}");
}

#[test]
fn a98_falling_seconds_are_outside_the_promise() {
    let mut store = Store::with(1, d1(), 4, 2, 9);
    for (queue_offset, store_time) in [10_000, 20_000, 5_000].into_iter().enumerate() {
        store.add(&model::record::Message {
            queue_offset: queue_offset as u64,
            store_time,
            ..rec_with(b"KEYS\x01a")
        });
    }
    assert_eq!(store.run(9), (0, 3));
    let seconds = [1, 2, 3].map(|number| store.item(number).2);
    assert_eq!(seconds, [0, 10, 0]);
    assert_eq!(store.query("a", 15_000, 30_000, 5), (0, vec![], 1));
}

#[test]
fn the_rules_of_a_step_read_no_byte_at_or_above_e() {
    for_seeds(400, |_, rng| {
        let (store, _) = random_store(rng, GOOD);
        let b = store.log_shape.first_position;
        for _ in 0..40 {
            let p = b + rng.below(store.readable_end - b + 1);
            let e = p + rng.below(store.readable_end - p + 1);
            if p == e {
                continue;
            }
            let mut other = store.log.clone();
            for byte in &mut other[(e - b) as usize..] {
                *byte = rng.next() as u8;
            }
            let (p, e) = (LogPosition(p), LogPosition(e));
            assert_eq!(
                entry_at(&store.log, store.log_shape, p, e),
                entry_at(&other, store.log_shape, p, e)
            );
        }
    });
}
