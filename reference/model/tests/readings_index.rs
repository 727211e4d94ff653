//! Index file (readings A63 to A71).

mod common;

use common::*;
use model::index_file::{empty, seconds};
use model::record::Message;

/// Door check 4 on this header, K slots and N items.
fn header_answer(header: Header, k: u64, n: u64) -> u32 {
    let mut store = Store::with(1, d1(), 4, k, n);
    store.set_header(header);
    let answer = store.stuck(9);
    // Query judges the same header.
    let queried = store.query("k", 0, 1, 1).0;
    assert_eq!(queried == 4, answer == 4);
    answer
}

/// A store of prepared records with KEYS=a and these store times, dispatched; N = 9.
fn with_times(times: &[u64]) -> Store {
    let mut store = Store::with(2, d1(), 4, 2, 9);
    for time in times {
        store.add(&Message {
            system_flag: PREPARED,
            store_time: *time,
            ..rec_with(b"KEYS\x01a")
        });
    }
    assert_eq!(store.run(99), (0, times.len() as u64));
    store
}

#[test]
fn a63_a_used_count_of_0_is_not_rewritten() {
    let mut store = Store::new();
    store.add(&rec());
    assert_eq!(store.run(9), (0, 1));
    assert_eq!(store.state.index[36..40], [0; 4]);
    store.add(&Message {
        queue_offset: 1,
        ..rec_with(b"KEYS\x01a")
    });
    assert_eq!(store.run(9), (0, 1));
    assert_eq!(store.state.index[36..40], [0, 0, 0, 2]);
}

#[test]
fn a64_header_soundness_uses_the_read_value() {
    let header = Header::default();
    for (used, filled, expected) in [
        (0, 0, 0),
        (0, 1, 4),
        (1, 0, 0),
        (1, 1, 4),
        (4, 0, 0),
        (4, 3, 0),
        (4, 4, 4),
        (5, 0, 4),
        (-1, 0, 4),
        (i32::MIN, 0, 4),
        (4, -1, 4),
    ] {
        let header = Header {
            used,
            filled,
            ..header
        };
        assert_eq!(header_answer(header, 2, 4), expected, "{used} {filled}");
    }
    // K does not bound the filled slots.
    let crowded = Header {
        used: 3,
        filled: 2,
        ..header
    };
    assert_eq!(header_answer(crowded, 1, 4), 0);
    // First time above last time, first time 0.
    let falling = Header {
        used: 2,
        first_time: 9,
        last_time: 3,
        ..header
    };
    assert_eq!(header_answer(falling, 2, 4), 0);
    let zero = Header {
        used: 2,
        last_time: 3,
        first_position: 9,
        last_position: 5,
        ..header
    };
    assert_eq!(header_answer(zero, 2, 4), 0);
    // The four fields are 0 where the used count reads 1.
    for used in [0, 1] {
        for field in 0..4 {
            let mut values = [0; 4];
            values[field] = 1;
            let header = Header {
                first_time: values[0],
                last_time: values[1],
                first_position: values[2],
                last_position: values[3],
                used,
                filled: 0,
            };
            assert_eq!(header_answer(header, 2, 4), 4);
            assert_eq!(header_answer(Header { used: 2, ..header }, 2, 4), 0);
        }
    }
}

#[test]
fn a65_limits_are_inclusive_and_signed() {
    let used = Header {
        used: 2,
        ..Header::default()
    };
    let time_limit = TWO_48 as i64 - 1;
    let position_limit = TWO_40 as i64;
    for (time, position, expected) in [
        (time_limit, position_limit, 0),
        (time_limit + 1, 0, 4),
        (0, position_limit + 1, 4),
        (-1, 0, 4),
        (0, -1, 4),
        (i64::MIN, 0, 4),
        (0, i64::MIN, 4),
    ] {
        let first = Header {
            first_time: time,
            first_position: position,
            ..used
        };
        let last = Header {
            last_time: time,
            last_position: position,
            ..used
        };
        assert_eq!(header_answer(first, 2, 4), expected);
        assert_eq!(header_answer(last, 2, 4), expected);
    }
}

#[test]
fn a66_two_byte_images_are_empty() {
    let mut index = vec![0; 128];
    assert!(empty(&index));
    index[39] = 1;
    assert!(empty(&index));
    index[39] = 2;
    assert!(!empty(&index));
    index[39] = 1;
    index[40] = 1;
    assert!(!empty(&index));
    // Both take the same first item and end alike.
    let mut ends = Vec::new();
    for used in [0, 1] {
        let mut store = Store::new();
        store.set_header(Header {
            used,
            ..Header::default()
        });
        assert!(empty(&store.state.index));
        assert_eq!(store.query("k", 0, 20_000, 1), (0, vec![], 0));
        store.add(&rec_with(b"KEYS\x01k"));
        assert_eq!(store.run(9), (0, 1));
        assert_eq!(store.query("k", 0, 20_000, 1), (0, vec![0], 1));
        ends.push(store.state);
    }
    assert_eq!(ends[0], ends[1]);
    // Slots over a used count of 1 may hold anything and pass the door; they give 16 when needed.
    let mut store = Store::new();
    store.set_slot(0, 1);
    store.add(&rec());
    store.add(&Message {
        queue_offset: 1,
        ..rec_with(b"KEYS\x01a")
    });
    assert_eq!(store.run(9), (16, 1));
}

#[test]
fn a67_seconds() {
    // First time 0 with a used count above 1: always 0.
    let store = with_times(&[0, 5_000]);
    assert_eq!((store.item(1).2, store.item(2).2), (0, 0));
    assert_eq!(store.query("a", 1, 20_000, 0), (0, vec![], 1));
    assert_eq!(store.query("a", 0, 20_000, 0).1.len(), 2);
    // Kept within the limits.
    let store = with_times(&[1_000, TWO_48 - 1]);
    assert_eq!(store.item(2).2, 2_147_483_647);
    let recorded = 2_147_483_648_000;
    assert_eq!(store.query("a", recorded, recorded, 1).1.len(), 1);
    assert_eq!(store.query("a", recorded + 1, TWO_48 - 1, 1).1.len(), 0);
    // A store time below the first.
    let store = with_times(&[10_000, 9_999, 1]);
    assert_eq!((store.item(2).2, store.item(3).2), (0, 0));
    // The second item of the first record.
    let mut store = Store::new();
    store.add(&rec_with(b"KEYS\x01a b"));
    assert_eq!(store.run(9), (0, 1));
    assert_eq!((store.item(1).2, store.item(2).2), (0, 0));
    // The function itself.
    assert_eq!(seconds(5_000, 0), 0);
    assert_eq!(seconds(2_147_483_647_999 + 1, 1), 2_147_483_647);
    assert_eq!(seconds(2_147_483_647_000, 1), 2_147_483_646);
}

#[test]
fn a69_last_fields() {
    let store = with_times(&[0, 20_000, 5_000]);
    let expected = Header {
        first_time: 0,
        last_time: 5_000,
        first_position: 0,
        last_position: store.item(3).1,
        filled: 1,
        used: 4,
    };
    assert_eq!(store.state.index[..40], expected.bytes());
    let first_later = {
        let mut store = Store::with(2, d1(), 4, 2, 9);
        store.add(&rec());
        store.add(&Message {
            queue_offset: 1,
            store_time: 7,
            ..rec_with(b"KEYS\x01a")
        });
        assert_eq!(store.run(9), (0, 2));
        store
    };
    let expected = Header {
        first_time: 7,
        last_time: 7,
        first_position: 92,
        last_position: 92,
        filled: 1,
        used: 2,
    };
    assert_eq!(first_later.state.index[..40], expected.bytes());
}

#[test]
fn a70_place_0_is_never_written_and_n_4_holds_three() {
    let mut store = Store::new();
    let items = store.item_place(0);
    store.state.index[items..items + 20].fill(0xEE);
    store.add(&rec_with(b"KEYS\x01a b c"));
    assert_eq!(store.run(9), (0, 1));
    assert_eq!(store.used_count(), 4);
    assert_eq!(store.state.index[items..items + 20], [0xEE; 20]);
    store.add(&Message {
        queue_offset: 1,
        ..rec_with(b"KEYS\x01a")
    });
    assert_eq!(store.stuck(9), 14);
}

#[test]
fn a71_the_header_stays_sound_after_each_step() {
    for_seeds(200, |_, rng| {
        let k = rng.between(1, 4);
        let mut store = Store::with(4, d1(), 4, k, 20);
        for _ in 0..12 {
            let count = rng.below(3);
            let list: Vec<String> = (0..count).map(|_| rng.pick(&["a", "b"]).into()).collect();
            store.add(&Message {
                system_flag: PREPARED,
                store_time: rng.below(TWO_48),
                ..rec_with(&keys(&list.join(" ")))
            });
        }
        loop {
            let (answer, _) = store.run(1);
            assert!(model::index_file::header_ok(
                &store.state.index,
                store.index_shape
            ));
            if answer != 9 {
                break;
            }
        }
    });
}
