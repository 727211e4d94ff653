//! Query (readings A72 to A82).

mod common;

use common::*;
use model::index_file::Question;
use model::record::Message;
use model::sizes::IndexShape;

/// An index with one item, put at 10,000.
fn one_item() -> Store {
    let mut store = Store::new();
    store.add(&rec_with(b"KEYS\x01a"));
    assert_eq!(store.run(9), (0, 1));
    store
}

/// K = 1, used 3, items 1 and 2 with hash of `a`, positions 100 and 200, first time 10,000, seconds 0.
fn two_items(slot: i32, link_1: i32, link_2: i32) -> Store {
    let mut store = Store::with(1, d1(), 4, 1, 4);
    store.set_header(Header {
        first_time: 10_000,
        last_time: 10_000,
        first_position: 100,
        last_position: 200,
        filled: 1,
        used: 3,
    });
    store.set_slot(0, slot);
    store.set_item(1, 81_906, 100, 0, link_1);
    store.set_item(2, 81_906, 200, 0, link_2);
    store
}

fn question() -> Question<'static> {
    Question {
        topic: b"T",
        key: b"a",
        first_time: 0,
        last_time: 20_000,
        wanted: 1,
    }
}

fn ask(store: &Store, question: Question, places: usize) -> (u32, Vec<u64>, u64) {
    query(&store.state.index, store.index_shape, &question, places)
}

#[test]
fn a72_wanted_0_means_32() {
    let empty = Store::new();
    let zero = Question {
        wanted: 0,
        ..question()
    };
    assert_eq!(ask(&empty, zero, 31).0, 17);
    assert_eq!(ask(&empty, zero, 32).0, 0);
    let store = one_item();
    let five = Question {
        wanted: 5,
        ..question()
    };
    assert_eq!(ask(&store, five, 4).0, 17);
    assert_eq!(ask(&store, five, 5), (0, vec![0], 1));
    assert_eq!(ask(&store, question(), 0).0, 17);
    // 40 items: 32 of them.
    let mut store = Store::with(5, d1(), 4, 1, 50);
    for _ in 0..40 {
        store.add(&Message {
            system_flag: PREPARED,
            ..rec_with(b"KEYS\x01a")
        });
    }
    assert_eq!(store.run(99).0, 0);
    let (answer, found, read) = ask(&store, zero, 40);
    assert_eq!((answer, found.len(), read), (0, 32, 32));
}

#[test]
fn a73_times_in_limits_and_ordered() {
    let store = one_item();
    let range = |first_time, last_time| {
        ask(
            &store,
            Question {
                first_time,
                last_time,
                ..question()
            },
            1,
        )
    };
    assert_eq!(range(10_000, 10_000), (0, vec![0], 1));
    assert_eq!(range(9_999, 9_999), (0, vec![], 1));
    assert_eq!(range(10_001, 10_001), (0, vec![], 1));
    assert_eq!(range(1, 0).0, 17);
    assert_eq!(range(TWO_48 - 1, TWO_48 - 1).0, 0);
    assert_eq!(range(TWO_48, TWO_48).0, 17);
    assert_eq!(range(0, TWO_48).0, 17);
    assert_eq!(range(0, MAX).0, 17);
    assert_eq!(range(MAX, MAX).0, 17);
    // Above the range the walk goes on, below its start it ends.
    let mut store = two_items(2, 0, 1);
    assert_eq!(store.query("a", 9_999, 9_999, 5), (0, vec![], 2));
    assert_eq!(store.query("a", 10_001, 10_001, 5), (0, vec![], 1));
    store.set_item(2, 81_906, 200, 5, 1);
    assert_eq!(store.query("a", 10_000, 10_000, 5), (0, vec![100], 2));
}

#[test]
fn a74_lengths_of_topic_and_key() {
    let store = one_item();
    for (topic, key, expected) in [
        (1, 1, 0),
        (127, 1, 0),
        (128, 1, 17),
        (0, 1, 17),
        (1, 0, 17),
        (1, 32_767, 0),
        (1, 32_768, 17),
    ] {
        let topic = vec![b'x'; topic];
        let key = vec![b'y'; key];
        let question = Question {
            topic: &topic,
            key: &key,
            ..question()
        };
        assert_eq!(ask(&store, question, 1).0, expected);
    }
    // A key with a space finds an item of a unique key.
    let mut store = Store::new();
    store.add(&rec_with(b"UNIQ_KEY\x01a b"));
    assert_eq!(store.run(9), (0, 1));
    assert_eq!(store.query("a b", 0, 20_000, 1), (0, vec![0], 1));
}

#[test]
fn a75_order_of_the_walks_ends() {
    // Links of items 1 and 2 are 0 and 2: item 2 links to itself.
    let store = two_items(2, 0, 2);
    assert_eq!(store.query("a", 0, 20_000, 5), (16, vec![200], 1));
    assert_eq!(store.query("a", 0, 20_000, 1), (0, vec![200], 1));
    assert_eq!(store.query("a", 10_001, 20_000, 5), (0, vec![], 1));
    // A bad link upwards, a negative one.
    assert_eq!(
        two_items(2, 2, 1).query("a", 0, 20_000, 5),
        (16, vec![200, 100], 2)
    );
    assert_eq!(
        two_items(2, 0, -1).query("a", 0, 20_000, 5),
        (16, vec![200], 1)
    );
}

#[test]
fn a76_the_first_number_against_the_used_count() {
    assert_eq!(two_items(3, 0, 0).query("a", 0, 20_000, 5), (16, vec![], 0));
    assert_eq!(
        two_items(-1, 0, 0).query("a", 0, 20_000, 5),
        (16, vec![], 0)
    );
    // The header all zero: the used count reads 1.
    let mut store = Store::with(1, d1(), 4, 1, 4);
    store.set_slot(0, 1);
    assert_eq!(store.query("a", 0, 20_000, 5), (16, vec![], 0));
    store.set_slot(0, 0);
    assert_eq!(store.query("a", 0, 20_000, 5), (0, vec![], 0));
}

#[test]
fn a77_a_bad_item_is_counted_and_not_written() {
    let mut store = two_items(2, 0, 1);
    store.set_item(1, 81_906, 100, -1, 0);
    assert_eq!(store.query("a", 0, 20_000, 5), (16, vec![200], 2));
    // Whatever its hash.
    let mut store = two_items(2, 0, 1);
    store.set_item(2, 5, -1, 0, 1);
    assert_eq!(store.query("a", 0, 20_000, 5), (16, vec![], 1));
    // Position 2^40 is good and written, above it is bad.
    let mut store = two_items(2, 0, 1);
    store.set_item(2, 81_906, TWO_40 as i64, 0, 0);
    assert_eq!(store.query("a", 0, 20_000, 5), (0, vec![TWO_40], 1));
    store.set_item(2, 81_906, TWO_40 as i64 + 1, 0, 0);
    assert_eq!(store.query("a", 0, 20_000, 5), (16, vec![], 1));
    store.set_item(2, 81_906, i64::MIN, 0, 0);
    assert_eq!(store.query("a", 0, 20_000, 5), (16, vec![], 1));
}

#[test]
fn a78_the_stored_hash_is_not_judged() {
    let mut store = two_items(2, 0, 1);
    store.set_item(2, -81_906, 200, 0, 1);
    assert_eq!(store.query("a", 0, 20_000, 5), (0, vec![100], 2));
    // The link is judged only when followed.
    let mut store = two_items(2, -7, 1);
    assert_eq!(store.query("a", 0, 20_000, 2), (0, vec![200, 100], 2));
    store.set_item(2, 5, 200, 0, -7);
    assert_eq!(store.query("a", 0, 20_000, 2), (16, vec![], 1));
}

#[test]
fn a79_item_times_may_leave_the_limits() {
    let mut store = two_items(2, 0, 1);
    store.set_header(Header {
        first_time: TWO_48 as i64 - 1,
        used: 3,
        ..Header::default()
    });
    store.set_item(2, 81_906, 200, i32::MAX, 1);
    assert_eq!(
        store.query("a", 0, TWO_48 - 1, 5),
        (0, vec![100], 2),
        "above the range the walk goes on"
    );
}

#[test]
fn a80_items_read() {
    // A bad number reads nothing, a bad item counts: a76, a77. A refusal counts 0: the helper sees to it.
    assert_eq!(two_items(0, 0, 0).query("a", 0, 1, 5), (0, vec![], 0));
    assert_eq!(
        two_items(2, 0, 1).query("a", 0, 20_000, 5),
        (0, vec![200, 100], 2)
    );
}

#[test]
fn a82_positions_are_not_checked_against_a_log() {
    let mut store = two_items(2, 0, 0);
    store.set_item(2, 81_906, 999_999_999, 0, 0);
    assert_eq!(store.query("a", 0, 20_000, 5), (0, vec![999_999_999], 1));
}

#[test]
fn the_largest_index_is_taken() {
    let shape = IndexShape {
        slot_count: 5_000_000,
        item_count: 20_000_000,
    };
    let index = vec![0; 420_000_040];
    assert_eq!(query(&index, shape, &question(), 1), (0, vec![], 0));
    assert_eq!(query(&index[1..], shape, &question(), 1).0, 1);
}
