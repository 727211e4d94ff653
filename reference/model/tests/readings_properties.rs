//! Properties and hashes (readings A55 to A62).

mod common;

use common::*;
use model::hash::{hash, index_hash};
use model::properties::{keys, tag_code};
use model::record::Message;

fn found(properties: &[u8]) -> Vec<String> {
    keys(properties)
        .into_iter()
        .map(|key| String::from_utf8(key.to_vec()).unwrap())
        .collect()
}

#[test]
fn a55_exactly_one_byte_01_with_a_byte_on_each_side() {
    assert_eq!(found(b"KEYS\x01a"), ["a"]);
    assert!(found(b"KEYS\x01a\x01").is_empty());
    assert!(found(b"KEYS\x01").is_empty());
    assert!(found(b"KEYS").is_empty());
    assert!(found(b"").is_empty());
    assert_eq!(found(b"KEYS\x01a\x01b\x02KEYS\x01c"), ["c"]);
    assert_eq!(found(b"\x01a\x02KEYS\x01b\x02"), ["b"]);
}

#[test]
fn a56_the_last_pair_of_a_name_counts() {
    assert_eq!(found(b"KEYS\x01a\x02KEYS\x01b"), ["b"]);
    assert_eq!(found(b"KEYS\x01a\x02KEYS\x01"), ["a"]);
    assert_eq!(found(b"KEYS\x01a\x02KEYS\x01b\x01c"), ["a"]);
    assert!(found(b"KEYS\x01a\x02KEYS\x01\x20\x20").is_empty());
    assert_eq!(tag_code(b"TAGS\x01Aa\x02TAGS\x01ab"), 3_105);
    assert_eq!(tag_code(b"TAGS\x01Aa\x02TAGS\x01"), 2_112);
    assert_eq!(found(b"UNIQ_KEY\x01a\x02UNIQ_KEY\x01b"), ["b"]);
}

#[test]
fn a57_separators_and_exact_names() {
    assert!(found(b"\x02\x02").is_empty());
    assert_eq!(found(b"\x02KEYS\x01a\x02"), ["a"]);
    assert_eq!(found(b"KEYS\x01a\tb c"), ["a\tb", "c"]);
    assert_eq!(found(b"UNIQ_KEY\x01a b\x02KEYS\x01a"), ["a b", "a"]);
    // The unique key comes first, wherever it stands.
    assert_eq!(found(b"KEYS\x01a\x02UNIQ_KEY\x01u"), ["u", "a"]);
    assert_eq!(found(b"UNIQ_KEY\x01  "), ["  "]);
    for name in ["keys", " KEYS", "KEYSX", "KEY", "UNIQ_KEYS"] {
        assert!(found(format!("{name}\x01a").as_bytes()).is_empty());
    }
    assert_eq!(tag_code(b"tags\x01Aa"), 0);
}

#[test]
fn a58_a_hash_sign_in_topic_or_key() {
    assert_eq!(index_hash(b"T#a", b"b"), index_hash(b"T", b"a#b"));
    let mut store = Store::with(1, row(b"T#a", 0), 4, 2, 4);
    store.add(&Message {
        topic: b"T#a",
        properties: b"KEYS\x01b",
        ..rec()
    });
    assert_eq!(store.run(9), (0, 1));
    assert_eq!(store.query("a#b", 0, 20_000, 1), (0, vec![0], 1));
}

#[test]
fn a59_the_least_number_has_index_hash_0() {
    assert_eq!(hash(b"T#1LG3HE3"), -2_147_483_648);
    assert_eq!(index_hash(b"T", b"1LG3HE3"), 0);
    let mut store = Store::new();
    store.state.index[48..].fill(0xEE);
    store.add(&rec_with(b"KEYS\x011LG3HE3"));
    assert_eq!(store.run(9), (0, 1));
    let place = store.item_place(1);
    assert_eq!(store.state.index[place..place + 4], [0; 4]);
    assert_eq!((store.slot(0), store.slot(1)), (1, 0));
    assert_eq!(store.query("1LG3HE3", 0, 20_000, 1), (0, vec![0], 1));
}

#[test]
fn a59_units_are_0_to_65535() {
    assert_eq!(hash("\u{7f}".as_bytes()), 127);
    assert_eq!(hash("\u{80}".as_bytes()), 128);
    assert_eq!(hash("\u{ff}".as_bytes()), 255);
    assert_eq!(hash("\u{8000}".as_bytes()), 32_768);
    assert_eq!(hash("\u{ffff}".as_bytes()), 65_535);
    assert_eq!(hash(b"Aa"), hash(b"BB"));
    for (key, expected) in [("a", 81_906), ("b", 81_907), ("c", 81_908), ("k", 81_916)] {
        assert_eq!(index_hash(b"T", key.as_bytes()), expected);
    }
}

#[test]
fn a59_hashes_h_and_minus_h_match_each_other() {
    assert_eq!(hash(b"T#cdkiej"), 371);
    assert_eq!(hash(b"T#cdkhll"), -371);
    assert_eq!(index_hash(b"T", b"cdkhll"), 371);
    let mut store = Store::new();
    store.add(&rec_with(b"KEYS\x01cdkiej"));
    assert_eq!(store.run(9), (0, 1));
    assert_eq!(store.item(1).0, 371);
    assert_eq!(store.query("cdkhll", 0, 20_000, 1), (0, vec![0], 1));
}

#[test]
fn a60_the_tag_code_carries_its_sign() {
    let mut store = Store::new();
    store.add(&rec_with(b"TAGS\x01polygenelubricants"));
    store.add(&Message {
        queue_offset: 1,
        ..rec()
    });
    assert_eq!(store.run(9), (0, 2));
    assert_eq!(
        store.state.queues[12..20],
        [0xFF, 0xFF, 0xFF, 0xFF, 0x80, 0, 0, 0]
    );
    assert_eq!(store.state.queues[32..40], [0; 8]);
}

#[test]
fn a61_the_largest_item_count() {
    let properties = [b"KEYS\x01".to_vec(), b"a ".repeat(16_381)].concat();
    assert_eq!(properties.len(), 32_767);
    assert_eq!(keys(&properties).len(), 16_381);

    // In a log that takes it, and an index that takes exactly these.
    let mut store = Store::with(64, d1(), 4, 2, 16_382);
    store.log_shape.segment_size = 65_536;
    store.add(&rec_with(&properties));
    assert_eq!(store.run(9), (0, 1));
    assert_eq!((store.filled_slots(), store.used_count()), (1, 16_382));
    assert_eq!(store.query("a", 0, 20_000, 5), (0, vec![0; 5], 5));

    let mut store = Store::with(64, d1(), 4, 2, 16_381);
    store.log_shape.segment_size = 65_536;
    store.add(&rec_with(&properties));
    assert_eq!(store.stuck(9), 14);

    // N = 2: a record of 2 items is 14 for ever, one of 1 item passes.
    let mut store = Store::with(1, d1(), 4, 2, 2);
    store.add(&rec_with(b"KEYS\x01a b"));
    assert_eq!(store.stuck(9), 14);
    let mut store = Store::with(1, d1(), 4, 2, 2);
    store.add(&rec_with(b"KEYS\x01a"));
    assert_eq!(store.run(9), (0, 1));
}

#[test]
fn a62_slot_0_is_bytes_40_to_43() {
    let mut store = Store::new();
    store.add(&rec_with(b"UNIQ_KEY\x01k"));
    assert_eq!(store.run(9), (0, 1));
    assert_eq!(store.state.index[40..48], [0, 0, 0, 1, 0, 0, 0, 0]);
}
