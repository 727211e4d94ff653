//! Keys from the accented sites: UTF-8 and the units of the hash (document 02, item 2; readings B2).

mod common;

use common::*;
use model::hash::{hash, index_hash};
use model::index_file::Question;
use model::interface::{self, Figures};
use model::lister;
use model::properties;
use model::record::Message;
use model::sizes::IndexShape;

/// Bytes that are not UTF-8, one of each kind that item 2 names, and more.
const BAD: [&[u8]; 16] = [
    // Overlong forms; C0 80 is Java's modified form of 00.
    b"\xC0\x80",
    b"\xC1\xBF",
    b"\xE0\x9F\xBF",
    b"\xF0\x8F\xBF\xBF",
    // Surrogates, and a pair of them in six bytes.
    b"\xED\xA0\x80",
    b"\xED\xBF\xBF",
    b"\xED\xA0\xBD\xED\xB8\x80",
    // Above 10FFFF.
    b"\xF4\x90\x80\x80",
    b"\xF5\x80\x80\x80",
    b"\xFF",
    // Cut characters.
    b"\xC3",
    b"\xE2\x82",
    b"\xF0\x9F\x98",
    b"\xE2\x82a",
    // Stray bytes.
    b"\x80",
    b"a\xBF",
];

/// Bytes that are UTF-8: the ends of each length, noncharacters, 00.
const GOOD: [&str; 14] = [
    "\0",
    "a",
    "\u{7f}",
    "\u{80}",
    "\u{e9}",
    "\u{7ff}",
    "\u{800}",
    "\u{d7ff}",
    "\u{e000}",
    "\u{fdd0}",
    "\u{fffe}\u{ffff}",
    "\u{10000}",
    "\u{1f600}",
    "\u{10fffe}\u{10ffff}",
];

const TYPES: [u64; 4] = [NONE, PREPARED, COMMIT, ROLLBACK];
const NAMES: [&str; 3] = ["TAGS", "KEYS", "UNIQ_KEY"];

fn pair(name: &[u8], value: &[u8]) -> Vec<u8> {
    [name, b"\x01", value].concat()
}

/// What every operation that looks at a record says of this one: 0, or 10 and, of append, 5.
fn sound(message: &Message) -> bool {
    let bytes = raw(message, 0);
    let end = bytes.len() as u64;
    let mut store = Store::with(1, row(message.topic, 0), 4, 2, 40);
    patch(&mut store.log, 0, &bytes);
    patch(
        &mut store.log,
        bytes.len(),
        &blank((1_024 - bytes.len()) as u32),
    );
    store.readable_end = end;
    // Before the whole record is readable nothing of its text is judged.
    assert_eq!(answer(&store.log, 1_024, 0, 0, end - 1), 8);
    let answer = answer(&store.log, 1_024, 0, 0, end);
    assert!(matches!(answer, 0 | 10));
    let sound = answer == 0;

    let mut log = vec![0xEE; 1_024];
    let before = log.clone();
    if sound {
        assert_eq!(append(&mut log, 1_024, 0, message, 0), (0, end));
        assert_eq!(log[..bytes.len()], bytes);
    } else {
        assert_eq!(append(&mut log, 1_024, 0, message, 0), (5, 0));
        assert_eq!(log, before);
        // 5 comes before 6 and after 2.
        assert_eq!(append(&mut log, 1_024, 0, message, 1_024), (5, 1_024));
        assert_eq!(append(&mut log, 1_024, 0, message, 1_025), (2, 1_025));
    }

    let mut figures = Figures::default();
    let sizes = log_sizes(1_024, 0);
    let reported = interface::report(&store.log, &sizes, 0, end, &store.directory, &mut figures);
    assert_eq!((reported, figures.records), (answer, u64::from(sound)));

    let listing = lister::list(&store.log);
    assert_eq!(listing.answer.number(), answer);
    assert_eq!(listing.text.lines().count(), if sound { 4 } else { 2 });

    if sound {
        assert_eq!(store.run(9), (0, 1));
    } else {
        assert_eq!(store.stuck(9), 10);
    }
    sound
}

/// A query with any bytes on an empty index of K = 2, N = 4.
fn query_of(topic: &[u8], key: &[u8]) -> u32 {
    let shape = IndexShape {
        slot_count: 2,
        item_count: 4,
    };
    let question = Question {
        topic,
        key,
        first_time: 0,
        last_time: 1,
        wanted: 1,
    };
    query(&[0; 128], shape, &question, 1).0
}

#[test]
fn b2_1_topic_and_the_three_values_are_judged_in_every_transaction_type() {
    for system_flag in TYPES {
        let plain = Message {
            system_flag,
            ..rec()
        };
        for text in GOOD {
            let topic = text.as_bytes();
            assert!(sound(&Message { topic, ..plain }), "{text:?}");
            for name in NAMES {
                let properties = &pair(name.as_bytes(), topic);
                assert!(sound(&Message {
                    properties,
                    ..plain
                }));
            }
        }
        for topic in BAD {
            assert!(!sound(&Message { topic, ..plain }), "{topic:x?}");
            for name in NAMES {
                let properties = &pair(name.as_bytes(), topic);
                assert!(!sound(&Message {
                    properties,
                    ..plain
                }));
            }
        }
    }
    // "rollback record with TAGS = FF → 10."
    assert!(!sound(&Message {
        system_flag: ROLLBACK,
        ..rec_with(b"TAGS\x01\xFF")
    }));
}

#[test]
fn b2_1_what_is_not_judged() {
    // "Values of properties that we do not use, earlier pairs of a name and directory topics are not judged."
    assert!(sound(&rec_with(b"TAGS\x01\xFF\x02TAGS\x01a")));
    for bad in BAD {
        for properties in [
            // Earlier pairs.
            [
                &pair(b"TAGS", bad)[..],
                &pair(b"TAGS", b"a"),
                &pair(b"KEYS", b"k"),
            ]
            .join(&2),
            [&pair(b"KEYS", bad)[..], &pair(b"KEYS", b"k")].join(&2),
            [&pair(b"UNIQ_KEY", bad)[..], b"x", &pair(b"UNIQ_KEY", b"k")].join(&2),
            // Other values, and names.
            pair(b"WAIT", bad),
            pair(b"TAG", bad),
            pair(b"keys", bad),
            pair(bad, b"a"),
            pair(&[bad, b"KEYS"].concat(), bad),
            pair(&[b"KEYS", bad].concat(), bad),
            // Malformed pieces.
            bad.to_vec(),
            [b"KEYS", bad].concat(),
            pair(b"", bad),
            pair(b"KEYS", &pair(b"", bad)),
            pair(b"KEYS", &pair(bad, b"")),
            pair(b"KEYS", &pair(b"a", bad)),
        ] {
            assert!(sound(&rec_with(&properties)), "{properties:x?}");
        }
        // The last pair is bad, the earlier ones are not; a malformed piece behind it does not take its place.
        for properties in [
            [&pair(b"TAGS", b"a")[..], &pair(b"TAGS", bad)].join(&2),
            [&pair(b"KEYS", bad)[..], b"KEYS", b"KEYS\x01"].join(&2),
            [&pair(b"UNIQ_KEY", bad)[..], &pair(b"KEYS", b"a")].join(&2),
        ] {
            assert!(!sound(&rec_with(&properties)), "{properties:x?}");
        }
        // A directory's topic.
        let mut store = Store::with(1, [row(bad, 0), d1()].concat(), 4, 2, 4);
        store.add(&rec());
        assert_eq!(store.run(9), (0, 1));
        assert_eq!((store.count(0), store.count(1)), (0, 1));
    }
}

#[test]
fn b2_2_it_is_soundness_so_8_comes_before_10() {
    // `sound` has E one byte before the record's end. Far before it, and at it:
    let record = raw(&rec_with(b"TAGS\x01\xFF"), 0);
    let mut log = vec![0; 1_024];
    patch(&mut log, 0, &record);
    for e in [8, 50, 91, 97] {
        assert_eq!(answer(&log, 1_024, 0, 0, e), 8);
    }
    assert_eq!(record.len(), 98);
    assert_eq!(answer(&log, 1_024, 0, 0, 98), 10);
    // A total out of limits is 10 before that, bad text or not.
    patch(&mut log, 0, &91u32.to_be_bytes());
    assert_eq!(answer(&log, 1_024, 0, 0, 8), 10);
}

#[test]
fn b2_2_a_stop_keeps_whole_steps() {
    let mut store = Store::with(1, d1(), 4, 2, 9);
    store.add(&rec_with(b"KEYS\x01a"));
    let p = store.add(&Message {
        queue_offset: 1,
        ..rec_with(b"KEYS\x01a b")
    });
    store.add(&Message {
        queue_offset: 2,
        ..rec()
    });
    // Its second key: the first one is not put either.
    store.log[p as usize + 92 + 7] = 0xE9;
    let mut whole = store.clone();
    whole.readable_end = p;
    assert_eq!(whole.run(9), (0, 1));
    assert_eq!(store.run(9), (10, 1));
    assert_eq!(store.state, whole.state);
    assert_eq!((store.count(0), store.used_count()), (1, 2));
}

#[test]
fn b2_3_the_whole_value_of_keys_is_judged_as_its_parts_are() {
    for_seeds(3_000, |_, rng| {
        let mut value = Vec::new();
        for _ in 0..rng.between(1, 6) {
            match rng.below(4) {
                0 => value.extend(rng.pick(&BAD)),
                1 => value.push(b' '),
                _ => value.extend(rng.pick(&GOOD[1..]).as_bytes()),
            }
        }
        let parts_are = value
            .split(|byte| *byte == b' ')
            .all(|part| std::str::from_utf8(part).is_ok());
        assert_eq!(sound(&rec_with(&pair(b"KEYS", &value))), parts_are);
    });
    // No character stands on both sides of a space, nor of a separator.
    assert!(!sound(&rec_with(b"KEYS\x01\xC3 \xA9")));
    assert!(!sound(&rec_with(b"KEYS\x01a\xC3\x02TAGS\x01\xA9")));
    assert!(!sound(&rec_with(b"KEYS\x01\xC3")));
}

#[test]
fn b2_3_query_topic_and_key_are_judged_apart() {
    assert_eq!(query_of(b"\xC3", b"\xA9"), 17);
    assert_eq!(query_of(b"T", b"\xA9"), 17);
    assert_eq!(query_of(b"\xC3", b"k"), 17);
    for text in GOOD {
        assert_eq!(query_of(text.as_bytes(), b"k"), 0);
        assert_eq!(query_of(b"T", text.as_bytes()), 0);
    }
    for bad in BAD {
        assert_eq!(query_of(bad, b"k"), 17);
        assert_eq!(query_of(b"T", bad), 17);
        // The bad part first, last and in the middle, behind as many bytes as a word has and more.
        for length in 0..40 {
            let run = vec![b'x'; length];
            for key in [
                [bad, &run].concat(),
                [&run, bad].concat(),
                [&run, bad, &run].concat(),
            ] {
                assert_eq!(query_of(b"T", &key), 17);
                assert_eq!(query_of(&key, b"k"), 17);
            }
        }
    }
    // 1 and 4 come before it.
    let shape = IndexShape {
        slot_count: 2,
        item_count: 4,
    };
    let question = Question {
        topic: b"T",
        key: b"\xFF",
        first_time: 0,
        last_time: 1,
        wanted: 1,
    };
    assert_eq!(query(&[0; 127], shape, &question, 1).0, 1);
    assert_eq!(query(&[0xFF; 128], shape, &question, 1).0, 4);
}

#[test]
fn b2_4_the_hash_is_over_the_units() {
    assert_eq!(hash(b"\xC3\xA9"), 233);
    assert_eq!(hash(b"\xF0\x9F\x98\x80"), 1_772_899);
    assert_eq!(hash(b"\xF0\x9F\x98\x80"), 31 * 0xD83D + 0xDE00);
    assert_eq!(hash(b"\xEF\xBF\xBF"), 0xFFFF);
    assert_eq!(hash(b"\x00"), 0);
    assert_eq!(hash(b"\x00a"), 97);
    // What RocketMQ gives a tag and a key.
    let mut store = Store::new();
    let properties = "TAGS\x01\u{e9}\x02KEYS\x01M\u{fc}ller-7".as_bytes();
    store.add(&rec_with(properties));
    assert_eq!(store.run(9), (0, 1));
    assert_eq!(store.state.queues[12..20], [0, 0, 0, 0, 0, 0, 0, 233]);
    assert_eq!(properties::tag_code(properties), 233);
    assert_eq!(store.query("M\u{fc}ller-7", 0, 20_000, 1), (0, vec![0], 1));
    assert_eq!(store.query("M\u{c3}\u{bc}ller-7", 0, 20_000, 1).1, []);
}

#[test]
fn b2_5_limits_of_length_stay_in_bytes() {
    // 127 bytes: 63 characters of two bytes and one of one.
    let topic = ["\u{e9}".repeat(63), "x".to_string()].concat();
    assert_eq!(topic.len(), 127);
    assert!(sound(&Message {
        topic: topic.as_bytes(),
        ..rec()
    }));
    assert_eq!(query_of(topic.as_bytes(), b"k"), 0);
    let topic = "\u{e9}".repeat(64);
    let mut log = vec![0; 1_024];
    let message = Message {
        topic: topic.as_bytes(),
        ..rec()
    };
    assert_eq!(append(&mut log, 1_024, 0, &message, 0), (5, 0));
    assert_eq!(query_of(topic.as_bytes(), b"k"), 17);
    // 32,767 bytes, and one character more.
    let key = ["x".to_string(), "\u{e9}".repeat(16_383)].concat();
    assert_eq!(key.len(), 32_767);
    assert_eq!(query_of(b"T", key.as_bytes()), 0);
    assert_eq!(query_of(b"T", "\u{e9}".repeat(16_384).as_bytes()), 17);
}

#[test]
fn b2_5_the_mark_is_unit_35_between_topic_and_key() {
    for topic in GOOD {
        for key in GOOD {
            let joined = [topic, "#", key].concat();
            let units: Vec<u16> = topic
                .encode_utf16()
                .chain([35])
                .chain(key.encode_utf16())
                .collect();
            let mut h: i32 = 0;
            for unit in units {
                h = h.wrapping_mul(31).wrapping_add(i32::from(unit));
            }
            assert_eq!(hash(joined.as_bytes()), i128::from(h));
            let absolute = i128::from(h.checked_abs().unwrap_or(0));
            assert_eq!(index_hash(topic.as_bytes(), key.as_bytes()), absolute);
        }
    }
}

#[test]
fn b2_6_with_other_faults_the_answer_is_the_same() {
    let mut log = vec![0; 1_024];
    let message = Message {
        topic: b"\xFF",
        store_time: MAX,
        ..rec()
    };
    assert_eq!(append(&mut log, 1_024, 0, &message, 0), (5, 0));
    assert_eq!(query_of(b"\xFF", b""), 17);
    assert_eq!(query_of(b"", b"\xFF"), 17);
}

#[test]
fn b2_7_no_byte_order_mark_is_dropped() {
    assert_eq!(hash(b"\xEF\xBB\xBFk"), 2_023_756);
    assert_eq!(hash(b"\xEF\xBB\xBF"), 0xFEFF);
    // A name is exact bytes: this is another name, its value is no key and is not judged.
    let properties = b"\xEF\xBB\xBFKEYS\x01\xFF";
    assert!(sound(&rec_with(properties)));
    assert!(properties::keys(properties).is_empty());
    // Nor is a mark dropped in a value.
    assert_eq!(
        properties::keys(b"KEYS\x01\xEF\xBB\xBFk"),
        [b"\xEF\xBB\xBFk"]
    );
}

#[test]
fn b2_8_the_queue_is_found_by_the_topics_bytes() {
    // One character and its two parts are different topics, however they look.
    let composed = "\u{e9}".as_bytes();
    let parts = "e\u{301}".as_bytes();
    let mut store = Store::with(1, [row(composed, 0), row(parts, 0)].concat(), 4, 2, 4);
    store.add(&Message {
        topic: parts,
        ..rec()
    });
    assert_eq!(store.run(9), (0, 1));
    assert_eq!((store.count(0), store.count(1)), (0, 1));
    assert_ne!(hash(composed), hash(parts));
}

#[test]
fn the_small_functions_judge_no_text() {
    let properties = b"TAGS\x01\xFF\x02KEYS\x01\x80 \xC3\x02UNIQ_KEY\x01\xED\xA0\x80";
    assert_eq!(interface::item_count(NONE, properties), 3);
    assert_eq!(
        interface::has_item(NONE, b"\xFF", properties, b"\xFF", b"\xC3"),
        1
    );
    assert_eq!(
        interface::has_item(NONE, b"\xFF", properties, b"\xFF", b"\xA9"),
        0
    );
    let mut values = interface::Values::default();
    interface::find_values(properties, &mut values);
    assert_eq!(values.numbers(), [5, 1, 12, 3, 25, 3]);
}
