//! The C interface (include/swistopal.h): what its structs hold, number by number; requests that a record cannot keep;
//! sizes that a call does not look at; the six small functions.

mod common;

use common::*;
use model::hash::index_hash;
use model::interface::{
    self, Fields, Found, Place, Progress, Record, Sizes, Values, BLANK, RECORD,
};
use model::record::Message;

fn sizes() -> Sizes {
    log_sizes(1_024, 0)
}

/// A message in which no two numbers are alike, no host is empty and nothing is 0.
fn all_different() -> Message<'static> {
    Message {
        body_crc: 0x8000_0011,
        queue_id: 0x0000_0022,
        flag: 0xFFFF_FF33,
        queue_offset: 0x8000_0000_0000_0044,
        system_flag: 0x8000_0041,
        born_time: 0xFFFF_0000_0000_0055,
        born_host: b"BORNHOST",
        store_time: 0x0000_7000_0000_0066,
        store_host: b"storehst",
        reconsume_times: 0xC000_0077,
        prepared_offset: 0x9000_0000_0000_0088,
        body: b"the body",
        topic: b"topic",
        properties: b"KEYS\x01k",
    }
}

#[test]
fn the_members_of_the_structs_stand_in_the_headers_order() {
    let sizes = Sizes {
        segment_size: 1,
        first_position: 2,
        queue_entries: 3,
        slot_count: 4,
        item_count: 5,
    };
    assert_eq!(sizes.numbers(), [1, 2, 3, 4, 5]);
    let mut counts = [0; 16];
    for (number, count) in counts.iter_mut().enumerate() {
        *count = number as u64 + 2;
    }
    let progress = Progress {
        position: 1,
        counts,
    };
    let mut numbers = [0; 17];
    for (number, place) in numbers.iter_mut().enumerate() {
        *place = number as u64 + 1;
    }
    assert_eq!(progress.numbers(), numbers);
    assert_eq!(Progress::from_numbers(&numbers), progress);
    let found = Found {
        positions: 1,
        items_read: 2,
    };
    assert_eq!(found.numbers(), [1, 2]);
    let values = Values {
        tags: Place { at: 1, length: 2 },
        keys: Place { at: 3, length: 4 },
        unique_key: Place { at: 5, length: 6 },
    };
    assert_eq!(values.numbers(), [1, 2, 3, 4, 5, 6]);
}

#[test]
fn the_22_numbers_of_a_record() {
    let message = all_different();
    let total = 91 + 8 + 5 + 6;
    for b in [0, 1_024] {
        let mut log = vec![0xEE; 1_024];
        assert_eq!(append(&mut log, 1_024, b, &message, b), (0, b + total));
        let (answer, record) = read(&log, 1_024, b, b, b + total);
        assert_eq!(answer, 0);
        let expected = [
            RECORD,
            total,
            b,
            0x8000_0011,
            0x0000_0022,
            0xFFFF_FF33,
            0x8000_0000_0000_0044,
            0x8000_0041,
            0xFFFF_0000_0000_0055,
            0x0000_7000_0000_0066,
            0xC000_0077,
            0x9000_0000_0000_0088,
            48,
            8,
            64,
            8,
            88,
            8,
            97,
            5,
            104,
            6,
        ];
        assert_eq!(record.numbers(), expected);
        let part = |place: Place| &log[place.at as usize..][..place.length as usize];
        assert_eq!(part(record.born_host), b"BORNHOST");
        assert_eq!(part(record.store_host), b"storehst");
        assert_eq!(part(record.body), b"the body");
        assert_eq!(part(record.topic), b"topic");
        assert_eq!(part(record.properties), b"KEYS\x01k");
    }
}

#[test]
fn an_empty_part_is_where_it_would_stand() {
    for (body, topic, properties) in [
        (&b""[..], &b"T"[..], &b""[..]),
        (b"", b"TT", b"p"),
        (b"body", b"T", b""),
    ] {
        let message = Message {
            body,
            topic,
            properties,
            ..rec()
        };
        let mut log = vec![0; 1_024];
        let (_, end) = append(&mut log, 1_024, 0, &message, 0);
        let (_, record) = read(&log, 1_024, 0, 0, end);
        let [b, t, q] = [body, topic, properties].map(|part| part.len() as u64);
        assert_eq!(record.body, Place { at: 88, length: b });
        assert_eq!(
            record.topic,
            Place {
                at: 89 + b,
                length: t
            }
        );
        assert_eq!(
            record.properties,
            Place {
                at: 91 + b + t,
                length: q
            }
        );
    }
}

#[test]
fn of_a_blank_all_but_kind_and_total_are_0() {
    let mut log = vec![0xEE; 1_024];
    patch(&mut log, 0, &blank(1_024));
    let mut record = Record {
        kind: MAX,
        fields: Fields::of(&all_different()),
        born_host: Place { at: 7, length: 7 },
        ..Record::default()
    };
    assert_eq!(
        interface::read_record(&log, &sizes(), 0, 1_024, &mut record),
        0
    );
    assert_eq!(record.numbers()[..2], [BLANK, 1_024]);
    assert_eq!(record.numbers()[2..], [0; 20]);
}

/// The message with the number that stands in 4 bytes set to this, one for each of the five.
fn with_number(number: u64) -> [Message<'static>; 5] {
    [
        Message {
            body_crc: number,
            ..rec()
        },
        Message {
            queue_id: number,
            ..rec()
        },
        Message {
            flag: number,
            ..rec()
        },
        Message {
            system_flag: number,
            ..rec()
        },
        Message {
            reconsume_times: number,
            ..rec()
        },
    ]
}

/// Appends at `w` through the interface; an answer other than 0 and 7 is seen to change nothing.
fn append_at(log: &mut [u8], sizes: &Sizes, message: &Message, w: u64) -> u32 {
    let before = log.to_vec();
    let mut write_position = w;
    let answer = interface::append(
        log,
        sizes,
        &Fields::of(message),
        message.born_host,
        message.store_host,
        message.body,
        message.topic,
        message.properties,
        &mut write_position,
    );
    if answer != 0 && answer != 7 {
        assert_eq!((&before[..], w), (&*log, write_position));
    }
    answer
}

/// Requests that no record can keep, each by one fault: its low 4 bytes, or its first 8, would do.
fn that_no_record_keeps() -> Vec<Message<'static>> {
    let mut messages = Vec::new();
    for number in [
        MAX_4 + 1,
        MAX_4 + 2,
        1 << 33,
        TWO_40,
        TWO_48,
        1 << 63,
        MAX - MAX_4,
    ] {
        messages.extend(with_number(number));
    }
    for host in [
        &b""[..],
        b"1",
        b"1234567",
        b"123456789",
        b"1234567812345678",
        &[1; 20],
        &[1; 256 + 8],
    ] {
        messages.push(Message {
            born_host: host,
            ..rec()
        });
        messages.push(Message {
            store_host: host,
            ..rec()
        });
    }
    // Both hosts, of 16 bytes together.
    messages.push(Message {
        born_host: b"1234567",
        store_host: b"123456789",
        ..rec()
    });
    messages
}

#[test]
fn a_request_that_no_record_can_keep_is_5() {
    for message in that_no_record_keeps() {
        let mut log = vec![0xEE; 2_048];
        assert_eq!(append_at(&mut log, &sizes(), &message, 0), 5);
    }
    // The largest numbers that 4 bytes keep. Two of them have limits of their own.
    for (message, expected) in with_number(MAX_4).iter().zip([0, 5, 0, 5, 0]) {
        let mut log = vec![0xEE; 2_048];
        assert_eq!(append_at(&mut log, &sizes(), message, 0), expected);
    }
    for (message, expected) in with_number(0x7FFF_FFCF).iter().zip([0; 5]) {
        let mut log = vec![0xEE; 2_048];
        assert_eq!(append_at(&mut log, &sizes(), message, 0), expected);
    }
}

#[test]
fn such_a_request_is_judged_after_1_and_2_and_before_6_and_7() {
    for message in that_no_record_keeps() {
        let mut log = vec![0xEE; 2_048];
        for bad in [log_sizes(0, 0), log_sizes(1_024, 1), log_sizes(1_000, 0)] {
            assert_eq!(append_at(&mut log, &bad, &message, 0), 1);
            assert_eq!(append_at(&mut log, &bad, &message, MAX), 1);
        }
        for w in [1_017, 1_023, 2_041, 2_049, MAX] {
            assert_eq!(append_at(&mut log, &sizes(), &message, w), 2);
        }
        // At the log's end a good request is 6; where it does not fit, 7 or 6.
        for w in [2_048, 1_016, 2_040] {
            assert_eq!(append_at(&mut log, &sizes(), &message, w), 5);
        }
    }
    let mut log = vec![0xEE; 2_048];
    assert_eq!(append_at(&mut log, &sizes(), &rec(), 2_048), 6);
    assert_eq!(append_at(&mut log, &sizes(), &rec(), 2_040), 6);
    assert_eq!(append_at(&mut log, &sizes(), &rec(), 1_016), 7);
}

#[test]
fn a_call_looks_only_at_the_sizes_that_its_answer_1_names() {
    // Every other size is out of its limits in log_sizes, index_sizes and below.
    let mut log = vec![0; 1_024];
    assert_eq!(append_at(&mut log, &sizes(), &rec(), 0), 0);
    assert_eq!(read(&log, 1_024, 0, 0, 92).0, 0);

    let mut store = Store::new();
    store.add(&rec_with(b"KEYS\x01k"));
    assert_eq!(store.run(9), (0, 1));
    let of_the_index = index_sizes(store.index_shape);
    let mut out = [UNWRITTEN; 1];
    let mut found = Found::default();
    let index = &store.state.index;
    let answer = interface::query(
        index,
        &of_the_index,
        b"T",
        b"k",
        0,
        TWO_48 - 1,
        1,
        &mut out,
        &mut found,
    );
    assert_eq!((answer, found.numbers(), out), (0, [1, 1], [0]));
    assert_eq!(interface::check_index(index, &of_the_index), 0);

    let of_a_queue = Sizes {
        queue_entries: store.queue_entries,
        ..log_sizes(0, MAX)
    };
    // Of progress only the counts.
    let progress = Progress {
        position: MAX,
        ..store.state.progress.into()
    };
    let mut found = 7;
    let answer = interface::read_queue(
        &store.state.queues,
        &of_a_queue,
        &store.directory,
        &progress,
        0,
        0,
        1,
        0,
        0,
        &mut out,
        &mut found,
    );
    assert_eq!((answer, found, out), (0, 1, [0]));

    // Dispatch looks at all five.
    let good = store.sizes();
    for bad in [
        Sizes {
            segment_size: 0,
            ..good
        },
        Sizes {
            first_position: 1,
            ..good
        },
        Sizes {
            queue_entries: 0,
            ..good
        },
        Sizes {
            slot_count: 0,
            ..good
        },
        Sizes {
            item_count: 0,
            ..good
        },
    ] {
        let mut progress = store.state.progress.into();
        let mut steps = 7;
        let answer = interface::dispatch(
            &store.log,
            store.readable_end,
            &bad,
            &store.directory,
            &mut store.state.queues.clone(),
            &mut store.state.index.clone(),
            1,
            &mut progress,
            &mut steps,
        );
        assert_eq!((answer, steps), (1, 0));
    }
}

#[test]
fn a_tags_code() {
    for (tag, expected) in [
        (&b""[..], 0),
        (b"Aa", 2_112),
        (b"BB", 2_112),
        (b"ab", 3_105),
        (b"\xC3\xA9", 233),
        (b"\xF0\x9F\x98\x80", 1_772_899),
        (b"polygenelubricants", 0xFFFF_FFFF_8000_0000),
    ] {
        assert_eq!(interface::tag_code(tag), expected);
    }
    // Of bytes that are not UTF-8 the code of the characters before the first place where none stands.
    for (tag, expected) in [
        (&b"\xE9"[..], 0),
        (b"ab\xC3", 3_105),
        (b"ab\xC3(", 3_105),
        (b"ab\x80ab", 3_105),
        (b"\xC3\xA9\xED\xA0\x80", 233),
        (b"\xC3\xA9\xF0\x9F\x98", 233),
        (b"\xF4\x90\x80\x80ab", 0),
    ] {
        assert_eq!(interface::tag_code(tag), expected);
    }
    // It is what a queue entry holds of a record with that tag.
    for_seeds(300, |_, rng| {
        let length = rng.between(1, 40);
        let mut tag = String::from_utf8_lossy(&rng.bytes(length))
            .into_owned()
            .into_bytes();
        tag.retain(|byte| *byte > 2);
        if tag.is_empty() {
            return;
        }
        let mut store = Store::new();
        store.add(&rec_with(&[b"TAGS\x01", &tag[..]].concat()));
        assert_eq!(store.run(9), (0, 1));
        let code = interface::tag_code(&tag).to_be_bytes();
        assert_eq!(store.state.queues[12..20], code);
    });
}

#[test]
fn transaction_types_by_bits_4_and_8() {
    let properties = b"UNIQ_KEY\x01u\x02KEYS\x01a a";
    for other in [
        0,
        1,
        2,
        3,
        0x40,
        0x8000_0000,
        0xFFFF_FFF3,
        1 << 32,
        MAX - 15,
    ] {
        for (transaction, entry, items) in [
            (NONE, 1, 3),
            (PREPARED, 0, 3),
            (COMMIT, 1, 3),
            (ROLLBACK, 0, 0),
        ] {
            let flag = transaction | other;
            assert_eq!(interface::makes_entry(flag), entry, "{flag:#x}");
            assert_eq!(interface::item_count(flag, properties), items);
            let has = interface::has_item(flag, b"T", properties, b"T", b"a");
            assert_eq!(u64::from(has), items.min(1));
        }
    }
}

#[test]
fn as_many_items_as_dispatch_puts() {
    for_seeds(600, |_, rng| {
        let (properties, keys, _) = common::random::random_properties(rng);
        let system_flag = rng.pick(&[NONE, PREPARED, COMMIT, ROLLBACK]);
        let message = Message {
            system_flag,
            ..rec_with(&properties)
        };
        let mut store = Store::with(1, d1(), 4, 7, 100);
        store.add(&message);
        assert_eq!(store.run(9), (0, 1));
        let items = (store.used_count().max(1) - 1) as u64;
        assert_eq!(interface::item_count(system_flag, &properties), items);
        assert_eq!(
            u64::from(interface::makes_entry(system_flag)),
            store.count(0)
        );
        for key in common::random::KEYS {
            let has = interface::has_item(system_flag, b"T", &properties, b"T", key.as_bytes());
            let listed = keys.iter().any(|other| other == key.as_bytes());
            assert_eq!(has == 1, listed && system_flag != ROLLBACK);
        }
    });
}

#[test]
fn a_topic_and_key_among_the_items() {
    let has = |properties: &[u8], topic: &[u8], key: &[u8]| {
        interface::has_item(NONE, b"T", properties, topic, key)
    };
    let properties = b"KEYS\x01a  bc a\x02UNIQ_KEY\x01u v";
    for (key, expected) in [
        (&b"a"[..], 1),
        (b"bc", 1),
        (b"u v", 1),
        (b"", 0),
        (b" ", 0),
        (b"b", 0),
        (b"c", 0),
        (b"a  bc a", 0),
        (b"u", 0),
        (b"v", 0),
        (b"bc a", 0),
        (b"A", 0),
    ] {
        assert_eq!(has(properties, b"T", key), expected, "{key:?}");
    }
    // Another topic, or one that only begins alike.
    for topic in [&b""[..], b"t", b"TT", b"S"] {
        assert_eq!(has(properties, topic, b"a"), 0);
    }
    // Of one hash and yet not the same.
    assert_eq!(index_hash(b"T", b"a#b"), index_hash(b"T#a", b"b"));
    assert_eq!(has(b"KEYS\x01a#b", b"T", b"a#b"), 1);
    assert_eq!(has(b"KEYS\x01a#b", b"T#a", b"b"), 0);
    assert_eq!(has(b"KEYS\x01Aa", b"T", b"BB"), 0);
    // Only the last pair of a name.
    assert_eq!(has(b"KEYS\x01a\x02KEYS\x01b", b"T", b"a"), 0);
    assert_eq!(has(b"KEYS\x01a\x02KEYS\x01b", b"T", b"b"), 1);
    assert_eq!(has(b"KEYS\x01a\x02KEYS\x01", b"T", b"a"), 1);
    // No record has an empty topic, but any bytes bring a number.
    assert_eq!(interface::has_item(NONE, b"", b"KEYS\x01a", b"", b"a"), 1);
}

#[test]
fn where_the_values_stand() {
    let find = |properties: &[u8]| {
        let mut values = Values {
            tags: Place { at: 7, length: 7 },
            keys: Place { at: 7, length: 7 },
            unique_key: Place { at: 7, length: 7 },
        };
        interface::find_values(properties, &mut values);
        values.numbers()
    };
    assert_eq!(find(b""), [0; 6]);
    assert_eq!(find(b"\x02\x01\x02\x02\x01\x01\x02"), [0; 6]);
    assert_eq!(find(b"TAGS\x01ab"), [5, 2, 0, 0, 0, 0]);
    assert_eq!(find(b"KEYS\x01a b\x02"), [0, 0, 5, 3, 0, 0]);
    assert_eq!(find(b"UNIQ_KEY\x01u"), [0, 0, 0, 0, 9, 1]);
    assert_eq!(
        find(b"\x02KEYS\x01k\x02\x02TAGS\x01t\x02UNIQ_KEY\x01uuu\x02"),
        [14, 1, 6, 1, 25, 3]
    );
    // Of each name the last pair, and only pairs.
    assert_eq!(
        find(b"TAGS\x01a\x02TAGS\x01bb\x02TAGS\x01\x02TAGS\x01c\x01"),
        [12, 2, 0, 0, 0, 0]
    );
    for other in ["tags", "TAGSX", "TAG", " TAGS", "WAIT"] {
        assert_eq!(find(format!("{other}\x01a").as_bytes()), [0; 6]);
    }
}

#[test]
fn an_index_file_has_its_length_and_a_sound_header() {
    let store = Store::new();
    let sizes = index_sizes(store.index_shape);
    let mut index = store.state.index.clone();
    assert_eq!(interface::check_index(&index, &sizes), 0);
    index[39] = 1;
    assert_eq!(interface::check_index(&index, &sizes), 0);
    index[35] = 1;
    assert_eq!(interface::check_index(&index, &sizes), 4);
    // 1 comes before 4.
    for (k, n) in [(0, 4), (2, 1), (3, 4), (2, 5), (MAX, MAX), (5_000_001, 4)] {
        let other = Sizes {
            slot_count: k,
            item_count: n,
            ..sizes
        };
        assert_eq!(interface::check_index(&index, &other), 1);
    }
    for length in [0, 1, 39, 40, index.len() - 1] {
        assert_eq!(interface::check_index(&index[..length], &sizes), 1);
    }
    index.push(0);
    assert_eq!(interface::check_index(&index, &sizes), 1);
}
