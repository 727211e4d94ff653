//! Shift report (document 02, item 1; readings B1), and its laws on random small logs.

mod common;

use std::collections::BTreeMap;

use common::random::{random_store, trouble, Plan, Sent};
use common::*;
use model::interface::{self, Figures};
use model::record::Message;

/// The report: its answer and its figures. All 27 numbers are seen to be written; a refusal has them 0.
fn report(log: &[u8], s: u64, b: u64, p: u64, e: u64, directory: &[u8]) -> (u32, Figures) {
    let call = |mut figures: Figures| {
        let answer = interface::report(log, &log_sizes(s, b), p, e, directory, &mut figures);
        (answer, figures)
    };
    let reported = call(Figures::default());
    let over_other_numbers = call(Figures {
        records: 7,
        blanks: 7,
        body_bytes: 7,
        smallest: 7,
        largest: 7,
        rows: [7; 16],
        unlisted: 7,
        none: 7,
        prepared: 7,
        commit: 7,
        rollback: 7,
        items: 7,
    });
    assert_eq!(reported, over_other_numbers);
    if (1..=3).contains(&reported.0) {
        assert_eq!(reported.1.numbers(), [0; 27], "every figure 0");
    }
    reported
}

/// The report of a store's log from p to E.
fn report_of(store: &Store, p: u64, e: u64) -> (u32, Figures) {
    let (s, b) = (store.log_shape.segment_size, store.log_shape.first_position);
    report(&store.log, s, b, p, e, &store.directory)
}

/// The report of all that was added to a store.
fn whole_report(store: &Store) -> (u32, Figures) {
    report_of(store, store.log_shape.first_position, store.readable_end)
}

/// Figures of row 0, all others 0.
fn row_0(records: u64) -> [u64; 16] {
    let mut rows = [0; 16];
    rows[0] = records;
    rows
}

/// The figures of rec alone, with D1.
fn one_rec() -> Figures {
    Figures {
        records: 1,
        smallest: 92,
        largest: 92,
        rows: row_0(1),
        none: 1,
        ..Figures::default()
    }
}

fn with_flag(system_flag: u64, properties: &[u8]) -> Message<'_> {
    Message {
        system_flag,
        ..rec_with(properties)
    }
}

#[test]
fn the_27_numbers_stand_in_the_headers_order() {
    let mut rows = [0; 16];
    for (number, row) in rows.iter_mut().enumerate() {
        *row = number as u64 + 6;
    }
    let figures = Figures {
        records: 1,
        blanks: 2,
        body_bytes: 3,
        smallest: 4,
        largest: 5,
        rows,
        unlisted: 22,
        none: 23,
        prepared: 24,
        commit: 25,
        rollback: 26,
        items: 27,
    };
    let numbers: Vec<u64> = (1..=27).collect();
    assert_eq!(figures.numbers()[..], numbers);
}

#[test]
fn b1_1_a_queue_counts_records_of_any_type() {
    // D1, rec(0) with flag 12, with and without keys.
    for properties in [&b""[..], b"KEYS\x01a b"] {
        let mut store = Store::new();
        store.add(&with_flag(ROLLBACK, properties));
        let (answer, figures) = whole_report(&store);
        assert_eq!(answer, 0);
        assert_eq!(figures.rows, row_0(1));
        assert_eq!((figures.rollback, figures.items), (1, 0));
        assert_eq!((figures.records, figures.unlisted), (1, 0));
    }
    // All four types, once, twice, three and four times.
    let mut store = Store::new();
    for (times, system_flag) in [(1, NONE), (2, PREPARED), (3, COMMIT), (4, ROLLBACK)] {
        for _ in 0..times {
            store.add(&with_flag(system_flag, b"KEYS\x01k"));
        }
    }
    let expected = Figures {
        records: 10,
        blanks: 0,
        body_bytes: 0,
        smallest: 98,
        largest: 98,
        rows: row_0(10),
        unlisted: 0,
        none: 1,
        prepared: 2,
        commit: 3,
        rollback: 4,
        items: 6,
    };
    assert_eq!(whole_report(&store), (0, expected));
    // The type is in bits 4 and 8 alone.
    for system_flag in [0x8000_0004, 5, 4 + 64, 0xFFFF_FFC7] {
        let mut store = Store::new();
        store.add(&with_flag(system_flag, b""));
        assert_eq!(whole_report(&store).1.prepared, 1, "flag {system_flag:#x}");
    }
    // "It looks at no queue count": nor at the queue offset.
    for queue_offset in [0, 5, MAX] {
        let mut store = Store::new();
        store.add(&Message {
            queue_offset,
            ..rec()
        });
        assert_eq!(whole_report(&store), (0, one_rec()));
    }
}

#[test]
fn b1_1_each_row_has_its_own_figure() {
    // 16 rows; row i has i records.
    let directory: Vec<u8> = (0..16).flat_map(|id| row(b"T", 15 - id)).collect();
    let mut store = Store::with(14, directory, 1, 2, 4);
    let mut expected = [0; 16];
    for number in 0..16 {
        for _ in 0..number {
            store.add(&Message {
                queue_id: 15 - number,
                ..rec()
            });
        }
        expected[number as usize] = number;
    }
    let (answer, figures) = whole_report(&store);
    assert_eq!((answer, figures.records, figures.unlisted), (0, 120, 0));
    assert_eq!(figures.rows, expected);
    // The same topic with another id and the same id with another topic are other queues.
    let directory = [row(b"T", 1), row(b"U", 0), row(b"T", 0)].concat();
    let mut store = Store::with(1, directory, 1, 2, 4);
    store.add(&rec());
    let (answer, figures) = whole_report(&store);
    assert_eq!((answer, figures.unlisted), (0, 0));
    assert_eq!(figures.rows[..4], [0, 0, 1, 0]);
    // Ids cross the byte orders (A36).
    let mut store = Store::with(1, row(b"T", 0x0102_0304), 1, 2, 4);
    for queue_id in [0x0102_0304, 0x0403_0201] {
        store.add(&Message { queue_id, ..rec() });
    }
    let (_, figures) = whole_report(&store);
    assert_eq!((figures.rows, figures.unlisted), (row_0(1), 1));
}

#[test]
fn b1_2_an_unlisted_queue_goes_into_one_figure_of_its_own() {
    let mut store = Store::new();
    let others: [(&[u8], u64); 4] = [(b"T", 1), (b"U", 0), (b"TT", 0), (b"t", 7)];
    for ((topic, queue_id), system_flag) in
        others.into_iter().zip([NONE, PREPARED, COMMIT, ROLLBACK])
    {
        store.add(&Message {
            topic,
            queue_id,
            ..with_flag(system_flag, b"KEYS\x01k")
        });
    }
    store.add(&rec());
    // Dispatch stops with 11 at the first of them; the report goes on, and their items are counted.
    assert_eq!(store.stuck(9), 11);
    let expected = Figures {
        records: 5,
        blanks: 0,
        body_bytes: 0,
        smallest: 92,
        largest: 99,
        rows: row_0(1),
        unlisted: 4,
        none: 2,
        prepared: 1,
        commit: 1,
        rollback: 1,
        items: 3,
    };
    assert_eq!(whole_report(&store), (0, expected));
}

#[test]
fn b1_3_items_of_all_records_but_rollbacks() {
    for (properties, items) in [
        (&b""[..], 0),
        (b"TAGS\x01x", 0),
        (b"KEYS\x01  ", 0),
        (b"UNIQ_KEY\x01a b", 1),
        (b"KEYS\x01a  a", 2),
        (b"UNIQ_KEY\x01a\x02KEYS\x01a b c d e f", 7),
        (b"KEYS\x01a b\x02KEYS\x01c", 1),
        (b"KEYS\x01a\x01b", 0),
    ] {
        for system_flag in [NONE, PREPARED, COMMIT, ROLLBACK] {
            for queue_id in [0, 1] {
                let mut store = Store::new();
                store.add(&Message {
                    queue_id,
                    ..with_flag(system_flag, properties)
                });
                let (answer, figures) = whole_report(&store);
                let expected = if system_flag == ROLLBACK { 0 } else { items };
                assert_eq!((answer, figures.items), (0, expected));
            }
        }
    }
}

#[test]
fn b1_3_no_queue_and_no_index_stops_it() {
    // Dispatch stops with 12, 13 and 14 at the second record; the report is given no count, no R and no N.
    let second = |queue_offset, properties| Message {
        queue_offset,
        ..rec_with(properties)
    };
    for (r, n, message, stop, items) in [
        (4, 4, second(2, &b""[..]), 12, 0),
        (1, 4, second(1, b""), 13, 0),
        (4, 4, second(1, b"KEYS\x01a b c d"), 14, 4),
        (4, 2, second(1, b"UNIQ_KEY\x01a\x02KEYS\x01b"), 14, 2),
    ] {
        let mut store = Store::with(1, d1(), r, 2, n);
        store.add(&rec());
        store.add(&message);
        let (answer, figures) = whole_report(&store);
        assert_eq!((answer, figures.records, figures.items), (0, 2, items));
        assert_eq!(store.run(MAX), (stop, 1));
        // Nor does what dispatch has done.
        assert_eq!(whole_report(&store), (0, figures));
    }
}

#[test]
fn b1_4_smallest_and_largest_are_totals_of_records() {
    // Records of 92, 92 + 40 and 92 + 7 bytes, then a blank of 932: it is neither smallest nor largest.
    let body = [9; 40];
    let mut store = Store::with(2, d1(), 4, 2, 4);
    for length in [0, 40, 7] {
        store.add(&Message {
            body: &body[..length],
            ..rec()
        });
    }
    let e = store.readable_end;
    assert_eq!(e, 92 + 132 + 99);
    let three = Figures {
        records: 3,
        body_bytes: 47,
        smallest: 92,
        largest: 132,
        rows: row_0(3),
        none: 3,
        ..Figures::default()
    };
    assert_eq!(whole_report(&store), (0, three));
    patch(&mut store.log, e as usize, &blank(1_024 - e as u32));
    let with_blank = Figures { blanks: 1, ..three };
    assert_eq!(report_of(&store, 0, 1_024), (0, with_blank));
    // From the second record on the smallest is another one; the third alone is both.
    let (_, figures) = report_of(&store, 92, 1_024);
    assert_eq!((figures.smallest, figures.largest), (99, 132));
    let (_, figures) = report_of(&store, 224, 1_024);
    assert_eq!((figures.smallest, figures.largest), (99, 99));
    // Properties and topic belong to the total, not to the body.
    let mut store = Store::new();
    store.add(&Message {
        topic: b"topic",
        body: b"body",
        properties: b"KEYS\x01a",
        ..rec()
    });
    let (_, figures) = whole_report(&store);
    assert_eq!((figures.body_bytes, figures.smallest), (4, 91 + 4 + 5 + 6));
}

#[test]
fn b1_4_without_a_record_smallest_and_largest_are_0() {
    // Blanks alone: one for each segment.
    let mut log = vec![0xEE; 3 * 1_024];
    for segment in 0..3 {
        patch(&mut log, 1_024 * segment, &blank(1_024));
    }
    for blanks in 0..=3 {
        let expected = Figures {
            blanks,
            ..Figures::default()
        };
        let e = 1_024 * blanks;
        assert_eq!(report(&log, 1_024, 0, 0, e, &d1()), (0, expected));
    }
    // A blank of 8 bytes.
    let mut log = vec![0; 1_024];
    patch(&mut log, 1_016, &blank(8));
    let (answer, figures) = report(&log, 1_024, 0, 1_016, 1_024, &d1());
    assert_eq!((answer, figures.blanks, figures.records), (0, 1, 0));
    assert_eq!((figures.smallest, figures.largest), (0, 0));
}

#[test]
fn b1_4_the_largest_record() {
    let s = 4_194_304 + 8;
    let body = vec![1; 4_194_304 - 92];
    let mut log = vec![0; s as usize];
    let message = Message {
        body: &body,
        ..rec()
    };
    assert_eq!(append(&mut log, s, s, &message, s), (0, s + 4_194_304));
    let expected = Figures {
        body_bytes: 4_194_212,
        smallest: 4_194_304,
        largest: 4_194_304,
        ..one_rec()
    };
    let e = s + 4_194_304;
    assert_eq!(report(&log, s, s, s, e, &d1()), (0, expected));
    patch(&mut log, 4_194_304, &blank(8));
    let expected = Figures {
        blanks: 1,
        ..expected
    };
    assert_eq!(report(&log, s, s, s, 2 * s, &d1()), (0, expected));
}

#[test]
fn b1_5_at_the_readable_end_it_stops_with_0() {
    // p = E gives 0 at once, whatever stands there: at the start, inside a record, with r < 8, at the log's end.
    let log = log_with_rec(1_024);
    for p in [0, 1, 50, 92, 1_016, 1_020, 1_023, 1_024] {
        let nothing = (0, Figures::default());
        assert_eq!(report(&log, 1_024, 0, p, p, &d1()), nothing, "p = {p}");
    }
    assert_eq!(report(&log, 1_024, 0, 0, 92, &d1()), (0, one_rec()));
}

#[test]
fn b1_5_it_stops_where_rules_2_to_4_stop() {
    // 8: the record not wholly below E; fewer than 8 bytes below E; the blank not wholly below E.
    let mut log = log_with_rec(1_024);
    patch(&mut log, 92, &raw(&with_flag(COMMIT, b"KEYS\x01a"), 92));
    patch(&mut log, 190, &blank(1_024 - 190));
    let two = Figures {
        records: 2,
        largest: 98,
        rows: row_0(2),
        commit: 1,
        items: 1,
        ..one_rec()
    };
    let with_blank = Figures { blanks: 1, ..two };
    for (e, expected) in [
        (1, (8, Figures::default())),
        (91, (8, Figures::default())),
        (92, (0, one_rec())),
        (93, (8, one_rec())),
        (99, (8, one_rec())),
        (189, (8, one_rec())),
        (190, (0, two)),
        (191, (8, two)),
        (198, (8, two)),
        (1_023, (8, two)),
        (1_024, (0, with_blank)),
    ] {
        assert_eq!(report(&log, 1_024, 0, 0, e, &d1()), expected, "E = {e}");
    }
    // 10: r < 8, before E − p < 8 (A17).
    let nothing = Figures::default();
    assert_eq!(report(&log, 1_024, 0, 1_020, 1_022, &d1()), (10, nothing));
    assert_eq!(report(&log, 1_024, 0, 1_020, 1_024, &d1()), (10, nothing));
    // 10: another magic, a blank's total, a record's total, a record that is not sound.
    for (place, byte) in [(190 + 4, 0), (190 + 3, 9), (92 + 3, 91), (92 + 35, 1)] {
        let mut log = log.clone();
        log[place] = byte;
        let before = if place < 190 { one_rec() } else { two };
        assert_eq!(report(&log, 1_024, 0, 0, 1_024, &d1()), (10, before));
    }
    // The end of the record is asked before its soundness (A16).
    log[92 + 35] = 1;
    assert_eq!(report(&log, 1_024, 0, 0, 189, &d1()), (8, one_rec()));
    assert_eq!(report(&log, 1_024, 0, 0, 190, &d1()), (10, one_rec()));
}

#[test]
fn b1_5_door_1_s_b_and_the_log_length() {
    let log = log_with_rec(1_024);
    for (s, b, expected) in [
        (0, 0, 1),
        (1_023, 0, 1),
        (1_073_741_825, 0, 1),
        (MAX, 0, 1),
        (1_024, MAX - 1_023, 1),
        (1_024, MAX, 1),
        (1_024, 512, 1),
        (1_024, TWO_40, 1),
        (512, 0, 1),
        (2_048, 0, 1),
        (1_024, TWO_40 - 1_024, 0),
        (1_024, 0, 0),
    ] {
        let answer = report(&log, s, b, b, b, &d1()).0;
        assert_eq!(answer, expected, "S = {s}, B = {b}");
    }
    assert_eq!(report(&[], 1_024, 0, 0, 0, &d1()).0, 1);
    assert_eq!(report(&log[..1_023], 1_024, 0, 0, 0, &d1()).0, 1);
}

#[test]
fn b1_5_door_3_is_the_directory_alone() {
    let log = log_with_rec(1_024);
    let answer = |directory: &[u8]| report(&log, 1_024, 0, 0, 92, directory).0;
    let many = |count: u32| -> Vec<u8> { (0..count).flat_map(|id| row(b"T", id)).collect() };
    assert_eq!(answer(&d1()), 0);
    assert_eq!(answer(&many(16)), 0);
    assert_eq!(answer(&many(17)), 3);
    assert_eq!(answer(&[]), 3);
    assert_eq!(answer(&[d1(), d1()].concat()), 3);
    assert_eq!(answer(&d1()[..8]), 3);
    assert_eq!(answer(&[d1(), vec![0]].concat()), 3);
    assert_eq!(answer(&row(b"T", 0x7FFF_FFFF)), 0);
    assert_eq!(answer(&row(b"T", 0x8000_0000)), 3);
    assert_eq!(answer(&row(&[b'T'; 127], 0)), 0);
    assert_eq!(answer(&row(&[b'T'; 128], 0)), 3);
    let mut kind_2 = d1();
    kind_2[2] = 2;
    assert_eq!(answer(&kind_2), 3);
}

#[test]
fn b1_5_door_2_has_no_counts() {
    // B ≤ p ≤ E ≤ B + length. R, K and N are out of their limits in every report here.
    let log = vec![0; 2_048];
    for (p, e, expected) in [
        (1_024, 1_024, 0),
        (1_023, 1_024, 2),
        (0, 1_024, 2),
        (1_025, 1_024, 2),
        (3_072, 3_072, 0),
        (3_072, 3_073, 2),
        (3_073, 3_073, 2),
        (1_024, 3_073, 2),
        (1_024, MAX, 2),
        (MAX, 1_024, 2),
        (MAX, MAX, 2),
        (1_024, 3_072, 10),
    ] {
        let answer = report(&log, 1_024, 1_024, p, e, &d1()).0;
        assert_eq!(answer, expected, "p = {p}, E = {e}");
    }
}

#[test]
fn b1_5_the_door_asks_1_then_3_then_2() {
    let log = log_with_rec(1_024);
    let bad = row(b"", 0);
    for (bad_size, bad_directory, bad_position, expected) in [
        (false, false, false, 0),
        (false, false, true, 2),
        (false, true, false, 3),
        (false, true, true, 3),
        (true, false, false, 1),
        (true, false, true, 1),
        (true, true, false, 1),
        (true, true, true, 1),
    ] {
        let s = if bad_size { 1_023 } else { 1_024 };
        let directory = if bad_directory { bad.clone() } else { d1() };
        let p = if bad_position { 93 } else { 0 };
        assert_eq!(report(&log, s, 0, p, 92, &directory).0, expected);
    }
    // The door before p = E, and before the rules' stops.
    assert_eq!(report(&log, 1_024, 0, 0, 0, &[]).0, 3);
    assert_eq!(report(&log, 1_024, 0, 1_024, 1_024, &[]).0, 3);
    assert_eq!(report(&log, 1_024, 0, 1_025, 1_025, &d1()).0, 2);
    assert_eq!(report(&log, 1_024, 0, 1, 92, &[]).0, 3);
    assert_eq!(report(&log, 1_024, 0, 0, 50, &[]).0, 3);
}

#[test]
fn b1_6_the_stretch_is_that_of_record_reading() {
    // The same door 2 and the same stops, but p = E is 0 here and 8 there.
    let mut log = log_with_rec(2_048);
    patch(&mut log, 92, &blank(1_024 - 92));
    for p in [0, 1, 91, 92, 93, 1_016, 1_020, 1_024, 2_047, 2_048, 2_049] {
        for e in [0, 1, 8, 91, 92, 99, 100, 1_023, 1_024, 1_025, 2_048, 2_049] {
            let read = answer(&log, 1_024, 0, p, e);
            let (reported, figures) = report(&log, 1_024, 0, p, e, &d1());
            if p == e && p <= 2_048 {
                assert_eq!((read, reported), (8, 0));
            } else if read == 0 {
                // What is read is counted.
                assert!(figures.records + figures.blanks >= 1);
            } else {
                assert_eq!(reported, read, "p = {p}, E = {e}");
                assert_eq!(figures, Figures::default());
            }
        }
    }
    // No alignment: from inside a record, at a record that its body holds (A52).
    let inner = raw(&with_flag(PREPARED, b""), 88);
    let mut store = Store::new();
    store.add(&Message {
        body: &inner,
        ..rec()
    });
    let prepared = Figures {
        none: 0,
        prepared: 1,
        ..one_rec()
    };
    assert_eq!(report_of(&store, 88, 180), (0, prepared));
    assert_eq!(report_of(&store, 88, store.readable_end), (8, prepared));
}

#[test]
fn b1_7_a_stop_keeps_what_stands_before_it_and_nothing_of_what_stops_it() {
    let messages = [
        with_flag(NONE, b"KEYS\x01a"),
        with_flag(PREPARED, b"UNIQ_KEY\x01u\x02KEYS\x01a b"),
        Message {
            body: b"0123456789",
            queue_id: 3,
            ..with_flag(COMMIT, b"")
        },
        with_flag(ROLLBACK, b"KEYS\x01a b c d e f g"),
    ];
    let mut store = Store::new();
    let mut ends = vec![0];
    for message in &messages {
        store.add(message);
        ends.push(store.readable_end);
    }
    let e = store.readable_end;
    for bounds in ends.windows(2) {
        let (start, end) = (bounds[0], bounds[1]);
        let (answer, before) = report_of(&store, 0, start);
        assert_eq!(answer, 0);
        // Not wholly below E, at each E inside it.
        for cut in start + 1..end {
            assert_eq!(report_of(&store, 0, cut), (8, before));
        }
        // Damaged: its magic, its log position, its body length.
        for place in [4, 35, 87] {
            let mut damaged = store.clone();
            damaged.log[start as usize + place] ^= 0x40;
            assert_eq!(report_of(&damaged, 0, e), (10, before));
        }
    }
    let expected = Figures {
        records: 4,
        blanks: 0,
        body_bytes: 10,
        smallest: 98,
        largest: 92 + 19,
        rows: row_0(3),
        unlisted: 1,
        none: 1,
        prepared: 1,
        commit: 1,
        rollback: 1,
        items: 4,
    };
    assert_eq!(whole_report(&store), (0, expected));
}

#[test]
fn b1_7_a_directory_row_whose_topic_is_not_ascii() {
    // Not UTF-8 either: accepted, and its figure stays 0.
    for topic in [&[0xFF][..], &[0xC3], &[0xE9, 0x80], &[0xED, 0xA0, 0x80]] {
        let mut store = Store::with(1, [row(topic, 0), d1()].concat(), 4, 2, 4);
        store.add(&rec());
        let (answer, figures) = whole_report(&store);
        assert_eq!((answer, figures.unlisted), (0, 0));
        assert_eq!(figures.rows[..3], [0, 1, 0]);
        // A record of such a topic is not sound (item 2): the report stops there, and the row keeps its 0.
        let place = store.readable_end as usize;
        let damaged = raw(&Message { topic, ..rec() }, store.readable_end);
        patch(&mut store.log, place, &damaged);
        store.readable_end += damaged.len() as u64;
        let (answer, stopped) = whole_report(&store);
        assert_eq!((answer, stopped), (10, figures));
    }
    // UTF-8: records of that topic are counted there, byte for byte.
    let mut store = Store::with(1, [row("é".as_bytes(), 0), d1()].concat(), 4, 2, 4);
    for topic in ["é", "e", "è", "é"] {
        store.add(&Message {
            topic: topic.as_bytes(),
            ..rec()
        });
    }
    let (answer, figures) = whole_report(&store);
    assert_eq!((answer, figures.unlisted), (0, 2));
    assert_eq!(figures.rows[..3], [2, 0, 0]);
}

#[test]
fn b1_7_a_record_with_16381_keys() {
    // A61: 5 + 2 × 16,381 bytes of properties. No N bounds them.
    let properties = keys(&"a ".repeat(16_381));
    assert_eq!(properties.len(), 32_767);
    let s = 40_001;
    for (system_flag, queue_id, items) in [
        (NONE, 0, 16_381),
        (PREPARED, 0, 16_381),
        (COMMIT, 5, 16_381),
        (ROLLBACK, 0, 0),
    ] {
        let mut log = vec![0; 2 * s as usize];
        let message = Message {
            queue_id,
            ..with_flag(system_flag, &properties)
        };
        let (answer, w) = append(&mut log, s, 0, &message, 0);
        assert_eq!((answer, w), (0, 32_859));
        let (answer, w) = append(&mut log, s, 0, &message, w);
        assert_eq!((answer, w), (7, s));
        let (answer, w) = append(&mut log, s, 0, &message, w);
        assert_eq!(answer, 0);
        let (answer, figures) = report(&log, s, 0, 0, w, &d1());
        assert_eq!(answer, 0);
        assert_eq!((figures.records, figures.blanks), (2, 1));
        assert_eq!((figures.smallest, figures.largest), (32_859, 32_859));
        assert_eq!(figures.items, 2 * items);
    }
}

#[test]
fn s_not_a_power_of_two_and_b_not_0() {
    // S = 1,025, B = 1,025: a record, a blank to 2,050, a record.
    let (s, b) = (1_025, 1_025);
    let mut log = vec![0xEE; 2_050];
    let body = [0; 900];
    let long = Message {
        body: &body,
        ..with_flag(PREPARED, b"")
    };
    assert_eq!(append(&mut log, s, b, &rec(), b), (0, 1_117));
    assert_eq!(append(&mut log, s, b, &long, 1_117), (7, 2_050));
    assert_eq!(append(&mut log, s, b, &long, 2_050), (0, 3_042));
    let expected = Figures {
        records: 2,
        blanks: 1,
        body_bytes: 900,
        smallest: 92,
        largest: 992,
        rows: row_0(2),
        unlisted: 0,
        none: 1,
        prepared: 1,
        commit: 0,
        rollback: 0,
        items: 0,
    };
    assert_eq!(report(&log, s, b, b, 3_042, &d1()), (0, expected));
    // What follows is no record; to the log's end 33 bytes are left.
    assert_eq!(report(&log, s, b, b, 3_075, &d1()), (10, expected));
    assert_eq!(report(&log, s, b, b, 3_049, &d1()), (8, expected));
    // r = 1 (A4).
    let nothing = Figures::default();
    assert_eq!(report(&log, s, b, 2_049, 2_050, &d1()), (10, nothing));
    // The log position field is the position, not its distance from B (A21).
    assert_eq!(report(&log, s, 0, 0, 92, &d1()), (10, nothing));
    // At the highest B.
    let b = TWO_40 - 1_024;
    let mut log = vec![0; 1_024];
    assert_eq!(append(&mut log, 1_024, b, &rec(), b), (0, b + 92));
    assert_eq!(report(&log, 1_024, b, b, b + 92, &d1()), (0, one_rec()));
}

/// The figures of what was put into a log, with the blanks between.
fn figures_of(sent: &[Sent], store: &Store) -> Figures {
    let listed = model::directory::rows(&store.directory).unwrap();
    let mut figures = Figures::default();
    let mut next = store.log_shape.first_position;
    for message in sent {
        // A gap between two records is one blank, to its segment's end.
        figures.blanks += u64::from(message.position != next);
        next = message.position + message.total();
        if figures.records == 0 {
            figures.smallest = message.total();
        }
        figures.records += 1;
        figures.body_bytes += message.body.len() as u64;
        figures.smallest = figures.smallest.min(message.total());
        figures.largest = figures.largest.max(message.total());
        let mut unlisted = true;
        for (number, row) in listed.iter().enumerate() {
            if row.topic == message.topic && row.queue_id == i128::from(message.queue_id) {
                figures.rows[number] += 1;
                unlisted = false;
            }
        }
        figures.unlisted += u64::from(unlisted);
        match message.system_flag & 12 {
            NONE => figures.none += 1,
            PREPARED => figures.prepared += 1,
            COMMIT => figures.commit += 1,
            _ => figures.rollback += 1,
        }
        if message.makes_items() {
            figures.items += message.keys.len() as u64;
        }
    }
    figures
}

#[test]
fn the_report_of_a_random_log_is_that_of_what_was_put_into_it() {
    let mut in_all = Figures::default();
    let mut dispatched = 0;
    for_seeds(2_000, |_, rng| {
        let plan = Plan {
            troubled: rng.one_in(2),
            rising: false,
        };
        let (mut store, sent) = random_store(rng, plan);
        let b = store.log_shape.first_position;
        let e = store.readable_end;
        let expected = figures_of(&sent, &store);
        assert_eq!(whole_report(&store), (0, expected));
        in_all = sum(&in_all, &expected);
        // Up to each record, and inside it.
        for (number, message) in sent.iter().enumerate() {
            let start = message.position;
            // A blank just before the record is among them.
            let before = Figures {
                blanks: figures_of(&sent[..=number], &store).blanks,
                ..figures_of(&sent[..number], &store)
            };
            assert_eq!(report_of(&store, b, start), (0, before));
            let inside = rng.between(start + 1, start + message.total() - 1);
            assert_eq!(report_of(&store, b, inside), (8, before));
        }
        // No byte at or above E is looked at.
        let above = (e - b) as usize;
        let other = rng.bytes((store.log.len() - above) as u64);
        store.log[above..].copy_from_slice(&other);
        assert_eq!(whole_report(&store), (0, expected));
        // Dispatch that comes to the end takes as many steps, and puts as many items.
        if !plan.troubled {
            let answer = store.run(MAX);
            assert_eq!(answer, (0, expected.records + expected.blanks));
            // "A used count of 0 reads as 1."
            assert_eq!(expected.items, store.used_count().max(1) as u64 - 1);
            dispatched += 1;
        }
    });
    assert!(dispatched > 500);
    let rows = in_all.rows;
    assert!(rows[..4].iter().all(|records| *records > 500), "{rows:?}");
    assert_eq!(rows[4..], [0; 12]);
    for figure in [
        in_all.blanks,
        in_all.unlisted,
        in_all.prepared,
        in_all.rollback,
        in_all.items,
    ] {
        assert!(figure > 100, "{in_all:?}");
    }
}

/// Figures of two stretches as one: smallest and largest from those that hold a record, all else added.
fn sum(first: &Figures, second: &Figures) -> Figures {
    let with_record: Vec<&Figures> = [first, second]
        .into_iter()
        .filter(|figures| figures.records > 0)
        .collect();
    let mut rows = [0; 16];
    for (number, records) in rows.iter_mut().enumerate() {
        *records = first.rows[number] + second.rows[number];
    }
    Figures {
        records: first.records + second.records,
        blanks: first.blanks + second.blanks,
        body_bytes: first.body_bytes + second.body_bytes,
        smallest: with_record
            .iter()
            .map(|figures| figures.smallest)
            .min()
            .unwrap_or(0),
        largest: with_record
            .iter()
            .map(|figures| figures.largest)
            .max()
            .unwrap_or(0),
        rows,
        unlisted: first.unlisted + second.unlisted,
        none: first.none + second.none,
        prepared: first.prepared + second.prepared,
        commit: first.commit + second.commit,
        rollback: first.rollback + second.rollback,
        items: first.items + second.items,
    }
}

/// What every report's figures keep to, over a stretch of so many bytes.
fn see_laws(figures: &Figures, stretch: u64) {
    let of_queues: u64 = figures.rows.iter().sum::<u64>() + figures.unlisted;
    assert_eq!(of_queues, figures.records);
    let of_types = figures.none + figures.prepared + figures.commit + figures.rollback;
    assert_eq!(of_types, figures.records);
    assert!(figures.smallest <= figures.largest);
    assert!(figures.largest <= 4_194_304);
    assert_eq!(figures.smallest == 0, figures.records == 0);
    assert_eq!(figures.largest == 0, figures.records == 0);
    assert!(figures.records == 0 || figures.smallest >= 92);
    // Every figure is at most the stretch, so at most 2^40.
    assert!(92 * figures.records + figures.body_bytes + 8 * figures.blanks <= stretch);
    assert!(figures.items <= stretch);
}

#[test]
fn the_laws_hold_on_random_logs() {
    let mut answers: BTreeMap<u32, u64> = BTreeMap::new();
    let mut joined: BTreeMap<u32, u64> = BTreeMap::new();
    let mut without_a_record = 0;
    for_seeds(4_000, |_, rng| {
        let plan = Plan {
            troubled: true,
            rising: false,
        };
        let (mut store, sent) = random_store(rng, plan);
        trouble(&mut store, rng);
        // More damage than the shared one: whatever stops a report is wanted often.
        if rng.one_in(3) {
            let place = rng.below(store.log.len() as u64) as usize;
            store.log[place] ^= rng.pick(&[1, 0x10, 0x80, 0xFF]);
        }
        let b = store.log_shape.first_position;
        let log_end = b + store.log.len() as u64;
        let mut marks: Vec<u64> = sent
            .iter()
            .flat_map(|message| [message.position, message.position + message.total()])
            .collect();
        marks.extend([b, store.readable_end, log_end]);
        let mut mark = || {
            if rng.one_in(6) {
                rng.between(b, log_end)
            } else {
                rng.pick(&marks)
            }
        };
        let mut three = [mark(), mark(), mark()];
        three.sort();
        let [p, m, e] = three;
        let (answer, figures) = report_of(&store, p, e);
        assert!(matches!(answer, 0 | 8 | 10));
        *answers.entry(answer).or_default() += 1;
        see_laws(&figures, e - p);
        without_a_record += u64::from(figures.records == 0);
        // "a stretch" up to m that stops with 0, and the one from m on.
        let (stop, first) = report_of(&store, p, m);
        see_laws(&first, m - p);
        if stop == 0 {
            let (answer_from_m, second) = report_of(&store, m, e);
            see_laws(&second, e - m);
            assert_eq!(answer, answer_from_m);
            assert_eq!(figures, sum(&first, &second));
            if first.records > 0 && second.records > 0 {
                *joined.entry(answer).or_default() += 1;
            }
        }
        // Refused at one of its doors: every figure 0, as `report` sees.
        let s = store.log_shape.segment_size;
        let log = &store.log;
        let longer = [&store.directory[..], &[0]].concat();
        assert_eq!(report(log, s + 1, b, p, e, &longer).0, 1);
        assert_eq!(report(log, s, b, e + 1, e, &longer).0, 3);
        assert_eq!(report(log, s, b, e + 1, e, &store.directory).0, 2);
    });
    for answer in [0, 8, 10] {
        assert!(answers.get(&answer) >= Some(&50), "{answers:?}");
        assert!(joined.get(&answer) >= Some(&20), "{joined:?}");
    }
    assert_eq!(answers.len(), 3);
    assert!(without_a_record > 100, "{without_a_record}");
}
