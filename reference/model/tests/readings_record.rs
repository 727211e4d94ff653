//! Record, blank, soundness: dispatch rules 2 to 4 (readings A13 to A25).

mod common;

use common::*;
use model::interface::Fields;
use model::record::{encode, Message};
use model::LogPosition;

/// The answer at position 0 of a log of 1,024 bytes that starts with these.
fn at_0(bytes: &[u8], e: u64) -> u32 {
    let mut log = vec![0; 1_024];
    patch(&mut log, 0, bytes);
    answer(&log, 1_024, 0, 0, e)
}

/// rec(0) with bytes patched.
fn patched(place: usize, new: &[u8]) -> Vec<u8> {
    let mut record = raw(&rec(), 0);
    patch(&mut record, place, new);
    record
}

#[test]
fn the_fixed_fields_stand_at_their_places() {
    let message = Message {
        body_crc: 0x0809_0A0B,
        queue_id: 0x0C0D_0E0F,
        flag: 0x1011_1213,
        queue_offset: 0x1415_1617_1819_1A1B,
        system_flag: 0x2425_2607,
        born_time: 0x2829_2A2B_2C2D_2E2F,
        born_host: &[0x30, 0x31, 0x32, 0x33, 0x34, 0x35, 0x36, 0x37],
        store_time: 0x0000_3A3B_3C3D_3E3F,
        store_host: &[0x40, 0x41, 0x42, 0x43, 0x44, 0x45, 0x46, 0x47],
        reconsume_times: 0x4849_4A4B,
        prepared_offset: 0x4C4D_4E4F_5051_5253,
        body: b"XY",
        topic: b"abc",
        properties: b"p",
    };
    // Every fixed byte from 8 to 83 is its own place, but the top bytes of the store time and one of the flag.
    let mut expected: Vec<u8> = (0..84).collect();
    patch(&mut expected, 0, &[0, 0, 0, 97, 0xDA, 0xA3, 0x20, 0xA7]);
    patch(&mut expected, 39, &[0x07]);
    patch(&mut expected, 56, &[0, 0]);
    expected.extend(b"\x00\x00\x00\x02XY\x03abc\x00\x01p");
    let position = LogPosition(0x1C1D_1E1F_2021_2223);
    assert_eq!(encode(&message, position), Some(expected.clone()));
    assert_eq!(raw(&message, position.0), expected);
}

#[test]
fn a_plain_record_is_92_bytes() {
    let record = raw(&rec(), 0);
    assert_eq!(record.len(), 92);
    assert_eq!(encode(&rec(), LogPosition(0)), Some(record.clone()));
    assert_eq!(at_0(&record, 92), 0);
}

#[test]
fn a13_a_negative_body_length_that_adds_up_is_damage() {
    let five = Message {
        properties: b"12345",
        ..rec()
    };
    let mut record = raw(&five, 0);
    record.truncate(96);
    patch(&mut record, 0, &96u32.to_be_bytes());
    patch(&mut record, 84, &[0xFF, 0xFF, 0xFF, 0xFB]);
    record[83] = 10;
    patch(&mut record, 94, &[0, 0]);
    assert_eq!(record.len(), 96);
    assert_eq!(at_0(&record, 96), 10);
}

#[test]
fn a14_only_the_store_time_is_judged() {
    let message = Message {
        body_crc: MAX_4,
        flag: MAX_4,
        queue_offset: MAX,
        born_time: MAX,
        born_host: &[0xFF; 8],
        store_host: &[0xFF; 8],
        reconsume_times: MAX_4,
        prepared_offset: MAX,
        ..rec()
    };
    let mut log = vec![0; 1_024];
    assert_eq!(append(&mut log, 1_024, 0, &message, 0), (0, 92));
    let (answer, record) = read(&log, 1_024, 0, 0, 92);
    assert_eq!(answer, 0);
    assert_eq!(record.fields, Fields::of(&message));
    for host in [record.born_host, record.store_host] {
        assert_eq!(log[host.at as usize..][..host.length as usize], [0xFF; 8]);
    }

    for (time, append_answer, read_answer) in
        [(0, 0, 0), (TWO_48 - 1, 0, 0), (TWO_48, 5, 10), (MAX, 5, 10)]
    {
        let message = Message {
            store_time: time,
            ..rec()
        };
        assert_eq!(append(&mut log, 1_024, 0, &message, 0).0, append_answer);
        assert_eq!(at_0(&raw(&message, 0), 92), read_answer);
    }
}

#[test]
fn a15_system_flag_bits_are_values() {
    for (system_flag, expected) in [
        (16, 10),
        (32, 10),
        (48, 10),
        (65_536, 0),
        (1 << 31, 0),
        (0xFFFF_FFCF, 0),
        (0xFFFF_FFDF, 10),
        (0xFFFF_FFEF, 10),
    ] {
        let message = Message {
            system_flag,
            ..rec()
        };
        assert_eq!(at_0(&raw(&message, 0), 92), expected, "{system_flag:X}");
        let mut log = vec![0; 1_024];
        let expected = if expected == 0 { 0 } else { 5 };
        assert_eq!(append(&mut log, 1_024, 0, &message, 0).0, expected);
    }
    // A negative flag is prepared: no entry, though the queue is listed.
    let mut store = Store::new();
    store.add(&Message {
        system_flag: 0x8000_0004,
        ..rec()
    });
    assert_eq!(store.run(9), (0, 1));
    assert_eq!(store.count(0), 0);
}

#[test]
fn a16_the_order_in_rule_4() {
    let record = raw(&rec(), 1);
    assert_eq!(at_0(&record, 91), 8);
    assert_eq!(at_0(&record, 92), 10);
    // Limits before 8.
    assert_eq!(at_0(&patched(0, &91u32.to_be_bytes()), 8), 10);
    assert_eq!(at_0(&patched(0, &92u32.to_be_bytes()), 8), 8);
    assert_eq!(at_0(&patched(0, &1_016u32.to_be_bytes()), 8), 8);
    assert_eq!(at_0(&patched(0, &1_017u32.to_be_bytes()), 8), 10);
    assert_eq!(at_0(&patched(0, &4_194_305u32.to_be_bytes()), 8), 10);
}

#[test]
fn a17_r_below_8_before_e_minus_p_below_8() {
    let log = vec![0; 1_024];
    assert_eq!(answer(&log, 1_024, 0, 1_020, 1_022), 10);
    // p = E comes first: 8 in reading, 0 in dispatch.
    assert_eq!(answer(&log, 1_024, 0, 1_020, 1_020), 8);
    let mut store = Store::new();
    store.set_position(1_020);
    store.readable_end = 1_020;
    assert_eq!(store.stuck(9), 0);
    store.readable_end = 1_022;
    assert_eq!(store.stuck(9), 10);
    // r ≥ 8 and E − p in 1..7, whatever the bytes are.
    for distance in 1..8 {
        assert_eq!(answer(&log, 1_024, 0, 1_016, 1_016 + distance), 8);
        assert_eq!(at_0(&raw(&rec(), 0), distance), 8);
    }
    for p in 1_017..1_024 {
        assert_eq!(answer(&log, 1_024, 0, p, 1_024), 10);
    }
}

#[test]
fn a18_blank_rules() {
    let at_92 = |total: u32, e: u64| {
        let mut log = vec![0xEE; 1_024];
        patch(&mut log, 92, &blank(total));
        let (answer, record) = read(&log, 1_024, 0, 92, e);
        (answer, record.kind, record.total)
    };
    assert_eq!(at_92(932, 1_000), (8, 0, 0));
    assert_eq!(at_92(932, 1_023), (8, 0, 0));
    assert_eq!(at_92(932, 1_024), (0, 2, 932));
    assert_eq!(at_92(931, 1_000), (10, 0, 0));
    assert_eq!(at_92(931, 1_024), (10, 0, 0));
    assert_eq!(at_92(933, 1_024), (10, 0, 0));

    // A blank at a segment's start, and the shortest one.
    let mut log = vec![0; 2_048];
    patch(&mut log, 0, &blank(1_024));
    patch(&mut log, 2_040, &blank(8));
    assert_eq!(read(&log, 1_024, 0, 0, 1_024).1.numbers()[..2], [2, 1_024]);
    assert_eq!(read(&log, 1_024, 0, 2_040, 2_048).1.numbers()[..2], [2, 8]);

    // After a blank in the last segment: position = B + length = E.
    let mut store = Store::new();
    patch(&mut store.log, 0, &blank(1_024));
    store.readable_end = 1_024;
    assert_eq!(store.run(9), (0, 1));
    assert_eq!(store.position(), 1_024);
    assert_eq!(model::lister::list(&store.log).answer.number(), 0);
}

#[test]
fn a19_a_boundary_belongs_to_the_later_segment() {
    let log = vec![0; 2_048];
    assert_eq!(answer(&log, 1_024, 0, 1_024, 1_031), 8);
    assert_eq!(answer(&log, 1_024, 0, 1_024, 1_032), 10);
    // At the log's end p = E is answered first.
    assert_eq!(answer(&log, 1_024, 0, 2_048, 2_048), 8);
    let mut store = Store::with(2, d1(), 4, 2, 4);
    store.set_position(2_048);
    store.readable_end = 2_048;
    assert_eq!(store.stuck(9), 0);
}

#[test]
fn a20_totals_and_magics_are_raw() {
    assert_eq!(at_0(&patched(0, &[0x80, 0, 0, 0]), 1_024), 10);
    assert_eq!(at_0(&patched(0, &[0x80, 0, 0, 92]), 1_024), 10);
    assert_eq!(at_0(&patched(0, &[0xFF; 4]), 1_024), 10);
    for byte in 4..8 {
        let mut record = raw(&rec(), 0);
        record[byte] ^= 1;
        assert_eq!(at_0(&record, 92), 10);
    }
}

#[test]
fn a21_the_log_position_field_is_absolute() {
    let mut log = vec![0; 1_024];
    patch(&mut log, 0, &raw(&rec(), 0));
    assert_eq!(answer(&log, 1_024, 1_024, 1_024, 1_116), 10);
    patch(&mut log, 0, &raw(&rec(), 1_024));
    assert_eq!(answer(&log, 1_024, 1_024, 1_024, 1_116), 0);
    // And all 8 bytes of it count.
    log[28] = 0x80;
    assert_eq!(answer(&log, 1_024, 1_024, 1_024, 1_116), 10);
}

#[test]
fn a22_lengths_are_guarded() {
    // Body lengths that leave no room.
    for length in [2u32, 1, 3, 0x7FFF_FFFF, 0x8000_0000, 0xFFFF_FFFF] {
        for byte_90 in [0, 1, 0xFF] {
            let mut record = patched(84, &length.to_be_bytes());
            record[90] = byte_90;
            assert_eq!(at_0(&record, 92), 10, "body length {length:X}");
        }
    }
    // Topic length 0, one that leaves no room, and negative ones.
    for length in [0, 2, 127, 128, 0xFF] {
        assert_eq!(at_0(&patched(88, &[length]), 92), 10);
    }
    // Properties lengths that do not add up, and negative ones.
    for length in [1u16, 0x7FFF, 0x8000, 0xFFFF] {
        assert_eq!(at_0(&patched(90, &length.to_be_bytes()), 92), 10);
    }
    // At the limits: a topic of 127 and 128 bytes, properties of 32,767 and 32,768.
    for (topic, properties, expected) in [
        (127, 0, 0),
        (128, 0, 10),
        (255, 0, 10),
        (1, 32_767, 0),
        (1, 32_768, 10),
        (1, 65_535, 10),
    ] {
        let topic = vec![b'T'; topic];
        let properties = vec![b'p'; properties];
        let message = Message {
            topic: &topic,
            properties: &properties,
            ..rec()
        };
        let record = raw(&message, 0);
        let mut log = vec![0; 131_072];
        patch(&mut log, 0, &record);
        let e = record.len() as u64;
        assert_eq!(answer(&log, 131_072, 0, 0, e), expected);
        let mut log = vec![0; 131_072];
        let expected = if expected == 0 { 0 } else { 5 };
        assert_eq!(append(&mut log, 131_072, 0, &message, 0).0, expected);
    }
    // A topic length that ends exactly where the properties length would start.
    let no_room = Message {
        topic: b"TTT",
        ..rec()
    };
    let mut record = raw(&no_room, 0);
    record[88] = 4;
    assert_eq!(at_0(&record, 94), 10);
}

#[test]
fn a23_compressed_and_delayed_are_not_refused() {
    let mut store = Store::with(1, row(b"SCHEDULE_TOPIC_XXXX", 0), 4, 2, 4);
    store.add(&Message {
        system_flag: 1,
        topic: b"SCHEDULE_TOPIC_XXXX",
        properties: b"TAGS\x01Aa\x02DELAY\x013",
        ..rec()
    });
    assert_eq!(store.run(9), (0, 1));
    assert_eq!(store.count(0), 1);
    // The tag code is the TAGS hash, 2112.
    assert_eq!(store.read_queue(0, 0, 1, Some(2_112), 1), (0, vec![0]));
}

#[test]
fn a24_p_equal_to_e() {
    let log = log_with_rec(1_024);
    assert_eq!(answer(&log, 1_024, 0, 0, 0), 8);
    assert_eq!(answer(&log, 1_024, 0, 92, 92), 8);
    let mut store = Store::new();
    store.log = log;
    assert_eq!(store.stuck(9), 0);
    // The lister's stop at its end is 0: see readings_lister.
}

#[test]
fn a25_a_record_or_a_blank() {
    let mut log = log_with_rec(1_024);
    patch(&mut log, 92, &blank(932));
    let (answer_0, record) = read(&log, 1_024, 0, 0, 1_024);
    assert_eq!((answer_0, record.kind, record.total), (0, 1, 92));
    let (answer_92, blank) = read(&log, 1_024, 0, 92, 1_024);
    assert_eq!((answer_92, blank.kind, blank.total), (0, 2, 932));
    assert_eq!(blank.numbers()[2..], [0; 20]);
}

#[test]
fn a_queue_id_is_not_negative() {
    for (queue_id, read_answer, append_answer) in
        [(0x7FFF_FFFF, 0, 0), (0x8000_0000, 10, 5), (MAX_4, 10, 5)]
    {
        let message = Message { queue_id, ..rec() };
        assert_eq!(at_0(&raw(&message, 0), 92), read_answer);
        let mut log = vec![0; 1_024];
        assert_eq!(append(&mut log, 1_024, 0, &message, 0).0, append_answer);
    }
}

#[test]
fn door_check_2_of_record_reading() {
    let log = vec![0; 2_048];
    for (p, e, expected) in [
        (1_024, 1_024, 8),
        (1_023, 1_024, 2),
        (1_025, 1_024, 2),
        (3_072, 3_072, 8),
        (3_072, 3_073, 2),
        (3_073, 3_073, 2),
        (MAX, MAX, 2),
        (0, MAX, 2),
    ] {
        assert_eq!(answer(&log, 1_024, 1_024, p, e), expected, "{p} to {e}");
    }
}
