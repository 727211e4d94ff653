//! Append (readings A26 to A33; A6 is A27 and A31).

mod common;

use common::*;
use model::record::Message;

/// A body that makes the record this long.
fn body_for(total: usize) -> Vec<u8> {
    vec![b'b'; total - 92]
}

/// Appends a record of `total` bytes to a log of `length` bytes EE, S = 1024, B = 0; the answer, W, and the log after
/// it, which an answer other than 0 and 7 is seen to leave.
fn append_total(length: usize, w: u64, total: usize) -> (u32, u64, Vec<u8>) {
    let body = body_for(total);
    let message = Message {
        body: &body,
        ..rec()
    };
    let mut log = vec![0xEE; length];
    let (answer, new_w) = append(&mut log, 1_024, 0, &message, w);
    if answer != 0 && answer != 7 {
        assert_eq!(log, vec![0xEE; length]);
        assert_eq!(new_w, w);
    }
    (answer, new_w, log)
}

#[test]
fn a26_5_before_6_at_the_logs_end() {
    let empty_topic = Message {
        topic: b"",
        ..rec()
    };
    let mut log = vec![0; 1_024];
    assert_eq!(append(&mut log, 1_024, 0, &empty_topic, 1_024), (5, 1_024));
    assert_eq!(append(&mut log, 1_024, 0, &rec(), 1_024), (6, 1_024));
    assert_eq!(append(&mut log, 1_024, 0, &rec(), 1_025), (2, 1_025));
    assert_eq!(append(&mut log, 1_024, 0, &empty_topic, 1_025), (2, 1_025));
    assert_eq!(log, vec![0; 1_024]);
    // Below B.
    let mut log = vec![0; 1_024];
    assert_eq!(append(&mut log, 1_024, 1_024, &rec(), 1_023), (2, 1_023));
    assert_eq!(append(&mut log, 1_024, 1_024, &rec(), 0), (2, 0));
}

#[test]
fn a27_2_before_everything_about_the_request() {
    let empty_topic = Message {
        topic: b"",
        ..rec()
    };
    for w in (1_017..1_024).chain(2_041..2_048) {
        assert_eq!(append_total(2_048, w, 92).0, 2);
        let mut log = vec![0; 2_048];
        assert_eq!(append(&mut log, 1_024, 0, &empty_topic, w), (2, w));
    }
    // r = 8 rolls, and the blank is the segment's last 8 bytes.
    let (answer, w, log) = append_total(2_048, 1_016, 92);
    assert_eq!((answer, w), (7, 1_024));
    let mut expected = vec![0xEE; 2_048];
    patch(&mut expected, 1_016, &[0, 0, 0, 8, 0xCB, 0xD4, 0x31, 0x94]);
    assert_eq!(log, expected);
    // The same in the last segment: 6, nothing written.
    assert_eq!(append_total(1_024, 1_016, 92).0, 6);
    assert_eq!(append_total(2_048, 2_040, 92).0, 6);
}

#[test]
fn a28_what_could_not_be_sound_at_the_start_of_a_segment() {
    assert_eq!(append_total(1_024, 0, 1_017).0, 5);
    let (answer, w, _) = append_total(1_024, 0, 1_016);
    assert_eq!((answer, w), (0, 1_016));
    let (answer, w, _) = append_total(2_048, 500, 1_016);
    assert_eq!((answer, w), (7, 1_024));
    assert_eq!(append_total(1_024, 500, 1_016).0, 6);
    assert_eq!(append_total(2_048, 500, 1_017).0, 5);
    assert_eq!(append_total(1_024, 500, 1_017).0, 5);
}

#[test]
fn a29_a_lent_body_longer_than_any_record() {
    let s = 8_388_608;
    for (total, expected) in [(4_194_304, 0), (4_194_305, 5), (5_000_000, 5)] {
        let body = body_for(total);
        let message = Message {
            body: &body,
            ..rec()
        };
        let mut log = vec![0; s];
        let (answer, w) = append(&mut log, s as u64, 0, &message, 0);
        assert_eq!(answer, expected);
        assert_eq!(w, if expected == 0 { total as u64 } else { 0 });
        if answer == 0 {
            assert_eq!(read(&log, s as u64, 0, 0, w).1.total, 4_194_304);
        }
    }
    // Topics and properties longer than their fields.
    let long = vec![b'x'; 65_536 + 1];
    for (topic, properties) in [(&long[..256], &b""[..]), (&long[..257], b""), (b"T", &long)] {
        let message = Message {
            topic,
            properties,
            ..rec()
        };
        let mut log = vec![0; s];
        assert_eq!(append(&mut log, s as u64, 0, &message, 0).0, 5);
    }
}

#[test]
fn a30_r_100_takes_92_and_rolls_93() {
    let (answer, w, log) = append_total(2_048, 924, 92);
    assert_eq!((answer, w), (0, 1_016));
    let mut expected = vec![0xEE; 2_048];
    patch(&mut expected, 924, &raw(&rec(), 924));
    assert_eq!(log, expected);
    assert_eq!(append_total(2_048, 924, 93).0, 7);
}

#[test]
fn a31_6_writes_no_blank() {
    let (answer, w, _) = append_total(1_024, 924, 93);
    assert_eq!((answer, w), (6, 924));
}

#[test]
fn a32_7_touches_exactly_8_bytes() {
    let (answer, w, log) = append_total(3_072, 924, 93);
    assert_eq!((answer, w), (7, 1_024));
    let mut expected = vec![0xEE; 3_072];
    patch(&mut expected, 924, &blank(100));
    assert_eq!(log, expected);
    // Appending below existing data overwrites it.
    let mut log = log_with_rec(1_024);
    let other = Message { flag: 9, ..rec() };
    assert_eq!(append(&mut log, 1_024, 0, &other, 0), (0, 92));
    assert_eq!(log[..92], raw(&other, 0));
}

#[test]
fn a33_the_checksum_is_carried_never_judged() {
    let message = Message {
        body: b"x",
        ..rec()
    };
    let mut log = vec![0; 1_024];
    assert_eq!(append(&mut log, 1_024, 0, &message, 0), (0, 93));
    assert_eq!(read(&log, 1_024, 0, 0, 93).1.fields.body_crc, 0);
}

#[test]
fn append_never_leads_to_its_own_answer_2() {
    for_seeds(200, |_, rng| {
        let mut log = vec![0; 3 * 1_024];
        let mut w = 1_024;
        loop {
            let length = rng.below(500);
            let body = rng.bytes(length);
            let message = Message {
                body: &body,
                ..rec()
            };
            let (answer, new_w) = append(&mut log, 1_024, 1_024, &message, w);
            assert!(matches!(answer, 0 | 6 | 7));
            if answer == 6 {
                break;
            }
            w = new_w;
        }
    });
}
