//! What is text, and its units, are those of Rust's own library, through these bindings: for every string of up to 2 bytes,
//! those of 3 and 4 at the limits, and longer ones. `compare --texts` asks the archive for every string of up to 3 bytes, and
//! for every one of 4 that may be a character.

use std::str;
use swistopal::{append, query, tag_code};
use swistopal::{Answer, Appended, LogPosition, Message, Query, Sizes};

/// First and last of each kind of byte that the RFC names.
const LIMITS: [u8; 22] = [
    0x00, 0x20, 0x7f, 0x80, 0x8f, 0x90, 0x9f, 0xa0, 0xbf, 0xc0, 0xc1, 0xc2, 0xdf, 0xe0, 0xec, 0xed,
    0xef, 0xf0, 0xf4, 0xf5, 0xf7, 0xff,
];

/// Java's hash, as a tag's code has it.
fn code(text: &str) -> u64 {
    let hash = text.encode_utf16().fold(0i32, |hash, unit| {
        hash.wrapping_mul(31).wrapping_add(i32::from(unit))
    });
    i64::from(hash) as u64
}

/// A question that is malformed only if its key is no text.
fn takes(key: &[u8]) -> bool {
    let question = Query {
        index: &[0; 84],
        sizes: Sizes {
            slot_count: 1,
            item_count: 2,
            ..Sizes::default()
        },
        topic: b"T",
        key,
        first_time: 0,
        last_time: 0,
        wanted: 1,
    };
    match query(&question, &mut [LogPosition(0)]) {
        Ok(_) => true,
        Err(Answer::Malformed) => false,
        Err(other) => panic!("{key:02x?}: {other}"),
    }
}

#[track_caller]
fn agrees(bytes: &[u8]) {
    let text = str::from_utf8(bytes);
    assert_eq!(takes(bytes), text.is_ok(), "{bytes:02x?}");
    let sound = match text {
        Ok(_) => bytes,
        Err(error) => &bytes[..error.valid_up_to()],
    };
    let sound = str::from_utf8(sound).unwrap();
    assert_eq!(tag_code(bytes), code(sound), "{bytes:02x?}");
}

#[test]
fn every_string_of_up_to_2_bytes() {
    for first in 0..=255 {
        agrees(&[first]);
        for second in 0..=255 {
            agrees(&[first, second]);
        }
    }
}

#[test]
fn strings_of_3_and_4_bytes_at_the_limits() {
    for first in LIMITS {
        for second in LIMITS {
            for third in LIMITS {
                agrees(&[first, second, third]);
                for fourth in LIMITS {
                    agrees(&[first, second, third, fourth]);
                }
            }
        }
    }
}

/// Eight bytes and more at a time are hashed and judged by another way than few: each character at each place of them.
#[test]
fn characters_at_every_place_of_a_long_text() {
    let pieces: [&[u8]; 12] = [
        "é".as_bytes(),
        "€".as_bytes(),
        "😀".as_bytes(),
        b"\xf4\x8f\xbf\xbf",
        b"\x80",
        b"\xc3",
        b"\xe2\x82",
        b"\xf0\x9f\x98",
        b"\xc0\x80",
        b"\xed\xa0\x80",
        b"\xf4\x90\x80\x80",
        b"\xff",
    ];
    for length in 0..40 {
        for place in 0..=length {
            for piece in pieces {
                let (before, behind) = (vec![b'a'; place], vec![b'z'; length - place]);
                agrees(&[&before, piece, &behind].concat());
            }
        }
    }
}

/// The record rules judge the topic and the three values by the same measure.
#[test]
fn a_record_is_judged_by_the_same_measure() {
    let sizes = Sizes {
        segment_size: 1024,
        ..Sizes::default()
    };
    let appends = |topic: &[u8], properties: &[u8]| {
        let message = Message {
            topic,
            properties,
            ..Message::default()
        };
        match append(&mut [0; 1024], &sizes, &message, &mut LogPosition(0)) {
            Ok(Appended::Record) => true,
            Err(Answer::BadRequest) => false,
            other => panic!("{other:?}"),
        }
    };
    for first in 0x7f..=255 {
        for second in LIMITS {
            for third in LIMITS {
                let text = [first, second, third];
                let sound = str::from_utf8(&text).is_ok();
                assert_eq!(appends(&text, b""), sound, "{text:02x?}");
                for name in [&b"TAGS"[..], b"KEYS", b"UNIQ_KEY"] {
                    let pair = [name, b"\x01", &text, b"\x02A\x01b"].concat();
                    assert_eq!(appends(b"T", &pair), sound, "{text:02x?}");
                }
                assert!(appends(b"T", &[b"WAIT\x01", &text[..]].concat()));
            }
        }
    }
}
