//! Directory (readings A34 to A37).

mod common;

use common::*;
use model::directory::rows;
use model::record::Message;

/// A row with any length, kind and id; the topic is `T` as often as the length says.
fn any_row(length: u16, kind: u16, queue_id: u32) -> Vec<u8> {
    let mut bytes = Vec::new();
    bytes.extend(length.to_le_bytes());
    bytes.extend(kind.to_le_bytes());
    bytes.extend(queue_id.to_le_bytes());
    bytes.resize((length as usize).max(8), b'T');
    bytes
}

fn good(directory: &[u8]) -> bool {
    rows(directory).is_some()
}

#[test]
fn a34_little_endian_and_the_length_includes_itself() {
    assert!(!good(&any_row(8, 1, 0)));
    assert!(good(&any_row(9, 1, 0)));
    assert!(good(&any_row(135, 1, 0)));
    assert!(!good(&any_row(136, 1, 0)));
    assert!(!good(&any_row(0, 1, 0)));
    assert!(!good(&[]));
    // Bytes left over: 1 to 7, and a row cut short.
    for extra in 1..8 {
        assert!(!good(&[d1(), vec![0; extra]].concat()));
        assert!(!good(&[d1(), d1()[..extra].to_vec()].concat()));
    }
    assert!(!good(&d1()[..8]));
    let mut longer = d1();
    longer[0] = 10;
    assert!(!good(&longer));
    // 16 rows, 17 rows.
    let many = |count: u32| -> Vec<u8> { (0..count).flat_map(|id| row(b"T", id)).collect() };
    assert_eq!(rows(&many(16)).unwrap().len(), 16);
    assert!(!good(&many(17)));
    // Queue ids below 2^31.
    assert!(good(&any_row(9, 1, 0x7FFF_FFFF)));
    assert!(!good(&any_row(9, 1, 0x8000_0000)));
    // Kinds: bytes 01 00 are kind 1, bytes 00 01 are 256.
    assert_eq!(d1()[2..4], [1, 0]);
    assert!(!good(&any_row(9, 2, 0)));
    assert!(!good(&any_row(9, 0, 0)));
    assert!(!good(&any_row(9, 256, 0)));
    // Through the door.
    let mut store = Store::with(1, any_row(9, 2, 0), 4, 2, 4);
    assert_eq!(store.stuck(9), 3);
}

#[test]
fn a35_duplicates_anywhere() {
    assert!(good(&[row(b"T", 0), row(b"T", 1)].concat()));
    assert!(good(&[row(b"T", 0), row(b"U", 0)].concat()));
    assert!(!good(&[row(b"T", 0), row(b"T", 0)].concat()));
    assert!(!good(
        &[row(b"T", 0), row(b"U", 0), row(b"T", 1), row(b"T", 0)].concat()
    ));
}

#[test]
fn a36_topics_are_raw_bytes_and_ids_cross_the_byte_orders() {
    let topic = "\0\u{ff}\u{1f600}".as_bytes();
    let mut store = Store::with(1, row(topic, 0x0102_0304), 4, 2, 4);
    store.add(&Message {
        topic,
        queue_id: 0x0102_0304,
        ..rec()
    });
    store.add(&Message {
        topic,
        queue_id: 0x0403_0201,
        ..rec()
    });
    assert_eq!(store.run(9), (11, 1));
    assert_eq!(store.count(0), 1);
    // A longer and a shorter topic are other topics.
    for topic in [&b"TT"[..], b"U", b"t"] {
        let mut store = Store::new();
        store.add(&Message { topic, ..rec() });
        assert_eq!(store.stuck(9), 11);
    }
}

#[test]
fn a37_row_i_owns_region_i() {
    let directory = [row(b"A", 0), row(b"T", 7), row(b"T", 0)].concat();
    let mut store = Store::with(1, directory, 3, 2, 4);
    store.state.queues.fill(0xEE);
    let mut expected = store.state.queues.clone();
    for queue_offset in 0..2 {
        let p = store.add(&Message {
            queue_offset,
            ..rec()
        });
        let entry = [&p.to_be_bytes()[..], &[0, 0, 0, 92], &[0; 8]].concat();
        // Region 2, R = 3: entry c at (2·3 + c)·20.
        patch(&mut expected, (6 + queue_offset as usize) * 20, &entry);
    }
    assert_eq!(store.run(9), (0, 2));
    assert_eq!(store.state.queues, expected);
    assert_eq!([store.count(0), store.count(1), store.count(2)], [0, 0, 2]);
}
