//! Document 01, "Acceptance bench", row by row, and "Slips to shut out".

mod common;

use common::*;
use model::hash::{absolute, hash};
use model::index_file::seconds;
use model::record::Message;

#[test]
fn p_hashes() {
    // "bytes of `Aa` and `BB` both hash to 2112; `ab` to 3105; `T#k` to 81916; nothing to 0."
    // Document 02, item 2: "C3 A9 now gives 233, not 6214." "`polygenelubricants` hashes to −2,147,483,648".
    for (bytes, expected) in [
        (&b"Aa"[..], 2_112),
        (b"BB", 2_112),
        (b"ab", 3_105),
        (b"T#k", 81_916),
        (b"", 0),
        (&[0xC3, 0xA9], 233),
        (b"polygenelubricants", -2_147_483_648),
    ] {
        assert_eq!(hash(bytes), expected);
    }
}

#[test]
fn p_the_least_number() {
    // "as a tag its code is FF FF FF FF 80 00 00 00; the index's absolute value of that number is 0."
    let mut store = Store::new();
    store.add(&rec_with(b"TAGS\x01polygenelubricants"));
    assert_eq!(store.run(9), (0, 1));
    let code = [0xFF, 0xFF, 0xFF, 0xFF, 0x80, 0, 0, 0];
    assert_eq!(store.state.queues[12..20], code);
    assert_eq!(absolute(-2_147_483_648), 0);
    assert_eq!(absolute(-2_147_483_647), 2_147_483_647);
}

#[test]
fn p_r_100() {
    // "r = 100: total 92 fits; 93 rolls."
    let longer = Message {
        body: b"x",
        ..rec()
    };
    let mut log = vec![0; 2_048];
    assert_eq!(append(&mut log, 1_024, 0, &rec(), 924), (0, 1_016));
    assert_eq!(append(&mut log, 1_024, 0, &longer, 924), (7, 1_024));
}

#[test]
fn p_seconds() {
    // "first time 10,000: store time 10,999 gives 0 seconds, 11,000 gives 1, 9,000 gives 0."
    for (store_time, expected) in [(10_999, 0), (11_000, 1), (9_000, 0)] {
        assert_eq!(seconds(store_time, 10_000), expected);
        let mut store = Store::new();
        store.add(&rec_with(b"KEYS\x01a"));
        store.add(&Message {
            queue_offset: 1,
            store_time: store_time as u64,
            ..rec_with(b"KEYS\x01a")
        });
        assert_eq!(store.run(9), (0, 2));
        assert_eq!(i128::from(store.item(2).2), expected);
    }
}

#[test]
fn p_the_first_item() {
    // "K = 2, N = 4, fresh; record at 0, time 10,000, topic T, unique key k: item 1 at byte 68 is 00 01 3F FC and 16
    // zeros; slot 0 is 1; filled slots 1, used count 2."
    let mut store = Store::new();
    store.add(&rec_with(b"UNIQ_KEY\x01k"));
    assert_eq!(store.run(9), (0, 1));
    let item = [&[0x00, 0x01, 0x3F, 0xFC][..], &[0; 16]].concat();
    assert_eq!(store.state.index[68..88], item);
    assert_eq!(store.slot(0), 1);
    assert_eq!((store.filled_slots(), store.used_count()), (1, 2));
}

#[test]
fn p_n_4_takes_three_items() {
    // "N = 4 takes three items; the fourth is 14."
    let mut store = Store::new();
    for queue_offset in 0..4 {
        store.add(&Message {
            queue_offset,
            ..rec_with(b"KEYS\x01a")
        });
    }
    assert_eq!(store.run(9), (14, 3));
    assert_eq!(store.used_count(), 4);
    assert_eq!(store.count(0), 3);
}

#[test]
fn p_two_spaces_and_budget_0() {
    // "KEYS `a  a` makes two items; budget 0 gives 9."
    let mut store = Store::new();
    store.add(&rec_with(b"KEYS\x01a  a"));
    assert_eq!(store.stuck(0), 9);
    assert_eq!(store.run(9), (0, 1));
    assert_eq!(store.used_count(), 3);
}

#[test]
fn run_only_rows() {
    // "the item at 10,999 above is not found from 10,500 on;"
    let mut store = Store::new();
    store.add(&rec_with(b"KEYS\x01b"));
    store.add(&Message {
        queue_offset: 1,
        store_time: 10_999,
        ..rec_with(b"KEYS\x01a")
    });
    assert_eq!(store.run(9), (0, 2));
    assert_eq!(store.query("a", 10_500, 20_000, 1).1, vec![]);
    assert_eq!(store.query("a", 10_000, 20_000, 1).1.len(), 1);
    // "a link to itself gives 16;"
    let place = store.item_place(2) + 16;
    patch(&mut store.state.index, place, &[0, 0, 0, 2]);
    assert_eq!(store.query("a", 0, 20_000, 0).0, 16);
    // "prepared makes items but no entry."
    let mut store = Store::new();
    store.add(&Message {
        system_flag: PREPARED,
        ..rec_with(b"KEYS\x01a")
    });
    assert_eq!(store.run(9), (0, 1));
    assert_eq!((store.count(0), store.used_count()), (0, 2));
}

#[test]
fn slips_to_shut_out() {
    // "Widening a byte with its sign (E9 is 233, never −23)." As a unit, and a unit of 16 bits likewise.
    assert_eq!(hash("\u{e9}".as_bytes()), 0xE9);
    assert_eq!(hash("\u{ffe9}".as_bytes()), 0xFFE9);
    // "Absolute value of the least number left negative. Tag code filled with zeros on the left.": p_the_least_number.
    // "Item place one too low.": p_the_first_item.
    // "Queue entry written before the index is found full."
    let mut store = Store::new();
    store.add(&rec_with(b"KEYS\x01a b c d"));
    assert_eq!(store.stuck(9), 14);
    // "Item time compared as true milliseconds.": run_only_rows.
}
