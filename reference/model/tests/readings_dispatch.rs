//! Dispatch step (readings A38 to A54, A115 to A117).

mod common;

use common::*;
use model::record::Message;

/// A record with KEYS that makes no queue entry.
fn prepared(properties: &[u8]) -> Message<'_> {
    Message {
        system_flag: PREPARED,
        properties,
        ..rec()
    }
}

#[test]
fn a38_9_before_0() {
    for (budget, expected) in [
        (0, (9, 0)),
        (1, (9, 1)),
        (2, (9, 2)),
        (3, (0, 2)),
        (MAX, (0, 2)),
    ] {
        let mut store = Store::new();
        for queue_offset in 0..2 {
            store.add(&Message {
                queue_offset,
                ..rec()
            });
        }
        assert_eq!(store.run(budget), expected);
        assert_eq!(store.position(), 92 * expected.1);
        assert_eq!(store.count(0), expected.1);
    }
}

#[test]
fn a39_a_blank_is_a_step() {
    let mut store = Store::new();
    store.log = log_with_rec(1_024);
    patch(&mut store.log, 92, &blank(932));
    store.readable_end = 1_024;
    assert_eq!(store.run(1), (9, 1));
    assert_eq!(store.position(), 92);
    assert_eq!(store.run(1), (9, 1));
    assert_eq!(store.position(), 1_024);
    assert_eq!(store.run(1), (0, 0));
}

#[test]
fn a41_only_none_and_commit_look_at_the_queue() {
    let a = keys("a");
    let unlisted = |system_flag| Message {
        system_flag,
        queue_id: 5,
        properties: &a,
        ..rec()
    };
    let mut store = Store::new();
    store.add(&unlisted(PREPARED));
    assert_eq!(store.run(9), (0, 1));
    assert_eq!(store.used_count(), 2);
    assert_eq!(store.state.queues, vec![0; 80]);
    assert_eq!(store.count(0), 0);

    let mut store = Store::new();
    store.add(&unlisted(ROLLBACK));
    let before = store.state.clone();
    assert_eq!(store.run(9), (0, 1));
    assert_eq!(store.state.queues, before.queues);
    assert_eq!(store.state.index, before.index);
    assert_eq!(store.position(), store.readable_end);

    for system_flag in [NONE, COMMIT] {
        let mut store = Store::new();
        store.add(&unlisted(system_flag));
        assert_eq!(store.stuck(9), 11);
    }
    // Commit makes an entry and an item, as none does.
    for system_flag in [NONE, COMMIT] {
        let mut store = Store::new();
        store.add(&Message {
            system_flag,
            ..rec_with(&a)
        });
        assert_eq!(store.run(9), (0, 1));
        assert_eq!((store.count(0), store.used_count()), (1, 2));
    }
}

#[test]
fn a42_12_before_13() {
    for (queue_offset, expected) in [(0, 12), (1, 13), (2, 12), (MAX, 12)] {
        let mut store = Store::with(1, d1(), 1, 2, 4);
        store.set_count(0, 1);
        store.add(&Message {
            queue_offset,
            ..rec()
        });
        assert_eq!(store.stuck(9), expected);
    }
}

#[test]
fn a43_all_rules_before_any_write() {
    // The fourth item of four does not fit.
    let mut store = Store::new();
    store.state.queues.fill(0xEE);
    store.add(&rec_with(&keys("a b c d")));
    assert_eq!(store.stuck(9), 14);
    // Rule 6 before rule 7.
    let mut store = Store::new();
    store.add(&Message {
        queue_offset: 1,
        ..rec_with(&keys("a b c d"))
    });
    assert_eq!(store.stuck(9), 12);
}

#[test]
fn a44_without_items_rule_7_is_not_judged() {
    let used = Header {
        last_position: 500,
        used: 2,
        ..Header::default()
    };
    for properties in [&b""[..], b"KEYS\x01  ", b"TAGS\x01x"] {
        let mut store = Store::new();
        store.set_header(used);
        store.set_slot(0, -1);
        store.set_slot(1, -1);
        let before = store.state.index.clone();
        store.add(&rec_with(properties));
        assert_eq!(store.run(9), (0, 1));
        assert_eq!(store.state.index, before);
    }
    let mut store = Store::new();
    store.set_header(used);
    store.add(&rec_with(&keys("a")));
    assert_eq!(store.stuck(9), 15);
    // A full index, too, takes a record without items.
    let mut store = Store::with(1, d1(), 4, 2, 2);
    store.set_header(Header {
        used: 2,
        ..Header::default()
    });
    store.add(&rec());
    assert_eq!(store.run(9), (0, 1));
}

#[test]
fn a45_15_not_above_its_last_position() {
    // A fresh index takes position 0 though its last position is 0.
    let a = keys("a");
    let mut store = Store::new();
    store.add(&prepared(&a));
    assert_eq!(store.run(9), (0, 1));
    // The same prepared record again.
    store.set_position(0);
    assert_eq!(store.stuck(9), 15);
    // One position above passes.
    for (last, expected) in [(92, 15), (91, 0), (93, 15)] {
        let mut store = Store::new();
        store.add(&prepared(b""));
        let p = store.add(&prepared(&a));
        assert_eq!(p, 92);
        store.set_header(Header {
            last_position: last,
            used: 2,
            ..Header::default()
        });
        assert_eq!(store.run(9).0, expected);
    }
}

#[test]
fn a46_order_15_14_16() {
    for (last, used, expected) in [(0, 4, 14), (92, 4, 15), (0, 3, 16), (92, 3, 15)] {
        let mut store = Store::new();
        store.add(&prepared(b""));
        store.add(&prepared(&keys("a")));
        store.set_header(Header {
            last_position: last,
            used,
            ..Header::default()
        });
        store.set_slot(0, -1);
        assert_eq!(store.run(9), (expected, 1));
    }
}

#[test]
fn a47_slots_are_judged_before_the_record() {
    let mut store = Store::new();
    store.set_slot(1, 1);
    store.add(&rec_with(&keys("a b")));
    assert_eq!(store.stuck(9), 16);
    // Values at the edges, with a used count of 3.
    for (value, expected) in [(0, 0), (2, 0), (3, 16), (4, 16), (-1, 16), (i32::MIN, 16)] {
        let mut store = Store::new();
        store.add(&prepared(b""));
        store.add(&prepared(&keys("a")));
        store.set_header(Header {
            used: 3,
            filled: 2,
            ..Header::default()
        });
        store.set_slot(0, value);
        store.set_slot(1, -1);
        assert_eq!(store.run(9).0, expected, "slot {value}");
    }
}

#[test]
fn a48_two_items_of_one_record_in_one_slot() {
    let mut store = Store::new();
    store.add(&rec_with(&keys("a c")));
    assert_eq!(store.run(9), (0, 1));
    assert_eq!((store.slot(0), store.slot(1)), (2, 0));
    assert_eq!(store.item(1), (81_906, 0, 0, 0));
    assert_eq!(store.item(2), (81_908, 0, 0, 1));
    assert_eq!((store.filled_slots(), store.used_count()), (1, 3));
}

#[test]
fn a49_repeats_are_kept() {
    for properties in [&b"KEYS\x01a a"[..], b"UNIQ_KEY\x01a\x02KEYS\x01a"] {
        let mut store = Store::new();
        store.add(&prepared(b""));
        store.add(&prepared(properties));
        assert_eq!(store.run(9), (0, 2));
        assert_eq!(store.item(1), (81_906, 92, 0, 0));
        assert_eq!(store.item(2), (81_906, 92, 0, 1));
        assert_eq!(store.query("a", 0, 20_000, 0), (0, vec![92, 92], 2));
    }
}

#[test]
fn a50_dispatch_judges_no_item_and_no_queue_byte() {
    let mut store = Store::new();
    store.add(&prepared(b""));
    store.add(&Message {
        queue_offset: 1,
        ..rec_with(&keys("a"))
    });
    store.set_count(0, 1);
    store.state.queues.fill(0xFF);
    store.set_header(Header {
        used: 2,
        filled: 1,
        ..Header::default()
    });
    store.set_slot(0, 1);
    store.set_item(1, -5, -1, -1, 7);
    assert_eq!(store.run(9), (0, 2));
    assert_eq!(store.item(2), (81_906, 92, 0, 1));
}

#[test]
fn a51_a_stop_leaves_the_position_at_the_record_not_done() {
    let mut store = Store::new();
    store.add(&rec());
    let p = store.add(&rec());
    assert_eq!(store.run(9), (12, 1));
    assert_eq!((store.position(), store.count(0)), (p, 1));
}

#[test]
fn a52_no_alignment_rule() {
    let mut store = Store::new();
    store.add(&rec());
    store.set_position(1);
    assert_eq!(store.stuck(9), 10);
    // E inside a record.
    store.set_position(0);
    store.readable_end = 50;
    assert_eq!(store.stuck(9), 8);
    // A position inside a record, at a record that its body holds.
    let inner = raw(&rec(), 88);
    let mut store = Store::new();
    store.add(&Message {
        body: &inner,
        ..rec()
    });
    store.set_position(88);
    assert_eq!(store.run(1), (9, 1));
    assert_eq!(store.position(), 180);
}

#[test]
fn a53_re_dispatch() {
    let mut store = Store::new();
    store.add(&rec());
    assert_eq!(store.run(9), (0, 1));
    store.set_position(0);
    assert_eq!(store.stuck(9), 12);
    // Prepared: a45.
}

#[test]
fn a54_the_transaction_type_is_read_after_soundness() {
    let mut store = Store::new();
    let rollback = Message {
        system_flag: ROLLBACK,
        ..rec()
    };
    patch(&mut store.log, 0, &raw(&rollback, 0));
    patch(&mut store.log, 28, &[1]);
    store.readable_end = 92;
    assert_eq!(store.stuck(9), 10);
}

#[test]
fn a40_any_budget_is_taken() {
    let mut store = Store::new();
    store.add(&rec());
    assert_eq!(store.run(MAX), (0, 1));
    assert_eq!(store.run(MAX), (0, 0));
}

#[test]
fn a115_no_other_byte_changes() {
    let mut store = Store::with(1, d1(), 4, 2, 6);
    store.log.fill(0xEE);
    store.state.queues.fill(0xEE);
    let items = store.item_place(0);
    store.state.index[items..].fill(0xEE);
    let mut expected = store.state.clone();
    store.add(&rec_with(b"KEYS\x01a b\x02TAGS\x01Aa"));
    assert_eq!(store.run(9), (0, 1));

    // Total 91 + 1 + 16; tag code 2112.
    let entry = [&[0; 8][..], &[0, 0, 0, 108], &2_112u64.to_be_bytes()].concat();
    patch(&mut expected.queues, 0, &entry);
    let header = Header {
        first_time: 10_000,
        last_time: 10_000,
        first_position: 0,
        last_position: 0,
        filled: 2,
        used: 3,
    };
    patch(&mut expected.index, 0, &header.bytes());
    patch(&mut expected.index, 40, &[0, 0, 0, 1, 0, 0, 0, 2]);
    let item = |hash: u32| [&hash.to_be_bytes()[..], &[0; 16]].concat();
    patch(&mut expected.index, store.item_place(1), &item(81_906));
    patch(&mut expected.index, store.item_place(2), &item(81_907));
    assert_eq!(store.state.queues, expected.queues);
    assert_eq!(store.state.index, expected.index);
}

#[test]
fn a116_the_entry_goes_to_the_count() {
    let mut store = Store::new();
    store.state.queues.fill(0xEE);
    store.set_count(0, 2);
    store.add(&Message {
        queue_offset: 2,
        ..rec()
    });
    assert_eq!(store.run(9), (0, 1));
    assert_eq!(store.count(0), 3);
    let mut expected = vec![0xEE; 80];
    patch(&mut expected, 40, &[0; 20]);
    patch(&mut expected, 51, &[92]);
    assert_eq!(store.state.queues, expected);
}

#[test]
fn a117_what_rocketmq_does_and_this_paper_does_not() {
    // A blank's total is not ignored.
    let mut store = Store::new();
    patch(&mut store.log, 0, &blank(1_023));
    store.readable_end = 1_024;
    assert_eq!(store.stuck(9), 10);
    // A slot value above or equal to the used count is not treated as 0: a47. Repeats are no success: a45, a53.
    // Filled slots do not always grow: a48. Items of a record go in all or not at all: a43.
}
