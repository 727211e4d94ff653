//! Door checks and what a refusal returns (readings A1 to A12).

mod common;

use common::*;
use model::consume_queue::QueueRequest;
use model::index_file::Question;
use model::interface::{self, Found, Progress, Record, Sizes};
use model::record::Message;
use model::sizes::{IndexShape, LogShape};
use model::QueuePlace;

fn queue_request() -> QueueRequest {
    QueueRequest {
        counts: [QueuePlace(0); 16],
        row: 0,
        start: QueuePlace(0),
        wanted: 0,
        tag_code: None,
    }
}

fn question() -> Question<'static> {
    Question {
        topic: b"T",
        key: b"k",
        first_time: 0,
        last_time: TWO_48 - 1,
        wanted: 1,
    }
}

#[test]
fn a1_each_operation_checks_the_sizes_it_takes() {
    assert_eq!(read_queue(&[], 0, &d1(), &queue_request(), 0).0, 1);
    assert_eq!(read_queue(&[], 300_001, &d1(), &queue_request(), 0).0, 1);
    let queues = vec![0; 300_000 * 20];
    assert_eq!(
        read_queue(&queues, 300_000, &d1(), &queue_request(), 0).0,
        0
    );

    for r in [0, 300_001, MAX] {
        let mut store = Store::new();
        store.queue_entries = r;
        assert_eq!(store.stuck(9), 1, "R = {r}");
    }
    for (k, n) in [
        (0, 4),
        (5_000_001, 4),
        (2, 1),
        (2, 20_000_001),
        (MAX, 4),
        (2, MAX),
        (MAX, MAX),
    ] {
        let mut store = Store::new();
        store.index_shape = IndexShape {
            slot_count: k,
            item_count: n,
        };
        assert_eq!(store.stuck(9), 1, "K = {k}, N = {n}");
        let index = &store.state.index;
        assert_eq!(query(index, store.index_shape, &question(), 1).0, 1);
    }
    // The index has another length.
    let mut store = Store::new();
    store.state.index.push(0);
    assert_eq!(store.stuck(9), 1);
    assert_eq!(
        query(&store.state.index, store.index_shape, &question(), 1).0,
        1
    );
    store.state.index.truncate(127);
    assert_eq!(store.stuck(9), 1);
    store.state.index.push(0);
    assert_eq!(store.stuck(9), 0);
}

#[test]
fn a2_door_checks_run_1_3_2_4() {
    // Empty directory and position > E.
    let mut store = Store::with(1, vec![], 4, 2, 4);
    store.set_position(1);
    assert_eq!(store.stuck(9), 3);
    // Bad sizes before a bad directory.
    store.log_shape.segment_size = 0;
    assert_eq!(store.stuck(9), 1);
    // Bad position and bad header.
    let mut store = Store::new();
    store.set_position(1);
    store.set_header(Header {
        used: -1,
        ..Header::default()
    });
    assert_eq!(store.stuck(9), 2);
    store.set_position(0);
    assert_eq!(store.stuck(9), 4);

    // Queue reading: a count above R and the row absent; an empty directory and a count above R.
    let mut request = queue_request();
    request.counts[3] = QueuePlace(5);
    request.row = 1;
    let queues = vec![0; 80];
    assert_eq!(read_queue(&queues, 4, &d1(), &request, 0).0, 2);
    assert_eq!(read_queue(&[], 4, &[], &request, 0).0, 3);
    assert_eq!(read_queue(&[], 0, &[], &request, 0).0, 1);

    // Query: a bad header before a malformed question.
    let store = {
        let mut store = Store::new();
        store.set_header(Header {
            filled: 1,
            ..Header::default()
        });
        store
    };
    let malformed = Question {
        key: b"",
        ..question()
    };
    let index = &store.state.index;
    assert_eq!(query(index, store.index_shape, &malformed, 1).0, 4);
}

#[test]
fn a3_arithmetic_inside_check_1() {
    let mut log = vec![0; 1_024];
    for (s, b, expected) in [
        (0, 0, 1),
        (1_023, 0, 1),
        (1_073_741_825, 0, 1),
        (MAX, 0, 1),
        (1_024, MAX - 1_023, 1),
        (1_024, MAX, 1),
        (1_024, 512, 1),
        (1_024, TWO_40 - 1_024, 0),
        (1_024, TWO_40, 1),
        (512, 0, 1),
        (2_048, 0, 1),
    ] {
        // At W = B the plain record is written if the sizes are accepted.
        let (answer, w) = append(&mut log, s, b, &rec(), b);
        assert_eq!(answer, expected, "S = {s}, B = {b}");
        assert_eq!(w, if expected == 0 { b + 92 } else { b });
        let e = b.saturating_add(92);
        assert_eq!(common::answer(&log, s, b, b, e), expected);
        let mut store = Store::new();
        store.log = log.clone();
        store.log_shape = LogShape {
            segment_size: s,
            first_position: b,
        };
        store.set_position(b);
        store.readable_end = b;
        assert_eq!(store.stuck(9), expected);
    }
    assert_eq!(append(&mut [], 1_024, 0, &rec(), 0).0, 1);
    assert_eq!(common::answer(&[], 1_024, 0, 0, 0), 1);
}

#[test]
fn a4_a_segment_size_need_not_be_a_power_of_two() {
    let log = vec![0; 2_050];
    assert_eq!(answer(&log, 1_025, 1_025, 2_049, 2_050), 10);
    let mut log = vec![0; 2_050];
    let (answer, w) = append(&mut log, 1_025, 1_025, &rec(), 2_050);
    assert_eq!((answer, w), (0, 2_142));
    let (_, record) = read(&log, 1_025, 1_025, 2_050, 2_142);
    assert_eq!((record.kind, record.total), (1, 92));
}

#[test]
fn a5_a_refusal_returns_w_and_progress_as_given_and_0_for_all_else() {
    // Record reading at rec(0) with E = 91: total 0, not 92.
    let log = log_with_rec(1_024);
    let nothing = Record::default();
    assert_eq!(nothing.numbers(), [0; 22]);
    assert_eq!(read(&log, 1_024, 0, 0, 91), (8, nothing));
    assert_eq!(read(&log, 1_024, 0, 1, 92), (10, nothing));
    assert_eq!(read(&log, 1_024, 0, 1, 0), (2, nothing));
    assert_eq!(read(&log, 0, 0, 0, 92), (1, nothing));

    // Append: W as given, even a wild one.
    let mut log = vec![0xEE; 1_024];
    let before = log.clone();
    let empty_topic = Message {
        topic: b"",
        ..rec()
    };
    assert_eq!(append(&mut log, 0, 0, &rec(), MAX), (1, MAX));
    assert_eq!(append(&mut log, 1_024, 0, &rec(), MAX), (2, MAX));
    assert_eq!(append(&mut log, 1_024, 0, &empty_topic, 3), (5, 3));
    assert_eq!(append(&mut log, 1_024, 0, &rec(), 1_024), (6, 1_024));
    assert_eq!(log, before);

    // Dispatch: the whole progress as given, bad counts too; steps are overwritten with 0.
    let given = Progress {
        position: MAX,
        counts: [MAX; 16],
    };
    let mut progress = given;
    let mut steps = 5;
    let (mut queues, mut index) = (vec![1; 7], vec![2; 9]);
    let sizes = Sizes {
        segment_size: 1_024,
        first_position: 0,
        queue_entries: 4,
        slot_count: 1,
        item_count: 2,
    };
    let refused = interface::dispatch(
        &log,
        MAX,
        &sizes,
        &[],
        &mut queues,
        &mut index,
        MAX,
        &mut progress,
        &mut steps,
    );
    assert_eq!((refused, steps, progress), (1, 0, given));
    assert_eq!((queues, index), (vec![1; 7], vec![2; 9]));

    // Query and queue reading: found 0, items read 0, output untouched.
    let mut out = [UNWRITTEN; 3];
    let none = Sizes::default();
    let mut found = Found {
        positions: 5,
        items_read: 5,
    };
    let refused = interface::query(&[], &none, b"T", b"k", 0, 1, 1, &mut out, &mut found);
    assert_eq!((refused, found, out), (1, Found::default(), [UNWRITTEN; 3]));
    let mut found = 5;
    let start = Progress::default();
    let refused =
        interface::read_queue(&[], &none, &[], &start, 0, 0, 1, 0, 0, &mut out, &mut found);
    assert_eq!((refused, found, out), (1, 0, [UNWRITTEN; 3]));

    // A blank's answer 0 carries its length, and no field.
    let mut log = vec![0xEE; 1_024];
    patch(&mut log, 0, &blank(1_024));
    let expected = Record {
        kind: 2,
        total: 1_024,
        ..Record::default()
    };
    assert_eq!(read(&log, 1_024, 0, 0, 1_024), (0, expected));
}

#[test]
fn a7_all_16_counts_are_judged() {
    let mut store = Store::new();
    store.set_count(15, 5);
    assert_eq!(store.stuck(9), 2);
    assert_eq!(store.read_queue(0, 0, 0, None, 0).0, 2);
    store.set_count(15, 4);
    store.add(&rec());
    assert_eq!(store.run(9), (0, 1));
    // The unused counts never change.
    assert_eq!(store.count(15), 4);
    assert_eq!(store.count(1), 0);
    assert_eq!(store.read_queue(0, 0, 0, None, 0).0, 0);
}

#[test]
fn a8_budget_0_is_judged_after_the_door() {
    let mut store = Store::new();
    assert_eq!(store.run(0), (9, 0));
    store.log_shape.segment_size = 0;
    assert_eq!(store.run(0), (1, 0));
}

#[test]
fn a9_any_numbers_in_a_call() {
    let mut store = Store::new();
    store.add(&rec());
    store.run(9);
    assert_eq!(store.read_queue(MAX, 0, 0, None, 0).0, 17);
    assert_eq!(store.read_queue(0, MAX, 0, None, 0).0, 17);
    assert_eq!(store.read_queue(0, 0, MAX, None, 1).0, 17);
    let mut log = vec![0; 1_024];
    assert_eq!(append(&mut log, 1_024, 0, &rec(), MAX), (2, MAX));
    assert_eq!(answer(&log, 1_024, 0, MAX, MAX), 2);
    let ask = |question: Question| query(&store.state.index, store.index_shape, &question, 1).0;
    assert_eq!(ask(question()), 0);
    assert_eq!(
        ask(Question {
            last_time: TWO_48,
            ..question()
        }),
        17
    );
    assert_eq!(
        ask(Question {
            wanted: MAX,
            ..question()
        }),
        17
    );
    store.readable_end = MAX;
    assert_eq!(store.stuck(MAX), 2);
}

#[test]
fn a11_the_header_is_judged_at_the_door_always() {
    let mut store = Store::new();
    store.add(&rec());
    store.set_header(Header {
        first_time: TWO_56 as i64,
        ..Header::default()
    });
    assert_eq!(store.stuck(9), 4);
}

#[test]
fn a12_the_queue_buffer_is_rows_times_r_times_20() {
    let two_rows = [d1(), row(b"T", 1)].concat();
    let mut store = Store::with(1, two_rows, 4, 2, 4);
    assert_eq!(store.state.queues.len(), 160);
    assert_eq!(store.stuck(9), 0);
    store.state.queues.pop();
    assert_eq!(store.stuck(9), 3);
    assert_eq!(store.read_queue(0, 0, 0, None, 0).0, 3);
    store.state.queues.extend([0, 0]);
    assert_eq!(store.stuck(9), 3);
    // A bad directory with any buffer.
    store.directory.push(0);
    assert_eq!(store.stuck(9), 3);
}
