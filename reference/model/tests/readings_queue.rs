//! Queue reading (readings A83 to A89).

mod common;

use common::*;
use model::consume_queue::QueueRequest;
use model::interface::{self, Progress, Sizes};
use model::QueuePlace;

/// D1, R = 4, three entries at 10, 20, 30 with tag codes 5, 6, 6.
fn three_entries() -> Store {
    let mut store = Store::new();
    store.state.queues.fill(0xFF);
    for (number, (position, tag_code)) in [(10u64, 5u64), (20, 6), (30, 6)].iter().enumerate() {
        let entry = [
            &position.to_be_bytes()[..],
            &[0, 0, 0, 92],
            &tag_code.to_be_bytes(),
        ]
        .concat();
        patch(&mut store.state.queues, number * 20, &entry);
    }
    store.set_count(0, 3);
    store
}

#[test]
fn a83_row_absent() {
    let store = three_entries();
    assert_eq!(store.read_queue(0, 0, 4, None, 4), (0, vec![10, 20, 30]));
    assert_eq!(store.read_queue(1, 0, 0, None, 0).0, 17);
    assert_eq!(store.read_queue(15, 0, 0, None, 0).0, 17);
    assert_eq!(store.read_queue(16, 0, 0, None, 0).0, 17);
}

#[test]
fn a84_start_and_count() {
    let store = three_entries();
    assert_eq!(store.read_queue(0, 3, 4, None, 4), (0, vec![]));
    assert_eq!(store.read_queue(0, 4, 4, None, 4).0, 17);
    assert_eq!(store.read_queue(0, 1, 4, None, 4), (0, vec![20, 30]));
}

#[test]
fn a85_wanted_counts_matches() {
    let store = three_entries();
    assert_eq!(store.read_queue(0, 0, 5, None, 4).0, 17);
    assert_eq!(store.read_queue(0, 3, 1, None, 0).0, 17);
    assert_eq!(store.read_queue(0, 0, 1, Some(6), 1), (0, vec![20]));
    assert_eq!(store.read_queue(0, 0, 2, Some(6), 9), (0, vec![20, 30]));
    assert_eq!(store.read_queue(0, 0, 2, None, 9), (0, vec![10, 20]));
}

#[test]
fn a86_0_wanted_returns_none() {
    let store = three_entries();
    assert_eq!(store.read_queue(0, 0, 0, None, 0), (0, vec![]));
    assert_eq!(store.read_queue(0, 0, 0, None, 40), (0, vec![]));
}

#[test]
fn a87_the_optional_tag() {
    let mut store = three_entries();
    assert_eq!(store.read_queue(0, 0, 4, Some(0), 4), (0, vec![]));
    patch(&mut store.state.queues, 32, &[0; 8]);
    assert_eq!(store.read_queue(0, 0, 4, Some(0), 4), (0, vec![20]));
    // All 8 bytes are compared.
    patch(&mut store.state.queues, 32, &[0xFF, 0, 0, 0, 0, 0, 0, 6]);
    assert_eq!(store.read_queue(0, 0, 4, Some(6), 4), (0, vec![30]));
    assert_eq!(
        store.read_queue(0, 0, 4, Some(0xFF00_0000_0000_0006), 4),
        (0, vec![20])
    );
    // The flag off: the value is ignored. Any flag but 0 is on.
    let mut out = [UNWRITTEN; 4];
    let mut found = 9;
    let sizes = Sizes {
        queue_entries: 4,
        ..log_sizes(MAX, MAX)
    };
    let progress = Progress {
        position: MAX,
        ..store.state.progress.into()
    };
    for (flag, expected) in [(0, 3), (1, 1), (2, 1), (u32::MAX, 1)] {
        let answer = interface::read_queue(
            &store.state.queues,
            &sizes,
            &store.directory,
            &progress,
            0,
            0,
            4,
            flag,
            6,
            &mut out,
            &mut found,
        );
        assert_eq!((answer, found), (0, expected));
    }
}

#[test]
fn a88_as_stored_and_not_judged() {
    let mut store = three_entries();
    patch(&mut store.state.queues, 20, &[0xFF; 8]);
    assert_eq!(store.read_queue(0, 0, 4, None, 4), (0, vec![10, MAX, 30]));
}

#[test]
fn rows_own_their_regions() {
    let directory = [row(b"A", 0), row(b"B", 0)].concat();
    let mut store = Store::with(1, directory, 2, 2, 4);
    for entry in 0..4 {
        patch(&mut store.state.queues, entry * 20 + 7, &[entry as u8]);
    }
    store.set_count(0, 2);
    store.set_count(1, 2);
    assert_eq!(store.read_queue(0, 0, 2, None, 2), (0, vec![0, 1]));
    assert_eq!(store.read_queue(1, 0, 2, None, 2), (0, vec![2, 3]));
    // A row's count is its own.
    store.set_count(1, 1);
    assert_eq!(store.read_queue(1, 0, 2, None, 2), (0, vec![2]));
    assert_eq!(store.read_queue(1, 2, 2, None, 2).0, 17);
}

#[test]
fn counts_up_to_r() {
    let request = |count| QueueRequest {
        counts: [QueuePlace(count); 16],
        row: 0,
        start: QueuePlace(count),
        wanted: 0,
        tag_code: None,
    };
    let queues = vec![0; 80];
    assert_eq!(read_queue(&queues, 4, &d1(), &request(4), 0).0, 0);
    assert_eq!(read_queue(&queues, 4, &d1(), &request(5), 0).0, 2);
    assert_eq!(read_queue(&queues, 4, &d1(), &request(MAX), 0).0, 2);
}
