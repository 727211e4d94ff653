//! Demand 3: a list of dispatch calls against one run (readings A100 to A109).

mod common;

use std::collections::BTreeMap;

use common::random::{random_store, trouble, Plan};
use common::*;
use model::dispatch::{dispatch, door, step, Call, Dispatched, State};
use model::sizes::{IndexShape, LogShape};
use model::{Answer, LogPosition};

/// A call that is refused whatever the state: something of it is bad.
fn refused_call(rng: &mut Rng, store: &Store, state: &mut State) {
    let other_log = rng.bytes(1_024);
    let mut call = store.call(rng.pick(&[0, 1, MAX]));
    let mut directory = store.directory.clone();
    match rng.below(6) {
        0 => {
            call.log = &other_log;
            call.log_shape = LogShape {
                segment_size: 0,
                first_position: 77,
            };
        }
        1 => call.queue_entries = rng.pick(&[0, 300_001, store.queue_entries + 1]),
        2 => call.index_shape.item_count += 1,
        3 => {
            directory.push(9);
            call.directory = &directory;
        }
        4 => call.readable_end = LogPosition(MAX),
        _ => {
            call.log = &[];
            call.index_shape = IndexShape {
                slot_count: MAX,
                item_count: MAX,
            };
        }
    }
    let before = state.clone();
    let refused = dispatch(&call, state);
    assert!((1..=4).contains(&refused.answer.number()));
    assert_eq!(refused.steps, 0);
    assert_eq!(*state, before);
}

/// Steps of the rules under a budget, one after the other: where they first stop, and with which number.
fn replay(call: &Call, state: &mut State) -> Dispatched {
    let mut steps = 0;
    while steps < call.budget {
        if let Err(answer) = step(call, state) {
            return Dispatched { answer, steps };
        }
        steps += 1;
    }
    Dispatched {
        answer: Answer::BudgetSpent,
        steps,
    }
}

#[test]
fn every_list_of_calls_is_one_run() {
    let mut stops: BTreeMap<u32, u64> = BTreeMap::new();
    let mut compared: BTreeMap<u32, u64> = BTreeMap::new();
    let mut lists_without_an_accepted_call = 0;
    let mut steps_in_all = 0;
    for_seeds(4_400, |_, rng| {
        let troubled = rng.one_in(2);
        let plan = Plan {
            troubled,
            rising: false,
        };
        let (mut store, _) = random_store(rng, plan);
        if troubled {
            trouble(&mut store, rng);
        }
        let b = store.log_shape.first_position;
        let log_end = b + store.log.len() as u64;
        let start = store.state.clone();
        let final_log = store.log.clone();

        let mut state = start.clone();
        let mut log = store.log.clone();
        let mut named_end = b;
        let mut n = 0;
        let mut last_accepted = None;
        let mut last_answer = None;
        for _ in 0..rng.below(12) {
            if rng.one_in(4) {
                refused_call(rng, &store, &mut state);
                last_answer = None;
                continue;
            }
            // The readable end never falls.
            let written_end = store.readable_end.max(named_end);
            let e = match rng.below(12) {
                0 => named_end,
                1 => written_end,
                2 => rng.between(named_end, log_end),
                _ => (named_end + rng.below(700)).min(written_end),
            };
            // Log bytes at or above the highest end named so far may change: most often they hold in the end what the
            // store holds, and anything above the new end.
            let free = (named_end - b) as usize;
            let read = (e - b) as usize;
            log[free..].copy_from_slice(&final_log[free..]);
            let changed = if rng.one_in(20) { free } else { read };
            for byte in &mut log[changed..] {
                if rng.one_in(10) {
                    *byte = rng.next() as u8;
                }
            }
            let call = Call {
                log: &log,
                readable_end: LogPosition(e),
                ..store.call(rng.pick(&[0, 1, 1, 2, 3, 7, 200, MAX]))
            };
            let accepted = door(&call, &state).is_ok();
            let mut replayed = state.clone();
            let result = dispatch(&call, &mut state);
            if accepted {
                // "Each accepted call stops exactly where document 01's rules first stop it under its own budget".
                assert_eq!(replay(&call, &mut replayed), result);
                assert_eq!(replayed, state);
                *stops.entry(result.answer.number()).or_default() += 1;
                n += result.steps;
                named_end = e;
                last_accepted = Some((log.clone(), e));
                last_answer = Some(result.answer);
            } else {
                assert!((1..=4).contains(&result.answer.number()));
                assert_eq!(result.steps, 0);
                assert_eq!(replayed, state);
                last_answer = None;
            }
        }
        steps_in_all += n;

        let Some((log, e)) = last_accepted else {
            // "with no accepted call n is 0 and all three are as at the start."
            assert_eq!(n, 0);
            assert_eq!(state, start);
            lists_without_an_accepted_call += 1;
            return;
        };
        // "After the list, progress, queues and index are exactly those that n steps of document 01's rules leave from
        // the same start, over the last accepted call's log and readable end."
        let as_the_last = |budget| Call {
            log: &log,
            readable_end: LogPosition(e),
            ..store.call(budget)
        };
        let mut stepped = start.clone();
        for done in 0..n {
            let result = step(&as_the_last(0), &mut stepped);
            assert_eq!(result, Ok(()), "step {done} of {n}");
        }
        assert_eq!(stepped, state);
        // "If the last call is accepted and stops for any cause but a spent budget, one call from that start, made as
        // the last one but with a budget above n, reports n steps and the same answer, progress, queues and index."
        if let Some(answer) = last_answer {
            if answer != Answer::BudgetSpent {
                for budget in [n + 1, n + 2 + rng.below(1_000), MAX] {
                    let mut once = start.clone();
                    let result = dispatch(&as_the_last(budget), &mut once);
                    assert_eq!(result, Dispatched { answer, steps: n });
                    assert_eq!(once, state);
                }
                *compared.entry(answer.number()).or_default() += 1;
            }
        }
    });
    // The lists are no idle ones: every stop comes up, and every one but 9 as the last.
    for answer in [0, 8, 9, 10, 11, 12, 13, 14, 15, 16] {
        assert!(stops.get(&answer) >= Some(&20), "{stops:?}");
        assert!(
            answer == 9 || compared.get(&answer) >= Some(&10),
            "{compared:?}"
        );
    }
    assert_eq!(stops.len(), 10);
    assert!(lists_without_an_accepted_call > 100);
    assert!(steps_in_all > 15_000, "{steps_in_all}");
    println!("{steps_in_all} steps; stops {stops:?}; lists compared with one call {compared:?}");
}

#[test]
fn a100_a_refused_call_between_two_good_ones() {
    let mut store = Store::new();
    for queue_offset in 0..3 {
        store.add(&model::record::Message {
            queue_offset,
            ..rec_with(b"KEYS\x01a")
        });
    }
    let mut once = store.clone();
    assert_eq!(store.run(1), (9, 1));
    let good = store.clone();
    store.log = vec![7; 500];
    store.log_shape.segment_size = 0;
    assert_eq!(store.run(1), (1, 0));
    store.log = good.log;
    store.log_shape = good.log_shape;
    assert_eq!(store.run(9), (0, 2));
    assert_eq!(once.run(4), (0, 3));
    assert_eq!(store.state, once.state);
}

#[test]
fn a104_bytes_at_or_above_the_end_may_change() {
    // The first call ends inside a record; that record is another one when the end has grown.
    let mut store = Store::new();
    store.add(&rec());
    let p = store.add(&model::record::Message {
        queue_offset: 1,
        ..rec()
    });
    let end = store.readable_end;
    let start = store.state.clone();
    store.readable_end = p + 40;
    assert_eq!(store.run(9), (8, 1));
    patch(&mut store.log, p as usize + 56, &77u64.to_be_bytes());
    store.readable_end = end;
    assert_eq!(store.run(9), (0, 1));
    let ended = store.state.clone();
    store.state = start;
    assert_eq!(store.run(3), (0, 2));
    assert_eq!(store.state, ended);
}

#[test]
fn a106_a_budget_just_above_n() {
    let mut store = Store::new();
    for queue_offset in 0..4 {
        store.add(&model::record::Message {
            queue_offset,
            ..rec_with(b"KEYS\x01a")
        });
    }
    // Three items fit: the fourth record is 14, with a budget above 3; with 3 it is 9.
    let mut exact = store.clone();
    assert_eq!(exact.run(3), (9, 3));
    assert_eq!(store.run(4), (14, 3));
    assert_eq!(store.state, exact.state);
}
