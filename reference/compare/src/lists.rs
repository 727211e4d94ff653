//! Demand 3: lists of dispatch calls with growing readable ends and any budgets, refused ones between them. Each call is
//! compared with the model; after the list, the archive is compared with itself on one call from the same start.

use crate::judge::Check;
use crate::lent::Twin;
use crate::operations::{Bench, DispatchCall};
use crate::random::Random;
use crate::store::Store;
use crate::variation::Variation;

/// The last accepted call of a list.
struct Accepted {
    log: Twin<u8>,
    readable_end: u64,
    answer: u32,
}

/// Answers of a call that is refused at the door.
fn refused(answer: u32) -> bool {
    (1..=4).contains(&answer)
}

/// Runs a list of calls from the store's state, which is after it as the list leaves it. The log is as it was.
pub fn run_list(bench: &mut Bench, random: &Random, store: &mut Store) -> Check<()> {
    let start = store.state.clone();
    let appended = store.log.get().to_vec();
    let b = store.sizes.first_position;
    let mut named_end = b;
    let mut steps_done = 0;
    let mut last_accepted: Option<Accepted> = None;
    let mut last_is_accepted = false;
    let mut refused_before = false;
    let mut refused_between = false;
    for _ in 0..random.below(13) {
        bench.counts.lists.calls += 1;
        if random.one_in(5) {
            let mut other = Variation::of(store, random.pick(&[0, 1, u64::MAX]));
            other.spoil(random, store.state.progress.get()[0]);
            let (answer, _) = bench.dispatch(&other.call(), &mut store.state)?;
            assert!(refused(answer), "a spoiled call is accepted: {answer}");
            last_is_accepted = false;
            refused_before = true;
            continue;
        }
        let readable_end = next_end(random, store, named_end);
        rewrite_unnamed(random, store, &appended, named_end, readable_end);
        let budget = random.pick(&[0, 1, 1, 2, 3, 7, 1_000, u64::MAX, u64::MAX]);
        let call = DispatchCall {
            readable_end,
            ..store.call(budget)
        };
        let mut state = store.state.clone();
        let (answer, steps) = bench.dispatch(&call, &mut state)?;
        store.state = state;
        last_is_accepted = !refused(answer);
        if last_is_accepted {
            steps_done += steps;
            named_end = readable_end;
            refused_between |= refused_before;
            last_accepted = Some(Accepted {
                log: store.log.clone(),
                readable_end,
                answer,
            });
        } else {
            refused_before = true;
        }
    }

    store.log.set(0, &appended);
    bench.counts.lists.steps += steps_done;
    bench.counts.lists.refused_between += u64::from(refused_between);
    let Some(last) = last_accepted else {
        bench.counts.lists.none_accepted += 1;
        return bench.same_end(
            "a list without an accepted call",
            (0, 0, &store.state),
            (0, 0, &start),
        );
    };
    // The last call accepted and not out of budget: one call with any budget above n. Otherwise a budget of n makes the n
    // steps and no more.
    let one_call = last_is_accepted && last.answer != 9;
    let (budget, answer) = if one_call {
        let budget = random.pick(&[steps_done + 1, steps_done + 2, steps_done + 1_000, u64::MAX]);
        (budget, last.answer)
    } else {
        (steps_done, 9)
    };
    let call = DispatchCall {
        log: &last.log,
        readable_end: last.readable_end,
        ..store.call(budget)
    };
    let mut state = start;
    let (one_answer, one_steps) = bench.dispatch(&call, &mut state)?;
    bench.same_end(
        "one dispatch call from the start of a list of calls",
        (answer, steps_done, &store.state),
        (one_answer, one_steps, &state),
    )?;
    if one_call {
        bench.counts.lists.one_call += 1;
    } else {
        bench.counts.lists.steps_only += 1;
    }
    Ok(())
}

/// The readable end never falls.
pub fn next_end(random: &Random, store: &Store, named_end: u64) -> u64 {
    let written_end = store.written_end.max(named_end);
    let entry = match store.entries.as_slice() {
        [] => written_end,
        entries => random.pick(entries),
    };
    let end = match random.below(60) {
        // Past what was appended: what stands there is mostly damaged, and the end never falls again.
        0 => store.log_end(),
        1 => random.between(named_end, store.log_end()),
        2..=4 => named_end,
        5..=12 => entry + random.pick(&[1, 7, 8, 9, 91, 92, 100]),
        13..=30 => entry,
        31..=45 => written_end.min(named_end + random.below(700)),
        _ => written_end,
    };
    end.clamp(named_end, store.log_end())
}

/// Log bytes at or above the ends named so far may change. Mostly they hold what was appended up to the new end, and
/// anything above it.
fn rewrite_unnamed(
    random: &Random,
    store: &mut Store,
    appended: &[u8],
    named_end: u64,
    readable_end: u64,
) {
    let free = store.place(named_end);
    store.log.set(free, &appended[free..]);
    let changed = match random.below(30) {
        0 => free,
        1..=9 => return,
        _ => store.place(readable_end),
    };
    let room = (store.log.len() - changed) as u64;
    if room == 0 {
        return;
    }
    for _ in 0..random.below(12) {
        let place = changed + random.below(room.min(120)) as usize;
        store.log.set(place, &[random.next() as u8]);
    }
}
