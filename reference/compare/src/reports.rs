//! Reports: stretches from and to anywhere, with neighbours, over damage and random bytes, refused at the door.

use crate::figures::Stretch;
use crate::judge::Check;
use crate::lent::Twin;
use crate::lists::next_end;
use crate::messages::{properties, Draft};
use crate::operations::Bench;
use crate::random::Random;
use crate::store::{directory, random_rows, Plan, Store};
use crate::variation::Variation;

/// Reports of one store: of all of it, then of stretches of it, by its own directory and by others.
pub fn reports(bench: &mut Bench, random: &Random) -> Check<()> {
    let wide = random.one_in(40);
    let mut store = reported_store(bench, random, wide)?;
    bench.report(&store.stretch(store.sizes.first_position, store.written_end))?;
    let sound = store.log.clone();
    // Items by the thousand take long.
    let rounds = if wide { 1 } else { 3 };
    for _ in 0..rounds {
        if !random.one_in(3) {
            store.directory = other_directory(random, &store);
        }
        match random.below(8) {
            0 => store.log = Twin::new(&random.bytes(store.log.len() as u64)),
            1..=3 => store.damage_log(random),
            _ => {}
        }
        for _ in 0..4 {
            neighbours(bench, random, &store)?;
        }
        store.log = sound.clone();
        around_damage(bench, random, &mut store)?;
        doors(bench, random, &store)?;
        store.log = sound.clone();
    }
    Ok(())
}

fn reported_store(bench: &mut Bench, random: &Random, wide: bool) -> Check<Store> {
    let plan = Plan {
        wide,
        troubled: random.one_in(2),
        // Most of its queues are not listed.
        single: !wide && random.one_in(8),
        ..Plan::default()
    };
    if !wide && !random.one_in(4) {
        return Store::filled(bench, random, plan);
    }
    let mut store = Store::empty(random, plan);
    if wide {
        many_keys(bench, random, &mut store)?;
    } else {
        nested(bench, random, &mut store)?;
    }
    store.fill(bench, random, plan)?;
    Ok(store)
}

/// As many records as fit, of as many keys as fit: their items are often more than 16 bits count.
fn many_keys(bench: &mut Bench, random: &Random, store: &mut Store) -> Check<()> {
    let draft = Draft {
        system_flag: random.pick(&[0, 4, 8]),
        properties: [&b"KEYS\x01"[..], &b"a ".repeat(16_381)].concat(),
        ..some_draft(random, store)
    };
    while store.append(bench, &draft)? == 0 {}
    Ok(())
}

/// A record whose properties end with a record that is sound at its own position: a stretch from there on has it.
fn nested(bench: &mut Bench, random: &Random, store: &mut Store) -> Check<()> {
    let inner = some_draft(random, store);
    let outer = Draft {
        properties: vec![b'x'; inner.total() as usize],
        ..some_draft(random, store)
    };
    if store.append(bench, &outer)? == 0 {
        let position = store.written_end - inner.total();
        let mut write_position = position;
        let message = inner.message();
        bench.append(&mut store.log, &store.sizes, &message, &mut write_position)?;
        store.entries.push(position);
    }
    Ok(())
}

fn some_draft(random: &Random, store: &Store) -> Draft {
    let (topic, queue_id) = random.pick(&store.rows);
    Draft {
        queue_id: u64::from(queue_id),
        system_flag: random.pick(&[0, 4, 8, 12]),
        properties: properties(random),
        ..Draft::least(&topic)
    }
}

/// 1 to 16 rows: some of the store's queues among others, at any place.
fn other_directory(random: &Random, store: &Store) -> Twin<u8> {
    let mut rows = random_rows(random, random.between(1, 16));
    for queue in &store.rows {
        if rows.len() < 16 && random.one_in(2) && !rows.contains(queue) {
            let place = random.below(rows.len() as u64 + 1) as usize;
            rows.insert(place, queue.clone());
        }
    }
    directory(&rows)
}

/// A stretch, and the same one in two.
fn neighbours(bench: &mut Bench, random: &Random, store: &Store) -> Check<()> {
    let log_end = store.log_end();
    let anywhere = || store.some_position(random).min(log_end);
    let position = random.pick(&[store.sizes.first_position, anywhere(), anywhere()]);
    let readable_end = match random.below(8) {
        0 => log_end,
        1 => anywhere().max(position),
        _ => next_end(random, store, position),
    };
    let middle = anywhere().clamp(position, readable_end);
    bench.report_twice(&store.stretch(position, readable_end), middle)
}

/// Damages a record or blank, and reports it and perhaps what stands before it, with readable ends around its own.
fn around_damage(bench: &mut Bench, random: &Random, store: &mut Store) -> Check<()> {
    let damaged = match store.entries.as_slice() {
        [] => return Ok(()),
        entries => random.pick(entries),
    };
    for _ in 0..random.pick(&[0, 1, 1, 2]) {
        store.damage_entry(random, damaged);
    }
    let before = store.some_position(random).min(damaged);
    let position = random.pick(&[store.sizes.first_position, before, damaged]);
    for readable_end in store.ends_around(random, damaged) {
        bench.report(&store.stretch(position, readable_end))?;
    }
    Ok(())
}

/// Faults at several doors at once, and a parameter beside what is meant.
fn doors(bench: &mut Bench, random: &Random, store: &Store) -> Check<()> {
    let mut other = Variation::of(store, 0);
    let mut position = random.pick(&[store.sizes.first_position, store.some_position(random)]);
    if random.one_in(3) {
        other.spoil_log(random);
    }
    if random.one_in(3) {
        other.spoil_directory(random);
    }
    if random.one_in(3) {
        other.spoil_end(random, position);
    }
    match random.below(6) {
        0 => position = random.beside(position),
        1 => other.readable_end = random.beside(other.readable_end),
        2 => other.sizes.segment_size = random.beside(other.sizes.segment_size),
        3 => other.sizes.first_position = random.beside(other.sizes.first_position),
        _ => {}
    }
    bench.report(&Stretch {
        log: &other.log,
        sizes: other.sizes,
        directory: &other.directory,
        position,
        readable_end: other.readable_end,
    })?;
    Ok(())
}
