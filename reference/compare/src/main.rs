//! Compares the archive behind the C interface with the model, scenario by scenario. Scenario i of a seed depends on
//! nothing else, so it can be repeated alone.

// The structs are lent as their numbers.
#[allow(dead_code)]
#[path = "../../../bindings/rust/src/archive.rs"]
mod archive;
mod every_text;
mod figures;
mod functions;
mod items;
mod judge;
mod lent;
mod lists;
mod messages;
mod operations;
mod random;
mod reports;
mod requests;
mod scenarios;
mod store;
mod texts;
mod trials;
mod variation;

use std::process::ExitCode;
use std::sync::atomic::{AtomicU64, Ordering};
use std::sync::{Condvar, Mutex};
use std::time::{Duration, Instant};

use judge::{Check, Difference};
use operations::{Bench, Counts, Operation};
use random::Random;
use requests::{Fault, SITES};

const USAGE: &str = "usage: compare [--seed N] [--count N] [--only SCENARIO]
       compare --texts";

/// Time between progress lines.
const PROGRESS_EVERY: Duration = Duration::from_secs(10);

struct Arguments {
    seed: u64,
    count: u64,
    only: Option<u64>,
    /// Every short text instead of scenarios.
    texts: bool,
}

fn arguments() -> Option<Arguments> {
    let mut arguments = Arguments {
        seed: 1,
        count: 20_000,
        only: None,
        texts: false,
    };
    let mut given = std::env::args().skip(1);
    while let Some(name) = given.next() {
        if name == "--texts" {
            arguments.texts = true;
            continue;
        }
        let number = given.next()?.parse().ok()?;
        match name.as_str() {
            "--seed" => arguments.seed = number,
            "--count" => arguments.count = number,
            "--only" => arguments.only = Some(number),
            _ => return None,
        }
    }
    Some(arguments)
}

fn main() -> ExitCode {
    let Some(arguments) = arguments() else {
        eprintln!("{USAGE}");
        return ExitCode::from(2);
    };
    if arguments.texts {
        return every_text::run();
    }
    println!("seed {}", arguments.seed);
    if let Some(scenario) = arguments.only {
        return run_only(arguments.seed, scenario);
    }
    run_all(arguments.seed, arguments.count)
}

fn run_scenario(bench: &mut Bench, seed: u64, scenario: u64) -> Check<()> {
    lent::begin_scenario();
    scenarios::run(bench, seed, scenario)
}

/// A generator beside the scenario's own, so that what a call does not look at changes nothing else.
fn noise(seed: u64, scenario: u64) -> Random {
    Random::of_scenario(!seed, scenario)
}

/// One scenario, each of its operations said.
fn run_only(seed: u64, scenario: u64) -> ExitCode {
    let mut bench = Bench::new(true, noise(seed, scenario));
    match run_scenario(&mut bench, seed, scenario) {
        Ok(()) => {
            println!("scenario {scenario}: no difference");
            ExitCode::SUCCESS
        }
        Err(difference) => {
            say_difference(seed, scenario, &difference);
            ExitCode::FAILURE
        }
    }
}

/// What the threads share.
struct Run {
    seed: u64,
    /// The next scenario that nobody has taken.
    next: AtomicU64,
    /// Scenarios from here on are not wanted: the count, or the first one that differs.
    limit: AtomicU64,
    found: Mutex<Option<(u64, Box<Difference>)>>,
    threads_left: Mutex<usize>,
    thread_ended: Condvar,
}

fn run_all(seed: u64, count: u64) -> ExitCode {
    let threads = std::thread::available_parallelism().map_or(1, |number| number.get());
    let run = Run {
        seed,
        next: AtomicU64::new(0),
        limit: AtomicU64::new(count),
        found: Mutex::new(None),
        threads_left: Mutex::new(threads),
        thread_ended: Condvar::new(),
    };
    let mut counts = Counts::default();
    let started = Instant::now();
    std::thread::scope(|scope| {
        let workers: Vec<_> = (0..threads)
            .map(|_| {
                scope.spawn(|| {
                    let _ended = Ended(&run);
                    work(&run)
                })
            })
            .collect();
        say_progress(&run, count, started);
        for worker in workers {
            counts.add(&worker.join().expect("a worker that ends"));
        }
    });
    if let Some((scenario, difference)) = run.found.into_inner().expect("no worker panicked") {
        say_difference(seed, scenario, &difference);
        return ExitCode::FAILURE;
    }
    report(&counts, count, started.elapsed())
}

/// Tells the waiting thread that a worker is through, also by a panic.
struct Ended<'a>(&'a Run);

impl Drop for Ended<'_> {
    fn drop(&mut self) {
        if let Ok(mut left) = self.0.threads_left.lock() {
            *left -= 1;
        }
        self.0.thread_ended.notify_all();
    }
}

/// Takes scenarios in order, so that the first one that differs is found whatever the threads do.
fn work(run: &Run) -> Counts {
    let mut counts = Counts::default();
    loop {
        let scenario = run.next.fetch_add(1, Ordering::Relaxed);
        if scenario >= run.limit.load(Ordering::Relaxed) {
            return counts;
        }
        let mut bench = Bench::new(false, noise(run.seed, scenario));
        if let Err(difference) = run_scenario(&mut bench, run.seed, scenario) {
            run.limit.fetch_min(scenario, Ordering::Relaxed);
            let mut found = run.found.lock().expect("no worker panicked");
            if found.as_ref().is_none_or(|(first, _)| scenario < *first) {
                *found = Some((scenario, difference));
            }
        }
        counts.add(&bench.counts);
    }
}

/// A line on standard error now and then, until every worker is through.
fn say_progress(run: &Run, count: u64, started: Instant) {
    let mut left = run.threads_left.lock().expect("no worker panicked");
    while *left > 0 {
        let (still, waited) = run
            .thread_ended
            .wait_timeout(left, PROGRESS_EVERY)
            .expect("no worker panicked");
        left = still;
        if waited.timed_out() {
            let taken = run.next.load(Ordering::Relaxed).min(count);
            let rate = taken as f64 / started.elapsed().as_secs_f64();
            eprintln!("compare: {taken} of {count} scenarios, {rate:.0} a second");
        }
    }
}

fn say_difference(seed: u64, scenario: u64, difference: &Difference) {
    println!("difference in scenario {scenario} of seed {seed}");
    println!(
        "  operation {} ({})",
        difference.number,
        difference.operation.name()
    );
    println!("  {}", difference.call);
    println!("  field     {}", difference.field);
    for (side, value) in &difference.sides {
        println!("  {side:<9} {value}");
    }
    if let Some(note) = &difference.note {
        println!("  {note}");
    }
    println!("this scenario alone: compare --seed {seed} --only {scenario}");
}

/// Counts by operation and outcome. Fails where an operation did not come to an outcome that it can give, a fault of a
/// request was not tried alone at some place, no neighbouring stretches came to a stop that a report can have, or a kind of
/// text was not tried at some place.
fn report(counts: &Counts, count: u64, time: Duration) -> ExitCode {
    let mut missed = Vec::new();
    for operation in Operation::ALL {
        let mut line = format!("{:<12}", operation.name());
        for outcome in operation.outcomes() {
            let times = counts.outcomes[operation as usize][*outcome as usize];
            let name = operation.outcome_name(*outcome);
            line.push_str(&format!(" {name}:{times}"));
            if times == 0 {
                missed.push(format!("{} {name}", operation.name()));
            }
        }
        println!("{line}");
    }
    println!(
        "requests with a fault: {} faults, each alone at {} places, {} times and more",
        Fault::ALL.len(),
        SITES.len(),
        counts.requests.least()
    );
    missed.extend(counts.requests.missed());
    let lists = &counts.lists;
    println!(
        "lists of dispatch calls: {} ({} calls, {} steps); {} against one call, {} against their steps, {} without an accepted \
         call; {} with a refused call before an accepted one",
        lists.one_call + lists.steps_only + lists.none_accepted,
        lists.calls,
        lists.steps,
        lists.one_call,
        lists.steps_only,
        lists.none_accepted,
        lists.refused_between
    );
    println!("{}", counts.neighbours.said());
    missed.extend(counts.neighbours.missed());
    println!("{}", counts.trials.said());
    missed.extend(counts.trials.missed());
    let rate = count as f64 / time.as_secs_f64().max(0.001);
    println!("{count} scenarios, 0 differences, {rate:.0} a second");
    if missed.is_empty() {
        ExitCode::SUCCESS
    } else {
        println!("not reached: {}", missed.join(", "));
        ExitCode::FAILURE
    }
}
