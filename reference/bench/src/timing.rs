//! Times of sides that are run in turn: the least of many batches, lap by lap.

use std::hint::black_box;
use std::time::{Duration, Instant};

/// More than the last cache holds.
const SWEPT_BYTES: usize = 64 << 20;
const LINE: usize = 64;

/// The laps of one side: of each, its least time in all batches so far. A lap that is cut off by other work on the
/// machine is short enough to be whole in another batch.
#[derive(Default)]
pub struct Laps {
    least: Vec<Duration>,
    next: usize,
}

impl Laps {
    #[inline(always)]
    pub fn time<R>(&mut self, work: impl FnOnce() -> R) -> R {
        let start = Instant::now();
        let result = work();
        let time = start.elapsed();
        if self.next == self.least.len() {
            self.least.push(time);
        } else {
            self.least[self.next] = self.least[self.next].min(time);
        }
        self.next += 1;
        result
    }

    fn nanoseconds(&self) -> f64 {
        self.least.iter().sum::<Duration>().as_nanos() as f64
    }
}

/// One side of a job: a batch of it, timed in the same laps each time.
pub type Side<'a, C> = &'a dyn Fn(&mut C, &mut Laps);

/// Runs the sides in turn, each as often as there are batches, and gives their nanoseconds for a batch. Each batch begins
/// with another side than the last.
pub fn interleave<C>(batches: usize, context: &mut C, sides: &[Side<C>]) -> Vec<f64> {
    let mut laps: Vec<Laps> = sides.iter().map(|_| Laps::default()).collect();
    for batch in 0..batches {
        for turn in 0..sides.len() {
            let side = (batch + turn) % sides.len();
            laps[side].next = 0;
            sides[side](context, &mut laps[side]);
        }
    }
    laps.iter().map(Laps::nanoseconds).collect()
}

/// Bytes that are read to put all others out of the caches.
pub struct Sweep {
    bytes: Vec<u8>,
}

impl Sweep {
    pub fn new() -> Sweep {
        Sweep {
            bytes: vec![1; SWEPT_BYTES],
        }
    }

    pub fn run(&self) {
        let lines = self.bytes.iter().step_by(LINE);
        black_box(lines.map(|byte| u64::from(*byte)).sum::<u64>());
    }
}

/// Where the bytes of a job are when a batch begins.
#[derive(Clone, Copy, PartialEq)]
pub enum State {
    /// In the caches: the batch before used the same.
    Warm,
    /// In memory: the caches are swept before each batch.
    Cold,
}

impl State {
    pub const BOTH: [State; 2] = [State::Warm, State::Cold];

    pub fn name(self) -> &'static str {
        match self {
            State::Warm => "warm",
            State::Cold => "cold",
        }
    }

    pub fn prepare(self, sweep: &Sweep) {
        if self == State::Cold {
            sweep.run();
        }
    }
}
