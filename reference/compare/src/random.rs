//! Random numbers, and the numbers that limits are made of.

use std::cell::Cell;

/// Numbers at which a program may go wrong: ends of types, and document 01's limits with their neighbours.
const ABSURD: [u64; 40] = [
    0,
    1,
    2,
    7,
    8,
    9,
    16,
    17,
    31,
    32,
    33,
    127,
    128,
    255,
    256,
    1_023,
    1_024,
    1_025,
    32_767,
    32_768,
    65_535,
    65_536,
    300_000,
    300_001,
    5_000_000,
    5_000_001,
    20_000_000,
    20_000_001,
    1_073_741_824,
    1_073_741_825,
    (1 << 31) - 1,
    1 << 31,
    (1 << 32) - 1,
    1 << 32,
    1 << 40,
    (1 << 40) + 1,
    (1 << 48) - 1,
    1 << 48,
    1 << 63,
    u64::MAX,
];

/// A generator of its own for each scenario, so that one can be repeated without the others.
pub struct Random {
    state: Cell<u64>,
}

fn mixed(mut z: u64) -> u64 {
    z = (z ^ (z >> 30)).wrapping_mul(0xBF58_476D_1CE4_E5B9);
    z = (z ^ (z >> 27)).wrapping_mul(0x94D0_49BB_1331_11EB);
    z ^ (z >> 31)
}

impl Random {
    pub fn of_scenario(seed: u64, scenario: u64) -> Random {
        Random {
            state: Cell::new(mixed(mixed(seed).wrapping_add(scenario))),
        }
    }

    pub fn next(&self) -> u64 {
        self.state
            .set(self.state.get().wrapping_add(0x9E37_79B9_7F4A_7C15));
        mixed(self.state.get())
    }

    /// 0 to `bound` − 1; 0 where the bound is 0.
    pub fn below(&self, bound: u64) -> u64 {
        if bound == 0 {
            0
        } else {
            self.next() % bound
        }
    }

    pub fn between(&self, least: u64, most: u64) -> u64 {
        least + self.below(most - least + 1)
    }

    pub fn one_in(&self, chances: u64) -> bool {
        self.below(chances) == 0
    }

    pub fn pick<T: Clone>(&self, choices: &[T]) -> T {
        choices[self.below(choices.len() as u64) as usize].clone()
    }

    pub fn bytes(&self, length: u64) -> Vec<u8> {
        let mut bytes = Vec::with_capacity(length as usize + 8);
        while (bytes.len() as u64) < length {
            bytes.extend_from_slice(&self.next().to_le_bytes());
        }
        bytes.truncate(length as usize);
        bytes
    }

    /// A number that hardly any call means.
    pub fn absurd(&self) -> u64 {
        match self.below(8) {
            0 => self.next(),
            1 => self.next() >> self.below(64),
            2 => self.pick(&ABSURD).wrapping_sub(1),
            3 => self.pick(&ABSURD).wrapping_add(1),
            _ => self.pick(&ABSURD),
        }
    }

    /// A number beside a meant one, or an absurd one.
    pub fn beside(&self, meant: u64) -> u64 {
        match self.below(6) {
            0 => meant.wrapping_add(1),
            1 => meant.wrapping_sub(1),
            2 => meant ^ (1 << self.below(64)),
            _ => self.absurd(),
        }
    }
}
