//! A dispatch call of its own, to be spoiled: every fault here is one that the door refuses.

use model::interface::Sizes;

use crate::lent::Twin;
use crate::operations::DispatchCall;
use crate::random::Random;
use crate::store::{row, Store, LARGEST_POSITION};

pub struct Variation {
    pub log: Twin<u8>,
    pub sizes: Sizes,
    pub readable_end: u64,
    pub directory: Twin<u8>,
    pub budget: u64,
}

impl Variation {
    pub fn of(store: &Store, budget: u64) -> Variation {
        Variation {
            log: store.log.clone(),
            sizes: store.sizes,
            readable_end: store.written_end,
            directory: store.directory.clone(),
            budget,
        }
    }

    pub fn call(&self) -> DispatchCall<'_> {
        DispatchCall {
            log: &self.log,
            sizes: self.sizes,
            readable_end: self.readable_end,
            directory: &self.directory,
            budget: self.budget,
        }
    }

    /// S, B or the log's length.
    pub fn spoil_log(&mut self, random: &Random) {
        let s = self.sizes.segment_size;
        let b = self.sizes.first_position;
        let length = self.log.len();
        match random.below(4) {
            0 => {
                self.sizes.segment_size = random.pick(&[
                    0,
                    1,
                    2,
                    s - 1,
                    s + 1,
                    s + (1 << 32),
                    (1 << 30) + 1,
                    1 << 31,
                    1 << 32,
                    1 << 63,
                    u64::MAX,
                ]);
            }
            1 => {
                self.sizes.first_position = random.pick(&[
                    b + 1,
                    b.wrapping_sub(1),
                    b + s / 2,
                    LARGEST_POSITION,
                    LARGEST_POSITION / s * s,
                    (LARGEST_POSITION / s + 1) * s - self.log.len() as u64,
                    u64::MAX / s * s,
                    u64::MAX,
                    1 << 63,
                ]);
                // The last segment that still fits is no fault.
                if self.sizes.first_position.is_multiple_of(s)
                    && self.sizes.first_position <= LARGEST_POSITION
                    && self.sizes.first_position + length as u64 <= LARGEST_POSITION
                {
                    self.sizes.first_position += 1;
                }
            }
            2 => {
                let length = random.pick(&[0, 1, length - 1, length + 1, s as usize / 2]);
                let mut bytes = self.log.get().to_vec();
                bytes.resize(length, 0xDA);
                self.log = Twin::new(&bytes);
            }
            // A segment below the least one, that all else fits.
            _ => {
                let s = random.pick(&[1_023, 512, 92]);
                self.sizes.segment_size = s;
                self.sizes.first_position = 0;
                self.log = Twin::new(&self.log.get()[..s as usize]);
                self.readable_end = s;
            }
        }
    }

    /// R, or another R than the queue buffer has.
    pub fn spoil_queue_entries(&mut self, random: &Random) {
        let r = self.sizes.queue_entries;
        self.sizes.queue_entries = random.pick(&[
            0,
            r - 1,
            r + 1,
            300_000,
            300_001,
            r + (1 << 32),
            1 << 62,
            1 << 63,
            u64::MAX,
        ]);
    }

    /// K, N, or others than the index has.
    pub fn spoil_index_shape(&mut self, random: &Random) {
        let (k, n) = (self.sizes.slot_count, self.sizes.item_count);
        if random.one_in(2) {
            self.sizes.slot_count = random.pick(&[
                0,
                k - 1,
                k + 1,
                5_000_000,
                5_000_001,
                k + (1 << 32),
                k + (1 << 62),
                u64::MAX,
            ]);
        } else {
            self.sizes.item_count = random.pick(&[
                0,
                1,
                n - 1,
                n + 1,
                20_000_000,
                20_000_001,
                n + (1 << 32),
                n + (1 << 62),
                u64::MAX,
            ]);
        }
    }

    pub fn spoil_directory(&mut self, random: &Random) {
        let mut bytes = self.directory.get().to_vec();
        match random.below(12) {
            0 => bytes.clear(),
            1 => bytes.extend({
                let length = random.between(1, 8);
                random.bytes(length)
            }),
            2 => {
                bytes.pop();
            }
            3 => bytes[2] = random.pick(&[0, 2, 3, 0x81, 0xFF]),
            4 => bytes[2..4].copy_from_slice(&random.pick(&[[0, 1], [1, 1], [0, 0], [1, 0x80]])),
            5 => bytes[7] |= 0x80,
            6 => bytes[..2].copy_from_slice(&random.pick(&[
                [0, 0],
                [8, 0],
                [136, 0],
                [7, 0],
                [9, 1],
                [0, 9],
                [0xFF, 0xFF],
            ])),
            7 => {
                // The first row once more.
                let length = usize::from(bytes[0]);
                bytes.extend_from_within(..length);
            }
            8 => {
                // A row without a topic, all else in order.
                bytes.extend(row(b"", 77));
            }
            9 => bytes.extend(row(&[b't'; 128], 77)),
            10 => bytes.extend(row(b"T", 0x8000_0000)),
            _ => {
                // Seventeen rows and more, all different.
                for queue_id in 0..17 {
                    bytes.extend(row(b"seventeen", queue_id));
                }
            }
        }
        self.directory = Twin::new(&bytes);
    }

    /// The readable end, where the progress is at `position`.
    pub fn spoil_end(&mut self, random: &Random, position: u64) {
        let end = self
            .sizes
            .first_position
            .wrapping_add(self.log.len() as u64);
        self.readable_end = match random.below(4) {
            0 if position > 0 => position - 1,
            1 if position > 0 => random.below(position),
            2 => end.wrapping_add(random.pick(&[1, 2, 1_024, 1 << 40])),
            _ => random.pick(&[u64::MAX, 1 << 63, LARGEST_POSITION + 1]),
        };
    }

    /// One fault or more that no state of the store makes good.
    pub fn spoil(&mut self, random: &Random, position: u64) {
        loop {
            let faults = random.below(32);
            if faults & 1 != 0 {
                self.spoil_end(random, position);
            }
            if faults & 2 != 0 {
                self.spoil_directory(random);
            }
            if faults & 4 != 0 {
                self.spoil_queue_entries(random);
            }
            if faults & 8 != 0 {
                self.spoil_index_shape(random);
            }
            if faults & 16 != 0 {
                self.spoil_log(random);
            }
            if faults != 0 {
                return;
            }
        }
    }
}
