//! Numbers of a plot: what stands at its axis, and what is short enough to stand at a column.

use crate::text::{counted, grouped};

/// Ticks above 0 at most.
const MOST_TICKS: u64 = 5;
const THOUSANDS: [&str; 5] = ["", "k", "M", "G", "T"];

#[derive(Clone, Copy, PartialEq, Eq)]
pub enum Unit {
    Records,
    Bytes,
}

impl Unit {
    fn name(self, thousands: usize) -> String {
        match (self, thousands) {
            (Unit::Records, 0) => String::from("records"),
            (Unit::Records, _) => format!("records / {}", grouped(1000u64.pow(thousands as u32))),
            (Unit::Bytes, 0) => String::from("bytes"),
            (Unit::Bytes, _) => format!("{}B", THOUSANDS[thousands]),
        }
    }

    /// All digits.
    pub fn whole(self, value: u64) -> String {
        match self {
            Unit::Records => counted(value, "record", "records"),
            Unit::Bytes => counted(value, "byte", "bytes"),
        }
    }

    /// All digits of records; of bytes one behind the point.
    pub fn short(self, value: u64) -> String {
        let thousands = match self {
            Unit::Records => 0,
            Unit::Bytes => thousands(value),
        };
        if thousands == 0 {
            return grouped(value);
        }
        let unit = 1000u64.pow(thousands as u32);
        let tenths = (value * 10 + unit / 2) / unit;
        let prefix = THOUSANDS[thousands];
        format!("{}.{} {prefix}B", tenths / 10, tenths % 10)
    }
}

/// How often a number can be divided by 1,000.
fn thousands(value: u64) -> usize {
    let mut thousands = 0;
    while thousands + 1 < THOUSANDS.len() && value >= 1000u64.pow(thousands as u32 + 1) {
        thousands += 1;
    }
    thousands
}

/// From 0 up, in steps of 1, 2 or 5 with zeros behind.
pub struct Axis {
    step: u64,
    ticks: u64,
    thousands: usize,
    unit: Unit,
}

impl Axis {
    pub fn up_to(most: u64, unit: Unit) -> Axis {
        let mut step = 1;
        let mut factors = [2, 5, 10].into_iter().cycle();
        let mut power = 1;
        while step * MOST_TICKS < most {
            let factor = factors.next().unwrap_or(10);
            step = power * factor;
            if factor == 10 {
                power = step;
            }
        }
        Axis {
            step,
            ticks: most.div_ceil(step).max(1),
            thousands: thousands(step),
            unit,
        }
    }

    pub fn ticks(&self) -> impl Iterator<Item = u64> + '_ {
        (0..=self.ticks).map(|tick| tick * self.step)
    }

    /// How far up a value is, from 0 to 1.
    pub fn part(&self, value: u64) -> f64 {
        value as f64 / (self.ticks * self.step) as f64
    }

    pub fn label(&self, value: u64) -> String {
        grouped(value / 1000u64.pow(self.thousands as u32))
    }

    pub fn name(&self) -> String {
        self.unit.name(self.thousands)
    }
}

#[cfg(test)]
mod tests {
    use super::*;

    #[test]
    fn an_axis_has_round_numbers_and_room_for_the_highest() {
        for (most, labels, name) in [
            (1, "0 1", "records"),
            (4, "0 1 2 3 4", "records"),
            (6, "0 2 4 6", "records"),
            (319, "0 100 200 300 400", "records"),
            (1001, "0 500 1,000 1,500", "records"),
            (5_000_001, "0 2 4 6", "records / 1,000,000"),
        ] {
            let axis = Axis::up_to(most, Unit::Records);
            let found: Vec<String> = axis.ticks().map(|tick| axis.label(tick)).collect();
            assert_eq!(
                (found.join(" ").as_str(), axis.name().as_str()),
                (labels, name)
            );
            assert!(axis.part(most) <= 1.0);
        }
        let axis = Axis::up_to(1 << 40, Unit::Bytes);
        assert_eq!(axis.name(), "GB");
    }

    #[test]
    fn short_numbers() {
        for (value, bytes) in [
            (0, "0"),
            (999, "999"),
            (1000, "1.0 kB"),
            (7579, "7.6 kB"),
            (2_000_000, "2.0 MB"),
        ] {
            assert_eq!(Unit::Bytes.short(value), bytes);
        }
        assert_eq!(Unit::Records.short(7579), "7,579");
    }
}
