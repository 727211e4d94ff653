//! A plot of numbers over time.

use super::scale::{Axis, Unit};
use super::svg::{About, Svg, CHARACTER, WIDTH};
use crate::text::counted;
use crate::time::{self, HOUR};

/// Columns at most; where there are more hours, a column has several.
const MOST: u64 = 200;
const WIDEST: f64 = 64.0;
/// Where the columns stand. Their numbers are left of them; hours, dates and what these are stand below.
const LEFT: f64 = 66.0;
const RIGHT: f64 = WIDTH - 8.0;
const TOP: f64 = 26.0;
const BOTTOM: f64 = TOP + 164.0;
const HEIGHT: f64 = BOTTOM + 48.0;
/// From one hour that is named to the next, and from one date to the next.
const HOUR_ROOM: f64 = 46.0;
const DATE_ROOM: f64 = 76.0;

pub struct Columns {
    /// How many hours a column has: a part of a day, or days.
    step: u64,
    /// The first hour of the first column.
    first: u64,
    values: Vec<u64>,
}

impl Columns {
    /// Of hours with their numbers, in order. An hour between them has 0.
    pub fn of(hours: &[(u64, u64)]) -> Option<Columns> {
        let (first, last) = (hours.first()?.0, hours.last()?.0);
        let step = step(last - first + 1);
        let first = first / step;
        let mut values = vec![0; (last / step - first + 1) as usize];
        for (hour, value) in hours {
            values[(hour / step - first) as usize] += value;
        }
        let first = first * step;
        Some(Columns {
            step,
            first,
            values,
        })
    }

    /// What a column stands for.
    pub fn span(&self) -> String {
        match self.step {
            1 => String::from("hour"),
            step if step < 24 => format!("{step} hours"),
            step => counted(step / 24, "day", "days"),
        }
    }

    /// From one column to the next.
    fn pitch(&self) -> f64 {
        (RIGHT - LEFT) / self.values.len() as f64
    }

    fn middle(&self, column: usize) -> f64 {
        LEFT + (column as f64 + 0.5) * self.pitch()
    }

    pub fn svg(&self, about: &About, unit: Unit) -> String {
        let most = self.values.iter().max().copied().unwrap_or_default();
        let axis = Axis::up_to(most, unit);
        let mut svg = Svg::start(about, HEIGHT);
        svg.text("soft", (0.0, 11.0), &axis.name());
        for value in axis.ticks() {
            let y = height_of(&axis, value);
            svg.line("grid", (LEFT, y), (RIGHT, y));
            svg.text("soft end", (LEFT - 8.0, y + 4.0), &axis.label(value));
        }
        self.draw_columns(&mut svg, &axis, unit);
        svg.line("axis", (LEFT, BOTTOM), (RIGHT, BOTTOM));
        self.draw_hours(&mut svg);
        svg.end()
    }

    fn draw_columns(&self, svg: &mut Svg, axis: &Axis, unit: Unit) {
        let width = (self.pitch() * 0.8).min(WIDEST);
        let labels: Vec<String> = self.values.iter().map(|value| unit.short(*value)).collect();
        let longest = labels.iter().map(String::len).max().unwrap_or_default();
        let room = longest as f64 * CHARACTER + 4.0 <= self.pitch();
        for (column, value) in self.values.iter().enumerate() {
            if *value == 0 {
                continue;
            }
            let middle = self.middle(column);
            // What is there is to be seen, however little it is.
            let top = height_of(axis, *value).min(BOTTOM - 1.0);
            let hour = time::shown_hour(self.first + column as u64 * self.step);
            let title = format!("{hour}: {}", unit.whole(*value));
            svg.rectangle((middle - width / 2.0, top), (width, BOTTOM - top), &title);
            if room {
                svg.text("middle", (middle, top - 4.0), &labels[column]);
            }
        }
    }

    /// Every how many hours one is named, so far apart that they can be read.
    fn named_every(&self) -> u64 {
        let hour = self.pitch() / self.step as f64;
        let mut parts_of_a_day = [1, 2, 3, 6, 12].into_iter();
        let part = parts_of_a_day.find(|part| *part as f64 * hour >= HOUR_ROOM);
        let day = self.step.max(24);
        part.unwrap_or(day * (DATE_ROOM / hour / day as f64).ceil() as u64)
    }

    fn draw_hours(&self, svg: &mut Svg) {
        let every = self.named_every();
        let end = self.first + self.values.len() as u64 * self.step;
        let mut dates = vec![(self.middle(0), date_and_clock(self.first).0)];
        let mut hour = self.first.next_multiple_of(every);
        while hour < end {
            let x = self.middle(((hour - self.first) / self.step) as usize);
            let (date, clock) = date_and_clock(hour);
            if every < 24 {
                draw_below(svg, x, 16.0, &clock);
            }
            if dates.last().is_some_and(|(_, last)| *last != date) {
                // The start of a day is worth more than a part of the one before.
                dates.pop_if(|(before, _)| x - *before < DATE_ROOM);
                dates.push((x, date));
            }
            hour += every;
        }
        let (below, what) = match every < 24 {
            true => (31.0, "hour (UTC)"),
            false => (18.0, "date (UTC)"),
        };
        for (x, date) in dates {
            draw_below(svg, x, below, &date);
        }
        svg.text("soft end", (RIGHT, HEIGHT - 4.0), what);
    }
}

fn height_of(axis: &Axis, value: u64) -> f64 {
    BOTTOM - (BOTTOM - TOP) * axis.part(value)
}

/// A label below the columns that does not leave the plot.
fn draw_below(svg: &mut Svg, x: f64, below: f64, label: &str) {
    let half = label.len() as f64 * CHARACTER / 2.0;
    let x = x.clamp(half, WIDTH - half);
    svg.text("soft middle", (x, BOTTOM + below), label);
}

/// Hours of one column, for so many in all.
fn step(hours: u64) -> u64 {
    let needed = hours.div_ceil(MOST);
    let mut parts_of_a_day = [1, 2, 3, 4, 6, 8, 12].into_iter();
    let part = parts_of_a_day.find(|part| *part >= needed);
    part.unwrap_or(needed.next_multiple_of(24))
}

fn date_and_clock(hour: u64) -> (String, String) {
    match time::rfc3339(hour * HOUR) {
        Some(text) => (String::from(&text[..10]), String::from(&text[11..16])),
        None => (String::from("after 9999"), String::new()),
    }
}

#[cfg(test)]
mod tests {
    use super::*;

    #[test]
    fn all_hours_are_in_a_column() {
        let last = time::LAST / HOUR;
        for hours in [
            vec![492_341],
            vec![492_341, 492_342, 492_500],
            vec![0, 492_341, last],
            (492_341..493_000).collect(),
        ] {
            let hours: Vec<(u64, u64)> = hours.into_iter().map(|hour| (hour, 7)).collect();
            let columns = Columns::of(&hours).expect("there are hours");
            assert!(columns.values.len() as u64 <= MOST + 1);
            let sum: u64 = columns.values.iter().sum();
            assert_eq!(sum, 7 * hours.len() as u64);
            let about = About {
                id: "a",
                title: "b",
                description: "c",
            };
            let svg = columns.svg(&about, Unit::Records);
            let drawn = columns.values.iter().filter(|value| **value > 0).count();
            assert_eq!(svg.matches("<rect").count(), drawn);
            assert!(svg.matches("<text").count() < 60, "{svg}");
        }
        assert!(Columns::of(&[]).is_none());
    }
}
