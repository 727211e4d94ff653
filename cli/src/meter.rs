//! How far a long command is: a bar on a terminal, plain lines elsewhere.

use crate::map::columns;
use crate::text::grouped;
use std::io::{self, IsTerminal, Write};
use std::time::{Duration, Instant};

const BAR: usize = 30;
/// Between two looks at the clock, where so much happens that looking would cost more than the work.
const LOOKS: u32 = 4096;

pub struct Meter {
    doing: &'static str,
    terminal: bool,
    from: u64,
    to: u64,
    begun: Instant,
    drawn: Option<Instant>,
    unseen: u32,
}

impl Meter {
    pub fn new(doing: &'static str, from: u64, to: u64) -> Meter {
        Meter {
            doing,
            terminal: io::stderr().is_terminal(),
            from,
            to,
            begun: Instant::now(),
            drawn: None,
            unseen: 0,
        }
    }

    /// Log bytes up to `at` have been read. It may be told of every record.
    pub fn read(&mut self, at: u64) {
        self.unseen += 1;
        if self.unseen == LOOKS {
            self.unseen = 0;
            self.draw(at, |_| String::new());
        }
    }

    /// Log bytes up to `at` are done, in so many steps.
    pub fn show(&mut self, at: u64, steps: u64) {
        self.draw(at, |seconds| {
            format!(", {} steps/s", grouped((steps as f64 / seconds) as u64))
        });
    }

    fn draw(&mut self, at: u64, rate: impl Fn(f64) -> String) {
        let pause = Duration::from_millis(if self.terminal { 100 } else { 2000 });
        if self.drawn.unwrap_or(self.begun).elapsed() < pause {
            return;
        }
        self.drawn = Some(Instant::now());
        let (done, all) = (at - self.from, (self.to - self.from).max(1));
        let seconds = self.begun.elapsed().as_secs_f64();
        let left = (seconds * (all - done) as f64 / done.max(1) as f64).ceil() as u64;
        let said = format!(
            "{}%{}, {}:{:02} left",
            done * 100 / all,
            rate(seconds),
            left / 60,
            left % 60
        );
        if self.terminal {
            let part = done as f64 / all as f64;
            let line = line(self.doing, &said, part, columns().unwrap_or(80));
            let _ = io::stderr().write_all(format!("\r{line}\x1b[K").as_bytes());
        } else {
            crate::note(&format!("{}: {said}", self.doing));
        }
    }
}

/// A line that leaves the last column free, as a terminal may go to the next line there: with less room first the bar gets
/// shorter, then it goes, then what is said is cut.
fn line(doing: &str, said: &str, part: f64, columns: usize) -> String {
    let text = format!("{doing} {said}");
    let room = columns.saturating_sub(text.len() + 4).min(BAR);
    if room < 5 {
        return text.chars().take(columns.saturating_sub(1)).collect();
    }
    let full = (part * room as f64) as usize;
    let bar = format!("{}{}", "#".repeat(full), ".".repeat(room - full));
    format!("[{bar}] {text}")
}

impl Drop for Meter {
    /// Takes the bar away, so that what is said next stands on its own line.
    fn drop(&mut self) {
        if self.terminal && self.drawn.is_some() {
            let _ = io::stderr().write_all(b"\r\x1b[K");
        }
    }
}

#[cfg(test)]
mod tests {
    use super::line;

    #[test]
    fn a_line_fits_into_every_terminal() {
        let said = "100%, 1,234,567 steps/s, 12:34 left";
        for columns in 0..200 {
            for part in [0.0, 0.3, 1.0] {
                let line = line("rebuilding", said, part, columns);
                assert!(line.len() < columns.max(1), "{columns}: {line}");
            }
        }
        assert_eq!(
            line("rebuilding", "50%, 0:01 left", 0.5, 60),
            "[###############...............] rebuilding 50%, 0:01 left"
        );
    }
}
