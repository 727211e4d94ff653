//! A plot of numbers with names.

use super::svg::{About, Svg, WIDTH};

/// The height of a line, and room for names and for numbers.
const LINE: f64 = 20.0;
const NAMES: f64 = 250.0;
const NUMBERS: f64 = 120.0;
/// The longest name, in columns of a terminal.
const LONGEST: usize = 38;

pub struct Bar {
    pub name: String,
    pub value: u64,
    /// What stands at its end.
    pub label: String,
}

pub fn svg(about: &About, bars: &[Bar]) -> String {
    let most = bars.iter().map(|bar| bar.value).max().unwrap_or_default();
    let room = WIDTH - NAMES - NUMBERS;
    let bottom = bars.len() as f64 * LINE + 2.0;
    let mut svg = Svg::start(about, bottom + 2.0);
    for (number, bar) in bars.iter().enumerate() {
        let y = number as f64 * LINE + 3.0;
        let width = room * bar.value as f64 / most.max(1) as f64;
        svg.text("end", (NAMES - 10.0, y + 12.0), &shortened(&bar.name));
        let title = format!("{}: {}", bar.name, bar.label);
        svg.rectangle((NAMES, y), (width, 16.0), &title);
        svg.text("value", (NAMES + width + 6.0, y + 12.0), &bar.label);
    }
    svg.line("axis", (NAMES, 0.0), (NAMES, bottom));
    svg.end()
}

/// A name that fits beside its bar: its start, and its end, where a queue's number stands.
fn shortened(name: &str) -> String {
    let characters: Vec<char> = name.chars().collect();
    if width(&characters) <= LONGEST {
        return String::from(name);
    }
    let (mut start, mut end) = (characters.len() / 2, characters.len() / 2);
    while width(&characters[..start]) + width(&characters[end..]) >= LONGEST {
        start -= 1;
        end += 1;
    }
    let parts = [&characters[..start], &characters[end..]];
    parts.map(String::from_iter).join("…")
}

fn width(characters: &[char]) -> usize {
    crate::text::width(&String::from_iter(characters))
}

#[cfg(test)]
mod tests {
    use super::*;

    #[test]
    fn long_names_keep_their_end() {
        let long = format!("{}/17", "X".repeat(127));
        assert_eq!(shortened("SORTER_DIVERT/3"), "SORTER_DIVERT/3");
        assert_eq!(shortened(&long).chars().count(), LONGEST - 1);
        assert!(shortened(&long).ends_with("X/17"));
        let wide = "東".repeat(42);
        let found: Vec<char> = shortened(&wide).chars().collect();
        assert!(width(&found) <= LONGEST + 1);
        let accented = "Förderstraße_Überläufe_Süd_ÄÖÜ/3";
        assert_eq!(shortened(accented), accented);
    }
}
