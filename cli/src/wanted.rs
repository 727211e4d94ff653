//! Which records are wanted, by topic and store time; and what to say if there are none.

use crate::args::Args;
use crate::failure::{usage, Failure};
use crate::text::{counted, shown};
use crate::time;
use std::collections::BTreeSet;
use swistopal::{Entry, Message};

/// Digits in this range are seconds of the years 1973 to 5138, or milliseconds of 1970 to 1973.
const LIKE_SECONDS: std::ops::Range<u64> = 100_000_000..100_000_000_000;
/// Topics that a hint names at most.
const NAMED: usize = 12;

pub struct Wanted<'a> {
    topic: Option<&'a [u8]>,
    /// First and last, both included.
    pub times: (u64, u64),
    /// Whether anything is left out.
    filters: bool,
    taken: u64,
    seen: Seen,
}

/// What there is, for a hint where nothing was found.
#[derive(Default)]
pub struct Seen {
    pub topics: BTreeSet<Vec<u8>>,
    times: Option<(u64, u64)>,
}

/// First and last time, from two options.
pub fn times(args: &Args, from: &str, to: &str) -> Result<(u64, u64), Failure> {
    let (first, last) = (args.time(from)?, args.time(to)?);
    let times = (first.unwrap_or(0), last.unwrap_or(time::LAST));
    if times.0 > times.1 {
        return usage(format!("{from} is later than {to}"));
    }
    Ok(times)
}

/// What to say where milliseconds look like seconds.
pub fn seconds(args: &Args, options: &[&str]) -> Vec<String> {
    let mut hints = Vec::new();
    for option in options {
        let digits = args.value(option).and_then(|value| value.to_str());
        let given = digits.and_then(crate::args::number);
        if let Some(given) = given.filter(|given| LIKE_SECONDS.contains(given)) {
            hints.push(format!(
                "{option} {given} is {} in milliseconds; if seconds are meant, {}, it is {option} {given}000",
                time::shown(given),
                time::shown(given * 1000)
            ));
        }
    }
    hints
}

impl<'a> Wanted<'a> {
    pub fn of(args: &'a Args, from: &str, to: &str) -> Result<Wanted<'a>, Failure> {
        let topic = args.optional_text("--topic")?.map(str::as_bytes);
        let times = times(args, from, to)?;
        Ok(Wanted {
            topic,
            times,
            filters: topic.is_some() || times != (0, time::LAST),
            taken: 0,
            seen: Seen::default(),
        })
    }

    pub fn takes_all(&self) -> bool {
        !self.filters
    }

    /// Blanks are wanted only where everything is.
    pub fn takes(&mut self, entry: &Entry) -> bool {
        let takes = match entry {
            _ if !self.filters => true,
            Entry::Record { message, .. } => self.takes_record(message),
            Entry::Blank { .. } => false,
        };
        self.taken += u64::from(takes);
        takes
    }

    fn takes_record(&mut self, message: &Message) -> bool {
        self.seen.add(message);
        let (first, last) = self.times;
        self.topic.is_none_or(|topic| topic == message.topic)
            && (first..=last).contains(&message.fields.store_time)
    }

    /// Where nothing was taken: what there is instead.
    pub fn hints(&self, place: &str) -> Vec<String> {
        match self.taken == 0 && self.filters {
            true => self.seen.hints(place, self.topic, self.times),
            false => Vec::new(),
        }
    }
}

impl Seen {
    pub fn add(&mut self, message: &Message) {
        if !self.topics.contains(message.topic) {
            self.topics.insert(message.topic.to_vec());
        }
        let time = message.fields.store_time;
        let (low, high) = self.times.unwrap_or((time, time));
        self.times = Some((low.min(time), high.max(time)));
    }

    /// That the topic or the times are not there.
    pub fn hints(&self, place: &str, topic: Option<&[u8]>, times: (u64, u64)) -> Vec<String> {
        let topic = topic.filter(|topic| !self.topics.contains(*topic));
        let topic = topic.map(|topic| no_topic(place, topic, &self.topics));
        let outside = outside(place, times, self.times);
        topic.into_iter().chain(outside).collect()
    }
}

/// That a topic is not there, and which ones are.
pub fn no_topic(place: &str, topic: &[u8], topics: &BTreeSet<Vec<u8>>) -> String {
    let mut names: Vec<String> = topics
        .iter()
        .take(NAMED)
        .map(|topic| shown(topic))
        .collect();
    if names.is_empty() {
        names.push(String::from("none"));
    }
    let more = match topics.len().saturating_sub(NAMED) {
        0 => String::new(),
        more => format!(" and {}", counted(more as u64, "other", "others")),
    };
    format!(
        "{place} has no topic {}; its topics are: {}{more}",
        shown(topic),
        names.join(", ")
    )
}

/// That a range of times has nothing in common with those that are there.
pub fn outside(place: &str, wanted: (u64, u64), seen: Option<(u64, u64)>) -> Option<String> {
    let (low, high) = seen?;
    let apart = wanted.1 < low || wanted.0 > high;
    apart.then(|| {
        format!(
            "the range is outside the times of {place}, which are from {} ({low}) to {} ({high})",
            time::shown(low),
            time::shown(high)
        )
    })
}
