//! The command line: `--name value`, `--name=value`, flags, and one place, which a second word may follow. Topics, keys and tags
//! are text; places are any bytes, as names of files are.

use crate::failure::{usage, Failure};
use crate::text::{shown, NoText};
use crate::time;
use std::ffi::{OsStr, OsString};
use std::os::unix::ffi::{OsStrExt, OsStringExt};
use std::path::{Path, PathBuf};

pub struct Args {
    place: PathBuf,
    second: Option<OsString>,
    flags: Vec<&'static str>,
    values: Vec<(&'static str, OsString)>,
}

impl Args {
    /// `second` is what the word behind the place is, for a command that takes one.
    pub fn parse(
        mut words: impl Iterator<Item = OsString>,
        flags: &[&'static str],
        values: &[&'static str],
        second: Option<&str>,
    ) -> Result<Args, Failure> {
        let mut plain: Vec<OsString> = Vec::new();
        let mut given = Args {
            place: PathBuf::new(),
            second: None,
            flags: Vec::new(),
            values: Vec::new(),
        };
        let mut only_plain = false;
        while let Some(word) = words.next() {
            let bytes = word.as_bytes();
            if !only_plain && bytes == b"--" {
                only_plain = true;
            } else if only_plain || !bytes.starts_with(b"-") || bytes == b"-" {
                plain.push(word);
            } else {
                given.take(bytes, &mut words, flags, values)?;
            }
        }
        let mut plain = plain.into_iter();
        given.place = match plain.next() {
            Some(place) => PathBuf::from(place),
            None => return usage("which folder?"),
        };
        if let Some(second) = second {
            given.second = plain.next();
            if given.second.is_none() {
                return usage(format!("which {second}?"));
            }
        }
        match plain.next() {
            Some(more) => usage(format!(
                "{}: one {} is enough",
                shown(more.as_bytes()),
                second.unwrap_or("place")
            )),
            None => Ok(given),
        }
    }

    /// Takes a flag, or an option with its value.
    fn take(
        &mut self,
        word: &[u8],
        words: &mut impl Iterator<Item = OsString>,
        flags: &[&'static str],
        values: &[&'static str],
    ) -> Result<(), Failure> {
        let (name, value) = match word.iter().position(|byte| *byte == b'=') {
            Some(at) => (&word[..at], Some(&word[at + 1..])),
            None => (word, None),
        };
        let known = |names: &[&'static str]| {
            let found = names.iter().find(|known| known.as_bytes() == name);
            found.copied()
        };
        if let Some(flag) = known(flags) {
            if value.is_some() {
                return usage(format!("{flag} takes no value"));
            }
            self.flags.push(flag);
            return Ok(());
        }
        let Some(option) = known(values) else {
            return usage(format!("no such option: {}", shown(name)));
        };
        let value = value.map(|value| OsString::from_vec(value.to_vec()));
        let Some(value) = value.or_else(|| words.next()) else {
            return usage(format!("{option} needs a value"));
        };
        if self.values.iter().any(|(name, _)| *name == option) {
            return usage(format!("{option} is given twice"));
        }
        self.values.push((option, value));
        Ok(())
    }

    /// The word behind the place, as a number.
    pub fn second_number(&self) -> Result<u64, Failure> {
        let word = self.second.as_deref().unwrap_or_default();
        match word.to_str().and_then(number) {
            Some(number) => Ok(number),
            None => usage(format!("{}: a number is needed", shown(word.as_bytes()))),
        }
    }

    pub fn place(&self) -> &Path {
        &self.place
    }

    pub fn flag(&self, name: &str) -> bool {
        self.flags.contains(&name)
    }

    pub fn value(&self, name: &str) -> Option<&OsStr> {
        let found = self.values.iter().find(|(given, _)| *given == name);
        found.map(|(_, value)| value.as_os_str())
    }

    /// A topic, a key or a tag.
    pub fn text(&self, name: &str) -> Result<&str, Failure> {
        match self.optional_text(name)? {
            Some(text) => Ok(text),
            None => usage(format!("{name} is needed")),
        }
    }

    /// The same, if it is given. What is no UTF-8 no record has: a terminal with another encoding has sent it.
    pub fn optional_text(&self, name: &str) -> Result<Option<&str>, Failure> {
        let Some(value) = self.value(name) else {
            return Ok(None);
        };
        match (value.to_str(), NoText::of(value.as_bytes())) {
            (None, Some(flaw)) => usage(format!(
                "{name} {}: it is no UTF-8, which topics, keys and tags are: at byte {}, the first one being 0, stands {}",
                shown(value.as_bytes()),
                flaw.at,
                flaw.what()
            )),
            (text, _) => Ok(text),
        }
    }

    pub fn number(&self, name: &str) -> Result<Option<u64>, Failure> {
        self.number_within(name, 0, u64::MAX)
    }

    pub fn number_within(&self, name: &str, low: u64, high: u64) -> Result<Option<u64>, Failure> {
        let Some(value) = self.value(name) else {
            return Ok(None);
        };
        match value.to_str().and_then(number) {
            Some(number) if (low..=high).contains(&number) => Ok(Some(number)),
            _ => usage(format!(
                "{name} {}: a number from {low} to {high} is needed",
                shown(value.as_bytes())
            )),
        }
    }

    /// Milliseconds, given as such or as RFC 3339.
    pub fn time(&self, name: &str) -> Result<Option<u64>, Failure> {
        let Some(value) = self.value(name) else {
            return Ok(None);
        };
        let text = value.to_str().unwrap_or("");
        let time = number(text).or_else(|| time::parse(text));
        match time.filter(|time| *time <= time::LAST) {
            Some(time) => Ok(Some(time)),
            None => usage(format!(
                "{name} {}: a time is milliseconds from 0 to {}, or RFC 3339 from 1970 on, as 2026-03-02T06:00:00Z",
                shown(value.as_bytes()),
                time::LAST
            )),
        }
    }
}

/// Digits alone: no sign, no spaces.
pub fn number(text: &str) -> Option<u64> {
    if text.is_empty() || !text.bytes().all(|byte| byte.is_ascii_digit()) {
        return None;
    }
    text.parse().ok()
}
