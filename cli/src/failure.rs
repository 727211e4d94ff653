//! How a command ends.

use crate::text::shown_path;
use std::fmt::Display;
use std::io;
use std::path::Path;

/// What a command that ran to its end found.
#[derive(Clone, Copy, PartialEq, Eq)]
pub enum Outcome {
    Sound,
    /// It has been told on standard error.
    Fault,
}

/// Why a command did not run to its end.
#[derive(Debug)]
pub enum Failure {
    /// The call cannot be done as it was asked: exit status 2.
    Usage(String),
    /// A fault of the store or of its medium: exit status 1.
    Fault(String),
    /// Nobody reads the results any more.
    Unread,
}

pub fn usage<T>(sentence: impl Into<String>) -> Result<T, Failure> {
    Err(Failure::Usage(sentence.into()))
}

pub fn fault<T>(sentence: impl Into<String>) -> Result<T, Failure> {
    Err(Failure::Fault(sentence.into()))
}

/// Only writing to standard output is passed on without a place.
impl From<io::Error> for Failure {
    fn from(error: io::Error) -> Failure {
        match error.kind() {
            io::ErrorKind::BrokenPipe => Failure::Unread,
            _ => Failure::Fault(format!("cannot write the results: {error}")),
        }
    }
}

/// Says what was done, and where, when it failed.
pub trait At<T> {
    fn at(self, doing: &str, path: &Path) -> Result<T, Failure>;
}

impl<T, E: Display> At<T> for Result<T, E> {
    fn at(self, doing: &str, path: &Path) -> Result<T, Failure> {
        self.map_err(|error| {
            Failure::Fault(format!("cannot {doing} {}: {error}", shown_path(path)))
        })
    }
}
