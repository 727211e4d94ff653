//! Whether damage stands before a record that an index or a queue names.

use super::{Log, Met, Stretch};
use crate::failure::Failure;
use std::fs::File;
use std::io;
use std::os::unix::fs::FileExt;
use std::path::Path;
use swistopal::LogPosition;

/// So many bytes of the log are read for it at most: a question to an index is not to become a walk through the whole log.
const LOOKED_AT: u64 = 64 << 20;
const PIECE: usize = 1 << 20;

impl Log {
    /// The first damage before a position, if that is not too far from the log's start to be looked at. Bytes that a worn
    /// medium does not give are damage too: they are asked for in a way that says so instead of ending the tool.
    pub fn damage_before(&self, position: LogPosition) -> Result<Option<LogPosition>, Failure> {
        let main = &self.stretches[0];
        let end = position.min(main.end);
        if end.0 - main.first().0.min(end.0) > LOOKED_AT {
            return Ok(None);
        }
        let unreadable = main.first_unreadable(end);
        let to = unreadable.unwrap_or(end);
        let mut damage = None;
        self.walk_on(main.first(), |met| {
            let at = match met {
                Met::Entry { position, .. } => position,
                Met::Skipped(skipped) => {
                    let found = skipped.is_damage() && skipped.from < to;
                    damage = found.then_some(skipped.from);
                    skipped.to
                }
            };
            Ok(at < to && damage.is_none())
        })?;
        Ok(damage.or(unreadable))
    }
}

impl Stretch {
    /// The first byte before a position that the medium does not give, to a page.
    fn first_unreadable(&self, end: LogPosition) -> Option<LogPosition> {
        let size = self.sizes.segment_size;
        let mut first = self.first().0;
        for path in &self.paths {
            let length = size.min(end.0.saturating_sub(first));
            if let Some(at) = unreadable(path, length) {
                return Some(LogPosition(first + at));
            }
            first += size;
        }
        None
    }
}

/// The first piece of a file's bytes that cannot be read.
fn unreadable(path: &Path, length: u64) -> Option<u64> {
    let file = match File::open(path) {
        Ok(file) => file,
        Err(_) => return Some(0),
    };
    let mut buffer = vec![0; PIECE.min(length as usize)];
    let mut at = 0;
    while at < length {
        let wanted = buffer.len().min((length - at) as usize);
        match file.read_at(&mut buffer[..wanted], at) {
            Ok(0) => return None,
            Ok(read) => at += read as u64,
            Err(error) if error.kind() == io::ErrorKind::Interrupted => {}
            Err(_) => return Some(at),
        }
    }
    None
}
