//! Looking ahead on a walk over the log: the next record's place is known only when one has been read, so the processor alone
//! would wait for each.

use crate::log::Log;
use crate::map::bring_near;
use swistopal::LogPosition;

/// Bytes that are brought near before they are read.
const AHEAD: u64 = 4096;

pub struct Near<'a> {
    log: &'a Log,
    /// Up to where bytes were brought near.
    to: u64,
}

impl<'a> Near<'a> {
    pub fn new(log: &'a Log) -> Near<'a> {
        Near {
            log,
            to: log.first().0,
        }
    }

    /// The walk is at a position.
    pub fn look_ahead(&mut self, position: LogPosition) {
        let (first, bytes) = (self.log.first().0, self.log.bytes());
        let from = self.to.max(position.0);
        self.to = position.0 + AHEAD;
        let place = |at: u64| usize::try_from(at - first).ok();
        if let (Some(from), Some(to)) = (place(from), place(self.to)) {
            bring_near(bytes.get(from..to).unwrap_or_default());
        }
    }
}
