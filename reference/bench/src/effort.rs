//! How much a run does.

/// A short run does everything with tiny counts: it shows that the bench works, its times mean nothing.
#[derive(Clone, Copy)]
pub struct Effort {
    pub short: bool,
}

impl Effort {
    pub fn batches(self, full: usize) -> usize {
        if self.short {
            2
        } else {
            full
        }
    }

    pub fn records(self, full: u64) -> u64 {
        if self.short {
            (full / 100).max(20)
        } else {
            full
        }
    }
}
