//! What of the results that are there a rebuild would not have: it asks before it leaves less.

use crate::check::DELAYED;
use crate::failure::{At, Failure};
use crate::index::{self, Bytes};
use crate::journal::State;
use crate::note;
use crate::plan::Plan;
use crate::queues::{self, QueueFile};
use crate::text::{counted, grouped, shown_path};
use std::fs::File;
use std::os::unix::fs::FileExt;
use std::path::Path;

/// As many queues are told by name; the others are counted.
const NAMED: usize = 10;

/// Entries of queues and items of indexes, where the rebuild has fewer than are there or lacks what they carry, as sentences.
pub fn of(store: &Path, plan: &Plan, state: &State, items: u64) -> Result<Vec<String>, Failure> {
    let mut losses = of_queues(store, plan, state)?;
    if losses.len() > NAMED {
        let others = counted((losses.len() - NAMED) as u64, "queue", "queues");
        losses.truncate(NAMED);
        losses.push(format!("{others} more: the same of each"));
    }
    let there = items_there(store)?;
    if there > items {
        losses.push(format!(
            "index: {} instead of {}",
            counted(items, "item", "items"),
            grouped(there)
        ));
    }
    Ok(losses)
}

fn of_queues(store: &Path, plan: &Plan, state: &State) -> Result<Vec<String>, Failure> {
    let mut losses = Vec::new();
    for queue in queues::on_disk(store)? {
        let there = match queues::open(store, &queue) {
            Ok(files) => Extent::of(&files),
            Err(Failure::Fault(why)) => {
                note(&format!("{why}; its entries are not counted"));
                continue;
            }
            Err(other) => return Err(other),
        };
        let mut rows = plan.rows.iter().zip(&state.progress.counts);
        let made = rows.find(|(row, _)| row.queue == queue);
        let made = made.map_or(Extent::default(), |(row, count)| Extent {
            entries: count.0 - row.start.0,
            end: count.0,
        });
        if there.entries > made.entries || there.end > made.end {
            losses.push(format!(
                "queue {}: {}{} instead of {}{}",
                queue.shown(),
                counted(made.entries, "entry", "entries"),
                made.up_to(),
                grouped(there.entries),
                there.up_to()
            ));
        } else if queue.topic == DELAYED && there.entries > 0 {
            losses.push(format!(
                "queue {}: the code of the tags instead of the time of delivery in each entry",
                queue.shown()
            ));
        }
    }
    Ok(losses)
}

/// How many entries of a queue name a record, and the number behind the last one.
#[derive(Default)]
struct Extent {
    entries: u64,
    end: u64,
}

impl Extent {
    fn of(files: &[QueueFile]) -> Extent {
        let in_use = files.iter().map(|file| file.count - file.without_record());
        let entries = in_use.sum();
        let end = match entries {
            0 => 0,
            _ => queues::count(files).unwrap_or(0),
        };
        Extent { entries, end }
    }

    fn up_to(&self) -> String {
        match self.end {
            0 => String::new(),
            end => format!(" up to number {}", end - 1),
        }
    }
}

fn items_there(store: &Path) -> Result<u64, Failure> {
    let mut items = 0;
    for path in index::paths(store)? {
        let mut header = [0; 40];
        let file = File::open(&path).at("open", &path)?;
        let length = file.metadata().at("read", &path)?.len();
        let used = match file.read_exact_at(&mut header, 0) {
            Ok(()) => Bytes(&header).used(),
            Err(_) => 0,
        };
        // Each item takes 20 bytes: a count that the file has no room for counts nothing.
        match used {
            1.. if used <= length / 20 => items += used - 1,
            _ => note(&format!(
                "{}: it is damaged; its items are not counted",
                shown_path(path)
            )),
        }
    }
    Ok(items)
}
