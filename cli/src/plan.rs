//! The plan of a rebuild: everything that must stay the same until it is done, as a small text file.

use crate::args::{number, Args};
use crate::failure::{fault, usage, Failure};
use crate::index::{MOST_ITEMS, MOST_SLOTS};
use crate::log::{End, Log};
use crate::queues::{self, Queue, MOST_ENTRIES, MOST_QUEUES};
use crate::text::{grouped, of_shown, shown, shown_path};
use crate::time;
use std::fmt::Write;
use std::path::Path;
use swistopal::{makes_entry, Answer, Entry, LogPosition, Message, Progress, QueueOffset, Sizes};

const TITLE: &str = "swistopal rebuild";
/// It changes with what a rebuild makes of a log: 1 had hashes of bytes, which do not go together with those of text.
const VERSION: &str = "2";

#[derive(Clone, PartialEq, Eq)]
pub struct Plan {
    pub sizes: Sizes,
    pub index_name: String,
    pub rows: Vec<Row>,
}

#[derive(Clone, PartialEq, Eq)]
pub struct Row {
    pub queue: Queue,
    /// The number of its first entry: above 0 where older segments of the log were removed.
    pub start: QueueOffset,
}

/// The sizes that were asked for.
pub struct AskedSizes {
    queue_entries: Option<u64>,
    slot_count: Option<u64>,
    item_count: Option<u64>,
}

impl AskedSizes {
    pub fn of(args: &Args) -> Result<AskedSizes, Failure> {
        Ok(AskedSizes {
            queue_entries: args.number_within("--entries", 1, MOST_ENTRIES)?,
            slot_count: args.number_within("--slots", 1, MOST_SLOTS)?,
            item_count: args.number_within("--items", 2, MOST_ITEMS)?,
        })
    }
}

/// Why nothing can be planned.
pub struct Refusal {
    pub why: Failure,
    /// The record that cannot be taken, if one before it can.
    pub before: Option<LogPosition>,
}

impl From<Refusal> for Failure {
    fn from(refusal: Refusal) -> Failure {
        let next = refusal.before.map_or(String::new(), |before| {
            format!("; --end {} rebuilds what is before it", before.0)
        });
        match refusal.why {
            Failure::Usage(why) => Failure::Usage(why + &next),
            Failure::Fault(why) => Failure::Fault(why + &next),
            Failure::Unread => Failure::Unread,
        }
    }
}

/// The queues of `--queues FILE`.
pub fn listed(args: &Args) -> Result<Option<Vec<Queue>>, Failure> {
    let Some(path) = args.value("--queues").map(Path::new) else {
        return Ok(None);
    };
    let queues = queues::read_list(path)?;
    for queue in &queues {
        if let Err(Failure::Fault(why)) = queue.folder(Path::new("")) {
            return usage(format!("{}: {why}", shown_path(path)));
        }
    }
    Ok(Some(queues))
}

/// Finds the rows of a plan while the log is read.
pub struct Search {
    /// Whether the log's queues are taken, as none were listed.
    derive: bool,
    /// Whether older segments of the log were removed: a queue's count starts at its first record then.
    cut: bool,
}

impl Search {
    /// A record that makes an entry, and how many its queue has by now if it has a row. Answers whether a row has come or now
    /// starts elsewhere.
    pub fn meet(
        &self,
        plan: &mut Plan,
        position: LogPosition,
        message: &Message,
        counts: &[QueueOffset],
    ) -> Result<bool, Failure> {
        let found = plan.row_of(message);
        let number = match found {
            Some(number) => number,
            None if self.derive => plan.add(position, message)?,
            None => return Ok(false),
        };
        let row = &mut plan.rows[number];
        let first = message.fields.queue_offset;
        let starts = self.cut && counts[number] == row.start && row.start.0 == 0 && first.0 > 0;
        if starts {
            row.start = first;
            if first > QueueOffset(plan.sizes.queue_entries) {
                return fault(format!(
                    "queue {} starts with entry {}, past the {} entries of its one file",
                    row.queue.shown(),
                    first.0,
                    plan.sizes.queue_entries
                ));
            }
        }
        Ok(starts || found.is_none())
    }

    /// Reads the log from a position on for the rows that are still to come, and to its end. `shown` is told how far.
    pub fn rest(
        &self,
        plan: &mut Plan,
        log: &Log,
        from: LogPosition,
        counts: &[QueueOffset],
        mut shown: impl FnMut(LogPosition),
    ) -> Result<End, Refusal> {
        // Of a queue that has a row and no entry yet, the first record is met once.
        let mut counts = counts.to_vec();
        let mut reached = from;
        let walked = log.walk(from, |position, entry| {
            reached = position;
            shown(position);
            match entry {
                Entry::Record { message, .. } if makes_entry(message) => {
                    self.meet(plan, position, message, &counts)?;
                    if let Some(number) = plan.row_of(message) {
                        counts[number].0 += 1;
                    }
                }
                _ => {}
            }
            Ok(true)
        });
        walked.map_err(|why| Refusal {
            why,
            before: Some(reached),
        })
    }
}

impl Plan {
    /// For a new rebuild, as far as the log's first records tell. Without sizes RocketMQ's own are taken, so that a broker can
    /// read the files; they are sparse.
    pub fn first(
        log: &Log,
        asked: &AskedSizes,
        listed: Option<Vec<Queue>>,
    ) -> Result<(Plan, Search), Refusal> {
        let search = Search {
            derive: listed.is_none(),
            cut: log.first() > LogPosition(0),
        };
        let start = QueueOffset(0);
        let rows = listed.unwrap_or_default().into_iter();
        let mut plan = Plan {
            sizes: Sizes {
                queue_entries: asked.queue_entries.unwrap_or(MOST_ENTRIES),
                slot_count: asked.slot_count.unwrap_or(MOST_SLOTS),
                item_count: asked.item_count.unwrap_or(MOST_ITEMS),
                ..log.sizes
            },
            index_name: String::new(),
            rows: rows.map(|queue| Row { queue, start }).collect(),
        };
        let mut first_time = None;
        let walked = log.walk(log.first(), |position, entry| {
            if let Entry::Record { message, .. } = entry {
                first_time.get_or_insert(message.fields.store_time);
                if search.derive && makes_entry(message) {
                    search.meet(&mut plan, position, message, &[start; MOST_QUEUES])?;
                }
            }
            Ok(first_time.is_none() || plan.rows.is_empty())
        });
        let nothing = "no record of the log belongs to a queue: there is nothing to rebuild";
        let why = match walked {
            Ok(_) if plan.rows.is_empty() => Failure::Fault(String::from(nothing)),
            Ok(_) => {
                plan.index_name = time::file_name(first_time.unwrap_or(0));
                return Ok((plan, search));
            }
            Err(why) => why,
        };
        Err(Refusal { why, before: None })
    }

    fn row_of(&self, message: &Message) -> Option<usize> {
        let mut rows = self.rows.iter();
        rows.position(|row| row.queue.is_of(message))
    }

    fn add(&mut self, position: LogPosition, message: &Message) -> Result<usize, Failure> {
        let queue = Queue::of(message);
        if self.rows.len() == MOST_QUEUES {
            return usage(format!(
                "the record at {} belongs to a 17th queue, {}; at most {MOST_QUEUES} are rebuilt at once, \
                 the first ones or those of --queues FILE",
                position.0,
                queue.shown()
            ));
        }
        // Only a name that is a folder's may be planned for.
        queue.folder(Path::new(""))?;
        let start = QueueOffset(0);
        self.rows.push(Row { queue, start });
        Ok(self.rows.len() - 1)
    }

    /// Whether the log has the start and the segment size that were planned for.
    pub fn is_for(&self, log: &Log) -> bool {
        let of_log = |sizes: &Sizes| (sizes.segment_size, sizes.first_position);
        of_log(&self.sizes) == of_log(&log.sizes)
    }

    /// Whether a rebuild under way is the one that is asked for now.
    pub fn agrees(
        &self,
        log: &Log,
        asked: &AskedSizes,
        listed: Option<&[Queue]>,
    ) -> Result<(), Failure> {
        let differ = |asked: Option<u64>, planned: u64| asked.is_some_and(|asked| asked != planned);
        let what = if !self.is_for(log) {
            "a log of another start or segment size"
        } else if differ(asked.queue_entries, self.sizes.queue_entries) {
            "another number of --entries"
        } else if differ(asked.slot_count, self.sizes.slot_count) {
            "another number of --slots"
        } else if differ(asked.item_count, self.sizes.item_count) {
            "another number of --items"
        } else if listed.is_some_and(|listed| listed != self.queues()) {
            "other --queues"
        } else {
            return Ok(());
        };
        usage(format!(
            "a rebuild with {what} is under way; without that option it goes on, with --restart a new one begins"
        ))
    }

    /// What helps against a stop; `anew` are the options that begin a rebuild anew.
    pub fn remedy(&self, stop: Answer, anew: &str) -> String {
        match stop {
            Answer::QueueNotListed if self.rows.len() < MOST_QUEUES => {
                format!("list its queue in --queues FILE and begin anew with {anew}")
            }
            Answer::QueueNotListed => {
                format!("no more than the {MOST_QUEUES} queues of --queues FILE are rebuilt at once")
            }
            Answer::OutOfStep => String::from(
                "get another copy of the log, as records before it are missing or were written twice",
            ),
            Answer::QueueFull if self.sizes.queue_entries < MOST_ENTRIES => format!(
                "begin anew with {anew} and more --entries, at most {}",
                grouped(MOST_ENTRIES)
            ),
            Answer::QueueFull => format!(
                "no more than {} entries of a queue are rebuilt",
                grouped(MOST_ENTRIES)
            ),
            Answer::IndexFull if self.sizes.item_count < MOST_ITEMS => format!(
                "begin anew with {anew} and more --items, at most {}",
                grouped(MOST_ITEMS)
            ),
            Answer::IndexFull => format!(
                "no more than {} items of an index are rebuilt",
                grouped(MOST_ITEMS - 1)
            ),
            _ => format!("the work files are damaged: begin anew with {anew}"),
        }
    }

    /// Whether `--end` at a stop puts something in place: entries were made before it, and the work files are sound.
    pub fn may_end(&self, stop: Answer, progress: &Progress) -> bool {
        let sound = matches!(
            stop,
            Answer::QueueNotListed | Answer::OutOfStep | Answer::QueueFull | Answer::IndexFull
        );
        sound && self.has_entries(progress)
    }

    pub fn has_entries(&self, progress: &Progress) -> bool {
        let mut counts = self.rows.iter().zip(&progress.counts);
        counts.any(|(row, count)| *count > row.start)
    }

    pub fn queues(&self) -> Vec<Queue> {
        self.rows.iter().map(|row| row.queue.clone()).collect()
    }

    pub fn to_text(&self) -> String {
        let mut text = format!(
            "{TITLE} {VERSION}\nsegment {}\nfirst {}\nentries {}\nslots {}\nitems {}\nname {}\n",
            self.sizes.segment_size,
            self.sizes.first_position.0,
            self.sizes.queue_entries,
            self.sizes.slot_count,
            self.sizes.item_count,
            self.index_name
        );
        for row in &self.rows {
            let topic = shown(&row.queue.topic);
            writeln!(text, "queue {} {} {topic}", row.queue.id, row.start.0)
                .expect("a string takes all");
        }
        text
    }

    /// Whether another version of this tool has written it.
    pub fn is_of_another_version(text: &str) -> bool {
        let title = text.lines().next().unwrap_or_default();
        let version = title
            .strip_prefix(TITLE)
            .and_then(|rest| rest.strip_prefix(' '));
        version.is_some_and(|version| version != VERSION && number(version).is_some())
    }

    pub fn of_text(text: &str) -> Option<Plan> {
        let mut lines = text.lines();
        let mut field = |name: &str| lines.next()?.strip_prefix(name)?.strip_prefix(' ');
        field(TITLE).filter(|version| *version == VERSION)?;
        let mut size = |name: &str| number(field(name)?);
        let sizes = Sizes {
            segment_size: size("segment")?,
            first_position: LogPosition(size("first")?),
            queue_entries: size("entries")?,
            slot_count: size("slots")?,
            item_count: size("items")?,
        };
        let index_name = field("name")?.to_string();
        let mut rows = Vec::new();
        for line in lines {
            let mut words = line.strip_prefix("queue ")?.splitn(3, ' ');
            let id = u32::try_from(number(words.next()?)?).ok()?;
            let start = QueueOffset(number(words.next()?)?);
            let topic = of_shown(words.next()?)?;
            let queue = Queue { topic, id };
            rows.push(Row { queue, start });
        }
        Some(Plan {
            sizes,
            index_name,
            rows,
        })
    }
}
