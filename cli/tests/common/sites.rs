//! Healthy stores of brokers: beyond a limit of the tool, or as a broker's disk normally is.

use super::broker::*;
use super::{tool, Json, Run};
use std::collections::BTreeSet;
use std::fs;
use std::path::{Path, PathBuf};

/// Above it the archive reads no position.
pub const LAST_END: u64 = 1 << 40;
pub const SEGMENT: u64 = 8192;

/// A message with keys, by which it is found.
#[derive(Clone)]
pub struct Parcel {
    pub topic: String,
    pub queue_id: u32,
    pub key: String,
    pub put: Put,
}

/// A store and what stands in it.
pub struct Site {
    pub store: PathBuf,
    pub parcels: Vec<Parcel>,
}

/// A broker at work.
struct Shift {
    broker: Broker,
    parcels: Vec<Parcel>,
}

impl Shift {
    fn new(broker: Broker) -> Shift {
        let parcels = Vec::new();
        Shift { broker, parcels }
    }

    /// Each parcel has a key, a unique key and a second of its own.
    fn parcel(&mut self, message: Message) {
        let number = self.parcels.len();
        let key = format!("P{number:06}");
        let put = self.broker.put(Message {
            keys: &key,
            uniq_key: &format!("0A000007{number:08X}"),
            store_time: MORNING + 1000 * number as u64,
            ..message
        });
        let (topic, queue_id) = match message.delay_level {
            0 => (message.topic, message.queue_id),
            level => (DELAYED, level as u32 - 1),
        };
        self.parcels.push(Parcel {
            topic: String::from(topic),
            queue_id,
            key,
            put,
        });
    }

    fn end(self) -> Site {
        Site {
            store: self.broker.finish(),
            parcels: self.parcels,
        }
    }
}

/// A broker whose files are small, so that copies are quick.
pub fn small(store: &Path) -> Broker {
    let broker = Broker::new(store).segment_size(SEGMENT as usize);
    broker.queue_entries(1000)
}

/// So many parcels of queue T/0.
fn parcels(broker: Broker, count: usize) -> Site {
    let mut shift = Shift::new(broker);
    for _ in 0..count {
        shift.parcel(Message {
            tags: "left",
            body: b"parcel",
            ..Message::default()
        });
    }
    shift.end()
}

/// So many parcels, by turns in T/0 and T/1.
pub fn two_queues(broker: Broker, count: usize) -> Site {
    let mut shift = Shift::new(broker);
    for number in 0..count {
        shift.parcel(Message {
            queue_id: number as u32 % 2,
            tags: "left",
            body: b"parcel",
            ..Message::default()
        });
    }
    shift.end()
}

pub fn forty_queues(store: &Path) -> Site {
    let mut shift = Shift::new(small(store));
    for number in 0..200u32 {
        shift.parcel(Message {
            topic: &format!("LINE_{}", number % 8),
            queue_id: number / 8 % 5,
            tags: "left",
            ..Message::default()
        });
    }
    shift.end()
}

/// 400,000 entries in two files; each 40,000th one has keys.
pub fn long_queue(store: &Path) -> Site {
    let mut shift = Shift::new(Broker::new(store).segment_size(1 << 26));
    for number in 0..400_000 {
        match number % 40_000 {
            39_999 => shift.parcel(Message::default()),
            _ => drop(shift.broker.put(Message::default())),
        }
    }
    shift.end()
}

/// 180 items in index files of 39, so that items of one record stand in two files.
pub fn rolled_index(store: &Path) -> Site {
    parcels(small(store).slots(10).items(40), 90)
}

/// Two delayed queues beside an ordinary one.
pub fn delayed(store: &Path) -> Site {
    let mut shift = Shift::new(small(store));
    for number in 0..50 {
        shift.parcel(Message {
            tags: "left",
            delay_level: [0, 0, 0, 1, 4][number % 5],
            ..Message::default()
        });
    }
    shift.end()
}

/// Born host, store host or both are IPv6 in three of thirty records.
pub fn long_hosts(store: &Path) -> Site {
    let mut shift = Shift::new(small(store));
    for number in 0..30 {
        shift.parcel(Message {
            system_flag: match number {
                10 => 16,
                15 => 32,
                20 => 48,
                _ => 0,
            },
            ..Message::default()
        });
    }
    shift.end()
}

/// A log that goes on above 2^40.
pub fn across_the_last_end(store: &Path) -> Site {
    parcels(small(store).first_position(LAST_END - SEGMENT), 100)
}

pub fn above_the_last_end(store: &Path) -> Site {
    parcels(small(store).first_position(LAST_END), 20)
}

/// A log whose last segment ends with the last position that the archive reads.
pub fn up_to_the_last_end(store: &Path) -> Site {
    parcels(small(store).first_position(LAST_END - SEGMENT), 20)
}

/// Old segments were removed: a topic that is wholly older than the log, and one that goes on.
pub fn removed_segments(store: &Path, broker: Broker) -> Site {
    let mut shift = Shift::new(broker);
    for number in 0..200 {
        shift.parcel(Message {
            topic: if number < 10 { "OLD" } else { "T" },
            queue_id: number % 2,
            tags: "left",
            body: b"parcel",
            ..Message::default()
        });
    }
    let site = shift.end();
    remove_segments(store, 2);
    site
}

/// The newest index file has no item yet, as the message after the full one had no key.
pub fn just_rolled_index(store: &Path, abort: bool) -> Site {
    let broker = small(store).slots(10).items(40);
    let broker = if abort { broker.abort() } else { broker };
    let mut shift = Shift::new(broker);
    for _ in 0..19 {
        shift.parcel(Message::default());
    }
    for uniq_key in ["last", ""] {
        shift.broker.put(Message {
            queue_id: 1,
            uniq_key,
            ..Message::default()
        });
    }
    shift.end()
}

/// A queue whose first entry has a number above 0.
pub fn later_queue(store: &Path, first_entry: u64) -> Site {
    let broker = small(store).queue_entries(300_000);
    let broker = broker.first_position(4 * SEGMENT);
    parcels(broker.first_entry("T", 0, first_entry), 50)
}

/// The oldest segments and the queue's files that named nothing else were removed.
pub fn removed_queue_files(store: &Path) -> Site {
    let site = parcels(small(store).queue_entries(20), 200);
    remove_segments(store, 2);
    let folder = store.join("consumequeue/T/0");
    for file in 0..(site.parcels_before(2 * SEGMENT) / 20) as u64 {
        fs::remove_file(folder.join(format!("{:020}", file * 400))).unwrap();
    }
    site
}

/// Segment and queue file that were made ahead of their use.
pub fn preallocated(store: &Path) -> Site {
    let site = parcels(small(store).queue_entries(25).next_segment(), 50);
    let next = store.join("consumequeue/T/0/00000000000000001000");
    fs::write(next, [0; 500]).unwrap();
    site
}

pub fn foreign_files(store: &Path) -> Site {
    let site = parcels(small(store).checkpoint().lock(), 50);
    add_foreign_files(store);
    site
}

/// Keys and tags with accents and other signs, hashed as Java does.
pub fn accents(store: &Path) -> Site {
    let mut shift = Shift::new(small(store));
    for _ in 0..10 {
        shift.parcel(Message {
            tags: "été",
            ..Message::default()
        });
        shift.broker.put(Message {
            queue_id: 1,
            keys: "clé €",
            ..Message::default()
        });
    }
    shift.end()
}

/// All at once, as on the disk of a broker that has run for months: many queues, delayed ones among them, rolled index files,
/// old segments removed, files made ahead of their use, foreign ones.
pub fn busy(store: &Path) -> Site {
    let broker = small(store).slots(15).items(60).queue_entries(20);
    let broker = broker.checkpoint().lock().next_segment();
    let mut shift = Shift::new(broker.first_entry("LINE_0", 0, 7));
    for number in 0..400u32 {
        shift.parcel(Message {
            topic: &format!("LINE_{}", number % 8),
            queue_id: number / 8 % 5,
            tags: ["left", "été"][number as usize % 2],
            delay_level: if number % 9 == 0 { 3 } else { 0 },
            ..Message::default()
        });
    }
    let site = shift.end();
    remove_segments(store, 2);
    add_foreign_files(store);
    site
}

impl Site {
    /// How many parcels stand before a position.
    pub fn parcels_before(&self, position: u64) -> usize {
        let before = |parcel: &&Parcel| parcel.put.position < position;
        self.parcels.iter().filter(before).count()
    }

    pub fn queues(&self) -> BTreeSet<(&str, u32)> {
        let parcels = self.parcels.iter();
        parcels
            .map(|parcel| (parcel.topic.as_str(), parcel.queue_id))
            .collect()
    }

    /// The positions that `query` finds for a parcel's key.
    pub fn query(&self, parcel: &Parcel) -> Found {
        let options = ["--topic", &parcel.topic, "--key", &parcel.key, "--json"];
        found(tool("query", &self.store, &options))
    }

    pub fn queue(&self, topic: &str, id: u32) -> Found {
        let options = ["--topic", topic, "--queue", &id.to_string(), "--json"];
        found(tool("queue", &self.store, &options))
    }
}

/// Positions that a run showed, in order.
pub struct Found {
    pub run: Run,
    pub positions: Vec<u64>,
}

fn found(run: Run) -> Found {
    let positions = match run.out.is_empty() {
        true => Vec::new(),
        false => positions(&run.json()),
    };
    Found { run, positions }
}

fn positions(answer: &Json) -> Vec<u64> {
    let records = answer.get("records").list().iter();
    records
        .map(|record| record.get("position").number())
        .collect()
}
