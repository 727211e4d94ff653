//! What the tests share: a record written out by hand, a small store, a seeded generator.
#![allow(dead_code)]

pub mod random;

use model::commit_log;
use model::consume_queue::{self, QueueRequest};
use model::dispatch::{self, Call, State};
use model::index_file::{self, Question};
use model::interface::{self, Progress, Record, Sizes};
use model::record::Message;
use model::sizes::{IndexShape, LogShape};
use model::{LogPosition, QueuePlace};

pub const MAX: u64 = u64::MAX;

/// 2^40, 2^48 and 2^56.
pub const TWO_40: u64 = 1_099_511_627_776;
pub const TWO_48: u64 = 281_474_976_710_656;
pub const TWO_56: u64 = 72_057_594_037_927_936;

/// The largest number of 4 bytes.
pub const MAX_4: u64 = 4_294_967_295;

pub const NONE: u64 = 0;
pub const PREPARED: u64 = 4;
pub const COMMIT: u64 = 8;
pub const ROLLBACK: u64 = 12;

/// The readings' rec: topic `T`, no body, no properties, queue id 0, queue offset 0, system flag 0, store time 10,000.
pub fn rec() -> Message<'static> {
    Message {
        body_crc: 0,
        queue_id: 0,
        flag: 0,
        queue_offset: 0,
        system_flag: NONE,
        born_time: 0,
        born_host: &[0; 8],
        store_time: 10_000,
        store_host: &[0; 8],
        reconsume_times: 0,
        prepared_offset: 0,
        body: b"",
        topic: b"T",
        properties: b"",
    }
}

/// rec with these properties.
pub fn rec_with(properties: &[u8]) -> Message<'_> {
    Message {
        properties,
        ..rec()
    }
}

/// `KEYS` 01 value.
pub fn keys(value: &str) -> Vec<u8> {
    [b"KEYS\x01", value.as_bytes()].concat()
}

/// A record's bytes at `p`, field after field, nothing judged but that what it keeps in 4 bytes has no more.
pub fn raw(message: &Message, p: u64) -> Vec<u8> {
    let total = 91 + message.body.len() + message.topic.len() + message.properties.len();
    let four = |number: u64| u32::try_from(number).unwrap().to_be_bytes();
    let mut bytes = Vec::new();
    bytes.extend((total as u32).to_be_bytes());
    bytes.extend([0xDA, 0xA3, 0x20, 0xA7]);
    bytes.extend(four(message.body_crc));
    bytes.extend(four(message.queue_id));
    bytes.extend(four(message.flag));
    bytes.extend(message.queue_offset.to_be_bytes());
    bytes.extend(p.to_be_bytes());
    bytes.extend(four(message.system_flag));
    bytes.extend(message.born_time.to_be_bytes());
    bytes.extend(message.born_host);
    bytes.extend(message.store_time.to_be_bytes());
    bytes.extend(message.store_host);
    bytes.extend(four(message.reconsume_times));
    bytes.extend(message.prepared_offset.to_be_bytes());
    bytes.extend((message.body.len() as u32).to_be_bytes());
    bytes.extend(message.body);
    bytes.push(message.topic.len() as u8);
    bytes.extend(message.topic);
    bytes.extend((message.properties.len() as u16).to_be_bytes());
    bytes.extend(message.properties);
    bytes
}

/// A blank's 8 bytes.
pub fn blank(total: u32) -> Vec<u8> {
    [&total.to_be_bytes()[..], &[0xCB, 0xD4, 0x31, 0x94]].concat()
}

/// Overwrites bytes at `place`.
pub fn patch(bytes: &mut [u8], place: usize, new: &[u8]) {
    bytes[place..place + new.len()].copy_from_slice(new);
}

/// A log of `length` zero bytes with rec at its start.
pub fn log_with_rec(length: usize) -> Vec<u8> {
    let mut log = vec![0; length];
    patch(&mut log, 0, &raw(&rec(), 0));
    log
}

/// One directory row.
pub fn row(topic: &[u8], queue_id: u32) -> Vec<u8> {
    let mut bytes = Vec::new();
    bytes.extend((8 + topic.len() as u16).to_le_bytes());
    bytes.extend(1u16.to_le_bytes());
    bytes.extend(queue_id.to_le_bytes());
    bytes.extend(topic);
    bytes
}

/// D1: one row (T, 0).
pub fn d1() -> Vec<u8> {
    row(b"T", 0)
}

/// Append at `w`: the answer and the new W.
pub fn append(log: &mut [u8], s: u64, b: u64, message: &Message, w: u64) -> (u32, u64) {
    let shape = LogShape {
        segment_size: s,
        first_position: b,
    };
    let appended = commit_log::append(log, shape, message, LogPosition(w));
    (appended.answer.number(), appended.write_position.0)
}

/// S and B, for a call that looks at no other size: those are out of their limits.
pub fn log_sizes(s: u64, b: u64) -> Sizes {
    Sizes {
        segment_size: s,
        first_position: b,
        queue_entries: MAX,
        slot_count: MAX,
        item_count: MAX,
    }
}

/// K and N, for a call that looks at no other size: those are out of their limits.
pub fn index_sizes(shape: IndexShape) -> Sizes {
    Sizes {
        slot_count: shape.slot_count,
        item_count: shape.item_count,
        ..log_sizes(MAX, MAX)
    }
}

/// Record reading: the answer and what the interface says of the record.
pub fn read(log: &[u8], s: u64, b: u64, p: u64, e: u64) -> (u32, Record) {
    let mut record = Record {
        kind: 7,
        total: 7,
        ..Record::default()
    };
    let answer = interface::read_record(log, &log_sizes(s, b), p, e, &mut record);
    if answer != 0 {
        assert_eq!(record, Record::default(), "0 for all else");
    }
    (answer, record)
}

/// Record reading's answer.
pub fn answer(log: &[u8], s: u64, b: u64, p: u64, e: u64) -> u32 {
    read(log, s, b, p, e).0
}

/// A log, its directory, and the three that dispatch changes.
#[derive(Clone, Debug)]
pub struct Store {
    pub log: Vec<u8>,
    pub log_shape: LogShape,
    pub readable_end: u64,
    pub directory: Vec<u8>,
    pub queue_entries: u64,
    pub index_shape: IndexShape,
    pub state: State,
}

impl Store {
    /// One segment of 1,024 bytes, D1, R = 4, K = 2, N = 4; every byte 0.
    pub fn new() -> Store {
        Store::with(1, d1(), 4, 2, 4)
    }

    /// Segments of 1,024 bytes; every byte 0.
    pub fn with(segments: usize, directory: Vec<u8>, r: u64, k: u64, n: u64) -> Store {
        let rows = model::directory::rows(&directory).map_or(0, |rows| rows.len());
        Store {
            log: vec![0; 1_024 * segments],
            log_shape: LogShape {
                segment_size: 1_024,
                first_position: 0,
            },
            readable_end: 0,
            directory,
            queue_entries: r,
            index_shape: IndexShape {
                slot_count: k,
                item_count: n,
            },
            state: State {
                progress: Progress::default().into(),
                queues: vec![0; rows * r as usize * 20],
                index: vec![0; (40 + 4 * k + 20 * n) as usize],
            },
        }
    }

    /// Appends at the readable end, which moves behind the record; returns the record's position.
    pub fn add(&mut self, message: &Message) -> u64 {
        let mut w = LogPosition(self.readable_end);
        loop {
            let appended = commit_log::append(&mut self.log, self.log_shape, message, w);
            match appended.answer.number() {
                0 => {
                    self.readable_end = appended.write_position.0;
                    return w.0;
                }
                7 => w = appended.write_position,
                other => panic!("append answers {other}"),
            }
        }
    }

    pub fn sizes(&self) -> Sizes {
        Sizes {
            segment_size: self.log_shape.segment_size,
            first_position: self.log_shape.first_position,
            queue_entries: self.queue_entries,
            slot_count: self.index_shape.slot_count,
            item_count: self.index_shape.item_count,
        }
    }

    pub fn call(&self, budget: u64) -> Call<'_> {
        Call {
            log: &self.log,
            log_shape: self.log_shape,
            readable_end: LogPosition(self.readable_end),
            directory: &self.directory,
            queue_entries: self.queue_entries,
            index_shape: self.index_shape,
            budget,
        }
    }

    /// Dispatch: the answer and the steps. A refused call is seen to change nothing.
    pub fn run(&mut self, budget: u64) -> (u32, u64) {
        let mut state = self.state.clone();
        let dispatched = dispatch::dispatch(&self.call(budget), &mut state);
        if (1..=4).contains(&dispatched.answer.number()) {
            assert_eq!(state, self.state);
            assert_eq!(dispatched.steps, 0);
        }
        self.state = state;
        (dispatched.answer.number(), dispatched.steps)
    }

    /// Dispatch that is seen to change nothing and to report no step: its answer.
    pub fn stuck(&mut self, budget: u64) -> u32 {
        let before = self.state.clone();
        let (answer, steps) = self.run(budget);
        assert_eq!(self.state, before);
        assert_eq!(steps, 0);
        answer
    }

    /// A query with topic T.
    pub fn query(&self, key: &str, first: u64, last: u64, wanted: u64) -> (u32, Vec<u64>, u64) {
        let places = if wanted == 0 { 32 } else { wanted as usize };
        query(
            &self.state.index,
            self.index_shape,
            &Question {
                topic: b"T",
                key: key.as_bytes(),
                first_time: first,
                last_time: last,
                wanted,
            },
            places,
        )
    }

    /// Queue reading with the progress's counts: the answer and the positions.
    pub fn read_queue(
        &self,
        row: u64,
        start: u64,
        wanted: u64,
        tag_code: Option<u64>,
        places: usize,
    ) -> (u32, Vec<u64>) {
        read_queue(
            &self.state.queues,
            self.queue_entries,
            &self.directory,
            &QueueRequest {
                counts: self.state.progress.counts,
                row,
                start: QueuePlace(start),
                wanted,
                tag_code,
            },
            places,
        )
    }

    pub fn position(&self) -> u64 {
        self.state.progress.position.0
    }

    pub fn count(&self, row: usize) -> u64 {
        self.state.progress.counts[row].0
    }

    pub fn set_position(&mut self, position: u64) {
        self.state.progress.position = LogPosition(position);
    }

    pub fn set_count(&mut self, row: usize, count: u64) {
        self.state.progress.counts[row] = QueuePlace(count);
    }

    pub fn set_header(&mut self, header: Header) {
        patch(&mut self.state.index, 0, &header.bytes());
    }

    pub fn set_slot(&mut self, slot: usize, value: i32) {
        patch(&mut self.state.index, 40 + 4 * slot, &value.to_be_bytes());
    }

    pub fn slot(&self, slot: usize) -> i32 {
        self.int(40 + 4 * slot)
    }

    pub fn set_item(&mut self, number: usize, hash: i32, position: i64, seconds: i32, link: i32) {
        let place = self.item_place(number);
        let bytes = [
            &hash.to_be_bytes()[..],
            &position.to_be_bytes(),
            &seconds.to_be_bytes(),
            &link.to_be_bytes(),
        ]
        .concat();
        patch(&mut self.state.index, place, &bytes);
    }

    /// Hash, position, seconds and link of an item.
    pub fn item(&self, number: usize) -> (i32, i64, i32, i32) {
        let place = self.item_place(number);
        let position = self.state.index[place + 4..place + 12].try_into().unwrap();
        (
            self.int(place),
            i64::from_be_bytes(position),
            self.int(place + 12),
            self.int(place + 16),
        )
    }

    pub fn filled_slots(&self) -> i32 {
        self.int(32)
    }

    pub fn used_count(&self) -> i32 {
        self.int(36)
    }

    pub fn item_place(&self, number: usize) -> usize {
        40 + 4 * self.index_shape.slot_count as usize + 20 * number
    }

    fn int(&self, place: usize) -> i32 {
        i32::from_be_bytes(self.state.index[place..place + 4].try_into().unwrap())
    }
}

/// An index header to write.
#[derive(Clone, Copy, Default)]
pub struct Header {
    pub first_time: i64,
    pub last_time: i64,
    pub first_position: i64,
    pub last_position: i64,
    pub filled: i32,
    pub used: i32,
}

impl Header {
    pub fn bytes(self) -> Vec<u8> {
        [
            &self.first_time.to_be_bytes()[..],
            &self.last_time.to_be_bytes(),
            &self.first_position.to_be_bytes(),
            &self.last_position.to_be_bytes(),
            &self.filled.to_be_bytes(),
            &self.used.to_be_bytes(),
        ]
        .concat()
    }
}

/// Marks an output place that nothing wrote.
pub const UNWRITTEN: u64 = 0xEEEE_EEEE_EEEE_EEEE;

/// A query: the answer, the positions and the items read. Output past the matches is seen to be unchanged.
pub fn query(
    index: &[u8],
    shape: IndexShape,
    question: &Question,
    places: usize,
) -> (u32, Vec<u64>, u64) {
    let mut out = vec![UNWRITTEN; places];
    let queried = index_file::query(index, shape, question, &mut out);
    let found = queried.found as usize;
    assert!(out[found..].iter().all(|place| *place == UNWRITTEN));
    if matches!(queried.answer.number(), 1 | 4 | 17) {
        assert_eq!((queried.found, queried.read), (0, 0));
    }
    out.truncate(found);
    (queried.answer.number(), out, queried.read)
}

/// Queue reading: the answer and the positions. Output past them is seen to be unchanged.
pub fn read_queue(
    queues: &[u8],
    queue_entries: u64,
    directory: &[u8],
    request: &QueueRequest,
    places: usize,
) -> (u32, Vec<u64>) {
    let mut out = vec![UNWRITTEN; places];
    let read = consume_queue::read_queue(queues, queue_entries, directory, request, &mut out);
    let found = read.found as usize;
    assert!(out[found..].iter().all(|place| *place == UNWRITTEN));
    if read.answer.number() != 0 {
        assert_eq!(found, 0);
    }
    out.truncate(found);
    (read.answer.number(), out)
}

/// A small seeded generator (splitmix64).
pub struct Rng(u64);

impl Rng {
    pub fn new(seed: u64) -> Rng {
        Rng(seed)
    }

    pub fn next(&mut self) -> u64 {
        self.0 = self.0.wrapping_add(0x9E37_79B9_7F4A_7C15);
        let mut z = self.0;
        z = (z ^ (z >> 30)).wrapping_mul(0xBF58_476D_1CE4_E5B9);
        z = (z ^ (z >> 27)).wrapping_mul(0x94D0_49BB_1331_11EB);
        z ^ (z >> 31)
    }

    /// 0 to n − 1.
    pub fn below(&mut self, n: u64) -> u64 {
        self.next() % n
    }

    /// From `low` to `high`, both included.
    pub fn between(&mut self, low: u64, high: u64) -> u64 {
        low + self.below(high - low + 1)
    }

    pub fn one_in(&mut self, n: u64) -> bool {
        self.below(n) == 0
    }

    pub fn pick<T: Clone>(&mut self, choices: &[T]) -> T {
        choices[self.below(choices.len() as u64) as usize].clone()
    }

    pub fn bytes(&mut self, count: u64) -> Vec<u8> {
        (0..count).map(|_| self.next() as u8).collect()
    }
}

/// Runs a trial for each of `count` seeds; a failing trial prints its seed.
pub fn for_seeds(count: u64, mut trial: impl FnMut(u64, &mut Rng)) {
    struct Seed(u64);
    impl Drop for Seed {
        fn drop(&mut self) {
            if std::thread::panicking() {
                eprintln!("failing seed: {}", self.0);
            }
        }
    }
    for seed in 1..=count {
        let _printed_on_failure = Seed(seed);
        trial(seed, &mut Rng::new(seed));
    }
}
