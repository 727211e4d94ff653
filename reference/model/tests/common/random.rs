//! Random small stores, with a list of what was put into their logs.

use super::*;

/// A message, and what its properties were made of.
#[derive(Clone, Debug)]
pub struct Sent {
    pub position: u64,
    pub topic: Vec<u8>,
    pub queue_id: u64,
    pub queue_offset: u64,
    pub system_flag: u64,
    pub store_time: u64,
    pub other: Other,
    pub body: Vec<u8>,
    pub properties: Vec<u8>,
    /// The keys its items are made of, in order.
    pub keys: Vec<Vec<u8>>,
    pub tags: Option<Vec<u8>>,
}

/// What no rule names.
#[derive(Clone, Debug)]
pub struct Other {
    pub body_crc: u64,
    pub flag: u64,
    pub born_time: u64,
    pub born_host: Vec<u8>,
    pub store_host: Vec<u8>,
    pub reconsume_times: u64,
    pub prepared_offset: u64,
}

impl Other {
    fn random(rng: &mut Rng) -> Other {
        Other {
            body_crc: rng.next() & MAX_4,
            flag: rng.next() & MAX_4,
            born_time: rng.next(),
            born_host: rng.bytes(8),
            store_host: rng.bytes(8),
            reconsume_times: rng.next() & MAX_4,
            prepared_offset: rng.next(),
        }
    }
}

impl Sent {
    pub fn message(&self) -> Message<'_> {
        Message {
            body_crc: self.other.body_crc,
            queue_id: self.queue_id,
            flag: self.other.flag,
            queue_offset: self.queue_offset,
            system_flag: self.system_flag,
            born_time: self.other.born_time,
            born_host: &self.other.born_host,
            store_time: self.store_time,
            store_host: &self.other.store_host,
            reconsume_times: self.other.reconsume_times,
            prepared_offset: self.other.prepared_offset,
            body: &self.body,
            topic: &self.topic,
            properties: &self.properties,
        }
    }

    pub fn total(&self) -> u64 {
        (91 + self.body.len() + self.topic.len() + self.properties.len()) as u64
    }

    pub fn makes_entry(&self) -> bool {
        self.system_flag & 12 == NONE || self.system_flag & 12 == COMMIT
    }

    pub fn makes_items(&self) -> bool {
        self.system_flag & 12 != ROLLBACK
    }
}

/// What a random store is made of.
#[derive(Clone, Copy)]
pub struct Plan {
    /// Records out of step or unlisted, slots and headers damaged, small queues and indexes, odd starts.
    pub troubled: bool,
    /// Store times never fall.
    pub rising: bool,
}

/// Few keys, so that they repeat and share slots.
pub const KEYS: [&str; 9] = [
    "a",
    "b",
    "c",
    "k",
    "cdkiej",
    "cdkhll",
    "\u{e9}",
    "\u{20ac}",
    "\u{1f600}",
];

/// Properties of random pieces; the keys and tags they name.
pub fn random_properties(rng: &mut Rng) -> (Vec<u8>, Vec<Vec<u8>>, Option<Vec<u8>>) {
    let mut pieces: Vec<Vec<u8>> = Vec::new();
    let mut unique = None;
    let mut list: Vec<Vec<u8>> = Vec::new();
    let mut tags = None;
    for _ in 0..rng.below(5) {
        match rng.below(6) {
            0 => {
                let key = rng.pick(&KEYS);
                pieces.push(format!("UNIQ_KEY\x01{key}").into_bytes());
                unique = Some(key.as_bytes().to_vec());
            }
            1 | 2 => {
                let count = rng.below(4);
                list = (0..count)
                    .map(|_| rng.pick(&KEYS).as_bytes().to_vec())
                    .collect();
                let spaces = b" ".repeat(rng.between(1, 2) as usize);
                let mut value = list.join(&spaces[..]);
                if value.is_empty() || rng.one_in(3) {
                    value.push(b' ');
                }
                pieces.push([b"KEYS\x01", &value[..]].concat());
            }
            3 => {
                let tag = rng.pick(&["Aa", "BB", "polygenelubricants", "\u{e9}", "\u{10ffff}"]);
                pieces.push(format!("TAGS\x01{tag}").into_bytes());
                tags = Some(tag.as_bytes().to_vec());
            }
            4 => pieces.push(rng.pick(&[
                b"KEYS\x01".to_vec(),
                b"KEYS\x01a\x01b".to_vec(),
                b"\x01a".to_vec(),
                b"TAGS".to_vec(),
            ])),
            _ => pieces.push(b"WAIT\x01true".to_vec()),
        }
    }
    let mut properties = pieces.join(&2);
    if rng.one_in(2) {
        properties.push(2);
    }
    let keys = unique.into_iter().chain(list).collect();
    (properties, keys, tags)
}

/// A random store and what its log holds, in order.
pub fn random_store(rng: &mut Rng, plan: Plan) -> (Store, Vec<Sent>) {
    let s = rng.pick(&[1_024, 1_025, 1_100, 1_531]);
    let b = s * rng.pick(&[0, 0, 1, 7]);
    let segments = rng.between(1, 3);
    let row_count = rng.between(1, 4);
    let listed: Vec<(&[u8], u32)> = vec![
        (b"T", 0),
        (b"T", 1),
        (b"TT", 0),
        ("\u{ff}U".as_bytes(), 0x0102_0304),
    ];
    let listed = &listed[..row_count as usize];
    let directory = listed
        .iter()
        .flat_map(|(topic, queue_id)| row(topic, *queue_id))
        .collect();
    let (r, n) = if plan.troubled {
        (
            rng.pick(&[1, 4, 40, 40, 40, 40]),
            rng.pick(&[2, 9, 30, 200, 200, 200]),
        )
    } else {
        (40, 200)
    };
    let k = rng.pick(&[1, 2, 3, 7]);
    let mut store = Store::with(1, directory, r, k, n);
    store.log = rng.bytes(s * segments);
    store.log_shape = LogShape {
        segment_size: s,
        first_position: b,
    };
    store.state.queues = rng.bytes(20 * r * row_count);
    if rng.one_in(2) {
        store.state.index[39] = 1;
    }
    store.set_position(b);

    let mut sent = Vec::new();
    let mut counts = [0; 16];
    if plan.troubled && rng.one_in(4) {
        counts = [(); 16].map(|_| rng.below(r + 1));
        for (row, count) in counts.iter().enumerate() {
            store.set_count(row, *count);
        }
    }
    let mut time = rng.pick(&[0, 1, 10_000, TWO_48 - 100_000_000]);
    let mut w = b;
    while !rng.one_in(50) {
        let (topic, queue_id) = rng.pick(listed);
        let row = listed
            .iter()
            .position(|row| *row == (topic, queue_id))
            .unwrap();
        let step = rng.pick(&[0, 1, 400, 999, 1_000, 30_000]);
        time = if plan.rising || rng.one_in(2) {
            time + step
        } else {
            time.saturating_sub(step)
        };
        let (properties, keys, tags) = random_properties(rng);
        let body_length = rng.pick(&[0, 0, 1, 20, 300]);
        let mut message = Sent {
            position: w,
            topic: topic.to_vec(),
            queue_id: u64::from(queue_id),
            queue_offset: counts[row],
            system_flag: rng.pick(&[NONE, NONE, PREPARED, COMMIT, ROLLBACK])
                + rng.pick(&[0, 1, 64, 0x8000_0000]),
            store_time: time,
            other: Other::random(rng),
            body: rng.bytes(body_length),
            properties,
            keys,
            tags,
        };
        if plan.troubled && rng.one_in(60) {
            message.queue_id += 9;
        }
        if plan.troubled && rng.one_in(60) {
            message.queue_offset = rng.pick(&[0, counts[row] + 1, MAX]);
        }
        let mut answer = append(&mut store.log, s, b, &message.message(), w);
        if answer.0 == 7 {
            w = answer.1;
            message.position = w;
            answer = append(&mut store.log, s, b, &message.message(), w);
        }
        match answer {
            (0, next) => w = next,
            (6, _) => break,
            (other, _) => panic!("append answers {other}"),
        }
        if message.makes_entry() {
            counts[row] += 1;
        }
        sent.push(message);
    }
    store.readable_end = w;
    (store, sent)
}

/// Damages some of the log, the slots and the header, or moves the start.
pub fn trouble(store: &mut Store, rng: &mut Rng) {
    if rng.one_in(5) {
        let place = rng.below(store.log.len() as u64) as usize;
        store.log[place] = rng.next() as u8;
    }
    if rng.one_in(8) {
        let slot = rng.below(store.index_shape.slot_count) as usize;
        let value = rng.pick(&[-1, 1, 2, i32::MAX, i32::MIN]);
        store.set_slot(slot, value);
    }
    if rng.one_in(8) {
        let b = store.log_shape.first_position;
        let last_position = b + rng.below(store.log.len() as u64);
        store.set_header(Header {
            first_time: 10_000,
            last_time: 20_000,
            first_position: b as i64,
            last_position: last_position as i64,
            filled: rng.below(2) as i32,
            used: 2,
        });
    }
    if rng.one_in(8) {
        let b = store.log_shape.first_position;
        let length = store.readable_end - b;
        store.set_position(b + rng.below(length + 1));
    }
    if rng.one_in(12) {
        // Refused at every door: a count above R, or a bad header.
        if rng.one_in(2) {
            store.set_count(11, store.queue_entries + 1);
        } else {
            store.set_header(Header {
                used: -1,
                ..Header::default()
            });
        }
    }
}
