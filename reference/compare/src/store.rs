//! A store built by appends through the interface, and ways to damage it.

use model::interface::{Progress, Sizes};

use crate::figures::Stretch;
use crate::judge::Check;
use crate::lent::Twin;
use crate::messages::{odd_properties, properties, store_time, Draft, LARGEST_TIME, TOPICS};
use crate::operations::{Bench, DispatchCall, State};
use crate::random::Random;
use crate::requests::Fault;
use crate::texts::{character, faulty_text, text};

pub const MESSAGE_MAGIC: [u8; 4] = [0xDA, 0xA3, 0x20, 0xA7];
pub const BLANK_MAGIC: [u8; 4] = [0xCB, 0xD4, 0x31, 0x94];

/// Store times to begin with: none, within the first second, whole and broken seconds, of this age, near the end.
const FIRST_TIMES: [u64; 8] = [
    0,
    1,
    999,
    10_000,
    10_000,
    10_500,
    1_700_000_000_000,
    LARGEST_TIME - 9_999,
];

/// 2^40, the highest log position.
pub const LARGEST_POSITION: u64 = 1 << 40;

pub struct Store {
    pub log: Twin<u8>,
    pub sizes: Sizes,
    /// Where the next append would write.
    pub written_end: u64,
    /// Where records and blanks stand, in order.
    pub entries: Vec<u64>,
    pub directory: Twin<u8>,
    pub rows: Vec<(Vec<u8>, u32)>,
    pub state: State,
    /// Store times in the log, for queries to ask about.
    pub times: Vec<u64>,
    /// Entries that each queue has once all is dispatched.
    counts: [u64; 16],
}

/// What a store is made of.
#[derive(Clone, Copy, Default)]
pub struct Plan {
    /// Queues and index have room for all, and nothing was dispatched before.
    pub roomy: bool,
    /// Segments and records of tens of thousands of bytes.
    pub wide: bool,
    /// Records out of step, unlisted or refused at some rate.
    pub troubled: bool,
    /// One segment from position 0, as the lister reads it.
    pub single: bool,
}

pub fn row(topic: &[u8], queue_id: u32) -> Vec<u8> {
    let mut row = ((8 + topic.len()) as u16).to_le_bytes().to_vec();
    row.extend(1u16.to_le_bytes());
    row.extend(queue_id.to_le_bytes());
    row.extend(topic);
    row
}

pub fn directory(rows: &[(Vec<u8>, u32)]) -> Twin<u8> {
    let rows: Vec<Vec<u8>> = rows
        .iter()
        .map(|(topic, queue_id)| row(topic, *queue_id))
        .collect();
    Twin::new(&rows.concat())
}

pub fn random_rows(random: &Random, number: u64) -> Vec<(Vec<u8>, u32)> {
    let mut rows: Vec<(Vec<u8>, u32)> = Vec::new();
    while (rows.len() as u64) < number {
        let mut topic = random.pick(&TOPICS).to_vec();
        if random.one_in(30) {
            topic = text(random, random.pick(&[1, 2, 126, 127]));
        }
        if random.one_in(60) {
            // A directory's topic is not judged; no record has this one.
            topic = faulty_text(random, random.pick(&[1, 2, 20, 120]));
        }
        let queue_id = random.pick(&[0, 0, 1, 2, 3, 255, 256, 0x0102_0304, 0x7FFF_FFFF]);
        if !rows.contains(&(topic.clone(), queue_id)) {
            rows.push((topic, queue_id));
        }
    }
    rows
}

impl Store {
    pub fn index_length(slot_count: u64, item_count: u64) -> usize {
        (40 + 4 * slot_count + 20 * item_count) as usize
    }

    /// A store without a record. Bytes that nothing has written yet hold anything.
    pub fn empty(random: &Random, plan: Plan) -> Store {
        let s = if plan.wide {
            random.between(33_000, 70_000)
        } else {
            random.pick(&[
                1_024, 1_024, 1_024, 1_024, 1_024, 1_024, 1_025, 1_031, 1_100, 1_531, 2_048, 4_096,
            ])
        };
        let (segments, b) = if plan.single {
            (1, 0)
        } else {
            let segments = random.pick(&[1, 2, 2, 3, 4, 6]);
            let highest = LARGEST_POSITION / s - segments;
            (segments, s * random.pick(&[0, 0, 0, 1, 7, highest]))
        };
        let row_count = match random.below(20) {
            0 => 16,
            1 => random.between(5, 15),
            _ => random.between(1, 4),
        };
        let rows = random_rows(random, row_count);
        let queue_entries = if plan.roomy {
            80
        } else if random.one_in(3) {
            random.pick(&[1, 2, 3, 5, 8])
        } else {
            30
        };
        let slot_count = random.pick(&[1, 2, 2, 3, 7, 16]);
        let item_count = if plan.wide {
            random.pick(&[2, 100, 20_000])
        } else if !plan.roomy && random.one_in(3) {
            random.pick(&[2, 3, 4, 5, 9, 17, 40])
        } else {
            random.pick(&[80, 200, 200])
        };
        let progress = Progress {
            position: b,
            counts: [0; 16],
        };
        let mut index = vec![0; Store::index_length(slot_count, item_count)];
        if random.one_in(2) {
            index[39] = 1;
        }
        let items = 40 + 4 * slot_count as usize;
        if random.one_in(2) {
            let junk = random.bytes((index.len() - items) as u64);
            index[items..].copy_from_slice(&junk);
        }
        Store {
            log: Twin::new(&random.bytes(s * segments)),
            sizes: Sizes {
                segment_size: s,
                first_position: b,
                queue_entries,
                slot_count,
                item_count,
            },
            written_end: b,
            entries: Vec::new(),
            directory: directory(&rows),
            state: State {
                progress: Twin::new(&progress.numbers()),
                queues: Twin::new(&random.bytes(20 * queue_entries * rows.len() as u64)),
                index: Twin::new(&index),
            },
            rows,
            times: Vec::new(),
            counts: [0; 16],
        }
    }

    /// A store with records.
    pub fn filled(bench: &mut Bench, random: &Random, plan: Plan) -> Check<Store> {
        let mut store = Store::empty(random, plan);
        if !plan.roomy && random.one_in(6) {
            // The queues have entries already.
            for (row, count) in store.counts.iter_mut().enumerate() {
                *count = random.below(store.sizes.queue_entries + 1);
                store.state.progress.set(1 + row, &[*count]);
            }
        }
        store.fill(bench, random, plan)?;
        if random.one_in(12) {
            store.close(random);
        }
        Ok(store)
    }

    /// Appends until the log is full or the sender stops.
    pub fn fill(&mut self, bench: &mut Bench, random: &Random, plan: Plan) -> Check<()> {
        let mut time = match self.times.last() {
            Some(time) => *time,
            None => random.pick(&FIRST_TIMES),
        };
        let most = if plan.wide && plan.single {
            // As many lines as a segment can make.
            random.pick(&[40, 800])
        } else {
            random.pick(&[1, 3, 8, 40, 40, 40, 40])
        };
        for _ in 0..most {
            time = store_time(random, time);
            let listed = random.below(self.rows.len() as u64) as usize;
            let mut draft = self.draft(random, plan, listed, time);
            if plan.troubled {
                self.mislead(&mut draft, random);
            }
            let answer = self.append(bench, &draft)?;
            if answer == 0 {
                let (topic, queue_id) = &self.rows[listed];
                let listed_still = draft.topic == *topic && draft.queue_id == u64::from(*queue_id);
                if matches!(draft.system_flag & 12, 0 | 8) && listed_still {
                    self.counts[listed] += 1;
                }
                self.times.push(draft.store_time);
            }
            if answer == 6 && !random.one_in(3) {
                break;
            }
        }
        Ok(())
    }

    fn draft(&self, random: &Random, plan: Plan, listed: usize, store_time: u64) -> Draft {
        let (topic, queue_id) = &self.rows[listed];
        let mut draft = Draft {
            queue_id: u64::from(*queue_id),
            queue_offset: self.counts[listed],
            system_flag: random.pick(&[0, 0, 0, 0, 4, 8, 8, 12])
                | random.pick(&[0, 0, 1, 2, 3, 64, 0x8000_0000, 0xFFFF_FFC3]),
            store_time,
            properties: if random.one_in(12) {
                odd_properties(random)
            } else {
                properties(random)
            },
            ..Draft::least(topic)
        };
        draft.scatter(random);
        if plan.single {
            // The lister writes both: numbers of every width.
            draft.queue_id = random.next() >> random.between(33, 63);
            draft.store_time = random.next() >> random.between(16, 63);
        }
        if plan.wide && random.one_in(2) {
            draft.properties = wide_properties(random);
        }
        let body_length = random.pick(&[0, 0, 0, 0, 0, 1, 2, 20, 100]);
        draft.body = random.bytes(body_length);
        if random.one_in(8) {
            // To the segment's end and around it: total ≤ r − 8 is the last that fits.
            let r = self.bytes_to_segment_end(self.written_end);
            draft.grow_to((r + 1).saturating_sub(random.between(7, 11)), random);
        }
        if random.one_in(60) {
            draft.grow_to(self.sizes.segment_size - random.between(6, 9), random);
        }
        if plan.wide && plan.single && !random.one_in(20) {
            draft.body.clear();
            draft.properties.clear();
        }
        draft
    }

    /// Puts something into a request that a rule refuses, at append or at dispatch.
    fn mislead(&self, draft: &mut Draft, random: &Random) {
        if !random.one_in(12) {
            return;
        }
        match random.below(14) {
            0 => {
                draft.topic = text(
                    random,
                    random.pick(&[0, 0, 126, 127, 128, 129, 255, 256, 257]),
                )
            }
            12 => draft.topic = faulty_text(random, random.pick(&[1, 5, 40, 120])),
            13 => {
                let name = random.pick(&[&b"KEYS\x01"[..], b"TAGS\x01", b"UNIQ_KEY\x01", b"X\x01"]);
                let value = faulty_text(random, random.pick(&[1, 5, 40, 120]));
                draft.properties = [name, &value].concat();
            }
            1 => draft.queue_id ^= 1 << random.below(32),
            2 => draft.system_flag |= random.pick(&[16, 32, 48]),
            3 => draft.store_time = random.pick(&[LARGEST_TIME, 1 << 48, 1 << 63, u64::MAX]),
            4 => draft.topic = random.pick(&TOPICS).to_vec(),
            5 => {
                draft.queue_id = random.pick(&[0x8000_0000, 0x7FFF_FFFF, 0xFFFF_FFFF, 0x0403_0201])
            }
            6 | 7 => random.pick(&Fault::ALL).put(draft, random),
            _ => {
                let meant = draft.queue_offset;
                draft.queue_offset = random.pick(&[
                    meant + 1,
                    meant.wrapping_sub(1),
                    0,
                    meant + (1 << 32),
                    meant | 1 << 63,
                    self.sizes.queue_entries,
                    u64::MAX,
                ]);
            }
        }
    }

    /// Appends, and once more after a blank.
    pub fn append(&mut self, bench: &mut Bench, draft: &Draft) -> Check<u32> {
        let mut position = self.written_end;
        let mut answer = self.append_once(bench, draft)?;
        if answer == 7 {
            self.entries.push(position);
            position = self.written_end;
            answer = self.append_once(bench, draft)?;
        }
        if answer == 0 {
            self.entries.push(position);
        }
        Ok(answer)
    }

    fn append_once(&mut self, bench: &mut Bench, draft: &Draft) -> Check<u32> {
        let message = draft.message();
        bench.append(&mut self.log, &self.sizes, &message, &mut self.written_end)
    }

    /// Writes a blank by hand, as append leaves none in the last segment.
    fn close(&mut self, random: &Random) {
        if self.written_end < self.log_end() {
            let r = self.bytes_to_segment_end(self.written_end);
            let total = if random.one_in(4) {
                random.pick(&[r - 1, r + 1, self.sizes.segment_size, 8])
            } else {
                r
            };
            let place = self.place(self.written_end);
            self.log.set(place, &(total as u32).to_be_bytes());
            self.log.set(place + 4, &BLANK_MAGIC);
            self.entries.push(self.written_end);
            self.written_end += r;
        }
    }

    pub fn log_end(&self) -> u64 {
        self.sizes.first_position + self.log.len() as u64
    }

    pub fn bytes_to_segment_end(&self, position: u64) -> u64 {
        self.sizes.segment_size - position % self.sizes.segment_size
    }

    /// The place in the log's bytes of a position in the log.
    pub fn place(&self, position: u64) -> usize {
        (position - self.sizes.first_position) as usize
    }

    pub fn call(&self, budget: u64) -> DispatchCall<'_> {
        DispatchCall {
            log: &self.log,
            sizes: self.sizes,
            readable_end: self.written_end,
            directory: &self.directory,
            budget,
        }
    }

    pub fn stretch(&self, position: u64, readable_end: u64) -> Stretch<'_> {
        Stretch {
            log: &self.log,
            sizes: self.sizes,
            directory: &self.directory,
            position,
            readable_end,
        }
    }

    /// Mostly where a record or blank starts, else a position in one, around a segment's end or anywhere; perhaps past the
    /// log's end.
    pub fn some_position(&self, random: &Random) -> u64 {
        let entry = self.some_entry(random);
        match random.below(10) {
            0 => entry + random.below(100),
            1 => self.sizes.first_position + random.below(self.log.len() as u64 + 1),
            2 => {
                let segments = self.log.len() as u64 / self.sizes.segment_size;
                let segment_end = self.sizes.first_position
                    + self.sizes.segment_size * random.between(1, segments);
                segment_end - random.below(10)
            }
            _ => entry,
        }
    }

    /// Readable ends around what stands at a position in the log, damaged or not.
    pub fn ends_around(&self, random: &Random, position: u64) -> [u64; 9] {
        let at = self.place(position);
        let total = &self.log.get()[at..at + 4];
        let total = u64::from(u32::from_be_bytes(total.try_into().expect("4 bytes")));
        let r = self.bytes_to_segment_end(position);
        let lengths = [
            7,
            8,
            random.between(9, 91),
            92,
            total.max(1) - 1,
            total,
            r - 1,
            r,
            u64::MAX,
        ];
        let room = self.log_end() - position;
        lengths.map(|length| position + length.min(room))
    }

    /// The record or blank that starts before the written end, at random.
    fn some_entry(&self, random: &Random) -> u64 {
        if self.entries.is_empty() {
            self.sizes.first_position
        } else {
            random.pick(&self.entries)
        }
    }

    /// Damages one place of the log that the rules look at.
    pub fn damage_log(&mut self, random: &Random) {
        let position = self.some_entry(random);
        if position < self.log_end() {
            self.damage_entry(random, position);
        }
    }

    /// Damages one place that the rules look at of what stands at a position in the log.
    pub fn damage_entry(&mut self, random: &Random, position: u64) {
        let r = self.bytes_to_segment_end(position);
        let at = self.place(position);
        let int =
            |store: &Store, place: usize| match store.log.get().get(at + place..at + place + 4) {
                Some(bytes) => u32::from_be_bytes(bytes.try_into().expect("4 bytes")),
                None => 0,
            };
        let total = int(self, 0);
        let body_length = int(self, 84);
        let topic_place = at + 88 + (body_length as usize).min(1 << 30);
        match random.below(20) {
            0 => {
                let value = random.pick(&[
                    0,
                    7,
                    8,
                    91,
                    92,
                    93,
                    total.wrapping_sub(1),
                    total.wrapping_add(1),
                    (r as u32).wrapping_sub(9),
                    (r as u32).wrapping_sub(8),
                    (r as u32).wrapping_sub(7),
                    r as u32,
                    self.sizes.segment_size as u32,
                    total | 1 << 31,
                    1 << 31,
                    u32::MAX,
                ]);
                self.log.set(at, &value.to_be_bytes());
            }
            1 => {
                let magic = random.pick(&[
                    MESSAGE_MAGIC,
                    BLANK_MAGIC,
                    [0xDA, 0xA3, 0x20, 0xA8],
                    [0xDA, 0xA3, 0x20, 0x27],
                    [0x5A, 0xA3, 0x20, 0xA7],
                    [0xCB, 0xD4, 0x31, 0x14],
                    [0xA7, 0x20, 0xA3, 0xDA],
                    [0; 4],
                ]);
                self.log.set(at + 4, &magic);
            }
            2 => {
                let value = random.pick(&[
                    body_length.wrapping_add(1),
                    body_length.wrapping_sub(1),
                    body_length | 1 << 31,
                    0,
                    i32::MAX as u32,
                    u32::MAX,
                    u32::MAX - 90,
                    total.wrapping_sub(87),
                    total.wrapping_sub(88),
                    total.wrapping_sub(90),
                    total.wrapping_sub(91),
                    total.wrapping_sub(92),
                ]);
                self.log.set(at + 84, &value.to_be_bytes());
            }
            3 => {
                let value = random.pick(&[0, 1, 2, 126, 127, 128, 129, 255]);
                self.log.set(topic_place, &[value]);
            }
            4 => {
                let topic_length = self.log.get().get(topic_place).copied().unwrap_or(0);
                let place = topic_place + 1 + topic_length as usize;
                let value = random.pick(&[0u16, 1, 2, 0x7FFF, 0x8000, 0x8001, 0xFFFF]);
                self.log.set(place, &value.to_be_bytes());
            }
            5 => {
                let value = random.pick(&[
                    position + 1,
                    position.wrapping_sub(1),
                    position - self.sizes.first_position,
                    position | 1 << 63,
                    position ^ 1 << random.below(64),
                    u64::MAX,
                ]);
                self.log.set(at + 28, &value.to_be_bytes());
            }
            6 => {
                let value = random.pick(&[
                    0,
                    LARGEST_TIME - 1,
                    LARGEST_TIME,
                    1 << 48,
                    1 << 63,
                    u64::MAX,
                    i64::MAX as u64,
                ]);
                self.log.set(at + 56, &value.to_be_bytes());
            }
            7 => {
                let value = int(self, 12) ^ 1 << random.pick(&[31, 31, 30, 24, 8, 0]);
                self.log.set(at + 12, &value.to_be_bytes());
            }
            8 => {
                let bit = random.pick(&[16, 32, 16, 32, 4, 8, 12, 64, 1 << 16, 1 << 31]);
                let value = int(self, 36) ^ bit;
                self.log.set(at + 36, &value.to_be_bytes());
            }
            9 => {
                let value = random.pick(&[0, 1, 2, 1 << 32, 1 << 63, u64::MAX]);
                self.log.set(at + 20, &value.to_be_bytes());
            }
            10 => {
                // Below zero, and yet the lengths add up: 91 − 5 + 10 + 0 = 96.
                self.log.set(at, &96u32.to_be_bytes());
                self.log.set(at + 83, &[10, 0xFF, 0xFF, 0xFF, 0xFB]);
                self.log.set(at + 94, &[0, 0]);
            }
            11 => {
                // A blank in place of what stood here.
                self.log.set(at, &(r as u32).to_be_bytes());
                self.log.set(at + 4, &BLANK_MAGIC);
            }
            12..=16 => {
                // Other bytes over some of its topic and properties: text, or not even that.
                let (first, end) = (topic_place + 1, at + (total as u64).min(r) as usize);
                if first < end {
                    let place = first + random.below((end - first) as u64) as usize;
                    let mut bytes = match random.below(3) {
                        0 => vec![0x80 | random.next() as u8],
                        1 => character(random).to_string().into_bytes(),
                        _ => faulty_text(random, 0),
                    };
                    bytes.truncate(end - place);
                    self.log.set(place, &bytes);
                }
            }
            _ => {
                let length = (total as u64).clamp(8, r);
                let place = at + random.below(length) as usize;
                if place < self.log.len() {
                    let value = self.log.get()[place] ^ (1 << random.below(8));
                    self.log.set(place, &[value]);
                }
            }
        }
    }

    pub fn used_count(&self) -> u32 {
        let bytes = &self.state.index.get()[36..40];
        u32::from_be_bytes(bytes.try_into().expect("4 bytes"))
    }

    /// The last item's number, at least 1 and within the file.
    fn last_item(&self) -> u64 {
        let used = u64::from(self.used_count());
        used.clamp(2, self.sizes.item_count) - 1
    }

    /// Damages one header field of the index.
    pub fn damage_header(&mut self, random: &Random) {
        let used = self.used_count();
        let n = self.sizes.item_count as u32;
        let index = &mut self.state.index;
        match random.below(4) {
            0 => {
                let place = random.pick(&[0, 8]);
                let value = random.pick(&[
                    0,
                    1,
                    10_000,
                    LARGEST_TIME,
                    1 << 48,
                    1 << 63,
                    u64::MAX,
                    random.next() >> 16,
                ]);
                index.set(place, &value.to_be_bytes());
            }
            1 => {
                let place = random.pick(&[16, 24, 24]);
                let within = self.sizes.first_position + random.below(self.log.len() as u64 + 1);
                let value = random.pick(&[
                    0,
                    1,
                    self.sizes.first_position,
                    within,
                    within,
                    LARGEST_POSITION,
                    LARGEST_POSITION + 1,
                    1 << 63,
                    u64::MAX,
                ]);
                index.set(place, &value.to_be_bytes());
            }
            2 => {
                let value = random.pick(&[
                    0,
                    1,
                    used.wrapping_sub(2),
                    used.wrapping_sub(1),
                    used,
                    n,
                    1 << 31,
                    u32::MAX,
                ]);
                index.set(32, &value.to_be_bytes());
            }
            _ => {
                let value = random.pick(&[
                    0,
                    1,
                    2,
                    used.wrapping_sub(1),
                    used.wrapping_add(1),
                    n - 1,
                    n,
                    n,
                    n + 1,
                    1 << 31,
                    u32::MAX,
                ]);
                index.set(36, &value.to_be_bytes());
            }
        }
    }

    /// A header that says more items than were put: the items behind it hold anything.
    pub fn invent_header(&mut self, random: &Random) {
        let used = random.between(2, self.sizes.item_count) as u32;
        let within = self.sizes.first_position + random.below(self.log.len() as u64 + 1);
        let time = random.pick(&[0, 1, 10_000, 20_000, LARGEST_TIME]);
        let index = &mut self.state.index;
        index.set(0, &time.to_be_bytes());
        index.set(8, &random.below(1 << 48).to_be_bytes());
        index.set(16, &within.to_be_bytes());
        index.set(
            24,
            &random
                .pick(&[0, within, self.sizes.first_position])
                .to_be_bytes(),
        );
        index.set(32, &(random.below(u64::from(used)) as u32).to_be_bytes());
        index.set(36, &used.to_be_bytes());
    }

    /// Damages a slot.
    pub fn damage_slot(&mut self, random: &Random) {
        let used = self.used_count().max(1);
        let slot = random.below(self.sizes.slot_count) as usize;
        let value = random.pick(&[
            0,
            1,
            used - 1,
            used - 1,
            used,
            used,
            used + 1,
            self.sizes.item_count as u32 - 1,
            self.sizes.item_count as u32,
            1 << 31,
            u32::MAX,
            i32::MAX as u32,
        ]);
        self.state.index.set(40 + 4 * slot, &value.to_be_bytes());
    }

    /// Damages one field of an item.
    pub fn damage_item(&mut self, random: &Random) {
        let number = random.between(1, self.last_item());
        let at = Store::index_length(self.sizes.slot_count, number);
        let index = &mut self.state.index;
        match random.below(7) {
            0..=2 => {
                let number = number as u32;
                let value = random.pick(&[
                    number,
                    number + 1,
                    number - 1,
                    0,
                    1,
                    u32::MAX,
                    1 << 31,
                    self.sizes.item_count as u32,
                ]);
                index.set(at + 16, &value.to_be_bytes());
            }
            3 => {
                let value = random.pick(&[0, 1, i32::MAX as u32, 1 << 31, u32::MAX, 30]);
                index.set(at + 12, &value.to_be_bytes());
            }
            4 => {
                let value = random.pick(&[
                    0,
                    LARGEST_POSITION - 1,
                    LARGEST_POSITION,
                    LARGEST_POSITION + 1,
                    1 << 63,
                    u64::MAX,
                ]);
                index.set(at + 4, &value.to_be_bytes());
            }
            5 => {
                let value =
                    random.pick(&[0, u32::MAX, 1 << 31, 81_906, 81_916, random.next() as u32]);
                index.set(at, &value.to_be_bytes());
            }
            _ => {
                let place = at + random.below(20) as usize;
                let value = index.get()[place] ^ (1 << random.below(8));
                index.set(place, &[value]);
            }
        }
    }
}

pub fn wide_properties(random: &Random) -> Vec<u8> {
    let length = random.pick(&[
        300, 5_000, 32_766, 32_767, 32_767, 32_768, 65_535, 65_536, 65_537,
    ]);
    let mut properties = random
        .pick(&[&b"KEYS\x01"[..], b"UNIQ_KEY\x01", b"TAGS\x01", b"X\x01"])
        .to_vec();
    let filler = random.pick(&[
        &b"a "[..],
        b"parcel-17 ",
        b"x",
        "\u{e9}".as_bytes(),
        "\u{20ac} ".as_bytes(),
        "\u{1f600}".as_bytes(),
        b"\xFF",
        b"a\x02KEYS\x01",
    ]);
    while (properties.len() + filler.len()) as u64 <= length {
        properties.extend(filler);
    }
    properties.resize(length as usize, b'z');
    if random.one_in(5) {
        // One byte that is no text, first, last or between.
        let place = random.pick(&[9, length - 1, length - 9, random.below(length)]);
        properties[place as usize] = random.pick(&[0x80, 0xC3, 0xE2, 0xF0, 0xFF]);
    }
    properties
}
