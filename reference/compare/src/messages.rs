//! Messages as senders make them: plausible topics, tags and keys, and at some rate odd ones.

use model::record::Message;

use crate::random::Random;
use crate::texts::{faulty_text, text};

/// 2^48 − 1, the largest time.
pub const LARGEST_TIME: u64 = (1 << 48) - 1;

/// Few topics, so that they repeat. `T#a` with key `b` hashes as `T` with key `a#b`.
pub const TOPICS: [&[u8]; 7] = [
    b"T",
    b"TT",
    b"T#a",
    "\u{e9}\u{ff}".as_bytes(),
    b"SORTER_EVENTS",
    b"t",
    "SORTIERER-S\u{fc}d-\u{1f4e6}".as_bytes(),
];

/// Few keys, so that they repeat and share slots. With topic `T`, `1LG3HE3` hashes to −2^31, `cdkiej` and `cdkhll` share
/// an index hash, and so do `Aa`, `BB` and `@` with U+0080; units from 8000 hex on show a sign carried along.
pub const KEYS: [&[u8]; 21] = [
    b"a",
    b"b",
    b"c",
    b"k",
    b"a#b",
    b"Aa",
    b"BB",
    b"1LG3HE3",
    b"cdkiej",
    b"cdkhll",
    "\u{e9}".as_bytes(),
    "\u{ffff}\u{fffe}\u{8000}\u{d7ff}\u{e000}".as_bytes(),
    b"parcel-000017",
    b"chute-128",
    "\u{80}".as_bytes(),
    b"zzzzzzzz",
    "@\u{80}".as_bytes(),
    "M\u{fc}ller-7".as_bytes(),
    "\u{feff}k".as_bytes(),
    "\u{1f600}".as_bytes(),
    "\u{10000}\u{10ffff}\u{7ff}\u{800}".as_bytes(),
];

/// `polygenelubricants` hashes to −2^31.
pub const TAGS: [&[u8]; 9] = [
    b"Aa",
    b"BB",
    b"polygenelubricants",
    "\u{e9}".as_bytes(),
    "\u{ffff}\u{ffff}\u{ffff}\u{ffff}\u{ffff}\u{ffff}".as_bytes(),
    "\u{1f4e6}".as_bytes(),
    b"divert",
    b"cage-drop",
    b"a b",
];

/// A message that owns its bytes.
#[derive(Clone)]
pub struct Draft {
    pub body_crc: u64,
    pub queue_id: u64,
    pub flag: u64,
    pub queue_offset: u64,
    pub system_flag: u64,
    pub born_time: u64,
    pub born_host: Vec<u8>,
    pub store_time: u64,
    pub store_host: Vec<u8>,
    pub reconsume_times: u64,
    pub prepared_offset: u64,
    pub body: Vec<u8>,
    pub topic: Vec<u8>,
    pub properties: Vec<u8>,
}

impl Draft {
    /// The least record: 92 bytes.
    pub fn least(topic: &[u8]) -> Draft {
        Draft {
            body_crc: 0,
            queue_id: 0,
            flag: 0,
            queue_offset: 0,
            system_flag: 0,
            born_time: 0,
            born_host: vec![0; 8],
            store_time: 10_000,
            store_host: vec![0; 8],
            reconsume_times: 0,
            prepared_offset: 0,
            body: Vec::new(),
            topic: topic.to_vec(),
            properties: Vec::new(),
        }
    }

    pub fn message(&self) -> Message<'_> {
        Message {
            body_crc: self.body_crc,
            queue_id: self.queue_id,
            flag: self.flag,
            queue_offset: self.queue_offset,
            system_flag: self.system_flag,
            born_time: self.born_time,
            born_host: &self.born_host,
            store_time: self.store_time,
            store_host: &self.store_host,
            reconsume_times: self.reconsume_times,
            prepared_offset: self.prepared_offset,
            body: &self.body,
            topic: &self.topic,
            properties: &self.properties,
        }
    }

    pub fn total(&self) -> u64 {
        (91 + self.body.len() + self.topic.len() + self.properties.len()) as u64
    }

    /// Gives the record this total by its body, where that can be.
    pub fn grow_to(&mut self, total: u64, random: &Random) {
        let rest = self.total() - self.body.len() as u64;
        if total >= rest {
            self.body = random.bytes(total - rest);
        }
    }

    /// Fields that no rule names hold anything.
    pub fn scatter(&mut self, random: &Random) {
        let any = || match random.below(4) {
            0 => 0,
            1 => u64::MAX,
            _ => random.next(),
        };
        let any_4 = || any() & 0xFFFF_FFFF;
        let any_8 = || any().to_be_bytes().to_vec();
        self.body_crc = any_4();
        self.flag = any_4();
        self.born_time = any();
        self.born_host = any_8();
        self.store_host = any_8();
        self.reconsume_times = any_4();
        self.prepared_offset = any();
    }
}

fn keys_value(random: &Random) -> Vec<u8> {
    let mut value = Vec::new();
    if random.one_in(6) {
        value.push(b' ');
    }
    // At some rate about as many as the archive keeps in a list of its own.
    let keys = if random.one_in(60) {
        random.between(30, 36)
    } else {
        random.pick(&[0, 1, 1, 2, 2, 3, 3, 4, 9])
    };
    for number in 0..keys {
        if number > 0 {
            value.extend(b" ".repeat(random.between(1, 2) as usize));
        }
        value.extend(random.pick(&KEYS));
    }
    if random.one_in(6) {
        value.push(b' ');
    }
    value
}

/// A piece of properties that is no pair, or a pair whose name only looks like one that matters.
fn odd_piece(random: &Random) -> Vec<u8> {
    const ODD: [&[u8]; 24] = [
        b"",
        b"KEYS",
        b"KEYS\x01",
        b"KEYS\x01a\x01",
        b"KEYS\x01a\x01b",
        b"KEYS\x01\x01a",
        b"\x01KEYS\x01a",
        b"\x01a",
        b"\x01",
        b"TAGS\x01",
        b"TAGS",
        b"UNIQ_KEY\x01",
        b"UNIQ_KEY\x01a\x01",
        b"keys\x01a",
        b"KEYS \x01a",
        b"KEYSX\x01a",
        b"KEY\x01a",
        b"TAGSX\x01Aa",
        b"UNIQ_KEYS\x01k",
        b"UNIQ_KE\x01k",
        b"KEYS\x01\xFF\x01",
        b"TAGS\xC3",
        b"\xEF\xBB\xBFKEYS\x01\xFF",
        b"\x01\xED\xA0\x80",
    ];
    random.pick(&ODD).to_vec()
}

/// Properties: mostly a few pairs, names repeated at some rate, odd pieces between them.
pub fn properties(random: &Random) -> Vec<u8> {
    let mut pieces: Vec<Vec<u8>> = Vec::new();
    for _ in 0..random.below(5) {
        pieces.push(match random.below(12) {
            0..=2 => [&b"UNIQ_KEY\x01"[..], random.pick(&KEYS)].concat(),
            3..=5 => [b"KEYS\x01".to_vec(), keys_value(random)].concat(),
            6..=7 => [&b"TAGS\x01"[..], random.pick(&TAGS)].concat(),
            8 => [
                &b"UNIQ_KEY\x01"[..],
                random.pick(&KEYS),
                b" ",
                random.pick(&KEYS),
            ]
            .concat(),
            9..=10 => odd_piece(random),
            // A value that no rule judges.
            _ if random.one_in(3) => {
                let length = random.below(20);
                [b"WAIT\x01".to_vec(), faulty_text(random, length)].concat()
            }
            _ => b"WAIT\x01true".to_vec(),
        });
    }
    if random.one_in(40) {
        // The first pair of a name, whatever follows.
        let name = random.pick(&[&b"KEYS\x01"[..], b"TAGS\x01", b"UNIQ_KEY\x01"]);
        let length = random.below(20);
        pieces.insert(0, [name, &faulty_text(random, length)].concat());
    }
    if random.one_in(12) {
        // Text that nobody has sent before.
        let name = random.pick(&[&b"KEYS\x01"[..], b"TAGS\x01", b"UNIQ_KEY\x01", b"X\x01"]);
        let length = random.between(1, 60);
        pieces.push([name, &text(random, length)].concat());
    }
    let mut properties = pieces.join(&2);
    if random.one_in(2) {
        properties.push(2);
    }
    if random.one_in(40) && !properties.is_empty() {
        let place = random.below(properties.len() as u64) as usize;
        properties[place] = random.pick(&[1, 2, b' ', 0, 0xFF]);
    }
    properties
}

/// Properties that nobody sends: separators where none is meant, names many times, parts of nothing, any length.
pub fn odd_properties(random: &Random) -> Vec<u8> {
    let some = |alphabet: &[u8], most: u64| -> Vec<u8> {
        let length = random.below(most + 1);
        (0..length).map(|_| random.pick(alphabet)).collect()
    };
    match random.below(8) {
        0 => Vec::new(),
        1 => some(&[1, 2], 12),
        2 => some(&[1, 2, b' '], 12),
        3 => some(b"\x01\x02 KEYSa", 60),
        4 | 5 => {
            // One name in several pairs and in pieces that are none, the last of them often one that does not count.
            let name = random.pick(&[&b"KEYS"[..], b"TAGS", b"UNIQ_KEY", b"KEY", b"UNIQ_KEYS"]);
            let mut pieces = Vec::new();
            for _ in 0..random.between(2, 5) {
                let value = match random.below(5) {
                    0 => Vec::new(),
                    1 => some(b" ", 4),
                    2 => some(b"\x01a ", 4),
                    _ => keys_value(random),
                };
                let between =
                    random.pick(&[&b"\x01"[..], b"\x01", b"\x01", b"\x01\x01", b"", b"="]);
                pieces.push([name, between, &value].concat());
            }
            pieces.join(&2)
        }
        6 => {
            // Usual ones with a byte more, less or another.
            let mut usual = properties(random);
            for _ in 0..random.between(1, 3) {
                let place = random.below(usual.len() as u64 + 1) as usize;
                let byte = random.pick(&[1, 2, b' ', b'S', 0, 0xFF]);
                match random.below(3) {
                    0 => usual.insert(place, byte),
                    1 if place < usual.len() => usual[place] = byte,
                    _ if place < usual.len() => {
                        usual.remove(place);
                    }
                    _ => {}
                }
            }
            usual
        }
        _ => properties(random),
    }
}

/// A store time: near the one before, so that seconds repeat, grow and fall; at some rate far away.
pub fn store_time(random: &Random, before: u64) -> u64 {
    match random.below(24) {
        0 => 0,
        1 => LARGEST_TIME,
        2 => random.below(1 << 48),
        // The seconds' own limit, 2^31 − 1.
        3 => (before + random.between(2_147_483_646_000, 2_147_483_649_000)).min(LARGEST_TIME),
        4..=6 => before.saturating_sub(random.pick(&[1, 500, 999, 1_000, 1_001, 5_000])),
        _ => (before + random.pick(&[0, 0, 1, 400, 999, 1_000, 1_001, 30_000])).min(LARGEST_TIME),
    }
}
