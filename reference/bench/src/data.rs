//! Records, logs and stores to measure on. The same numbers in each run.

use crate::archive::{Fields, Progress, Sizes};
use crate::store::{Filed, Index, Log, Message, ARCHIVE};

const SEGMENT: u64 = 64 << 20;
const FIRST_TIME: u64 = 1_700_000_000_000;
const BODY: usize = 100;

/// 10.0.0.1:10911 and 10.0.0.2:10911.
const BORN_HOST: [u8; 8] = [10, 0, 0, 1, 0, 0, 0x2A, 0x9F];
const STORE_HOST: [u8; 8] = [10, 0, 0, 2, 0, 0, 0x2A, 0x9F];

/// The language of topic, tags and keys.
#[derive(Clone, Copy, PartialEq)]
pub enum Script {
    Ascii,
    /// Nearly all characters of two bytes.
    Greek,
    /// All characters of three bytes.
    Chinese,
}

impl Script {
    pub const ALL: [Script; 3] = [Script::Ascii, Script::Greek, Script::Chinese];

    /// Those whose characters take more than a byte.
    pub const WIDE: [Script; 2] = [Script::Greek, Script::Chinese];

    /// What a row says of it: nothing of ASCII.
    pub fn note(self) -> &'static str {
        match self {
            Script::Ascii => "",
            Script::Greek => ", two-byte text",
            Script::Chinese => ", three-byte text",
        }
    }

    /// The archive's time against the plain Rust's, at most.
    pub fn target(self) -> f64 {
        match self {
            Script::Ascii => 1.0,
            _ => 1.1,
        }
    }

    /// How many of the sides to run, of which the last is the further Rust: on ASCII it is the plain one.
    pub fn sides(self, without: usize) -> usize {
        without + usize::from(self != Script::Ascii)
    }

    pub fn topic(self) -> &'static [u8] {
        match self {
            Script::Ascii => TOPIC,
            Script::Greek => "δέματα-γεγονότα".as_bytes(),
            Script::Chinese => "包裹事件".as_bytes(),
        }
    }

    fn tags(self) -> [&'static str; 4] {
        match self {
            Script::Ascii => ["RUSH", "SLOW", "COLD", "BULK"],
            Script::Greek => ["ΤΑΧΥ", "ΑΡΓΑ", "ΚΡΥΟ", "ΒΑΡΥ"],
            Script::Chinese => ["加急", "普通", "冷藏", "大件"],
        }
    }

    /// One of 64 characters.
    fn letter(self, number: u64) -> char {
        const GREEK: &str = "ΑΒΓΔΕΖΗΘΙΚΛΜΝΞΟΠΡΣΤΥΦΧΨΩΪΫάέήίΰαβγδεζηθικλμνξοπρςστυφχψωϊϋόύώΆΈΉ";
        let number = number % 64;
        let code = match self {
            Script::Ascii => 0x30 + number,
            Script::Greek => return GREEK.chars().nth(number as usize).expect("64 letters"),
            Script::Chinese => 0x4E00 + 331 * number,
        };
        char::from_u32(code as u32).expect("a character")
    }

    /// So many characters that tell a number, the lowest six bits first.
    pub fn spelled(self, number: u64, characters: u32) -> String {
        (0..characters)
            .map(|place| self.letter(number >> (6 * place)))
            .collect()
    }
}

pub const TOPIC: &[u8] = b"parcel-events";

/// Which keys the records have, beside a unique key of 32 bytes.
#[derive(Clone, Copy)]
pub enum Keys {
    /// One or two, each in one record only.
    Distinct,
    /// One that `orders` share in turn, and in every second record one that `depots` share.
    Grouped { orders: u64, depots: u64 },
    /// So many in each record; no unique key.
    Many(u64),
}

/// A log with records, up to its readable end.
pub struct Written {
    pub log: Log,
    pub end: u64,
}

/// A number that looks random.
pub fn mixed(number: u64) -> u64 {
    let mut z = number.wrapping_add(0x9E37_79B9_7F4A_7C15);
    z = (z ^ (z >> 30)).wrapping_mul(0xBF58_476D_1CE4_E5B9);
    z = (z ^ (z >> 27)).wrapping_mul(0x94D0_49BB_1331_11EB);
    z ^ (z >> 31)
}

/// Record i's unique key: 32 bytes, 30 in Chinese.
pub fn unique_key(script: Script, i: u64) -> String {
    match script {
        Script::Ascii => format!("{:016X}{:016X}", mixed(2 * i), mixed(2 * i + 1)),
        Script::Greek => script.spelled(mixed(2 * i), 8) + &script.spelled(mixed(2 * i + 1), 8),
        Script::Chinese => script.spelled(mixed(2 * i), 10),
    }
}

/// A key that no record has.
pub fn missing_key(script: Script, i: u64) -> String {
    let more = match script {
        Script::Ascii => "+",
        Script::Greek => "ω",
        Script::Chinese => "无",
    };
    unique_key(script, i) + more
}

/// 14 or 15 bytes.
pub fn order_key(script: Script, order: u64) -> String {
    match script {
        Script::Ascii => format!("ORDER-{order:08}"),
        Script::Greek => format!("ΕΝΤ{}", script.spelled(order, 4)),
        Script::Chinese => format!("订单{}", script.spelled(order, 3)),
    }
}

/// 12 bytes.
pub fn depot_key(script: Script, depot: u64) -> String {
    match script {
        Script::Ascii => format!("DEPOT-{depot:06}"),
        Script::Greek => format!("ΑΠΘ{}", script.spelled(depot, 3)),
        Script::Chinese => format!("仓库{}", script.spelled(depot, 2)),
    }
}

/// 12 bytes.
fn single_key(script: Script, i: u64, number: u64) -> String {
    let number = mixed(number << 40 | i);
    match script {
        Script::Ascii => format!("N{:011}", number % 100_000_000_000),
        Script::Greek => script.spelled(number, 6),
        Script::Chinese => script.spelled(number, 4),
    }
}

fn keys_of(i: u64, script: Script, keys: Keys) -> String {
    match keys {
        Keys::Distinct => match i % 2 {
            0 => single_key(script, i, 1),
            _ => format!("{} {}", single_key(script, i, 1), single_key(script, i, 2)),
        },
        Keys::Grouped { orders, depots } => match i % 2 {
            0 => order_key(script, i % orders),
            _ => {
                let order = order_key(script, i % orders);
                format!("{order} {}", depot_key(script, i / 2 % depots))
            }
        },
        Keys::Many(number) => {
            let keys: Vec<String> = (1..=number).map(|n| single_key(script, i, n)).collect();
            keys.join(" ")
        }
    }
}

/// Properties as a broker keeps them, about 120 bytes.
fn properties_of(i: u64, script: Script, keys: Keys) -> Vec<u8> {
    let tags = script.tags();
    let tag = tags[(mixed(i) >> 20) as usize % tags.len()];
    let keys_text = keys_of(i, script, keys);
    let unique = match keys {
        Keys::Many(_) => String::new(),
        _ => format!("UNIQ_KEY\u{1}{}\u{2}", unique_key(script, i)),
    };
    format!("KEYS\u{1}{keys_text}\u{2}{unique}CLUSTER\u{1}DefaultCluster\u{2}WAIT\u{1}true\u{2}TAGS\u{1}{tag}\u{2}")
        .into_bytes()
}

/// The message of record i, of which nothing else is known.
pub fn message(i: u64, script: Script, keys: Keys, body: usize) -> Message {
    Message {
        fields: fields_of(i, 0, 0),
        born_host: BORN_HOST,
        store_host: STORE_HOST,
        body: (0..body).map(|at| mixed(i ^ at as u64) as u8).collect(),
        topic: script.topic().to_vec(),
        properties: properties_of(i, script, keys),
    }
}

/// The numbers of record i.
fn fields_of(i: u64, queue_id: u64, queue_offset: u64) -> Fields {
    let time = FIRST_TIME + 3 * i;
    Fields {
        body_crc: 0x1234_5678,
        queue_id,
        flag: 7,
        queue_offset,
        system_flag: 0,
        born_time: time,
        store_time: time,
        reconsume_times: 0,
        prepared_offset: 0,
    }
}

/// So many records of about 300 bytes (with up to two keys), in queues chosen as if at random.
pub fn written(records: u64, queues: u64, script: Script, keys: Keys) -> Written {
    let longest = 91 + BODY + script.topic().len() + properties_of(1, script, keys).len() + 16;
    let segments = (records * longest as u64).div_ceil(SEGMENT - longest as u64);
    let mut log = Log::new((segments * SEGMENT) as usize, SEGMENT);
    let mut counts = vec![0; queues as usize];
    let mut end = 0;
    let body = message(0, script, keys, BODY).body;
    for i in 0..records {
        let queue = mixed(i) % queues;
        let message = Message {
            fields: fields_of(i, queue, counts[queue as usize]),
            born_host: BORN_HOST,
            store_host: STORE_HOST,
            body: body.clone(),
            topic: script.topic().to_vec(),
            properties: properties_of(i, script, keys),
        };
        let mut answer = ARCHIVE.append(&mut log, &message, &mut end);
        if answer == 7 {
            answer = ARCHIVE.append(&mut log, &message, &mut end);
        }
        assert_eq!(answer, 0, "append of record {i}");
        counts[queue as usize] += 1;
    }
    Written { log, end }
}

/// A row of the directory.
fn row(queue_id: u32, topic: &[u8]) -> Vec<u8> {
    let mut row = Vec::with_capacity(8 + topic.len());
    row.extend_from_slice(&(8 + topic.len() as u16).to_le_bytes());
    row.extend_from_slice(&1u16.to_le_bytes());
    row.extend_from_slice(&queue_id.to_le_bytes());
    row.extend_from_slice(topic);
    row
}

pub fn directory(queues: u64, topic: &[u8]) -> Vec<u8> {
    (0..queues as u32).flat_map(|id| row(id, topic)).collect()
}

/// R for so many records, with room for queues above the average.
pub fn entries_for(records: u64, queues: u64) -> u64 {
    (records / queues * 9 / 8 + 200).min(300_000)
}

pub fn index(slot_count: u64, item_count: u64) -> Index {
    Index {
        sizes: Sizes {
            slot_count,
            item_count,
            ..Sizes::default()
        },
        bytes: vec![0; (40 + 4 * slot_count + 20 * item_count) as usize],
    }
}

/// Empty queues and an empty index for what a log holds.
pub fn filed(
    log: &Log,
    directory: Vec<u8>,
    queues: u64,
    queue_entries: u64,
    index: Index,
) -> Filed {
    Filed {
        directory,
        sizes: Sizes {
            segment_size: log.sizes.segment_size,
            first_position: log.sizes.first_position,
            queue_entries,
            ..index.sizes
        },
        queues: vec![0; (queues * queue_entries * 20) as usize],
        index,
        progress: Progress::default(),
    }
}
