//! `compare --texts`: every string of up to 3 bytes, and every one of 4 bytes that begins with F0 to F7, through the archive,
//! against what Rust's library says of UTF-8 and UTF-16: as tag, as a query's key and topic, and, but for those of 4 bytes,
//! in a record's topic and values. So are all strings of 2 bytes behind runs of ASCII bytes, those of 4 bytes from the
//! edges of UTF-8's ranges, and ASCII strings with a character or what is none at each place.

use std::process::ExitCode;
use std::str::from_utf8;
use std::sync::atomic::{AtomicUsize, Ordering};
use std::sync::Mutex;
use std::time::Instant;

use crate::archive::{self, Found, Record, Sizes};
use crate::judge::shown;
use crate::messages::Draft;

/// Most ASCII bytes before a string.
const LONGEST_RUN: usize = 40;

/// Longest string of ASCII bytes with something else in it.
const LONGEST: usize = 300;

/// What else: bytes that are no character, and a character.
const ELSE: [&[u8]; 6] = [
    b"\xFF",
    b"\x80",
    b"\xC3",
    b"\xC3\xA9",
    b"\xED\xA0\x80",
    b"\xF0\x9F\x98\x80",
];

/// Longest topic.
const LONGEST_TOPIC: usize = 127;

/// Bytes at the ends of a range of RFC 3629's rows, and beside it.
const EDGES: [u8; 24] = [
    0x00, 0x7F, 0x80, 0x8F, 0x90, 0x9F, 0xA0, 0xBF, 0xC0, 0xC1, 0xC2, 0xDF, 0xE0, 0xE1, 0xEC, 0xED,
    0xEE, 0xEF, 0xF0, 0xF1, 0xF3, 0xF4, 0xF5, 0xFF,
];

/// An empty index of one slot and two places, and the segment size of a log.
const INDEX: [u8; 84] = [0; 84];
const SIZES: Sizes = Sizes {
    segment_size: 1_024,
    first_position: 0,
    queue_entries: 0,
    slot_count: 1,
    item_count: 2,
};

/// A part of all strings, small enough to be one thread's work.
#[derive(Clone, Copy)]
enum Job {
    /// Strings of up to 3 bytes with this first byte; the empty one with byte 0.
    UpTo3(u8),
    /// Strings of 4 bytes with these first two.
    Four(u8, u8),
    /// Strings of 2 bytes, and of 4 bytes from the edges, behind so many ASCII bytes.
    Behind(usize),
    /// Strings of so many ASCII bytes with something else at each place.
    Long(usize),
}

fn jobs() -> Vec<Job> {
    let four =
        (0xF0..=0xF7).flat_map(|first| (0..=255).map(move |second| Job::Four(first, second)));
    (0..=255)
        .map(Job::UpTo3)
        .chain(four)
        .chain((0..=LONGEST_RUN).map(Job::Behind))
        .chain((1..=LONGEST).map(Job::Long))
        .collect()
}

/// How many strings were tried, and how many of them are UTF-8.
#[derive(Default)]
struct Tried {
    strings: u64,
    texts: u64,
    queries: u64,
    records: u64,
}

/// A string in a buffer whose other bytes would carry on a cut character.
struct Buffer {
    bytes: [u8; 64],
    start: usize,
    length: usize,
}

impl Buffer {
    fn new(start: usize, length: usize) -> Buffer {
        Buffer {
            bytes: [0x80; 64],
            start,
            length,
        }
    }

    fn string(&self) -> &[u8] {
        &self.bytes[self.start..self.start + self.length]
    }

    fn set(&mut self, place: usize, byte: u8) {
        self.bytes[self.start + place] = byte;
    }
}

/// Where a string stands in a record: the topic, or the value of a name.
const PARTS: [&[u8]; 4] = [b"", b"TAGS", b"KEYS", b"UNIQ_KEY"];

/// A log whose only record holds a string of one length.
struct Holder {
    log: Vec<u8>,
    at: usize,
    total: u64,
    in_properties: bool,
}

impl Holder {
    fn new(part: usize, length: usize) -> Holder {
        let string = vec![b'x'; length];
        let mut draft = Draft::least(b"T");
        if part == 0 {
            draft.topic = string;
        } else {
            draft.properties = [PARTS[part], b"\x01", &string].concat();
        }
        let total = draft.total();
        let mut log = vec![0x80; SIZES.segment_size as usize];
        let message = draft.message();
        let bytes = model::record::encode(&message, model::LogPosition(0)).expect("a small record");
        log[..bytes.len()].copy_from_slice(&bytes);
        let at = if part == 0 {
            89
        } else {
            total as usize - length
        };
        Holder {
            log,
            at,
            total,
            in_properties: part > 0,
        }
    }

    /// All parts that can have this length.
    fn all(length: usize) -> Vec<Holder> {
        let first = usize::from(length > LONGEST_TOPIC);
        let parts = first..PARTS.len();
        parts.map(|part| Holder::new(part, length)).collect()
    }

    /// What record reading answers with this string in its place.
    fn answer(&mut self, string: &[u8]) -> u32 {
        self.log[self.at..self.at + string.len()].copy_from_slice(string);
        let mut record = Record::default();
        // SAFETY: every pointer comes with its length, none is null, and no two buffers overlap.
        unsafe {
            archive::swistopal_read_record(
                self.log.as_ptr(),
                self.log.len(),
                &SIZES,
                0,
                self.total,
                &mut record,
            )
        }
    }
}

/// The hash as a queue entry holds it, by Rust's library alone.
fn code(text: &str) -> u64 {
    let mut hash: i32 = 0;
    for unit in text.encode_utf16() {
        hash = hash.wrapping_mul(31).wrapping_add(i32::from(unit));
    }
    i64::from(hash) as u64
}

fn tag_code(tag: &[u8]) -> u64 {
    // SAFETY: the pointer comes with its length and is not null.
    unsafe { archive::swistopal_tag_code(tag.as_ptr(), tag.len()) }
}

/// A query's answer on the empty index.
fn query(topic: &[u8], key: &[u8]) -> u32 {
    let mut out = [0];
    let mut found = Found::default();
    // SAFETY: every pointer comes with its length, none is null, and no two buffers overlap.
    unsafe {
        archive::swistopal_query(
            INDEX.as_ptr(),
            INDEX.len(),
            &SIZES,
            topic.as_ptr(),
            topic.len(),
            key.as_ptr(),
            key.len(),
            0,
            1,
            1,
            out.as_mut_ptr(),
            out.len(),
            &mut found,
        )
    }
}

impl Tried {
    fn add(&mut self, other: &Tried) {
        self.strings += other.strings;
        self.texts += other.texts;
        self.queries += other.queries;
        self.records += other.records;
    }

    /// Tries one string: its code, whether a query takes it as its key and, if so wished, as its topic, and whether records
    /// that hold it are sound.
    fn string(
        &mut self,
        string: &[u8],
        as_topic: bool,
        holders: &mut [Holder],
    ) -> Result<(), String> {
        let (text, valid) = match from_utf8(string) {
            Ok(text) => (text, true),
            // The code is that of the characters before the first place where none stands.
            Err(error) => {
                let characters = &string[..error.valid_up_to()];
                (from_utf8(characters).expect("as far as it is valid"), false)
            }
        };
        expect(string, "tag code", tag_code(string), code(text))?;
        let answer = if valid && !string.is_empty() { 0 } else { 17 };
        let as_key = query(b"T", string).into();
        expect(string, "query's answer, as key,", as_key, answer)?;
        self.queries += 1;
        if as_topic {
            let as_topic = query(string, b"k").into();
            expect(string, "query's answer, as topic,", as_topic, answer)?;
            self.queries += 1;
        }
        let separators = string.iter().any(|byte| matches!(byte, 1 | 2));
        for holder in holders {
            if !(holder.in_properties && separators) {
                let answer = if valid { 0 } else { 10 };
                let read = holder.answer(string).into();
                expect(string, "record reading's answer", read, answer)?;
                self.records += 1;
            }
        }
        self.strings += 1;
        self.texts += u64::from(valid);
        Ok(())
    }

    fn job(&mut self, job: Job) -> Result<(), String> {
        match job {
            Job::UpTo3(first) => {
                let start = usize::from(first) % 8;
                if first == 0 {
                    self.string(&[], true, &mut [])?;
                }
                let mut one = Buffer::new(start, 1);
                one.set(0, first);
                self.string(one.string(), true, &mut Holder::all(1))?;
                let (mut two, mut two_in) = (Buffer::new(start, 2), Holder::all(2));
                two.set(0, first);
                let (mut three, mut three_in) = (Buffer::new(start, 3), Holder::all(3));
                three.set(0, first);
                for second in 0..=255 {
                    two.set(1, second);
                    self.string(two.string(), true, &mut two_in)?;
                    three.set(1, second);
                    for third in 0..=255 {
                        three.set(2, third);
                        self.string(three.string(), true, &mut three_in)?;
                    }
                }
            }
            Job::Four(first, second) => {
                let mut four = Buffer::new(usize::from(second) % 8, 4);
                four.set(0, first);
                four.set(1, second);
                for third in 0..=255 {
                    four.set(2, third);
                    for fourth in 0..=255 {
                        four.set(3, fourth);
                        self.string(four.string(), false, &mut [])?;
                    }
                }
            }
            Job::Behind(run) => {
                let mut two = Buffer::new(run % 8, run + 2);
                let mut four = Buffer::new(run % 8, run + 4);
                for place in 0..run {
                    two.set(place, b'a' + place as u8 % 26);
                    four.set(place, b'a' + place as u8 % 26);
                }
                let mut two_in = Holder::all(run + 2);
                for string in 0..=u16::MAX {
                    let [first, second] = string.to_be_bytes();
                    two.set(run, first);
                    two.set(run + 1, second);
                    self.string(two.string(), true, &mut two_in)?;
                }
                let mut four_in = [Holder::new(0, run + 4), Holder::new(1 + run % 3, run + 4)];
                for number in 0..EDGES.len().pow(4) {
                    for place in 0..4 {
                        let edge = number / EDGES.len().pow(place) % EDGES.len();
                        four.set(run + place as usize, EDGES[edge]);
                    }
                    self.string(four.string(), false, &mut four_in)?;
                }
            }
            Job::Long(length) => {
                let is_topic = length <= LONGEST_TOPIC;
                let holders = &mut Holder::all(length);
                let plain: Vec<u8> = (0..length).map(|place| b'a' + place as u8 % 26).collect();
                self.string(&plain, is_topic, holders)?;
                for place in 0..length {
                    for other in ELSE {
                        let mut string = plain.clone();
                        let end = length.min(place + other.len());
                        string[place..end].copy_from_slice(&other[..end - place]);
                        self.string(&string, is_topic, holders)?;
                    }
                }
            }
        }
        Ok(())
    }
}

/// Says the bytes where the archive is not as expected.
fn expect(string: &[u8], what: &str, archive: u64, expected: u64) -> Result<(), String> {
    if archive == expected {
        return Ok(());
    }
    let hex: Vec<String> = string.iter().map(|byte| format!("{byte:02X}")).collect();
    let (hex, said) = (hex.join(" "), shown(string));
    Err(format!(
        "bytes {hex} ({said}): {what} is {archive:#x} in the archive, {expected:#x} expected"
    ))
}

pub fn run() -> ExitCode {
    let started = Instant::now();
    let jobs = jobs();
    let next = AtomicUsize::new(0);
    // Jobs from here on are not wanted: their number, or the first one that differs.
    let limit = AtomicUsize::new(jobs.len());
    let found: Mutex<Option<(usize, String)>> = Mutex::new(None);
    let work = || {
        let mut tried = Tried::default();
        loop {
            let number = next.fetch_add(1, Ordering::Relaxed);
            if number >= limit.load(Ordering::Relaxed) {
                return tried;
            }
            if let Err(difference) = tried.job(jobs[number]) {
                limit.fetch_min(number, Ordering::Relaxed);
                let mut found = found.lock().expect("no worker panicked");
                if found.as_ref().is_none_or(|(first, _)| number < *first) {
                    *found = Some((number, difference));
                }
            }
        }
    };
    let threads = std::thread::available_parallelism().map_or(1, |number| number.get());
    let mut tried = Tried::default();
    std::thread::scope(|scope| {
        let workers: Vec<_> = (0..threads).map(|_| scope.spawn(work)).collect();
        for worker in workers {
            tried.add(&worker.join().expect("a worker that ends"));
        }
    });
    if let Some((_, difference)) = found.into_inner().expect("no worker panicked") {
        println!("{difference}");
        return ExitCode::FAILURE;
    }
    println!(
        "texts: {} strings of bytes, {} of them UTF-8, {} queries, {} records read, 0 differences, {:.1} s",
        tried.strings,
        tried.texts,
        tried.queries,
        tried.records,
        started.elapsed().as_secs_f64()
    );
    ExitCode::SUCCESS
}
