//! Text in every place: each kind of bytes that are not UTF-8, and characters at the edges, in a record's topic and values
//! that count, in what of its properties is not judged, in a directory's topic, and in a query's topic and key. A record
//! that no append makes is one with other bytes of the same number written over it.

use model::interface::Sizes;

use crate::figures::Stretch;
use crate::judge::Check;
use crate::lent::Twin;
use crate::messages::{Draft, KEYS, LARGEST_TIME, TAGS, TOPICS};
use crate::operations::{Bench, DispatchCall, Operation, Question, QueueReading, State};
use crate::random::Random;
use crate::store::{row, Store, BLANK_MAGIC};
use crate::texts::{faulty_text, long_character, text, TextFault, Trial, CHARACTERS, LONGEST_RUN};

/// What is tried.
#[derive(Clone, Copy)]
enum Specimen {
    Fault(TextFault),
    Character(char),
}

const SPECIMENS: usize = TextFault::ALL.len() + CHARACTERS.len();

impl Specimen {
    fn all() -> Vec<Specimen> {
        let faults = TextFault::ALL.into_iter().map(Specimen::Fault);
        let characters = CHARACTERS.into_iter().map(Specimen::Character);
        faults.chain(characters).collect()
    }

    fn name(self) -> String {
        match self {
            Specimen::Fault(fault) => fault.name().to_string(),
            Specimen::Character(character) => format!("character {:X}", u32::from(character)),
        }
    }

    fn is_text(self) -> bool {
        matches!(self, Specimen::Character(_))
    }

    fn trial(self, random: &Random) -> Trial {
        match self {
            Specimen::Fault(fault) => Trial::of_fault(random, fault),
            Specimen::Character(character) => Trial::of_character(random, character),
        }
    }
}

/// Where it stands.
#[derive(Clone, Copy, PartialEq, Eq)]
enum Site {
    Topic,
    Tags,
    Keys,
    UniqueKey,
    OtherValue,
    Name,
    EarlierPair,
    MalformedPiece,
    DirectoryTopic,
    QueryTopic,
    QueryKey,
}

impl Site {
    const ALL: [Site; 11] = [
        Site::Topic,
        Site::Tags,
        Site::Keys,
        Site::UniqueKey,
        Site::OtherValue,
        Site::Name,
        Site::EarlierPair,
        Site::MalformedPiece,
        Site::DirectoryTopic,
        Site::QueryTopic,
        Site::QueryKey,
    ];

    fn name(self) -> &'static str {
        match self {
            Site::Topic => "in a topic",
            Site::Tags => "in TAGS",
            Site::Keys => "in KEYS",
            Site::UniqueKey => "in UNIQ_KEY",
            Site::OtherValue => "in another property",
            Site::Name => "in a property's name",
            Site::EarlierPair => "in an earlier pair",
            Site::MalformedPiece => "in a malformed piece",
            Site::DirectoryTopic => "in a directory's topic",
            Site::QueryTopic => "in a query's topic",
            Site::QueryKey => "in a query's key",
        }
    }

    /// "Values of properties that we do not use, earlier pairs of a name and directory topics are not judged."
    fn judged(self) -> bool {
        !matches!(
            self,
            Site::OtherValue
                | Site::Name
                | Site::EarlierPair
                | Site::MalformedPiece
                | Site::DirectoryTopic
        )
    }

    fn in_query(self) -> bool {
        matches!(self, Site::QueryTopic | Site::QueryKey)
    }
}

/// Transaction types, as bits of the system flag.
const TYPES: [u64; 4] = [0, 4, 8, 12];

/// How often each specimen was tried, by site and transaction type (a query has none), and by the number of ASCII bytes
/// right before it.
#[derive(Clone)]
pub struct TrialCounts {
    sites: [[[u64; TYPES.len()]; Site::ALL.len()]; SPECIMENS],
    runs: [[u64; LONGEST_RUN as usize + 1]; SPECIMENS],
}

impl Default for TrialCounts {
    fn default() -> TrialCounts {
        TrialCounts {
            sites: [[[0; TYPES.len()]; Site::ALL.len()]; SPECIMENS],
            runs: [[0; LONGEST_RUN as usize + 1]; SPECIMENS],
        }
    }
}

impl TrialCounts {
    pub fn add(&mut self, other: &TrialCounts) {
        let sites = self.sites.iter_mut().flatten().flatten();
        for (count, other_count) in sites.zip(other.sites.iter().flatten().flatten()) {
            *count += other_count;
        }
        let runs = self.runs.iter_mut().flatten();
        for (count, other_count) in runs.zip(other.runs.iter().flatten()) {
            *count += other_count;
        }
    }

    /// Every count that must not be 0, with its name.
    fn each(&self) -> Vec<(String, u64)> {
        let mut each = Vec::new();
        for (number, specimen) in Specimen::all().into_iter().enumerate() {
            let name = specimen.name();
            for (site, counts) in Site::ALL.into_iter().zip(&self.sites[number]) {
                for (kind, count) in TYPES.into_iter().zip(counts) {
                    if !site.in_query() {
                        each.push((format!("{name} {} of type {kind}", site.name()), *count));
                    } else if kind == 0 {
                        each.push((format!("{name} {}", site.name()), *count));
                    }
                }
            }
            for (run, count) in self.runs[number].iter().enumerate() {
                each.push((format!("{name} behind {run} ASCII bytes"), *count));
            }
        }
        each
    }

    pub fn said(&self) -> String {
        let least = self.each().into_iter().map(|(_, count)| count).min();
        format!(
            "texts: {} faults and {} characters, each at {} places, in records of {} types, behind 0 to {LONGEST_RUN} ASCII \
             bytes, {} times and more",
            TextFault::ALL.len(),
            CHARACTERS.len(),
            Site::ALL.len(),
            TYPES.len(),
            least.unwrap_or(0)
        )
    }

    pub fn missed(&self) -> Vec<String> {
        let each = self.each().into_iter();
        each.filter(|(_, count)| *count == 0)
            .map(|(name, _)| name)
            .collect()
    }
}

/// Each specimen at some site, and a character across two texts.
pub fn trials(bench: &mut Bench, random: &Random) -> Check<()> {
    for (number, specimen) in Specimen::all().into_iter().enumerate() {
        let place = random.below(Site::ALL.len() as u64) as usize;
        let site = Site::ALL[place];
        let trial = specimen.trial(random);
        let kind = if site.in_query() {
            query_trial(bench, random, specimen, site, &trial.bytes)?;
            0
        } else {
            let kind = random.below(TYPES.len() as u64) as usize;
            record_trial(bench, random, specimen, site, TYPES[kind], &trial.bytes)?;
            kind
        };
        bench.counts.trials.sites[number][place][kind] += 1;
        bench.counts.trials.runs[number][trial.run as usize] += 1;
    }
    split_record(bench, random)
}

/// Properties around one text: what stands before it and behind it.
struct Frame {
    before: Vec<u8>,
    behind: Vec<u8>,
}

impl Frame {
    /// Around a text at a site of a record's properties.
    fn of(random: &Random, site: Site) -> Frame {
        const THREE: [&[u8]; 3] = [b"TAGS", b"KEYS", b"UNIQ_KEY"];
        let pair = |name: &[u8], value: &[u8]| [name, b"\x01", value].concat();
        // The name that the text concerns: no pair of it may stand behind the text.
        let name = match site {
            Site::Tags => THREE[0],
            Site::Keys => THREE[1],
            Site::UniqueKey => THREE[2],
            _ => random.pick(&THREE),
        };
        let others = |random: &Random| -> Vec<Vec<u8>> {
            let mut pieces = Vec::new();
            for _ in 0..random.below(3) {
                let other = random.pick(&THREE);
                pieces.push(match random.below(6) {
                    0 => b"WAIT\x01true".to_vec(),
                    1 => Vec::new(),
                    // No pairs.
                    2 => name.to_vec(),
                    3 => pair(name, b""),
                    4 => pair(b"", b"\xFF"),
                    _ if other != name => pair(other, random.pick(&TAGS)),
                    _ => b"KEYSX\x01\xC3".to_vec(),
                });
            }
            pieces
        };
        let mut before = others(random);
        let mut behind = others(random);
        let bad = faulty_text(random, 4);
        let (start, end) = match site {
            Site::Tags | Site::Keys | Site::UniqueKey => {
                if random.one_in(3) {
                    let value = random.pick(&[&b"a"[..], b"\xFF", b"\xC3\xA9", &bad]);
                    before.push(pair(name, value));
                }
                (pair(name, b""), Vec::new())
            }
            Site::OtherValue => {
                let other = random.pick(&[
                    &b"WAIT"[..],
                    b"TAG",
                    b"keys",
                    b"KEYSX",
                    b"UNIQ_KEYS",
                    b"\xEF\xBB\xBFKEYS",
                    b"\xFFTAGS",
                ]);
                (pair(other, b""), Vec::new())
            }
            Site::Name => {
                let start = random.pick(&[&b""[..], b"X", name]);
                let value = random.pick(&[&b"a"[..], b"\xFF", &bad]);
                (start.to_vec(), pair(b"", value))
            }
            Site::EarlierPair => {
                behind.push(pair(name, random.pick(&KEYS)));
                behind.extend(others(random));
                (pair(name, b""), Vec::new())
            }
            // A malformed piece.
            _ => match random.below(6) {
                0 => (Vec::new(), Vec::new()),
                1 => (name.to_vec(), Vec::new()),
                2 => (pair(b"", b""), Vec::new()),
                3 => (pair(name, b""), pair(b"", b"")),
                4 => (pair(name, b"a\x01"), Vec::new()),
                _ => (pair(name, b"\x01"), Vec::new()),
            },
        };
        let mut before = before.join(&2);
        if !before.is_empty() {
            before.push(2);
        }
        before.extend(start);
        behind.insert(0, end);
        let mut behind = behind.join(&2);
        if random.one_in(2) {
            behind.push(2);
        }
        Frame { before, behind }
    }

    fn around(&self, text: &[u8]) -> Vec<u8> {
        [&self.before, text, &self.behind].concat()
    }
}

/// A record with the specimen at its site, appended, and where it stands in the log already read, dispatched, reported and
/// listed.
fn record_trial(
    bench: &mut Bench,
    random: &Random,
    specimen: Specimen,
    site: Site,
    kind: u64,
    bytes: &[u8],
) -> Check<()> {
    let sound = specimen.is_text() || !site.judged();
    let length = bytes.len() as u64;
    let plain = text(random, length);
    let frame = Frame::of(random, site);
    let usual_topic = random.pick(&TOPICS);
    let body_length = random.below(20);
    let body = random.bytes(body_length);
    let draft_of = |text: &[u8]| Draft {
        queue_id: 7,
        system_flag: kind | random.pick(&[0, 0, 1, 64, 0x8000_0000]),
        body: body.clone(),
        properties: match site {
            Site::Topic | Site::DirectoryTopic => b"KEYS\x01a".to_vec(),
            _ => frame.around(text),
        },
        ..Draft::least(if site == Site::Topic {
            text
        } else {
            usual_topic
        })
    };
    let draft = draft_of(bytes);
    let plain = Draft {
        system_flag: draft.system_flag,
        ..draft_of(&plain)
    };
    let s = random.pick(&[1_024, 1_025, 1_100, 2_048]);
    let sizes = Sizes {
        segment_size: s,
        first_position: 0,
        queue_entries: 2,
        slot_count: 7,
        item_count: 64,
    };
    let name = format!("{} {}", specimen.name(), site.name());
    let said = |what: &str| format!("{what} of a record with a {name}");

    // A good record before it at some rate, then one that has text of as many bytes.
    let mut log = Twin::new(&random.bytes(s));
    let mut end = 0;
    let before = random.below(2);
    if before > 0 {
        let first = Draft::least(b"T");
        let answer = bench.append(&mut log, &sizes, &first.message(), &mut end)?;
        bench.expect(
            Operation::Append,
            "append of a good record",
            "answer",
            answer,
            0,
        )?;
    }
    let position = end;
    let mut appended = log.clone();
    let answer = bench.append(&mut log, &sizes, &plain.message(), &mut end)?;
    let call = format!("append of a record without a {name}");
    bench.expect(Operation::Append, &call, "answer", answer, 0)?;

    let mut write_position = position;
    let answer = bench.append(&mut appended, &sizes, &draft.message(), &mut write_position)?;
    let expected = if sound { 0 } else { 5 };
    bench.expect(
        Operation::Append,
        &said("append"),
        "answer",
        answer,
        expected,
    )?;

    write_over(&mut log, position, &draft);
    if sound {
        let changed = log.get().iter().zip(appended.get()).filter(|(a, b)| a != b);
        let changed = changed.count() as u64;
        bench.expect(
            Operation::Append,
            &said("append"),
            "bytes changed",
            changed,
            0,
        )?;
    }

    // Whole below the readable end, and but for one byte.
    let mut rows = vec![row(b"T", 0), row(&draft.topic, 7)];
    if site == Site::DirectoryTopic {
        rows.insert(random.below(3) as usize, row(bytes, 7));
    }
    let own_row = rows.iter().position(|own| *own == row(&draft.topic, 7));
    let directory = Twin::new(&rows.concat());
    let mut dispatched = None;
    for (readable_end, expected) in [(end - 1, 8), (end, if sound { 0 } else { 10 })] {
        let (answer, _) = bench.read_record(&log, &sizes, position, readable_end)?;
        let call = said("record reading");
        bench.expect(Operation::ReadRecord, &call, "answer", answer, expected)?;

        let reported = bench.report(&Stretch {
            log: &log,
            sizes,
            directory: &directory,
            position: 0,
            readable_end,
        })?;
        let call = said("report");
        bench.expect(
            Operation::Report,
            &call,
            "answer",
            reported.answer,
            expected,
        )?;

        let mut state = State {
            progress: Twin::new(&[0; 17]),
            queues: Twin::new(&random.bytes(20 * 2 * rows.len() as u64)),
            index: Twin::zeros(Store::index_length(sizes.slot_count, sizes.item_count)),
        };
        let dispatch = DispatchCall {
            log: &log,
            sizes,
            readable_end,
            directory: &directory,
            budget: u64::MAX,
        };
        let (answer, steps) = bench.dispatch(&dispatch, &mut state)?;
        let call = said("dispatch");
        bench.expect(Operation::Dispatch, &call, "answer", answer, expected)?;
        let done = before + u64::from(expected == 0);
        bench.expect(Operation::Dispatch, &call, "steps", steps, done)?;
        dispatched = Some(state);
    }

    let mut segment = log.get().to_vec();
    let at = end as usize;
    segment[at..at + 4].copy_from_slice(&((s - end) as u32).to_be_bytes());
    segment[at + 4..at + 8].copy_from_slice(&BLANK_MAGIC);
    let answer = bench.list(&segment, 65_536)?;
    let expected = if sound { 0 } else { 10 };
    bench.expect(
        Operation::List,
        &said("listing"),
        "answer",
        answer,
        expected,
    )?;

    // What was dispatched is found by its text.
    let state = dispatched.expect("dispatched twice");
    if sound && kind != 12 && matches!(site, Site::Keys | Site::UniqueKey) {
        let parts = bytes.split(|byte| *byte == b' ' && site == Site::Keys);
        for key in parts.filter(|part| !part.is_empty()) {
            let (_, found) = bench.query(&Question {
                index: &state.index,
                sizes,
                topic: &draft.topic,
                key,
                first_time: 0,
                last_time: LARGEST_TIME,
                wanted: 1,
                places: 1,
            })?;
            let call = said("query by the key");
            bench.expect(Operation::Query, &call, "positions", found.positions, 1)?;
        }
    }
    if sound && matches!(kind, 0 | 8) && site == Site::Tags {
        let tag_code = bench.tag_code(bytes)?;
        let mut counts = [0; 16];
        counts.copy_from_slice(&state.progress.get()[1..]);
        let (_, found) = bench.read_queue(&QueueReading {
            queues: &state.queues,
            sizes,
            directory: &directory,
            counts,
            row: own_row.expect("it is listed") as u64,
            start: 0,
            wanted: 1,
            tag_given: 1,
            tag_code,
            places: 1,
        })?;
        let call = said("queue reading by the tag");
        bench.expect(Operation::ReadQueue, &call, "found", found, 1)?;
    }
    Ok(())
}

/// Writes topic and properties over those, of the same lengths, of the record at a position of a log from 0 on.
fn write_over(log: &mut Twin<u8>, position: u64, draft: &Draft) {
    let topic_at = position as usize + 89 + draft.body.len();
    log.set(topic_at, &draft.topic);
    log.set(topic_at + draft.topic.len() + 2, &draft.properties);
}

/// A long character in two parts, neither of them text.
fn split_character(random: &Random) -> (Vec<u8>, Vec<u8>) {
    let mut head = long_character(random).to_string().into_bytes();
    let tail = head.split_off(random.between(1, head.len() as u64 - 1) as usize);
    (head, tail)
}

/// A record with a character across two of its topic and its values that count. Each is judged by itself: what is whole in
/// both together is not text in either.
fn split_record(bench: &mut Bench, random: &Random) -> Check<()> {
    const NAMES: [&[u8]; 3] = [b"TAGS", b"KEYS", b"UNIQ_KEY"];
    // Topic and the three values, as they are and as text of the same lengths.
    let mut split: [Vec<u8>; 4] = [(); 4].map(|_| {
        let length = random.between(1, 20);
        text(random, length)
    });
    let first = random.below(4) as usize;
    let second = (first + random.between(1, 3) as usize) % 4;
    let (head, tail) = split_character(random);
    split[first].extend(head);
    split[second].splice(0..0, tail);
    let plain = split.each_ref().map(|part| text(random, part.len() as u64));
    // The values in any order.
    let from = random.below(3) as usize;
    let back = random.one_in(2);
    let draft_of = |parts: &[Vec<u8>; 4]| {
        let mut pieces: Vec<Vec<u8>> = (from..from + 3)
            .map(|number| [NAMES[number % 3], b"\x01", &parts[1 + number % 3]].concat())
            .collect();
        if back {
            pieces.reverse();
        }
        Draft {
            properties: pieces.join(&2),
            ..Draft::least(&parts[0])
        }
    };
    let draft = draft_of(&split);
    let sizes = Sizes {
        segment_size: 1_024,
        ..Sizes::default()
    };
    let mut log = Twin::new(&random.bytes(sizes.segment_size));
    let mut end = 0;
    let answer = bench.append(&mut log, &sizes, &draft_of(&plain).message(), &mut end)?;
    let call = "append of a good record";
    bench.expect(Operation::Append, call, "answer", answer, 0)?;
    let answer = bench.append(&mut log, &sizes, &draft.message(), &mut 0)?;
    let call = "append of a record with a character across two texts";
    bench.expect(Operation::Append, call, "answer", answer, 5)?;
    write_over(&mut log, 0, &draft);
    let (answer, _) = bench.read_record(&log, &sizes, 0, end)?;
    let call = "record reading of a record with a character across two texts";
    bench.expect(Operation::ReadRecord, call, "answer", answer, 10)
}

/// A query with the specimen as topic or key, and one with a character across both.
fn query_trial(
    bench: &mut Bench,
    random: &Random,
    specimen: Specimen,
    site: Site,
    bytes: &[u8],
) -> Check<()> {
    let sizes = Sizes {
        slot_count: 7,
        item_count: 9,
        ..Sizes::default()
    };
    let index = Twin::zeros(Store::index_length(sizes.slot_count, sizes.item_count));
    let mut ask = |topic: &[u8], key: &[u8], name: &str, expected: u32| -> Check<()> {
        let (answer, _) = bench.query(&Question {
            index: &index,
            sizes,
            topic,
            key,
            first_time: 0,
            last_time: LARGEST_TIME,
            wanted: 1,
            places: 1,
        })?;
        let call = format!("query with a {name}");
        bench.expect(Operation::Query, &call, "answer", answer, expected)
    };
    let expected = if specimen.is_text() { 0 } else { 17 };
    let name = format!("{} {}", specimen.name(), site.name());
    if site == Site::QueryTopic {
        ask(bytes, random.pick(&KEYS), &name, expected)?;
    } else {
        ask(random.pick(&TOPICS), bytes, &name, expected)?;
    }
    let (head, tail) = split_character(random);
    let (before, behind) = (random.below(LONGEST_RUN), random.below(LONGEST_RUN));
    let topic = [text(random, before), head].concat();
    let key = [tail, text(random, behind)].concat();
    ask(&topic, &key, "character across topic and key", 17)
}
