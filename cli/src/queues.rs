//! Consume queues of a store folder: consumequeue/TOPIC/QUEUE/ with files of 20-byte entries.

use crate::failure::{fault, usage, Failure};
use crate::files::{self, Refused, Unfit};
use crate::log::numbered_name;
use crate::map::View;
use crate::text::{grouped, shown, shown_path, NoText};
use std::cmp::Ordering;
use std::collections::HashMap;
use std::ffi::OsStr;
use std::fs;
use std::os::unix::ffi::OsStrExt;
use std::path::{Path, PathBuf};
use swistopal::{Message, ENTRY_BYTES};

/// Bytes of an entry.
pub const ENTRY: usize = ENTRY_BYTES as usize;
pub const MOST_ENTRIES: u64 = 300_000;
pub const MOST_QUEUES: usize = 16;
pub const FIRST_FILE: &str = "00000000000000000000";
/// RocketMQ fills places before a queue's first entry with entries of this size.
pub const NO_RECORD: u32 = 0x7fff_ffff;

/// A queue's name.
#[derive(Clone, PartialEq, Eq, PartialOrd, Ord, Hash)]
pub struct Queue {
    pub topic: Vec<u8>,
    pub id: u32,
}

impl Queue {
    /// That of a record. The archive reads none with an id of more than 31 bits.
    pub fn of(message: &Message) -> Queue {
        Queue {
            topic: message.topic.to_vec(),
            id: message.fields.queue_id as u32,
        }
    }

    pub fn is_of(&self, message: &Message) -> bool {
        u64::from(self.id) == message.fields.queue_id && self.topic == message.topic
    }

    pub fn shown(&self) -> String {
        format!("{}/{}", shown(&self.topic), self.id)
    }

    /// Its folder. A topic from a log may be any text; only one that is a folder's name may become a path.
    pub fn folder(&self, consumequeue: &Path) -> Result<PathBuf, Failure> {
        let topic = &self.topic;
        let no_name = topic.is_empty() || topic == b"." || topic == b"..";
        if no_name || topic.contains(&b'/') || topic.contains(&0) {
            return fault(format!(
                "topic {}: it cannot be the name of a folder",
                shown(topic)
            ));
        }
        let topic = OsStr::from_bytes(topic);
        Ok(consumequeue.join(topic).join(self.id.to_string()))
    }
}

/// Queues in the order in which they were met.
#[derive(Default)]
pub struct Numbered {
    pub list: Vec<Queue>,
    numbers: HashMap<Vec<u8>, HashMap<u64, usize>>,
}

impl Numbered {
    /// How many queues are compared one by one before others are looked up.
    const FEW: usize = 16;

    /// The number of a record's queue, from 0.
    pub fn number(&self, message: &Message) -> Option<usize> {
        let few = &self.list[..self.list.len().min(Self::FEW)];
        let among_few = few.iter().position(|queue| queue.is_of(message));
        among_few.or_else(|| {
            let ids = self.numbers.get(message.topic)?;
            ids.get(&message.fields.queue_id).copied()
        })
    }

    pub fn add(&mut self, queue: Queue) -> usize {
        let number = self.list.len();
        let ids = self.numbers.entry(queue.topic.clone()).or_default();
        ids.insert(queue.id.into(), number);
        self.list.push(queue);
        number
    }
}

/// One file of a queue.
pub struct QueueFile {
    /// Its path as it is shown.
    pub place: String,
    /// The number of its first entry.
    pub first: u64,
    pub bytes: View,
    pub entries: u64,
    /// Entries in use: those before the first one without a size.
    pub count: u64,
}

impl QueueFile {
    /// Places at the start that RocketMQ filled without a record.
    pub fn without_record(&self) -> u64 {
        let sizes = (0..self.count).map(|number| size(&self.bytes, number));
        sizes.take_while(|size| *size == NO_RECORD).count() as u64
    }

    /// What an entry says, if it is one of this file.
    pub fn entry(&self, number: u64) -> Option<QueueEntry> {
        let place = number.checked_sub(self.first)?;
        let from = usize::try_from(place).ok()?.checked_mul(ENTRY)?;
        let bytes = self.bytes.get(from..)?.first_chunk()?;
        Some(QueueEntry::of(bytes))
    }

    /// The number behind its last entry.
    pub fn end(&self) -> u64 {
        self.first + self.entries
    }

    /// The first entry that is not empty, among its entries from one on.
    fn not_empty_from(&self, entry: u64) -> Option<u64> {
        let from = entry * ENTRY_BYTES;
        let at = not_zero(&self.bytes[from as usize..])? as u64;
        Some(self.first + (from + at) / ENTRY_BYTES)
    }

    /// What stands behind its first entry without a size, here or in the next file.
    fn hole(&self, next: Option<&QueueFile>) -> Option<String> {
        let next = next.filter(|_| self.count < self.entries);
        let again = self.not_empty_from(self.count);
        let again = again.or_else(|| next?.not_empty_from(0))?;
        let (place, empty) = (&self.place, self.first + self.count);
        let last = self.end() - 1;
        Some(format!(
            "{place}: the size of entry {empty} is 0, but bytes that are not zero stand from entry {again} on; \
             entries {empty} to {last} are not shown"
        ))
    }

    /// How the next file does not start where this one ends.
    fn seam(&self, next: &QueueFile) -> Option<String> {
        let (place, first, end) = (&next.place, next.first, self.end());
        match first.cmp(&end) {
            Ordering::Equal => None,
            Ordering::Greater => Some(format!(
                "{place}: it starts with entry {first}, but the file before it ends with entry {}; entries {end} to {} are not shown",
                end - 1,
                first - 1
            )),
            Ordering::Less => Some(format!(
                "{place}: it starts with entry {first}, but the file before it goes on to entry {}",
                end - 1
            )),
        }
    }
}

/// How many entries a queue has by its files; those of files that were removed count.
pub fn count(files: &[QueueFile]) -> Option<u64> {
    let in_use = files.iter().rev().find(|file| file.count > 0);
    let last = in_use.or(files.first())?;
    Some(last.first + last.count)
}

/// What is wrong with a queue's files: holes, files that are missing, files that overlap.
pub fn faults(files: &[QueueFile]) -> Vec<String> {
    let mut faults = Vec::new();
    for (number, file) in files.iter().enumerate() {
        let next = files.get(number + 1);
        faults.extend(file.hole(next));
        faults.extend(next.and_then(|next| file.seam(next)));
    }
    faults
}

/// Where the first byte stands that is not zero. Blocks are compared first: most of a queue file may be zeros.
fn not_zero(bytes: &[u8]) -> Option<usize> {
    const ZEROS: [u8; 4096] = [0; 4096];
    let mut blocks = bytes.chunks(ZEROS.len());
    let block = blocks.position(|block| *block != ZEROS[..block.len()])?;
    let from = block * ZEROS.len();
    let at = bytes[from..].iter().position(|byte| *byte != 0)?;
    Some(from + at)
}

fn size(bytes: &[u8], entry: u64) -> u32 {
    let place = (entry * ENTRY_BYTES) as usize + 8;
    let size = bytes[place..place + 4].try_into();
    u32::from_be_bytes(size.expect("four bytes"))
}

/// What an entry says of its record.
#[derive(Clone, Copy, PartialEq, Eq)]
pub struct QueueEntry {
    pub position: u64,
    pub size: u32,
    pub code: u64,
}

impl QueueEntry {
    pub fn of(bytes: &[u8; ENTRY]) -> QueueEntry {
        let [position, code] = [&bytes[..8], &bytes[12..]]
            .map(|part| u64::from_be_bytes(part.try_into().expect("eight bytes")));
        let size = u32::from_be_bytes(bytes[8..12].try_into().expect("four bytes"));
        QueueEntry {
            position,
            size,
            code,
        }
    }
}

fn open_file(path: &Path, first: u64) -> Result<QueueFile, Refused> {
    let place = shown_path(path);
    let (file, length) = files::open(path)?;
    let entries = length / ENTRY_BYTES;
    if !length.is_multiple_of(ENTRY_BYTES) || entries == 0 {
        let sentence = format!(
            "{place}: {} bytes are no queue file; one has 20 for each of 1 to {} entries",
            grouped(length),
            grouped(MOST_ENTRIES)
        );
        return Err(Refused::new(Unfit::Content, sentence));
    }
    if entries > MOST_ENTRIES {
        let (entries, most) = (grouped(entries), grouped(MOST_ENTRIES));
        let sentence =
            format!("{place}: {entries} entries; this tool reads queue files of {most} at most");
        return Err(Refused::new(Unfit::Limit, sentence));
    }
    let bytes = View::of_file(&file, length as usize)
        .map_err(|error| Refused::new(Unfit::Unreadable, format!("cannot map {place}: {error}")))?;
    let in_use = (0..entries).take_while(|number| size(&bytes, *number) != 0);
    let count = in_use.count() as u64;
    Ok(QueueFile {
        place,
        first,
        bytes,
        entries,
        count,
    })
}

/// A queue's files in order; the first that cannot be read ends it.
pub fn open(store: &Path, queue: &Queue) -> Result<Vec<QueueFile>, Failure> {
    let opened = open_each(store, queue)?;
    opened.into_iter().map(|file| Ok(file?)).collect()
}

/// A queue's files in order, and why others could not be opened.
pub fn open_each(store: &Path, queue: &Queue) -> Result<Vec<Result<QueueFile, Refused>>, Failure> {
    let folder = queue.folder(&store.join("consumequeue"))?;
    let paths = match files::within(&folder) {
        Ok(paths) => paths,
        Err(refused) => return Ok(vec![Err(refused)]),
    };
    let mut found = Vec::new();
    for path in paths {
        let name = path.file_name().and_then(OsStr::to_str);
        if let Some(first) = name.and_then(numbered_name) {
            found.push((first / ENTRY_BYTES, path));
        }
    }
    found.sort();
    let opened = found.iter().map(|(first, path)| open_file(path, *first));
    Ok(opened.collect())
}

/// The queues that have a folder, by name.
pub fn on_disk(store: &Path) -> Result<Vec<Queue>, Failure> {
    let mut queues = Vec::new();
    for topic in folders(&store.join("consumequeue"))? {
        for id in folders(&topic)? {
            let name = id.file_name().and_then(OsStr::to_str);
            let id = name.and_then(crate::args::number);
            if let Some(id) = id.and_then(|id| u32::try_from(id).ok()) {
                let topic = topic.file_name().unwrap_or_default().as_bytes().to_vec();
                queues.push(Queue { topic, id });
            }
        }
    }
    queues.sort();
    Ok(queues)
}

fn folders(folder: &Path) -> Result<Vec<PathBuf>, Refused> {
    let mut found = files::within(folder)?;
    found.retain(|path| path.is_dir());
    Ok(found)
}

/// A file of lines `TOPIC QUEUE`; the topic as the tool shows it.
pub fn read_list(path: &Path) -> Result<Vec<Queue>, Failure> {
    let bytes = match fs::read(path) {
        Ok(bytes) => bytes,
        Err(error) => return usage(format!("--queues {}: {error}", shown_path(path))),
    };
    let text = match str::from_utf8(&bytes) {
        Ok(text) => text,
        Err(_) => return no_text(path, &bytes),
    };
    let mut queues: Vec<Queue> = Vec::new();
    for (number, line) in text.lines().enumerate() {
        if line.trim().is_empty() {
            continue;
        }
        let place = format!("{}, line {}", shown_path(path), number + 1);
        let parts = line.rsplit_once(' ').and_then(|(topic, id)| {
            let topic = crate::text::of_shown(topic)?;
            let id = crate::args::number(id)?;
            Some((topic, u32::try_from(id).ok().filter(|id| *id < 1 << 31)?))
        });
        let Some((topic, id)) = parts.filter(|(topic, _)| (1..=127).contains(&topic.len())) else {
            return usage(format!(
                "{place}: a line is a topic of 1 to 127 bytes, a space and a queue from 0 to 2147483647"
            ));
        };
        let queue = Queue { topic, id };
        if queues.contains(&queue) {
            return usage(format!("{place}: {} stands twice", queue.shown()));
        }
        queues.push(queue);
    }
    if !(1..=MOST_QUEUES).contains(&queues.len()) {
        return usage(format!(
            "{}: {} queues; 1 to {MOST_QUEUES} can be listed",
            shown_path(path),
            queues.len()
        ));
    }
    Ok(queues)
}

/// That a list of queues is no text, and where.
fn no_text<T>(path: &Path, bytes: &[u8]) -> Result<T, Failure> {
    let mut lines = bytes.split(|byte| *byte == b'\n').zip(1..);
    let flaw = lines.find_map(|(line, number)| Some((NoText::of(line)?, number)));
    let (flaw, number) = flaw.expect("a line end is a character by itself");
    usage(format!(
        "{}, line {number}: it is no UTF-8, which topics are: at byte {}, the first one being 0, stands {}",
        shown_path(path),
        flaw.at,
        flaw.what()
    ))
}

/// The directory that the archive is lent.
pub fn directory(queues: &[Queue]) -> Vec<u8> {
    let rows: Vec<(&[u8], u32)> = queues
        .iter()
        .map(|queue| (queue.topic.as_slice(), queue.id))
        .collect();
    swistopal::directory(&rows)
}
