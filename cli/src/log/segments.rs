//! The files of a commit log: which are there, how long a segment is, and which of them follow each other without a hole.

use crate::args::number;
use crate::failure::{fault, usage, At, Failure};
use crate::text::{grouped, shown_path};
use std::fs::{self, File, Metadata};
use std::io::ErrorKind;
use std::os::unix::fs::{FileExt, FileTypeExt};
use std::path::{Path, PathBuf};

/// A record's magic, its place and the place of the log position.
pub const MESSAGE: [u8; 4] = [0xda, 0xa3, 0x20, 0xa7];
pub const MAGIC: usize = 4;
pub const LOG_POSITION: usize = 28;
pub const SEGMENT_SIZES: (u64, u64) = (1024, 1 << 30);
pub const LAST_END: u64 = 1 << 40;

/// Names of segments and of queue files: 20 digits.
pub fn numbered_name(name: &str) -> Option<u64> {
    if name.len() == 20 {
        number(name)
    } else {
        None
    }
}

/// A file that can be read.
pub struct Segment {
    pub path: PathBuf,
    pub first: u64,
    pub length: u64,
    pub file: File,
}

/// What stands at the name of a segment.
pub struct Named {
    pub first: u64,
    /// Or why it cannot be read; the sentence begins with the file.
    pub segment: Result<Segment, String>,
}

impl Named {
    pub fn open(path: PathBuf, first: u64) -> Named {
        let opened = open(&path);
        let segment = opened.map(|(file, length)| Segment {
            path,
            first,
            length,
            file,
        });
        Named { first, segment }
    }
}

fn open(path: &Path) -> Result<(File, u64), String> {
    let sentence = |why: String| format!("{}: {why}", shown_path(path));
    let unreadable = |error| sentence(format!("it is there, but cannot be read: {error}"));
    // Before it is opened: a pipe would wait for somebody to write.
    let metadata = fs::metadata(path).map_err(unreadable)?;
    if let Some(other) = no_file(&metadata) {
        return Err(sentence(format!("{other} stands in a segment's place")));
    }
    // Reading alone: the originals are never touched.
    let file = File::open(path).map_err(unreadable)?;
    Ok((file, metadata.len()))
}

/// What something is, unless it is a file with bytes.
pub fn no_file(metadata: &Metadata) -> Option<&'static str> {
    let kind = metadata.file_type();
    if kind.is_file() {
        None
    } else if kind.is_dir() {
        Some("a folder")
    } else if kind.is_fifo() {
        Some("a pipe")
    } else {
        Some("a socket or a device")
    }
}

/// Where a segment without a name starts: its first record says it. Whether that is right is for the archive to judge.
pub fn first_by_record(head: &[u8], size: u64) -> u64 {
    let is_record = head
        .get(MAGIC..)
        .is_some_and(|rest| rest.starts_with(&MESSAGE));
    let own = head.get(LOG_POSITION..).and_then(<[u8]>::first_chunk);
    let own = own
        .filter(|_| is_record)
        .map(|own| u64::from_be_bytes(*own));
    let fits = |own: &u64| own.is_multiple_of(size) && own.saturating_add(size) <= LAST_END;
    own.filter(fits).unwrap_or(0)
}

/// One file. Its name is its first position, or its first record has it.
pub fn one(path: &Path, asked: Option<u64>) -> Result<(Named, u64), Failure> {
    let name = path.file_name().and_then(|name| name.to_str());
    let first = name.and_then(numbered_name);
    let mut named = Named::open(path.to_path_buf(), first.unwrap_or(0));
    let size = size(std::slice::from_ref(&named), asked)?;
    if let (None, Ok(segment)) = (first, &mut named.segment) {
        let mut head = [0; LOG_POSITION + 8];
        let read = segment.file.read_at(&mut head, 0).at("read", path)?;
        segment.first = first_by_record(&head[..read], size);
        named.first = segment.first;
    }
    Ok((named, size))
}

/// All that a store's folder has under names of segments, in order.
pub fn found(store: &Path) -> Result<Vec<Named>, Failure> {
    let folder = store.join("commitlog");
    match (fs::metadata(store), fs::metadata(&folder)) {
        (Err(error), _) if error.kind() == ErrorKind::NotFound => {
            return usage(format!("{}: there is no such folder", shown_path(store)));
        }
        (Ok(store_is), Err(error)) if error.kind() == ErrorKind::NotFound => {
            no_commitlog(store, no_file(&store_is))?
        }
        (_, Ok(folder_is)) if !folder_is.is_dir() => no_commitlog(store, None)?,
        (Ok(store_is), _) if !store_is.is_dir() => no_commitlog(store, no_file(&store_is))?,
        (is, folder_is) => {
            is.at("read", store)?;
            folder_is.at("read", &folder)?;
        }
    }
    let mut named = Vec::new();
    for entry in fs::read_dir(&folder).at("read", &folder)? {
        let entry = entry.at("read", &folder)?;
        let first = entry.file_name().to_str().and_then(numbered_name);
        if let Some(first) = first {
            named.push(Named::open(entry.path(), first));
        }
    }
    if named.is_empty() {
        return fault(format!(
            "{}: no segment in it; their names are positions of 20 digits",
            shown_path(folder)
        ));
    }
    named.sort_by_key(|named| named.first);
    Ok(named)
}

fn no_commitlog(store: &Path, is: Option<&str>) -> Result<(), Failure> {
    let place = shown_path(store);
    match is.filter(|is| *is != "a folder") {
        Some(is) => usage(format!("{place}: it is {is}, no folder")),
        None => usage(format!(
            "{place}: no folder commitlog in it; a store has commitlog, consumequeue and index"
        )),
    }
}

/// How long a segment is, as asked for or by the files that can be read.
pub fn size(named: &[Named], asked: Option<u64>) -> Result<u64, Failure> {
    let segments: Vec<&Segment> = named
        .iter()
        .filter_map(|named| named.segment.as_ref().ok())
        .collect();
    let Some(first) = segments.first() else {
        let sentences: Vec<&str> = named
            .iter()
            .filter_map(|named| named.segment.as_ref().err())
            .map(String::as_str)
            .collect();
        return fault(format!("no segment can be read: {}", sentences.join("; ")));
    };
    let size = asked.unwrap_or_else(|| size_by_files(&segments));
    let path = shown_path(&first.path);
    if !permitted(size) {
        let which = if size == first.length {
            ""
        } else {
            " up to the next file"
        };
        return fault(format!(
            "{path}: {} bytes{which} are no segment; one has {} to {}, and --segment-size tells how many",
            grouped(size),
            grouped(SEGMENT_SIZES.0),
            grouped(SEGMENT_SIZES.1)
        ));
    }
    if !first.first.is_multiple_of(size) {
        return fault(format!(
            "{path}: it starts at {}, which is no multiple of the segment size {size}; \
             if the file is cut short, --segment-size tells its whole length",
            first.first
        ));
    }
    Ok(size)
}

fn permitted(size: u64) -> bool {
    (SEGMENT_SIZES.0..=SEGMENT_SIZES.1).contains(&size)
}

/// The longest file's length, if every file starts at a multiple of it: others may be missing or cut short. Otherwise the
/// length that the first two files share, or the distance of their names.
fn size_by_files(segments: &[&Segment]) -> u64 {
    let longest = segments.iter().map(|segment| segment.length).max();
    let fits = |size: &u64| {
        let mut starts = segments.iter().map(|segment| segment.first);
        permitted(*size) && starts.all(|start| start.is_multiple_of(*size))
    };
    match (longest.filter(fits), segments) {
        (Some(longest), _) => longest,
        (None, [first, second, ..]) if second.length != first.length => second.first - first.first,
        (None, _) => segments[0].length,
    }
}

/// Segments that follow each other without a hole. Only the last one may be short.
pub struct Run {
    pub first: u64,
    pub segments: Vec<Segment>,
}

/// The files of a log as runs.
pub struct Runs {
    /// The first one is what is read without going on behind a fault. It has no segment if the first file has a fault.
    pub runs: Vec<Run>,
    pub faults: Vec<String>,
    /// What is beyond a limit of the archive, though it may be sound.
    pub limits: Vec<String>,
    /// Where the part of the log begins that is above the limit of positions.
    pub above: Option<u64>,
}

impl Runs {
    pub fn of(named: Vec<Named>, size: u64) -> Runs {
        let mut expected = named[0].first;
        let mut runs = Runs {
            runs: vec![Run {
                first: expected,
                segments: Vec::new(),
            }],
            faults: Vec::new(),
            limits: Vec::new(),
            above: None,
        };
        // Whether the next segment goes on where the one before it ends.
        let mut joined = true;
        for Named { first, segment } in named {
            if first.saturating_add(size) > LAST_END {
                runs.limits.push(above_limit(&name_of(&segment)));
                runs.above = Some(first);
                break;
            }
            if !first.is_multiple_of(size) {
                let name = name_of(&segment);
                runs.faults.push(format!(
                    "{name}: its name is no multiple of the segment size {size}; it is not read"
                ));
                continue;
            }
            match segment {
                Ok(segment) => {
                    joined &= runs.judge(&segment, expected, size);
                    let whole = segment.length >= size;
                    runs.add(segment, joined);
                    joined = whole;
                }
                Err(why) => {
                    runs.faults.push(why);
                    joined = false;
                }
            }
            expected = first + size;
        }
        runs
    }

    /// Tells what is wrong with a segment; whether it goes on from the one before it.
    fn judge(&mut self, segment: &Segment, expected: u64, size: u64) -> bool {
        let path = shown_path(&segment.path);
        let (length, whole) = (grouped(segment.length), grouped(size));
        if segment.first != expected {
            self.faults.push(format!(
                "{path}: the segment at {expected} is missing before it"
            ));
        }
        if segment.length > size {
            self.faults.push(format!(
                "{path}: {length} bytes, though a segment has {whole}; those behind are not read"
            ));
        }
        if segment.length < size {
            self.faults.push(format!(
                "{path}: {length} bytes of {whole}; it is cut short"
            ));
        }
        segment.first == expected && segment.length <= size
    }

    fn add(&mut self, segment: Segment, joined: bool) {
        let first = segment.first;
        match self.runs.last_mut() {
            Some(run) if joined => run.segments.push(segment),
            _ => self.runs.push(Run {
                first,
                segments: vec![segment],
            }),
        }
    }
}

/// The file, or why it cannot be read, which begins with it.
fn name_of(segment: &Result<Segment, String>) -> String {
    match segment {
        Ok(segment) => shown_path(&segment.path),
        Err(why) => why.clone(),
    }
}

fn above_limit(name: &str) -> String {
    format!(
        "{name}: it ends above 2^40 ({}), up to which this tool reads a log; it and all behind it are not read, though they \
         may be sound",
        grouped(LAST_END)
    )
}
