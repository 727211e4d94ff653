//! The commit log of a store folder, or one segment file, as runs of bytes.

mod before;
mod frame;
mod on;
mod segments;

pub use frame::BadText;
pub use on::{Cause, Met, Passed, Place, Skipped};
pub use segments::{numbered_name, LAST_END};

use crate::args::Args;
use crate::failure::{fault, usage, At, Failure};
use crate::map::{page_size, View};
use crate::note;
use crate::text::{counted, grouped};
use segments::{Run, Runs, Segment, SEGMENT_SIZES};
use std::io::{self, Read};
use std::ops::Deref;
use std::path::{Path, PathBuf};
use swistopal::{read_record, Answer, Entry, Figures, LogPosition, Reported, Sizes};

/// Segments whose size is no multiple of the page size cannot lie side by side as mappings; up to so many bytes are copied.
const COPY_LIMIT: u64 = 1 << 28;

pub struct Log {
    /// The first stretch is the log as far as its files are without a fault; the others stand behind one.
    stretches: Vec<Stretch>,
    /// Segment size and first position, of the first stretch; the others stay 0.
    pub sizes: Sizes,
    /// Of the first stretch.
    pub segments: u64,
    end_given: bool,
    /// Files of a wrong length, missing ones, those that cannot be read: what the log lacks though what is lent may be sound.
    pub faults: Vec<String>,
    /// What is not read because of a limit of the archive, and may be sound.
    pub limits: Vec<String>,
    /// Where the part of the log begins that is above the limit of positions.
    above: Option<LogPosition>,
}

/// Segments that follow each other, lent to the archive with their own first position.
struct Stretch {
    bytes: Bytes,
    sizes: Sizes,
    /// Where the files end, or what `--end` says.
    end: LogPosition,
    /// Its files, if they are mapped.
    paths: Vec<PathBuf>,
}

enum Bytes {
    Mapped(View),
    Copied(Vec<u8>),
}

impl Deref for Bytes {
    type Target = [u8];

    fn deref(&self) -> &[u8] {
        match self {
            Bytes::Mapped(view) => view,
            Bytes::Copied(bytes) => bytes,
        }
    }
}

/// Where reading ends, and why.
#[derive(Clone, Copy)]
pub struct End {
    pub position: LogPosition,
    /// 0: the log ends here, soundly.
    pub answer: Answer,
    pub why: Why,
}

#[derive(Clone, Copy, PartialEq, Eq)]
pub enum Why {
    /// The files or `--end` end here.
    Bytes,
    /// Zeros, as a preallocated segment has them, up to the files' end.
    Zeros,
    /// Zeros, but bytes that are not zero stand again from this position on.
    Gap(LogPosition),
    /// What stands here cannot be read.
    Stop,
    /// A record whose text is no UTF-8; nothing else is wrong with it.
    Text(BadText),
}

impl Log {
    /// Of a store folder, or of one file.
    pub fn open(args: &Args) -> Result<Log, Failure> {
        let place = args.place();
        let asked_size = args.number_within("--segment-size", SEGMENT_SIZES.0, SEGMENT_SIZES.1)?;
        let (named, size) = if place.is_file() {
            let (named, size) = segments::one(place, asked_size)?;
            (vec![named], size)
        } else {
            let named = segments::found(place)?;
            let size = segments::size(&named, asked_size)?;
            (named, size)
        };
        let runs = Runs::of(named, size);
        let segments = runs.runs[0].segments.len() as u64;
        let stretches = lend(runs.runs, size)?;
        let log = Log {
            sizes: stretches[0].sizes,
            stretches,
            segments,
            end_given: false,
            faults: runs.faults,
            limits: runs.limits,
            above: runs.above.map(LogPosition),
        };
        log.with_end(args)
    }

    /// Of standard input: one segment, or several of a given size side by side.
    pub fn of_input(args: &Args) -> Result<Log, Failure> {
        let asked_size = args.number_within("--segment-size", SEGMENT_SIZES.0, SEGMENT_SIZES.1)?;
        let mut bytes = Vec::new();
        let mut input = io::stdin().lock().take(SEGMENT_SIZES.1 + 1);
        let read = input.read_to_end(&mut bytes);
        read.at("read", Path::new("standard input"))?;
        let length = bytes.len() as u64;
        let size = asked_size.unwrap_or(length);
        if length > SEGMENT_SIZES.1 || size < SEGMENT_SIZES.0 {
            return fault(format!(
                "standard input: {} bytes are no segment; one has {} to {}, and --segment-size tells how many",
                grouped(length),
                grouped(SEGMENT_SIZES.0),
                grouped(SEGMENT_SIZES.1)
            ));
        }
        let segments = length.div_ceil(size).max(1);
        bytes.resize((segments * size) as usize, 0);
        let sizes = Sizes {
            segment_size: size,
            first_position: LogPosition(segments::first_by_record(&bytes, size)),
            ..Sizes::default()
        };
        let end = LogPosition(sizes.first_position.0 + length);
        let log = Log {
            stretches: vec![Stretch {
                bytes: Bytes::Copied(bytes),
                sizes,
                end,
                paths: Vec::new(),
            }],
            sizes,
            segments,
            end_given: false,
            faults: Vec::new(),
            limits: Vec::new(),
            above: None,
        };
        log.with_end(args)
    }

    fn with_end(mut self, args: &Args) -> Result<Log, Failure> {
        if let Some(end) = args.number("--end")? {
            self.cut(end)?;
        }
        Ok(self)
    }

    fn cut(&mut self, end: u64) -> Result<(), Failure> {
        let (first, files_end) = (self.first().0, self.files_end().0);
        if !(first..=files_end).contains(&end) {
            return usage(format!(
                "--end {end}: the log's files go from {first} to {files_end}"
            ));
        }
        let kept = self.stretch_number(LogPosition(end.saturating_sub(1)));
        self.stretches.truncate(kept + 1);
        let last = &mut self.stretches[kept];
        last.end.0 = last.end.0.min(end);
        self.end_given = true;
        Ok(())
    }

    pub fn bytes(&self) -> &[u8] {
        &self.stretches[0].bytes
    }

    pub fn first(&self) -> LogPosition {
        self.sizes.first_position
    }

    /// Where the first stretch ends: its files, or what `--end` says.
    pub fn end(&self) -> LogPosition {
        self.stretches[0].end
    }

    /// Where the last stretch ends.
    pub fn files_end(&self) -> LogPosition {
        self.stretches[self.stretches.len() - 1].end
    }

    /// Whether a position is in a part of the log that is above the limit of positions.
    pub fn is_above_limit(&self, position: LogPosition) -> bool {
        self.above.is_some_and(|above| above <= position)
    }

    /// What stands at a position, in whichever stretch.
    pub fn entry(&self, position: LogPosition) -> Result<Entry<'_>, Answer> {
        self.stretch_before(position).entry(position)
    }

    /// The last stretch that starts at a position or before it.
    fn stretch_before(&self, position: LogPosition) -> &Stretch {
        &self.stretches[self.stretch_number(position)]
    }

    fn stretch_number(&self, position: LogPosition) -> usize {
        let stretches = &self.stretches;
        let behind = stretches.partition_point(|stretch| stretch.first() <= position);
        behind.saturating_sub(1)
    }

    /// Reads from a position to the first stop; `each` sees what is read and goes on by answering true.
    pub fn walk(
        &self,
        from: LogPosition,
        mut each: impl FnMut(LogPosition, &Entry) -> Result<bool, Failure>,
    ) -> Result<End, Failure> {
        let stretch = &self.stretches[0];
        let mut position = from;
        loop {
            match stretch.entry(position) {
                Ok(entry) => {
                    if !each(position, &entry)? {
                        return Ok(End::stopped(position, Answer::BudgetSpent));
                    }
                    position.0 += entry.total();
                }
                Err(answer) => return Ok(self.end_at(position, answer)),
            }
        }
    }

    fn end_at(&self, position: LogPosition, answer: Answer) -> End {
        let stretch = &self.stretches[0];
        let (answer, why) = if position == stretch.end {
            (Answer::Done, Why::Bytes)
        } else if self.end_given || !stretch.zeros_at(position) {
            return self.stop_at(position, answer);
        } else {
            match stretch.data_after(position) {
                None => (Answer::Done, Why::Zeros),
                Some(again) => (answer, Why::Gap(again)),
            }
        };
        End {
            position,
            answer,
            why,
        }
    }

    /// What stands here cannot be read.
    fn stop_at(&self, position: LogPosition, answer: Answer) -> End {
        let text = self.bad_text(position, answer);
        End {
            position,
            answer,
            why: text.map_or(Why::Stop, Why::Text),
        }
    }

    /// That `--end` is inside a record, where reading ended for it.
    pub fn end_inside(&self, end: &End) -> Option<String> {
        let inside = self.end_given && end.answer == Answer::NotReadable;
        let (given, LogPosition(at)) = (self.end().0, end.position);
        inside.then(|| format!("--end {given} is inside the record at {at}"))
    }

    /// The archive's figures of what stands from one position to another. It was read before, and is in one segment.
    pub fn report(
        &self,
        from: LogPosition,
        to: LogPosition,
        directory: &[u8],
    ) -> Result<Figures, Failure> {
        let stretch = self.stretch_before(from);
        match swistopal::report(&stretch.bytes, &stretch.sizes, from, to, directory) {
            Ok(Reported {
                stop: Answer::Done,
                figures,
            }) => Ok(figures),
            Ok(Reported { stop, .. }) | Err(stop) => fault(format!(
                "a report from {} to {} answers {}: {stop}",
                from.0,
                to.0,
                stop.number()
            )),
        }
    }

    /// Total and magic are zero, as in a part of a segment that was never written.
    pub fn zeros_at(&self, position: LogPosition) -> bool {
        self.stretch_before(position).zeros_at(position)
    }
}

impl Stretch {
    fn first(&self) -> LogPosition {
        self.sizes.first_position
    }

    fn has(&self, position: LogPosition) -> bool {
        (self.first()..self.end).contains(&position)
    }

    fn entry(&self, position: LogPosition) -> Result<Entry<'_>, Answer> {
        // The archive takes no log without bytes.
        if self.bytes.is_empty() {
            return Err(Answer::NotReadable);
        }
        read_record(&self.bytes, &self.sizes, position, self.end)
    }

    /// The bytes from a position to the end.
    fn rest(&self, position: LogPosition) -> &[u8] {
        let first = self.first().0;
        match (position.0.checked_sub(first), self.end.0 - first) {
            (Some(from), to) if from <= to => &self.bytes[from as usize..to as usize],
            _ => &[],
        }
    }

    fn zeros_at(&self, position: LogPosition) -> bool {
        let rest = self.rest(position);
        !rest.is_empty() && rest.iter().take(8).all(|byte| *byte == 0)
    }

    /// The first byte from a position on that is not zero.
    fn data_after(&self, position: LogPosition) -> Option<LogPosition> {
        let rest = self.rest(position);
        let mut from = 0;
        // Whole blocks first: the rest of a preallocated segment is long.
        while let Some(block) = rest[from..].first_chunk::<4096>() {
            if *block != [0; 4096] {
                break;
            }
            from += block.len();
        }
        let found = rest[from..].iter().position(|byte| *byte != 0)?;
        Some(LogPosition(position.0 + (from + found) as u64))
    }
}

impl End {
    /// What stands here cannot be read, or was not asked for.
    pub fn stopped(position: LogPosition, answer: Answer) -> End {
        End {
            position,
            answer,
            why: Why::Stop,
        }
    }

    /// A sentence: where it ends and with which number.
    pub fn sentence(&self) -> String {
        let position = self.position.0;
        match self.why {
            Why::Bytes => format!("is sound up to its end at {position}"),
            Why::Zeros => format!("is sound up to {position}; only zeros follow"),
            Why::Gap(again) => format!(
                "stops at {position} with 10: zeros stand there, but other bytes again from {} on",
                again.0
            ),
            Why::Stop | Why::Text(_) => format!(
                "stops at {position} with {}: {}",
                self.answer.number(),
                self.reason()
            ),
        }
    }

    /// What the number says, and which text of a record is no UTF-8 where that is all that is wrong.
    pub fn reason(&self) -> String {
        match self.why {
            Why::Text(text) => format!("{}; {}", self.answer, text.sentence()),
            _ => self.answer.to_string(),
        }
    }

    pub fn sound(&self) -> bool {
        self.answer == Answer::Done
    }
}

/// Tells what the log lacks.
pub fn tell(faults: &[String]) {
    for fault in faults {
        note(fault);
    }
}

fn lend(runs: Vec<Run>, size: u64) -> Result<Vec<Stretch>, Failure> {
    let copied = !size.is_multiple_of(page_size());
    let segments: u64 = runs.iter().map(|run| run.segments.len() as u64).sum();
    if copied && segments * size > COPY_LIMIT {
        return fault(format!(
            "segments of {size} bytes, no multiple of the page size {}, are read up to {} bytes in all; these are {}",
            page_size(),
            grouped(COPY_LIMIT),
            counted(segments, "segment", "segments")
        ));
    }
    let mut stretches = Vec::new();
    for Run { first, segments } in runs {
        let last = segments.last();
        let end = last.map_or(first, |last| last.first + last.length.min(size));
        let (bytes, paths) = if segments.is_empty() || copied {
            (Bytes::Copied(copy(segments, size)?), Vec::new())
        } else {
            let paths = segments.iter().map(|segment| segment.path.clone());
            let paths = paths.collect();
            (Bytes::Mapped(map(segments, size)?), paths)
        };
        stretches.push(Stretch {
            bytes,
            paths,
            sizes: Sizes {
                segment_size: size,
                first_position: LogPosition(first),
                ..Sizes::default()
            },
            end: LogPosition(end),
        });
    }
    Ok(stretches)
}

fn map(segments: Vec<Segment>, size: u64) -> Result<View, Failure> {
    let path = segments[0].path.clone();
    let files = segments.into_iter();
    let files: Vec<_> = files
        .map(|segment| (segment.file, segment.length))
        .collect();
    View::of_files(&files, size).at("map", &path)
}

fn copy(segments: Vec<Segment>, size: u64) -> Result<Vec<u8>, Failure> {
    let mut bytes = Vec::with_capacity(segments.len() * size as usize);
    for segment in segments {
        let end = bytes.len() + size as usize;
        let read = segment.file.take(size).read_to_end(&mut bytes);
        read.at("read", &segment.path)?;
        bytes.resize(end, 0);
    }
    Ok(bytes)
}
