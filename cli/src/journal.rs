//! The journal of a rebuild: what the last batch changed of header and slots, and how far it came. Entries and items stand at
//! places of their own, which nothing counts before the journal does: they are on the disk before it. It is written whole,
//! brought to the disk and renamed into place before the first changed byte reaches the index; so at any moment the work files
//! are those before the batch, or the journal that makes them those after it stands there. Applying it again changes nothing.

use std::fs::File;
use std::io::{self, BufWriter, Write};
use std::os::unix::fs::FileExt;
use std::path::Path;
use swistopal::{LogPosition, Progress, QueueOffset};

const MAGIC: &[u8; 8] = b"SWISTJ02";
const NO_MORE: u8 = 0;
const PATCH: u8 = 1;

#[derive(Clone, Copy, PartialEq, Eq, Debug)]
pub enum Stage {
    Building = 0,
    /// Queue files and index are complete and being moved to their places.
    Placing = 1,
}

#[derive(Clone, Copy, PartialEq, Eq, Debug)]
pub struct State {
    pub stage: Stage,
    pub steps: u64,
    pub progress: Progress,
}

/// A sum over words of 8 bytes, the last one filled up with zeros; then over the number of bytes.
struct Sum {
    value: u64,
    length: u64,
    /// Bytes of a word that is not whole yet.
    begun: [u8; 8],
}

impl Sum {
    fn new() -> Sum {
        Sum {
            value: 0xcbf2_9ce4_8422_2325,
            length: 0,
            begun: [0; 8],
        }
    }

    fn add(&mut self, mut bytes: &[u8]) {
        let filled = (self.length % 8) as usize;
        self.length += bytes.len() as u64;
        if filled > 0 {
            let (head, rest) = bytes.split_at(bytes.len().min(8 - filled));
            self.begun[filled..filled + head.len()].copy_from_slice(head);
            if filled + head.len() < 8 {
                return;
            }
            self.word(self.begun);
            bytes = rest;
        }
        let mut words = bytes.chunks_exact(8);
        for word in &mut words {
            self.word(word.try_into().expect("eight bytes"));
        }
        let rest = words.remainder();
        self.begun = [0; 8];
        self.begun[..rest.len()].copy_from_slice(rest);
    }

    fn word(&mut self, word: [u8; 8]) {
        let mixed = (self.value ^ u64::from_be_bytes(word)).wrapping_mul(0x9e37_79b9_7f4a_7c15);
        self.value = mixed ^ (mixed >> 32);
    }

    fn end(mut self) -> u64 {
        self.word(self.begun);
        self.word(self.length.to_be_bytes());
        self.value
    }
}

pub struct Writer {
    out: BufWriter<File>,
    sum: Sum,
}

impl Writer {
    pub fn create(path: &Path, state: &State) -> io::Result<Writer> {
        let mut writer = Writer {
            out: BufWriter::new(File::create(path)?),
            sum: Sum::new(),
        };
        writer.put(MAGIC)?;
        let Progress { position, counts } = state.progress;
        for number in [state.stage as u64, state.steps, position.0] {
            writer.put(&number.to_be_bytes())?;
        }
        for count in counts {
            writer.put(&count.0.to_be_bytes())?;
        }
        Ok(writer)
    }

    /// Bytes of the index.
    pub fn patch(&mut self, place: u64, bytes: &[u8]) -> io::Result<()> {
        self.put(&[PATCH])?;
        self.put(&place.to_be_bytes())?;
        self.put(&(bytes.len() as u64).to_be_bytes())?;
        self.put(bytes)
    }

    /// Ends it and waits until the disk has it.
    pub fn finish(mut self) -> io::Result<()> {
        self.put(&[NO_MORE])?;
        self.out.write_all(&self.sum.end().to_be_bytes())?;
        self.out.into_inner()?.sync_all()
    }

    fn put(&mut self, bytes: &[u8]) -> io::Result<()> {
        self.sum.add(bytes);
        self.out.write_all(bytes)
    }
}

/// A journal that is whole.
pub struct Journal<'a> {
    pub state: State,
    patches: &'a [u8],
}

impl<'a> Journal<'a> {
    pub fn read(bytes: &'a [u8]) -> Option<Journal<'a>> {
        let (content, sum) = bytes.split_last_chunk::<8>()?;
        let mut expected = Sum::new();
        expected.add(content);
        if expected.end() != u64::from_be_bytes(*sum) {
            return None;
        }
        let mut rest = content.strip_prefix(MAGIC)?;
        let stage = match take_number(&mut rest)? {
            0 => Stage::Building,
            1 => Stage::Placing,
            _ => return None,
        };
        let steps = take_number(&mut rest)?;
        let mut progress = Progress::from_position(LogPosition(take_number(&mut rest)?));
        for count in &mut progress.counts {
            *count = QueueOffset(take_number(&mut rest)?);
        }
        let state = State {
            stage,
            steps,
            progress,
        };
        Some(Journal {
            state,
            patches: rest,
        })
    }

    pub fn apply(&self, index: &File) -> io::Result<()> {
        let mut rest = self.patches;
        while let Some((place, bytes)) = take_patch(&mut rest) {
            index.write_all_at(bytes, place)?;
        }
        index.sync_data()
    }
}

fn take_patch<'a>(rest: &mut &'a [u8]) -> Option<(u64, &'a [u8])> {
    *rest = rest.strip_prefix(&[PATCH])?;
    let place = take_number(rest)?;
    let length = usize::try_from(take_number(rest)?).ok()?;
    let (bytes, after) = rest.split_at_checked(length)?;
    *rest = after;
    Some((place, bytes))
}

fn take_number(rest: &mut &[u8]) -> Option<u64> {
    let (number, after) = rest.split_first_chunk::<8>()?;
    *rest = after;
    Some(u64::from_be_bytes(*number))
}
