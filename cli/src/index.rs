//! The index files of a store folder, and how many slots and items one has: the file does not say it.

use crate::args::Args;
use crate::failure::{usage, Failure};
use crate::files::{self, Refused, Unfit};
use crate::map::View;
use crate::shell;
use crate::text::{grouped, shown_path};
use std::os::unix::ffi::OsStrExt;
use std::path::{Path, PathBuf};
use swistopal::Sizes;

pub const MOST_SLOTS: u64 = 5_000_000;
pub const MOST_ITEMS: u64 = 20_000_000;
/// The highest position that the archive takes.
const LAST_POSITION: u64 = 1 << 40;
const HEADER: u64 = 40;
const SLOT: u64 = 4;
const ITEM: u64 = 20;
const MOST_BYTES: u64 = HEADER + SLOT * MOST_SLOTS + ITEM * MOST_ITEMS;

const SIZES_UNKNOWN: &str =
    "its first and last item do not stand where its header says: it is damaged, or --slots is needed";

pub struct Index {
    pub name: String,
    pub bytes: View,
    /// How many slots and items it has; the others stay 0.
    pub sizes: Sizes,
    /// Why its sizes are only a guess.
    pub doubt: Option<String>,
}

impl Index {
    /// Whether it names positions above those that the archive takes: a limit of this tool, and no bad header.
    pub fn is_above_the_limit(&self) -> bool {
        let last = Bytes(&self.bytes).last_position();
        last.is_some_and(|last| (LAST_POSITION + 1..1 << 63).contains(&last))
    }

    /// Whether it has no item: it is new, or it follows a full one.
    pub fn is_empty(&self) -> bool {
        Bytes(&self.bytes).used() <= 1
    }
}

/// The index files that could be opened, and why others could not.
#[derive(Default)]
pub struct Opened {
    pub indexes: Vec<Index>,
    pub faults: Vec<String>,
}

/// Paths of the index files by name, which is by time. A folder is none.
pub fn paths(store: &Path) -> Result<Vec<PathBuf>, Refused> {
    let mut paths = named(store)?;
    // What cannot be asked is told when it is opened.
    paths.retain(|path| path.metadata().map_or(true, |found| found.is_file()));
    Ok(paths)
}

/// All that stands under an index's name: a time's 17 digits, more from the year 10000 on. A backup or a note is no index.
pub fn named(store: &Path) -> Result<Vec<PathBuf>, Refused> {
    let mut paths = files::within(&store.join("index"))?;
    paths.retain(|path| {
        let name = path.file_name().unwrap_or_default().as_bytes();
        name.len() >= 17 && name.iter().all(u8::is_ascii_digit)
    });
    Ok(paths)
}

/// Opens all that can be; a `--slots` that fits none of them is refused.
pub fn open_all(args: &Args) -> Result<Opened, Failure> {
    let store = args.place();
    if store.is_file() {
        return usage(format!("{}: a folder is needed", shown_path(store)));
    }
    let slots = args.number_within("--slots", 1, MOST_SLOTS)?;
    let mut opened = Opened::default();
    let mut refusal = None;
    for path in paths(store)? {
        match open(&path, slots) {
            Ok(Ok(index)) => opened.indexes.push(index),
            Ok(Err(Refused { sentence, .. })) => opened.faults.push(format!(
                "{sentence}; it is not asked; `swistopal check {}` says what to do",
                shell::place(store.as_os_str().as_bytes())
            )),
            Err(Failure::Usage(sentence)) => {
                opened.faults.push(format!("{sentence}; it is not asked"));
                refusal = Some(sentence);
            }
            Err(other) => return Err(other),
        }
    }
    // One that was begun anew and has no item yet has nothing to be asked for.
    if opened.indexes.iter().any(|index| !index.is_empty()) {
        opened.indexes.retain(|index| !index.is_empty());
    }
    match refusal {
        Some(sentence) if opened.indexes.is_empty() => usage(sentence),
        _ => Ok(opened),
    }
}

/// An index, or why it is none; the failure is of `--slots`.
pub fn open(path: &Path, slots: Option<u64>) -> Result<Result<Index, Refused>, Failure> {
    let (bytes, length) = match lend(path) {
        Ok(lent) => lent,
        Err(refused) => return Ok(Err(refused)),
    };
    let (sizes, sure) = match slots {
        Some(slots) => match sizes_of(length, slots) {
            Some(sizes) => (sizes, true),
            None => {
                return usage(format!(
                    "--slots {slots}: {} has {} bytes, not 40 + 4 K + 20 N",
                    shown_path(path),
                    grouped(length)
                ))
            }
        },
        None => match found_sizes(&bytes) {
            Some(found) => found,
            None => {
                let sentence = format!("{}: {}", shown_path(path), SIZES_UNKNOWN);
                return Ok(Err(Refused::new(Unfit::Content, sentence)));
            }
        },
    };
    let name = path.file_name().unwrap_or_default();
    let name = name.to_string_lossy().into_owned();
    let doubt = (!sure).then(|| {
        format!(
            "index {name}: {SIZES_UNKNOWN}; taken as {} slots and {} items",
            grouped(sizes.slot_count),
            grouped(sizes.item_count)
        )
    });
    Ok(Ok(Index {
        name,
        bytes,
        sizes,
        doubt,
    }))
}

/// The bytes of a file whose length an index may have.
fn lend(path: &Path) -> Result<(View, u64), Refused> {
    let (file, length) = files::open(path)?;
    let place = shown_path(path);
    if length > MOST_BYTES {
        let (length, most) = (grouped(length), grouped(MOST_BYTES));
        let sentence =
            format!("{place}: {length} bytes; this tool reads an index of {most} at most");
        return Err(Refused::new(Unfit::Limit, sentence));
    }
    if !length_possible(length) {
        let sentence = format!(
            "{place}: {} bytes are no index; one has 40 + 4 K + 20 N, K from 1 to {} and N from 2 to {}",
            grouped(length),
            grouped(MOST_SLOTS),
            grouped(MOST_ITEMS)
        );
        return Err(Refused::new(Unfit::Content, sentence));
    }
    match View::of_file(&file, length as usize) {
        Ok(bytes) => Ok((bytes, length)),
        Err(error) => {
            let sentence = format!("cannot map {place}: {error}");
            Err(Refused::new(Unfit::Unreadable, sentence))
        }
    }
}

fn length_possible(length: u64) -> bool {
    let least = HEADER + SLOT + 2 * ITEM;
    (least..=MOST_BYTES).contains(&length) && (length - HEADER).is_multiple_of(SLOT)
}

fn sizes_of(length: u64, slots: u64) -> Option<Sizes> {
    let items = length.checked_sub(HEADER + SLOT * slots)?;
    let fits = items.is_multiple_of(ITEM) && (2..=MOST_ITEMS).contains(&(items / ITEM));
    fits.then_some(Sizes {
        slot_count: slots,
        item_count: items / ITEM,
        ..Sizes::default()
    })
}

/// RocketMQ has four items for each slot: that is tried first. Otherwise the one number of slots for which the first and the
/// last item stand where they have to. Without one, four items for each slot are a guess, if the length allows it.
fn found_sizes(bytes: &[u8]) -> Option<(Sizes, bool)> {
    let length = bytes.len() as u64;
    let usual = sizes_of(length, (length - HEADER) / (SLOT + 4 * ITEM));
    let usual = usual.filter(|usual| usual.item_count == 4 * usual.slot_count);
    let candidates = || (1..=MOST_SLOTS).filter_map(|slots| sizes_of(length, slots));
    let index = Bytes(bytes);
    if index.used() <= 1 {
        // Nothing is in it, whatever its slots are.
        let any = usual.or_else(|| candidates().next());
        return any.map(|sizes| (sizes, true));
    }
    if let Some(usual) = usual.filter(|usual| index.fits(usual)) {
        return Some((usual, true));
    }
    let mut fitting = candidates().filter(|sizes| index.fits(sizes));
    match (fitting.next(), fitting.next()) {
        (Some(sizes), None) => Some((sizes, true)),
        _ => usual.map(|usual| (usual, false)),
    }
}

/// Fields of an index by their places, for finding its sizes and telling what changed or differs.
pub struct Bytes<'a>(pub &'a [u8]);

impl Bytes<'_> {
    fn number<const WIDTH: usize>(&self, place: u64) -> Option<u64> {
        let from = usize::try_from(place).ok()?;
        let bytes = self.0.get(from..from + WIDTH)?;
        Some(
            bytes
                .iter()
                .fold(0, |number, byte| number << 8 | u64::from(*byte)),
        )
    }

    /// The used count as it reads: 0 is 1.
    pub fn used(&self) -> u64 {
        self.number::<4>(36).unwrap_or(0).max(1)
    }

    /// The position of the last record that has an item.
    pub fn last_position(&self) -> Option<u64> {
        self.number::<8>(24).filter(|_| self.used() > 1)
    }

    /// The store times of its first and its last record.
    pub fn times(&self) -> Option<(u64, u64)> {
        let times = (self.number::<8>(0)?, self.number::<8>(8)?);
        (self.used() > 1).then_some(times)
    }

    pub fn filled(&self) -> u64 {
        self.number::<4>(32).unwrap_or(0)
    }

    pub fn item_position(&self, slots: u64, item: u64) -> Option<u64> {
        self.number::<8>(item_place(slots, item) + 4)
    }

    pub fn item_hash(&self, slots: u64, item: u64) -> Option<u32> {
        self.number::<4>(item_place(slots, item))
            .map(|hash| hash as u32)
    }

    pub fn seconds(&self, slots: u64, item: u64) -> Option<u64> {
        self.number::<4>(item_place(slots, item) + 12)
    }

    /// What its slot had before an item.
    pub fn link(&self, slots: u64, item: u64) -> Option<u64> {
        self.number::<4>(item_place(slots, item) + 16)
    }

    /// The header's fields by their names; a used count of 0 reads as 1.
    pub fn header(&self) -> [(&'static str, u64); 6] {
        let field = |number: u64| self.number::<8>(8 * number).unwrap_or(0);
        [
            ("first time", field(0)),
            ("last time", field(1)),
            ("first position", field(2)),
            ("last position", field(3)),
            ("filled slots", self.filled()),
            ("used count", self.used()),
        ]
    }

    /// The position of the first record that has an item.
    pub fn first_position(&self) -> Option<u64> {
        self.number::<8>(16).filter(|_| self.used() > 1)
    }

    /// The slot that an item's hash gives.
    pub fn slot_of_item(&self, slots: u64, item: u64) -> Option<u64> {
        Some(self.number::<4>(item_place(slots, item))? % slots)
    }

    pub fn slot(&self, slot: u64) -> Option<u64> {
        self.number::<4>(slot_place(slot))
    }

    /// The first item has the header's first position, the last one its last position and its slot. A hash of 0 proves
    /// nothing: zeros stand at many places.
    fn fits(&self, sizes: &Sizes) -> bool {
        let (slots, last) = (sizes.slot_count, self.used() - 1);
        if last >= sizes.item_count || self.number::<4>(item_place(slots, last)) == Some(0) {
            return false;
        }
        let slot = self.slot_of_item(slots, last);
        self.item_position(slots, 1) == self.number::<8>(16)
            && self.item_position(slots, last) == self.last_position()
            && slot.and_then(|slot| self.slot(slot)) == Some(last)
    }
}

pub fn slot_place(slot: u64) -> u64 {
    HEADER + SLOT * slot
}

pub fn item_place(slots: u64, item: u64) -> u64 {
    HEADER + SLOT * slots + ITEM * item
}
