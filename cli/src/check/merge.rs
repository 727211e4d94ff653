//! The items of all index files, in order, beside those that the log gives, record by record. Compared are hash and position;
//! seconds, links and slots depend on where a file begins.

use super::reach::{Place, Reach, Rest, Tally};
use crate::index::{Bytes, Index};
use crate::log::Log;
use swistopal::LogPosition;

pub struct Merge<'a> {
    log: &'a Log,
    reach: &'a Reach,
    /// What was found of each file.
    pub files: Vec<Merged<'a>>,
    /// The file and the item that are next.
    at: (usize, u64),
    /// The record that was taken last, and its hashes.
    last: (u64, Vec<u32>),
    /// Items of the log.
    pub given: u64,
    /// Records, by their positions, whose items are not there.
    pub missing: Tally<u64>,
}

pub struct Merged<'a> {
    pub index: &'a Index,
    pub same: u64,
    pub differing: Tally<Difference>,
    /// Items that a record has once more: a broker that did not end in order adds those of its last record again.
    pub repeated: u64,
    pub rest: Rest,
}

pub struct Difference {
    pub number: u64,
    pub found: Item,
    pub made: Item,
}

#[derive(Clone, Copy, PartialEq, Eq)]
pub struct Item {
    pub hash: u32,
    pub position: u64,
}

impl Merged<'_> {
    fn used(&self) -> u64 {
        let used = Bytes(&self.index.bytes).used();
        used.min(self.index.sizes.item_count)
    }

    fn item(&self, number: u64) -> Option<Item> {
        let (bytes, slots) = (Bytes(&self.index.bytes), self.index.sizes.slot_count);
        Some(Item {
            hash: bytes.item_hash(slots, number)?,
            position: bytes.item_position(slots, number)?,
        })
    }

    /// Whether each of its items is one of the log.
    pub fn is_all_the_same(&self) -> bool {
        self.same == self.used() - 1
    }

    pub fn is_sound(&self) -> bool {
        self.differing.count == 0 && self.rest.behind == 0 && self.rest.strays.count == 0
    }
}

impl<'a> Merge<'a> {
    pub fn new(log: &'a Log, reach: &'a Reach, indexes: &'a [Index]) -> Merge<'a> {
        let files = indexes.iter().map(|index| Merged {
            index,
            same: 0,
            differing: Tally::default(),
            repeated: 0,
            rest: Rest::default(),
        });
        Merge {
            log,
            reach,
            files: files.collect(),
            at: (0, 1),
            last: (0, Vec::new()),
            given: 0,
            missing: Tally::default(),
        }
    }

    /// The next item that was not looked at yet.
    fn peek(&mut self) -> Option<Item> {
        loop {
            let (file, item) = self.at;
            let merged = self.files.get(file)?;
            if item < merged.used() {
                return merged.item(item);
            }
            self.at = (file + 1, 1);
        }
    }

    fn after(&self) -> Option<Item> {
        let (file, item) = self.at;
        let merged = self.files.get(file)?;
        match item + 1 < merged.used() {
            true => merged.item(item + 1),
            false => self.files.get(file + 1)?.item(1),
        }
    }

    fn pass(&mut self) -> (&mut Merged<'a>, u64) {
        let (file, item) = self.at;
        self.at.1 += 1;
        (&mut self.files[file], item)
    }

    /// A record's items.
    pub fn take(&mut self, position: LogPosition, hashes: &[u32]) {
        for &hash in hashes {
            self.given += 1;
            let made = Item {
                hash,
                position: position.0,
            };
            self.take_item(made);
        }
        self.last.0 = position.0;
        self.last.1.clear();
        self.last.1.extend(hashes);
    }

    fn take_item(&mut self, made: Item) {
        while let Some(found) = self.peek() {
            if found == made {
                self.pass().0.same += 1;
                return;
            }
            if found.position == made.position || self.is_changed(found, made) {
                let (merged, number) = self.pass();
                merged.differing.add(Difference {
                    number,
                    found,
                    made,
                });
                return;
            }
            if found.position > made.position {
                break;
            }
            self.pass_over(found);
        }
        self.missing.add(made.position);
    }

    /// Whether an item that names another place is this one, changed: no record stands where it points, or it stands between
    /// items that it does not belong between.
    fn is_changed(&self, found: Item, made: Item) -> bool {
        let after = self.after().map(|after| after.position);
        let in_between =
            found.position > made.position && after.is_some_and(|after| after < found.position);
        let nowhere = || {
            let place = self.reach.place(found.position);
            let record = self.log.entry(LogPosition(found.position));
            place == Place::Inside && record.is_err()
        };
        in_between || found.hash == made.hash && nowhere()
    }

    fn pass_over(&mut self, found: Item) {
        let reach = self.reach;
        let repeated = found.position == self.last.0 && self.last.1.contains(&found.hash);
        let (merged, number) = self.pass();
        match repeated {
            true => merged.repeated += 1,
            false => merged.rest.add(reach, number, found.position),
        }
    }

    /// Looks at the items that no record gave.
    pub fn end(&mut self) {
        while let Some(found) = self.peek() {
            self.pass_over(found);
        }
    }
}
