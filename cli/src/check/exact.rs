//! The quick way: queues and index that are there, block by block beside those that the archive made of the whole log.

use super::made::Made;
use super::sides::Sides;
use crate::failure::Failure;
use crate::index::{item_place, slot_place, Bytes, Index};
use crate::text::grouped;

/// Whether each queue has all entries that the archive made, or no file; they are taken.
pub fn queues_are_same(made: &Made, sides: &mut Sides) -> Result<bool, Failure> {
    for (number, row) in made.plan.rows.iter().enumerate() {
        let (first, entries) = made.entries(number);
        if !sides.take_all(&row.queue, first, entries)? {
            return Ok(false);
        }
    }
    Ok(true)
}

/// The items that the archive made, and the position of the first one's record.
pub fn items(made: &Made) -> (u64, Option<u64>) {
    let made = Bytes(&made.index);
    (made.used() - 1, made.first_position())
}

/// Whether the one index is what the archive made, or none is there.
pub fn index_is_same(made: &Made, indexes: &[Index]) -> bool {
    let made = Bytes(&made.index);
    match indexes {
        [] => true,
        [index] => {
            let found = Bytes(&index.bytes);
            let slots = index.sizes.slot_count;
            let header = found.used() == made.used() && found.0[..36] == made.0[..36];
            let from = slot_place(0) as usize;
            let to = item_place(slots, made.used()) as usize;
            header && found.0.get(from..to) == made.0.get(from..to)
        }
        _ => false,
    }
}

/// The first difference that is none of an item's hash or position. Where older segments were removed, an index file may have
/// been before this one: the seconds of its first item then count from there.
pub fn difference(made: &Made, index: &Index, cut: bool) -> Option<Differs> {
    let (made, found) = (Bytes(&made.index), Bytes(&index.bytes));
    let slots = index.sizes.slot_count;
    let items = 1..found.used().min(made.used());
    let item = |bytes: &Bytes, item| {
        let seconds = bytes.seconds(slots, item)?;
        let seconds = if cut && item == 1 { 0 } else { seconds };
        Some((seconds, bytes.link(slots, item)?))
    };
    let mut items = items.map(|number| (number, item(&found, number), item(&made, number)));
    if let Some((number, found, made)) = items.find(|(_, found, made)| found != made) {
        let (found, made) = (found?, made?);
        return Some(match found.0 != made.0 {
            true => Differs::new(format!("the seconds of item {number}"), found.0, made.0),
            false => Differs::new(format!("the link of item {number}"), found.1, made.1),
        });
    }
    let mut places = (0..slots).map(|slot| (slot, found.slot(slot), made.slot(slot)));
    if let Some((slot, found, made)) = places.find(|(_, found, made)| found != made) {
        return Some(Differs::new(format!("slot {slot}"), found?, made?));
    }
    let fields = found.header().into_iter().zip(made.header());
    let mut fields = fields.filter(|(found, made)| found != made);
    let ((name, found), (_, made)) = fields.next()?;
    Some(Differs::new(format!("the header's {name}"), found, made))
}

/// One value that is another one by the log.
pub struct Differs {
    pub what: String,
    pub found: u64,
    pub made: u64,
}

impl Differs {
    fn new(what: String, found: u64, made: u64) -> Differs {
        Differs { what, found, made }
    }

    pub fn sentence(&self) -> String {
        let (found, made) = (grouped(self.found), grouped(self.made));
        format!("{} is {found}, by the log {made}", self.what)
    }
}
