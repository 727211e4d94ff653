//! The six small functions that tell what a record makes, each through the C interface and through the model.

use model::interface::{self, Place, Sizes, Values};

use crate::archive;
use crate::judge::{shown, Check, Judge, ARCHIVE_AND_MODEL};
use crate::lent::{Lent, Twin};
use crate::operations::{Bench, LookedAt, Operation, OLD, SIZES};

/// Is this topic and key among the items of such a record?
#[derive(Clone)]
pub struct ItemQuestion {
    pub system_flag: u64,
    pub record_topic: Vec<u8>,
    pub properties: Vec<u8>,
    pub topic: Vec<u8>,
    pub key: Vec<u8>,
}

/// The members of the struct of values, in the header's order.
const VALUES: [&str; 6] = [
    "tags.at",
    "tags.length",
    "keys.at",
    "keys.length",
    "unique_key.at",
    "unique_key.length",
];

// A struct is lent as its numbers.
const _: () = assert!(size_of::<archive::Values>() == 8 * VALUES.len());

impl Bench {
    pub fn tag_code(&mut self, tag: &[u8]) -> Check<u64> {
        self.number += 1;
        let describe = || format!("tag_code of {}", shown(tag));
        let judge = Judge {
            operation: Operation::TagCode,
            number: self.number,
            sides: ARCHIVE_AND_MODEL,
            call: &describe,
        };
        let lent_tag = Lent::new(tag);
        // SAFETY: the pointer comes with its length and is not null.
        let archive = unsafe { archive::swistopal_tag_code(lent_tag.pointer(), lent_tag.len()) };
        let model = judge.model(|| interface::tag_code(tag))?;
        judge.same("code", archive, model)?;
        judge.same_cells("tag", &lent_tag, tag)?;
        let kind = match archive as i64 {
            0 => 0,
            1.. => 1,
            _ => 2,
        };
        self.came_to(&judge, kind, || format!("gives {archive:#x}"))?;
        Ok(archive)
    }

    pub fn makes_entry(&mut self, system_flag: u64) -> Check<u32> {
        self.number += 1;
        let describe = || format!("makes_entry of system_flag {system_flag:#x}");
        let judge = Judge {
            operation: Operation::MakesEntry,
            number: self.number,
            sides: ARCHIVE_AND_MODEL,
            call: &describe,
        };
        // SAFETY: nothing is lent.
        let archive = unsafe { archive::swistopal_makes_entry(system_flag) };
        let model = judge.model(|| interface::makes_entry(system_flag))?;
        self.answered(&judge, archive, model)?;
        Ok(archive)
    }

    pub fn item_count(&mut self, system_flag: u64, properties: &[u8]) -> Check<u64> {
        self.number += 1;
        let describe = || {
            format!(
                "item_count of system_flag {system_flag:#x}, properties {}",
                shown(properties)
            )
        };
        let judge = Judge {
            operation: Operation::ItemCount,
            number: self.number,
            sides: ARCHIVE_AND_MODEL,
            call: &describe,
        };
        let lent_properties = Lent::new(properties);
        // SAFETY: the pointer comes with its length and is not null.
        let archive = unsafe {
            archive::swistopal_item_count(
                system_flag,
                lent_properties.pointer(),
                lent_properties.len(),
            )
        };
        let model = judge.model(|| interface::item_count(system_flag, properties))?;
        judge.same("count", archive, model)?;
        judge.same_cells("properties", &lent_properties, properties)?;
        self.came_to(&judge, archive.min(2) as u32, || format!("gives {archive}"))?;
        Ok(archive)
    }

    pub fn has_item(&mut self, question: &ItemQuestion) -> Check<u32> {
        self.number += 1;
        let ItemQuestion {
            system_flag,
            record_topic,
            properties,
            topic,
            key,
        } = question;
        let describe = || {
            format!(
                "has_item of system_flag {system_flag:#x}, record_topic {}, properties {}: topic {}, key {}",
                shown(record_topic),
                shown(properties),
                shown(topic),
                shown(key)
            )
        };
        let judge = Judge {
            operation: Operation::HasItem,
            number: self.number,
            sides: ARCHIVE_AND_MODEL,
            call: &describe,
        };
        let lent_record_topic = Lent::new(record_topic);
        let lent_properties = Lent::new(properties);
        let lent_topic = Lent::new(topic);
        let lent_key = Lent::new(key);
        // SAFETY: every pointer comes with its length and none is null.
        let archive = unsafe {
            archive::swistopal_has_item(
                *system_flag,
                lent_record_topic.pointer(),
                lent_record_topic.len(),
                lent_properties.pointer(),
                lent_properties.len(),
                lent_topic.pointer(),
                lent_topic.len(),
                lent_key.pointer(),
                lent_key.len(),
            )
        };
        let model = judge
            .model(|| interface::has_item(*system_flag, record_topic, properties, topic, key))?;
        self.answered(&judge, archive, model)?;
        judge.same_cells("record_topic", &lent_record_topic, record_topic)?;
        judge.same_cells("properties", &lent_properties, properties)?;
        judge.same_cells("topic", &lent_topic, topic)?;
        judge.same_cells("key", &lent_key, key)?;
        Ok(archive)
    }

    pub fn find_values(&mut self, properties: &[u8]) -> Check<Values> {
        self.number += 1;
        let describe = || format!("find_values of {}", shown(properties));
        let judge = Judge {
            operation: Operation::FindValues,
            number: self.number,
            sides: ARCHIVE_AND_MODEL,
            call: &describe,
        };
        let lent_properties = Lent::new(properties);
        let mut archive_values = Lent::new(&[OLD; 6]);
        // SAFETY: every pointer comes with its length, none is null, a struct is its numbers, and no two buffers overlap.
        unsafe {
            archive::swistopal_find_values(
                lent_properties.pointer(),
                lent_properties.len(),
                archive_values.pointer_mut().cast(),
            )
        };
        let old = Place {
            at: OLD,
            length: OLD,
        };
        let mut values = Values {
            tags: old,
            keys: old,
            unique_key: old,
        };
        judge.model(|| interface::find_values(properties, &mut values))?;
        judge.same_members("values", &VALUES, &archive_values, &values.numbers())?;
        judge.same_cells("properties", &lent_properties, properties)?;
        let there = |place: Place| u32::from(place.length > 0);
        let which = there(values.tags) + 2 * there(values.keys) + 4 * there(values.unique_key);
        self.came_to(&judge, which, || format!("gives {:?}", values.numbers()))?;
        Ok(values)
    }

    pub fn check_index(&mut self, index: &Twin<u8>, sizes: &Sizes) -> Check<u32> {
        self.number += 1;
        let sizes = self.sizes(sizes, LookedAt::Index);
        let describe = || {
            format!(
                "check_index, {sizes:?}, index of {} bytes, header {:x?}",
                index.len(),
                index.get().get(..40)
            )
        };
        let judge = Judge {
            operation: Operation::CheckIndex,
            number: self.number,
            sides: ARCHIVE_AND_MODEL,
            call: &describe,
        };
        let lent_sizes = Lent::new(&sizes.numbers());
        // SAFETY: every pointer comes with its length, none is null, and a struct is its numbers.
        let archive = unsafe {
            archive::swistopal_check_index(
                index.archive.pointer(),
                index.archive.len(),
                lent_sizes.pointer().cast(),
            )
        };
        let model = judge.model(|| interface::check_index(&index.model, &sizes))?;
        self.answered(&judge, archive, model)?;
        judge.same_members("sizes", &SIZES, &lent_sizes, &sizes.numbers())?;
        judge.same_cells("index", &index.archive, &index.model)?;
        Ok(archive)
    }
}
