//! Document 01, "The index": header, items, dispatch rule 7, query.

use crate::answer::Answer;
use crate::hash::index_hash;
use crate::number::{int_at, int_bytes, length, long_at, long_bytes, write, LogPosition, Whole};
use crate::record::Record;
use crate::sizes::{time_ok, IndexShape, LARGEST_POSITION, LONGEST_PROPERTIES, LONGEST_TOPIC};
use crate::utf8;

/// "Header: first time 0, last time 8, first position 16, last position 24, filled slots 32, used count 36."
mod place {
    use crate::number::Whole;

    pub const FIRST_TIME: Whole = 0;
    pub const LAST_TIME: Whole = 8;
    pub const FIRST_POSITION: Whole = 16;
    pub const LAST_POSITION: Whole = 24;
    pub const FILLED_SLOTS: Whole = 32;
    pub const USED_COUNT: Whole = 36;
    pub const SLOTS: Whole = 40;
}

/// The header as it reads.
#[derive(Clone, Copy, Debug, PartialEq, Eq)]
pub struct Header {
    pub first_time: Whole,
    pub last_time: Whole,
    pub first_position: Whole,
    pub last_position: Whole,
    pub filled_slots: Whole,
    pub used_count: Whole,
}

pub fn header(index: &[u8]) -> Header {
    // "A used count of 0 reads as 1."
    let stored = int_at(index, place::USED_COUNT);
    Header {
        first_time: long_at(index, place::FIRST_TIME),
        last_time: long_at(index, place::LAST_TIME),
        first_position: long_at(index, place::FIRST_POSITION),
        last_position: long_at(index, place::LAST_POSITION),
        filled_slots: int_at(index, place::FILLED_SLOTS),
        used_count: if stored == 0 { 1 } else { stored },
    }
}

/// Door check 4: the header is sound. "Otherwise 4."
pub fn header_ok(index: &[u8], shape: IndexShape) -> bool {
    let header = header(index);
    // "Sound: used count 1 to N;"
    if header.used_count < 1 || header.used_count > shape.n() {
        return false;
    }
    // "filled slots 0 to used count − 1;"
    if header.filled_slots < 0 || header.filled_slots > header.used_count - 1 {
        return false;
    }
    // "times within limits;"
    if !time_ok(header.first_time) || !time_ok(header.last_time) {
        return false;
    }
    // "positions 0 to 2^40;"
    if !position_ok(header.first_position) || !position_ok(header.last_position) {
        return false;
    }
    // "the four 8-byte fields all 0 if the used count is 1."
    if header.used_count == 1 {
        return header.first_time == 0
            && header.last_time == 0
            && header.first_position == 0
            && header.last_position == 0;
    }
    true
}

/// What every reader of one index file asks first: 1 for K, N or the length, 4 for the header.
pub fn check(index: &[u8], shape: IndexShape) -> Result<(), Answer> {
    if !shape.fits(index) {
        return Err(Answer::BadSizes);
    }
    if !header_ok(index, shape) {
        return Err(Answer::BadHeader);
    }
    Ok(())
}

/// "Empty means every byte 0, or all but a used count of 1."
pub fn empty(index: &[u8]) -> bool {
    let mut rest = index.to_vec();
    if int_at(index, place::USED_COUNT) == 1 {
        write(&mut rest, place::USED_COUNT, &int_bytes(0));
    }
    rest.iter().all(|byte| *byte == 0)
}

/// "positions 0 to 2^40".
fn position_ok(position: Whole) -> bool {
    (0..=LARGEST_POSITION).contains(&position)
}

/// "Slot: index hash mod K." Slots are 4 bytes each, after the header; slot 0 is the first.
fn slot_place(shape: IndexShape, hash: Whole) -> Whole {
    place::SLOTS + 4 * (hash % shape.k())
}

/// "Item u (u = used count) at 40 + 4K + 20u".
fn item_place(shape: IndexShape, number: Whole) -> Whole {
    40 + 4 * shape.k() + 20 * number
}

/// "hash 4, position 8, seconds 4, previous slot value 4."
#[derive(Clone, Copy, Debug, PartialEq, Eq)]
pub struct Item {
    pub hash: Whole,
    pub position: Whole,
    pub seconds: Whole,
    pub previous: Whole,
}

/// Item `number`, of 0 to N − 1.
pub fn item(index: &[u8], shape: IndexShape, number: Whole) -> Item {
    let place = item_place(shape, number);
    Item {
        hash: int_at(index, place),
        position: long_at(index, place + 4),
        seconds: int_at(index, place + 12),
        previous: int_at(index, place + 16),
    }
}

/// "Seconds: (store time − first time) / 1000 rounded down, kept within 0 to 2,147,483,647; 0 if the first time is 0."
pub fn seconds(store_time: Whole, first_time: Whole) -> Whole {
    if first_time == 0 {
        return 0;
    }
    (store_time - first_time)
        .div_euclid(1000)
        .clamp(0, 2_147_483_647)
}

/// "Item time is first time + 1000 × seconds."
pub fn item_time(first_time: Whole, seconds: Whole) -> Whole {
    first_time + 1000 * seconds
}

/// "7. Index items, if there are any: 15 if the index has an item and p is not above its last position; 14 unless used
/// count + items ≤ N; 16 if a slot they need holds a value below 0 or not below the used count."
/// The index is judged as it stands before the record.
pub fn judge_items(
    index: &[u8],
    shape: IndexShape,
    p: LogPosition,
    hashes: &[Whole],
) -> Result<(), Answer> {
    if hashes.is_empty() {
        return Ok(());
    }
    let header = header(index);
    let has_an_item = header.used_count > 1;
    if has_an_item && p.whole() <= header.last_position {
        return Err(Answer::IndexAhead);
    }
    if header.used_count + hashes.len() as Whole > shape.n() {
        return Err(Answer::IndexFull);
    }
    for hash in hashes {
        let value = int_at(index, slot_place(shape, *hash));
        if value < 0 || value >= header.used_count {
            return Err(Answer::ChainBroken);
        }
    }
    Ok(())
}

/// Puts one item of a sound record, judged before.
pub fn put(index: &mut [u8], shape: IndexShape, hash: Whole, record: &Record) {
    let header = header(index);
    let u = header.used_count;
    let store_time = Whole::from(record.message.store_time);
    let position = record.log_position.whole();
    let slot = slot_place(shape, hash);
    let previous = int_at(index, slot);
    // "Item u (u = used count) at 40 + 4K + 20u: hash 4, position 8, seconds 4, previous slot value 4."
    let place = item_place(shape, u);
    write(index, place, &int_bytes(hash));
    write(index, place + 4, &long_bytes(position));
    write(
        index,
        place + 12,
        &int_bytes(seconds(store_time, header.first_time)),
    );
    write(index, place + 16, &int_bytes(previous));
    // "Then the slot takes u,"
    write(index, slot, &int_bytes(u));
    // "filled slots grows by 1 if it was 0," - if the slot's value was 0.
    if previous == 0 {
        write(
            index,
            place::FILLED_SLOTS,
            &int_bytes(header.filled_slots + 1),
        );
    }
    // "used count becomes u + 1,"
    write(index, place::USED_COUNT, &int_bytes(u + 1));
    // "last fields are set,"
    write(index, place::LAST_TIME, &long_bytes(store_time));
    write(index, place::LAST_POSITION, &long_bytes(position));
    // "and for u = 1 the first fields too."
    if u == 1 {
        write(index, place::FIRST_TIME, &long_bytes(store_time));
        write(index, place::FIRST_POSITION, &long_bytes(position));
    }
}

/// What a query asks.
#[derive(Clone, Copy, Debug, PartialEq, Eq)]
pub struct Question<'a> {
    pub topic: &'a [u8],
    pub key: &'a [u8],
    pub first_time: u64,
    pub last_time: u64,
    pub wanted: u64,
}

/// What a query returns; the output is lent.
#[derive(Clone, Copy, Debug, PartialEq, Eq)]
pub struct Queried {
    pub answer: Answer,
    /// Positions written.
    pub found: u64,
    /// "Items read are counted, the bad one included."
    pub read: u64,
}

/// "number wanted, 0 meaning 32".
fn number_wanted(wanted: u64) -> u64 {
    if wanted == 0 {
        32
    } else {
        wanted
    }
}

/// Query the index by key and time. "Output past the matches is unchanged."
pub fn query(index: &[u8], shape: IndexShape, question: &Question, out: &mut [u64]) -> Queried {
    if let Err(answer) = judge_query(index, shape, question, out.len()) {
        return Queried {
            answer,
            found: 0,
            read: 0,
        };
    }
    walk(index, shape, question, out)
}

/// "Door checks run in this order: [...] query 1, 4, 17".
fn judge_query(
    index: &[u8],
    shape: IndexShape,
    question: &Question,
    places: usize,
) -> Result<(), Answer> {
    check(index, shape)?;
    // "Query: topic and key non-empty and within 127 and 32,767 bytes;"
    let topic_ok = (1..=LONGEST_TOPIC).contains(&length(question.topic));
    let key_ok = (1..=LONGEST_PROPERTIES).contains(&length(question.key));
    // Document 02, item 2: "Bytes that are not such UTF-8 [...] make [...] a query or append holding them 17 or 5." Topic
    // and key are two texts, each judged by itself.
    let text_ok = utf8::valid(question.topic) && utf8::valid(question.key);
    // "first and last time in limits and ordered;"
    let first = Whole::from(question.first_time);
    let last = Whole::from(question.last_time);
    let times_ok = time_ok(first) && time_ok(last) && first <= last;
    // "number wanted, 0 meaning 32, not above the output's places."
    let wanted_ok = Whole::from(number_wanted(question.wanted)) <= places as Whole;
    // "Else 17."
    if topic_ok && key_ok && text_ok && times_ok && wanted_ok {
        Ok(())
    } else {
        Err(Answer::Malformed)
    }
}

fn walk(index: &[u8], shape: IndexShape, question: &Question, out: &mut [u64]) -> Queried {
    let header = header(index);
    let hash = index_hash(question.topic, question.key);
    let wanted = number_wanted(question.wanted);
    let start = Whole::from(question.first_time);
    let end = Whole::from(question.last_time);
    let mut found = 0;
    let mut read = 0;
    let mut number = int_at(index, slot_place(shape, hash));
    let mut number_before = header.used_count;
    // "The walk ends at the first of these, in this order:"
    let answer = loop {
        // "enough found, 0;"
        if found == wanted {
            break Answer::Done;
        }
        // "number is 0, 0;"
        if number == 0 {
            break Answer::Done;
        }
        // "number negative or not below the number before (at first, the used count), 16;"
        if number < 0 || number >= number_before {
            break Answer::ChainBroken;
        }
        // "item read, and its seconds negative or its position outside 0 to 2^40, 16."
        let item = item(index, shape, number);
        read += 1;
        if item.seconds < 0 || !position_ok(item.position) {
            break Answer::ChainBroken;
        }
        // "Item time is first time + 1000 × seconds. Equal hash and time in range: write the position."
        let time = item_time(header.first_time, item.seconds);
        if item.hash == hash && start <= time && time <= end {
            out[found as usize] = item.position as u64;
            found += 1;
        }
        // "Then, item time below the range's start, 0."
        if time < start {
            break Answer::Done;
        }
        number_before = number;
        number = item.previous;
    };
    Queried {
        answer,
        found,
        read,
    }
}
