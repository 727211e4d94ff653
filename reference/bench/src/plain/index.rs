//! The index: its header, the items of a record, query.

use super::answer;
use super::bytes::{be32, be64, put32, put64};
use super::hash;
use super::record::{MAX_PROPERTIES, MAX_TIME, MAX_TOPIC};
use super::text::{Decoder, Standard};
use crate::archive::{Found, Sizes};

const HEADER: usize = 40;
const SLOT: usize = 4;
const ITEM: usize = 20;
const MAX_POSITION: u64 = 1 << 40;

#[inline(always)]
pub fn sizes_fit(sizes: &Sizes, length: usize) -> bool {
    let (slot_count, item_count) = (sizes.slot_count, sizes.item_count);
    (1..=5_000_000).contains(&slot_count)
        && (2..=20_000_000).contains(&item_count)
        && length as u64 == 40 + 4 * slot_count + 20 * item_count
}

#[derive(Clone, Copy)]
struct Header {
    first_time: u64,
    last_time: u64,
    first_position: u64,
    last_position: u64,
    filled: u32,
    used: u32,
}

impl Header {
    /// The header, if it is sound.
    #[inline(always)]
    fn read(index: &[u8], item_count: u64) -> Option<Header> {
        let bytes: &[u8; HEADER] = index.first_chunk()?;
        let header = Header {
            first_time: be64(bytes, 0),
            last_time: be64(bytes, 8),
            first_position: be64(bytes, 16),
            last_position: be64(bytes, 24),
            filled: be32(bytes, 32),
            used: be32(bytes, 36).max(1),
        };
        let all =
            header.first_time | header.last_time | header.first_position | header.last_position;
        let sound = u64::from(header.used) <= item_count
            && header.filled < header.used
            && header.first_time <= MAX_TIME
            && header.last_time <= MAX_TIME
            && header.first_position <= MAX_POSITION
            && header.last_position <= MAX_POSITION
            && (header.used > 1 || all == 0);
        sound.then_some(header)
    }
}

/// An index during a call of dispatch: its header is held here and written at the end.
pub struct Writer<'a> {
    header_bytes: &'a mut [u8],
    slots: &'a mut [[u8; SLOT]],
    items: &'a mut [[u8; ITEM]],
    header: Header,
    used_before: u32,
}

impl<'a> Writer<'a> {
    /// Door check 4, on an index whose sizes fit.
    #[inline(always)]
    pub fn open(index: &'a mut [u8], sizes: &Sizes) -> Option<Writer<'a>> {
        let header = Header::read(index, sizes.item_count)?;
        let (header_bytes, rest) = index.split_at_mut(HEADER);
        let (slots, items) = rest.split_at_mut(SLOT * sizes.slot_count as usize);
        Some(Writer {
            header_bytes,
            slots: slots.as_chunks_mut().0,
            items: items.as_chunks_mut().0,
            header,
            used_before: header.used,
        })
    }

    #[inline(always)]
    pub fn slot_of(&self, hash: u32) -> usize {
        (hash % self.slots.len() as u32) as usize
    }

    /// A slot's address, to be fetched ahead of its use.
    #[inline(always)]
    pub fn slot_address(&self, slot: usize) -> *const u8 {
        self.slots[slot].as_ptr()
    }

    /// Rule 7 without its slots: of a record with so many items, above 0.
    #[inline(always)]
    pub fn judge(&self, position: u64, items: usize) -> Result<(), u32> {
        if self.header.used > 1 && position <= self.header.last_position {
            return Err(answer::INDEX_AHEAD);
        }
        if self.header.used as usize + items > self.items.len() {
            return Err(answer::INDEX_FULL);
        }
        Ok(())
    }

    /// Whether a slot holds a number that no item has.
    #[inline(always)]
    pub fn is_bad(&self, slot: usize) -> bool {
        u32::from_be_bytes(self.slots[slot]) >= self.header.used
    }

    /// A record's items, all judged before.
    #[inline(always)]
    pub fn put_all(
        &mut self,
        position: u64,
        store_time: u64,
        hashes: impl Iterator<Item = (u32, usize)>,
    ) {
        if self.header.used == 1 {
            self.header.first_time = store_time;
            self.header.first_position = position;
        }
        // The first item's time is the first time itself: 0 seconds, as for a first time of 0.
        let seconds = if self.header.first_time == 0 {
            0
        } else {
            let milliseconds = store_time.saturating_sub(self.header.first_time);
            (milliseconds / 1000).min(0x7FFF_FFFF) as u32
        };
        self.header.last_time = store_time;
        self.header.last_position = position;
        for (hash, slot) in hashes {
            let slot = &mut self.slots[slot];
            let item = &mut self.items[self.header.used as usize];
            item[..4].copy_from_slice(&hash.to_be_bytes());
            item[4..12].copy_from_slice(&position.to_be_bytes());
            item[12..16].copy_from_slice(&seconds.to_be_bytes());
            item[16..].copy_from_slice(slot);
            self.header.filled += u32::from(*slot == [0; SLOT]);
            *slot = self.header.used.to_be_bytes();
            self.header.used += 1;
        }
    }

    /// Writes the header, if an item was put.
    #[inline(always)]
    pub fn close(self) {
        if self.header.used == self.used_before {
            return;
        }
        put64(self.header_bytes, 0, self.header.first_time);
        put64(self.header_bytes, 8, self.header.last_time);
        put64(self.header_bytes, 16, self.header.first_position);
        put64(self.header_bytes, 24, self.header.last_position);
        put32(self.header_bytes, 32, self.header.filled);
        put32(self.header_bytes, 36, self.header.used);
    }
}

/// What a query asks beside its key.
struct Wish<'a> {
    sizes: &'a Sizes,
    first_time: u64,
    last_time: u64,
    wanted: u64,
}

/// `swistopal_query`.
///
/// # Safety
/// As the C interface asks.
pub unsafe extern "C" fn query<D: Decoder>(
    index: *const u8,
    index_len: usize,
    sizes: *const Sizes,
    topic: *const u8,
    topic_len: usize,
    key: *const u8,
    key_len: usize,
    first_time: u64,
    last_time: u64,
    wanted: u64,
    out: *mut u64,
    out_len: usize,
    found: *mut Found,
) -> u32 {
    answered(
        std::slice::from_raw_parts(index, index_len),
        &Wish {
            sizes: &*sizes,
            first_time,
            last_time,
            wanted,
        },
        std::slice::from_raw_parts(topic, topic_len),
        std::slice::from_raw_parts(key, key_len),
        |topic, key| hash::of_question::<D>(topic, key, hash::continued_bytes),
        std::slice::from_raw_parts_mut(out, out_len),
        &mut *found,
    )
}

/// `swistopal_query` with the hash byte by byte.
///
/// # Safety
/// As the C interface asks.
pub unsafe extern "C" fn query_bytewise(
    index: *const u8,
    index_len: usize,
    sizes: *const Sizes,
    topic: *const u8,
    topic_len: usize,
    key: *const u8,
    key_len: usize,
    first_time: u64,
    last_time: u64,
    wanted: u64,
    out: *mut u64,
    out_len: usize,
    found: *mut Found,
) -> u32 {
    answered(
        std::slice::from_raw_parts(index, index_len),
        &Wish {
            sizes: &*sizes,
            first_time,
            last_time,
            wanted,
        },
        std::slice::from_raw_parts(topic, topic_len),
        std::slice::from_raw_parts(key, key_len),
        |topic, key| hash::of_question::<Standard>(topic, key, hash::continued_bytewise),
        std::slice::from_raw_parts_mut(out, out_len),
        &mut *found,
    )
}

#[inline(always)]
fn answered(
    index: &[u8],
    wish: &Wish,
    topic: &[u8],
    key: &[u8],
    hash_of: impl Fn(&[u8], &[u8]) -> Option<u32>,
    out: &mut [u64],
    found: &mut Found,
) -> u32 {
    *found = Found::default();
    if !sizes_fit(wish.sizes, index.len()) {
        return answer::BAD_SIZES;
    }
    let Some(header) = Header::read(index, wish.sizes.item_count) else {
        return answer::BAD_HEADER;
    };
    let wanted = if wish.wanted == 0 { 32 } else { wish.wanted };
    if !(1..=MAX_TOPIC).contains(&topic.len())
        || !(1..=MAX_PROPERTIES).contains(&key.len())
        || wish.first_time > wish.last_time
        || wish.last_time > MAX_TIME
        || wanted > out.len() as u64
    {
        return answer::MALFORMED;
    }
    let Some(hash) = hash_of(topic, key) else {
        return answer::MALFORMED;
    };
    let out = &mut out[..wanted as usize];
    walk(index, header, wish, hash, out, found)
}

#[inline(always)]
fn walk(
    index: &[u8],
    header: Header,
    wish: &Wish,
    hash: u32,
    out: &mut [u64],
    told: &mut Found,
) -> u32 {
    let (slots, items) = index[HEADER..].split_at(SLOT * wish.sizes.slot_count as usize);
    let (slots, _) = slots.as_chunks::<SLOT>();
    let (items, _) = items.as_chunks::<ITEM>();
    let mut before = header.used;
    let mut number = u32::from_be_bytes(slots[(hash % slots.len() as u32) as usize]);
    let mut found = 0;
    let mut read = 0;
    let answer = loop {
        if found == out.len() || number == 0 {
            break answer::DONE;
        }
        if number >= before {
            break answer::CHAIN_BROKEN;
        }
        let item = &items[number as usize];
        read += 1;
        let position = be64(item, 4);
        let seconds = be32(item, 12);
        if seconds >= 1 << 31 || position > MAX_POSITION {
            break answer::CHAIN_BROKEN;
        }
        let time = header.first_time + 1000 * u64::from(seconds);
        if be32(item, 0) == hash && wish.first_time <= time && time <= wish.last_time {
            out[found] = position;
            found += 1;
        }
        before = number;
        number = be32(item, 16);
        if time < wish.first_time {
            break answer::DONE;
        }
    };
    *told = Found {
        positions: found as u64,
        items_read: read,
    };
    answer
}
