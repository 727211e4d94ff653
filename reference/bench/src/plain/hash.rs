//! The hash of Java's strings and what is made of it.

use super::text::{continued_text, is_ascii, Decoder};

/// 31 to the powers 1 to 8, modulo 2^32.
const POWERS: [u32; 9] = {
    let mut powers = [1u32; 9];
    let mut i = 1;
    while i < 9 {
        powers[i] = powers[i - 1].wrapping_mul(31);
        i += 1;
    }
    powers
};

#[inline(always)]
pub fn step(hash: u32, unit: impl Into<u32>) -> u32 {
    hash.wrapping_mul(31).wrapping_add(unit.into())
}

/// The hash, continued over bytes that are units: eight a turn, then the rest.
#[inline(always)]
pub fn continued_bytes(start: u32, bytes: &[u8]) -> u32 {
    let (eights, rest) = bytes.as_chunks::<8>();
    let mut hash = start;
    for eight in eights {
        let mut sum = hash.wrapping_mul(POWERS[8]);
        for (byte, power) in eight.iter().zip(POWERS[..8].iter().rev()) {
            sum = sum.wrapping_add(power.wrapping_mul(u32::from(*byte)));
        }
        hash = sum;
    }
    for byte in rest {
        hash = step(hash, *byte);
    }
    hash
}

/// The hash, continued over bytes that are units, one by one.
#[inline(always)]
pub fn continued_bytewise(start: u32, bytes: &[u8]) -> u32 {
    bytes.iter().fold(start, |hash, byte| step(hash, *byte))
}

/// The hash, continued over the units of a text that was judged; whether all of its bytes are below 80 hex is known.
#[inline(always)]
fn continued(start: u32, text: &[u8], ascii: bool) -> u32 {
    if ascii {
        continued_bytes(start, text)
    } else {
        continued_text(start, text)
    }
}

/// The hash of topic and `#`.
#[inline(always)]
pub fn of_topic(topic: &[u8], ascii: bool) -> u32 {
    step(continued(0, topic, ascii), b'#')
}

/// The absolute value; 0 for the least number.
#[inline(always)]
pub fn magnitude(hash: u32) -> u32 {
    (hash as i32).unsigned_abs() & 0x7FFF_FFFF
}

/// The index hash of a key.
#[inline(always)]
pub fn of_key(topic_hash: u32, key: &[u8], ascii: bool) -> u32 {
    magnitude(continued(topic_hash, key, ascii))
}

/// The index hash of a topic and a key that were not judged, if both are text.
#[inline(always)]
pub fn of_question<D: Decoder>(
    topic: &[u8],
    key: &[u8],
    continued: impl Fn(u32, &[u8]) -> u32,
) -> Option<u32> {
    let hashed = |start, bytes| {
        if is_ascii(bytes) {
            Some(continued(start, bytes))
        } else {
            D::hashed(start, bytes)
        }
    };
    let prefix = step(hashed(0, topic)?, b'#');
    hashed(prefix, key).map(magnitude)
}

/// The signed hash, carried into 64 bits.
#[inline(always)]
fn carried(hash: u32) -> u64 {
    i64::from(hash as i32) as u64
}

#[inline(always)]
pub fn tag_code(tags: &[u8], ascii: bool) -> u64 {
    carried(continued(0, tags, ascii))
}

/// `swistopal_tag_code`: of bytes that are no text, up to the first that are not.
///
/// # Safety
/// As the C interface asks.
pub unsafe extern "C" fn tag_code_of<D: Decoder>(tag: *const u8, tag_len: usize) -> u64 {
    let tag = std::slice::from_raw_parts(tag, tag_len);
    if is_ascii(tag) {
        return tag_code(tag, true);
    }
    match D::hashed(0, tag) {
        Some(hash) => carried(hash),
        None => {
            let chunks = tag.utf8_chunks().next();
            tag_code(chunks.map_or("", |chunk| chunk.valid()).as_bytes(), false)
        }
    }
}
