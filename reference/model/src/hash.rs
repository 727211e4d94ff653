//! Document 01, "Properties and hashes": the hashes, over the units of document 02, item 2.

use crate::number::Whole;
use crate::utf8;

/// "Hash: start at 0; for each byte, taken as 0 to 255, h becomes 31 times h plus the next byte, modulo 4,294,967,296,
/// read as signed 32-bit at the end." Document 02, item 2: "the hash now runs over the UTF-16 units."
pub fn hash(text: &[u8]) -> Whole {
    let mut h: Whole = 0;
    for unit in utf8::units(text) {
        h = (31 * h + unit) % 4_294_967_296;
    }
    if h < 2_147_483_648 {
        h
    } else {
        h - 4_294_967_296
    }
}

/// "Tag code: that signed number carried into 64 bits".
pub fn tag_code(tag: &[u8]) -> Whole {
    hash(tag)
}

/// "Index hash: of topic, `#`, key; its absolute value, and 0 for −2,147,483,648."
pub fn index_hash(topic: &[u8], key: &[u8]) -> Whole {
    absolute(hash(&[topic, b"#", key].concat()))
}

/// The index's absolute value.
pub fn absolute(hash: Whole) -> Whole {
    if hash == -2_147_483_648 {
        0
    } else if hash < 0 {
        -hash
    } else {
        hash
    }
}
