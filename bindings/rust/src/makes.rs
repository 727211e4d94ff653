//! What a record makes, so that no program has to repeat a rule. None of these refuses anything: they take any bytes and judge
//! no text.

use crate::{archive, Message};

/// A tag's code, as a queue entry holds it: Java's hash over its UTF-16 units. It is a bit pattern. Of bytes that are no UTF-8,
/// which no record has as a tag, it is the code of the characters before the first place where none stands.
///
/// ```
/// use swistopal::tag_code;
///
/// assert_eq!(tag_code(b"Aa"), 2112);
/// assert_eq!(tag_code("é".as_bytes()), 233);
/// assert_eq!(tag_code("😀".as_bytes()), 0xd83d * 31 + 0xde00);
/// assert_eq!(tag_code(b"Aa\xffBB"), 2112);
/// assert_eq!(tag_code(b"polygenelubricants"), 0xffff_ffff_8000_0000);
/// assert_eq!(tag_code(b""), 0);
/// ```
pub fn tag_code(tag: &[u8]) -> u64 {
    // SAFETY: the pointer is a slice's; nothing is written.
    unsafe { archive::swistopal_tag_code(tag.as_ptr(), tag.len()) }
}

/// Whether a record makes a queue entry; its system flag alone tells.
///
/// ```
/// use swistopal::*;
///
/// let with = |system_flag| Message { fields: Fields { system_flag, ..Fields::default() }, ..Message::default() };
/// assert_eq!([0, 4, 8, 12].map(|flag| makes_entry(&with(flag))), [true, false, true, false]);
/// ```
pub fn makes_entry(message: &Message) -> bool {
    // SAFETY: it takes a number and writes nothing.
    unsafe { archive::swistopal_makes_entry(message.fields.system_flag) != 0 }
}

/// How many index items a record makes; its system flag and its properties tell.
///
/// ```
/// use swistopal::*;
///
/// let prepared = Fields { system_flag: 4, ..Fields::default() };
/// let mut message = Message { fields: prepared, properties: b"KEYS\x01a  a\x02UNIQ_KEY\x01u", ..Message::default() };
/// assert_eq!(item_count(&message), 3);
/// message.fields.system_flag = 12;
/// assert_eq!(item_count(&message), 0);
/// ```
pub fn item_count(message: &Message) -> u64 {
    let properties = message.properties;
    // SAFETY: the pointer is a slice's; nothing is written.
    unsafe {
        archive::swistopal_item_count(
            message.fields.system_flag,
            properties.as_ptr(),
            properties.len(),
        )
    }
}

/// Whether a topic and key are among the items of a record, byte for byte; its system flag, its topic and its properties tell.
///
/// ```
/// use swistopal::*;
///
/// let mut message = Message { topic: b"T", properties: b"KEYS\x01a b\x02UNIQ_KEY\x01u", ..Message::default() };
/// assert!([&b"a"[..], b"b", b"u"].iter().all(|key| has_item(&message, b"T", key)));
/// assert!(!has_item(&message, b"T", b"a b"));
/// assert!(!has_item(&message, b"TT", b"a"));
/// let accented = Message { properties: "KEYS\x01Müller-7".as_bytes(), ..message };
/// assert!(has_item(&accented, b"T", "Müller-7".as_bytes()));
/// message.fields.system_flag = 12;
/// assert!(!has_item(&message, b"T", b"a"));
/// ```
pub fn has_item(message: &Message, topic: &[u8], key: &[u8]) -> bool {
    // SAFETY: every pointer is a slice's; nothing is written.
    let has = unsafe {
        archive::swistopal_has_item(
            message.fields.system_flag,
            message.topic.as_ptr(),
            message.topic.len(),
            message.properties.as_ptr(),
            message.properties.len(),
            topic.as_ptr(),
            topic.len(),
            key.as_ptr(),
            key.len(),
        )
    };
    has != 0
}

/// The three values that matter of a record's properties.
#[derive(Clone, Copy, Debug, Default, PartialEq, Eq)]
pub struct Values<'p> {
    pub tags: Option<&'p [u8]>,
    pub keys: Option<&'p [u8]>,
    pub unique_key: Option<&'p [u8]>,
}

/// The values of TAGS, KEYS and UNIQ_KEY in a record's properties: of each name the last pair. A value has at least one
/// byte. In a record that was read each is UTF-8.
///
/// ```
/// use swistopal::{find_values, Values};
///
/// let values = find_values(b"TAGS\x01a\x02UNIQ_KEY\x01u\x02TAGS\x01b\x02KEYS\x01\x02");
/// assert_eq!(values, Values { tags: Some(b"b"), keys: None, unique_key: Some(b"u") });
/// assert_eq!(find_values(b""), Values::default());
/// ```
pub fn find_values(properties: &[u8]) -> Values<'_> {
    let mut values = archive::Values::default();
    // SAFETY: every pointer is a slice's or a reference's; what is written is borrowed alone.
    unsafe {
        archive::swistopal_find_values(properties.as_ptr(), properties.len(), &mut values);
    }
    let value =
        |place: archive::Place| Some(place.of(properties)).filter(|value| !value.is_empty());
    Values {
        tags: value(values.tags),
        keys: value(values.keys),
        unique_key: value(values.unique_key),
    }
}
