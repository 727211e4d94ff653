//! What a record's own lengths say, where the archive reads none: how long it is, and whether only its text is no UTF-8.

use super::segments::{LOG_POSITION, MAGIC, MESSAGE};
use super::{Log, Stretch};
use crate::text::{NoText, Object};
use std::ops::Range;
use swistopal::{find_values, read_record, Answer, LogPosition, Sizes};

const SYSTEM_FLAG: usize = 36;
const BODY_LENGTH: usize = 84;
/// System flag bits of a born host and of a store host of 20 bytes instead of 8.
const LONG_HOSTS: u32 = 16 | 32;
const MORE_FOR_A_LONG_HOST: usize = 12;
/// A segment's least size, and what it keeps for a blank.
const LEAST_SEGMENT: usize = 1024;
const BLANK_LENGTH: usize = 8;

/// Where topic and properties stand, from the record's first byte on. The properties end with the record.
struct Frame {
    topic: Range<usize>,
    properties: Range<usize>,
}

impl Frame {
    /// Of the bytes from a position to its segment's end, if lengths and position of a record fit; its hosts have so many bytes
    /// more than 16.
    fn of(rest: &[u8], position: LogPosition, more: usize) -> Option<Frame> {
        let own = rest.get(LOG_POSITION..)?.first_chunk()?;
        let body_length = BODY_LENGTH + more;
        let topic_length = body_length + 4 + word(rest, body_length)? as usize;
        let topic = topic_length + 1..topic_length + 1 + usize::from(*rest.get(topic_length)?);
        let length = u16::from_be_bytes(*rest.get(topic.end..)?.first_chunk()?);
        let properties = topic.end + 2..topic.end + 2 + usize::from(length);
        let whole = word(rest, MAGIC)?.to_be_bytes() == MESSAGE
            && u64::from_be_bytes(*own) == position.0
            && word(rest, 0)? as usize == properties.end
            && properties.end <= rest.len();
        whole.then_some(Frame { topic, properties })
    }

    fn total(&self) -> usize {
        self.properties.end
    }
}

fn word(bytes: &[u8], at: usize) -> Option<u32> {
    Some(u32::from_be_bytes(*bytes.get(at..)?.first_chunk()?))
}

/// Text of a record that is no UTF-8, where nothing else is wrong with it: the part of it that comes first.
#[derive(Clone, Copy, Debug, PartialEq, Eq)]
pub struct BadText {
    /// The topic, or the name of a property.
    part: &'static str,
    /// The byte of the record at which it is no UTF-8.
    byte: usize,
    position: LogPosition,
    flaw: NoText,
}

impl BadText {
    /// A part of a sentence: what is wrong, and where.
    pub fn sentence(&self) -> String {
        format!(
            "its {} is no UTF-8: at byte {} of the record, position {}, stands {}",
            self.part,
            self.byte,
            self.position.0,
            self.flaw.what()
        )
    }

    /// The same as a JSON object.
    pub fn object(&self) -> String {
        Object::new()
            .text("part", self.part)
            .number("byte", self.byte as u64)
            .number("position", self.position.0)
            .text("hex", &self.flaw.hex())
            .end()
    }
}

impl Log {
    /// The length of a record with hosts of 20 bytes, which the archive does not read.
    pub fn long_hosts(&self, position: LogPosition) -> Option<u64> {
        self.stretch_before(position).long_hosts(position)
    }

    /// Whether what the archive answers at a position is due to the text of a record alone.
    pub fn bad_text(&self, position: LogPosition, answer: Answer) -> Option<BadText> {
        let stretch = self.stretch_before(position);
        match answer {
            Answer::Damaged => stretch.bad_text(position),
            _ => None,
        }
    }
}

impl Stretch {
    /// The bytes from a position to the end of its segment, or to where reading ends.
    fn rest_of_segment(&self, position: LogPosition) -> &[u8] {
        let (rest, segment) = (self.rest(position), self.left_in_segment(position));
        &rest[..rest.len().min(segment)]
    }

    fn left_in_segment(&self, position: LogPosition) -> usize {
        let size = self.sizes.segment_size;
        (size - position.0 % size) as usize
    }

    pub fn long_hosts(&self, position: LogPosition) -> Option<u64> {
        let rest = self.rest_of_segment(position);
        let hosts = (word(rest, SYSTEM_FLAG)? & LONG_HOSTS).count_ones() as usize;
        let frame = Frame::of(rest, position, hosts * MORE_FOR_A_LONG_HOST)?;
        (hosts > 0).then_some(frame.total() as u64)
    }

    /// The archive is asked once more for the same record with `?` in the place of each byte that is not ASCII, which makes no
    /// name that matters. If it reads that one, the text was all that was wrong, and the values that the archive finds tell
    /// which text.
    fn bad_text(&self, position: LogPosition) -> Option<BadText> {
        let rest = self.rest_of_segment(position);
        let frame = Frame::of(rest, position, 0)?;
        let record = &rest[..frame.total()];
        if record.len() + BLANK_LENGTH > self.left_in_segment(position) {
            return None;
        }
        let mut plain = record.to_vec();
        plain[LOG_POSITION..LOG_POSITION + 8].fill(0);
        for part in [&frame.topic, &frame.properties] {
            let others = plain[part.clone()].iter_mut();
            let others = others.filter(|byte| !byte.is_ascii());
            others.for_each(|byte| *byte = b'?');
        }
        plain.resize(LEAST_SEGMENT.max(record.len() + BLANK_LENGTH), 0);
        let sizes = Sizes {
            segment_size: plain.len() as u64,
            ..Sizes::default()
        };
        let end = LogPosition(record.len() as u64);
        read_record(&plain, &sizes, LogPosition(0), end).ok()?;
        let values = find_values(&record[frame.properties]);
        let parts = [
            ("topic", Some(&record[frame.topic])),
            ("TAGS", values.tags),
            ("KEYS", values.keys),
            ("UNIQ_KEY", values.unique_key),
        ];
        let flaws = parts.into_iter().filter_map(|(part, text)| {
            let text = text?;
            let flaw = NoText::of(text)?;
            let byte = text.as_ptr().addr() - record.as_ptr().addr() + flaw.at;
            Some(BadText {
                part,
                byte,
                position: LogPosition(position.0 + byte as u64),
                flaw,
            })
        });
        flaws.min_by_key(|flaw| flaw.byte)
    }
}
