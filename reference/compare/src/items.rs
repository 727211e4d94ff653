//! What records make: the small functions on usual properties and on ones that nobody sends.

use model::interface::{self, Values};

use crate::functions::ItemQuestion;
use crate::judge::Check;
use crate::messages::{odd_properties, properties, KEYS, TAGS, TOPICS};
use crate::operations::Bench;
use crate::random::Random;
use crate::store::wide_properties;
use crate::texts::mostly_text;

/// A system flag of each transaction type, with any other bits.
fn system_flag(random: &Random) -> u64 {
    let others = match random.below(4) {
        0 => 0,
        1 => random.pick(&[1, 2, 3, 16, 32, 48, 64, 1 << 31, 0xFFFF_FFC3]),
        2 => random.pick(&[1 << 32, 1 << 35, 1 << 36, 1 << 63, u64::MAX << 4, !12]),
        _ => random.next() & !12,
    };
    others | random.pick(&[0, 4, 8, 12])
}

/// All functions on properties of every make.
pub fn made_by_records(bench: &mut Bench, random: &Random) -> Check<()> {
    for _ in 0..6 {
        let properties = match random.below(12) {
            0..=4 => properties(random),
            5 if random.one_in(8) => wide_properties(random),
            // More items than 16 bits count; no record has as many.
            6 if random.one_in(15) => [b"KEYS\x01".to_vec(), b"a ".repeat(66_000)].concat(),
            _ => odd_properties(random),
        };
        let topic = match random.below(8) {
            0 => Vec::new(),
            1 => {
                let length = random.pick(&[1, 2, 127, 128, 300]);
                random.bytes(length)
            }
            _ => random.pick(&TOPICS).to_vec(),
        };
        made_by_record(bench, random, system_flag(random), &topic, &properties)?;
        tags(bench, random)?;
        bench.makes_entry(random.absurd())?;
    }
    Ok(())
}

/// All functions on one record's flag, topic and properties.
pub fn made_by_record(
    bench: &mut Bench,
    random: &Random,
    system_flag: u64,
    topic: &[u8],
    properties: &[u8],
) -> Check<()> {
    bench.makes_entry(system_flag)?;
    bench.item_count(system_flag, properties)?;
    let values = bench.find_values(properties)?;
    bench.tag_code(value(properties, values.tags))?;
    for _ in 0..random.between(1, 4) {
        bench.has_item(&ItemQuestion {
            system_flag,
            record_topic: topic.to_vec(),
            properties: properties.to_vec(),
            topic: asked_topic(random, topic),
            key: asked_key(random, properties, &values),
        })?;
    }
    if topic == b"T#a" || topic == b"T" {
        // These two have one hash: an item that is the one is not the other.
        for (asked, key) in [(&b"T#a"[..], &b"b"[..]), (b"T", b"a#b")] {
            bench.has_item(&ItemQuestion {
                system_flag,
                record_topic: topic.to_vec(),
                properties: properties.to_vec(),
                topic: asked.to_vec(),
                key: key.to_vec(),
            })?;
        }
    }
    Ok(())
}

fn value(properties: &[u8], place: interface::Place) -> &[u8] {
    &properties[place.at as usize..][..place.length as usize]
}

/// Mostly the record's own topic, else one like it.
fn asked_topic(random: &Random, topic: &[u8]) -> Vec<u8> {
    if random.one_in(3) {
        beside(random, topic)
    } else {
        topic.to_vec()
    }
}

/// A byte more, less or other; or another text.
fn beside(random: &Random, text: &[u8]) -> Vec<u8> {
    let mut text = text.to_vec();
    match random.below(6) {
        0 => text.push(random.pick(b"a #\x00\xFF")),
        1 => {
            text.pop();
        }
        2 if !text.is_empty() => {
            text.remove(0);
        }
        3 if !text.is_empty() => {
            let place = random.below(text.len() as u64) as usize;
            text[place] ^= 1 << random.below(8);
        }
        4 => text.clear(),
        _ => text = random.pick(&TOPICS).to_vec(),
    }
    text
}

/// A key that the record has an item of, or one that only looks so.
fn asked_key(random: &Random, properties: &[u8], values: &Values) -> Vec<u8> {
    let list = value(properties, values.keys);
    let unique_key = value(properties, values.unique_key);
    let parts: Vec<&[u8]> = list.split(|byte| *byte == b' ').collect();
    let key = match random.below(10) {
        0 => random.pick(&KEYS).to_vec(),
        1 => unique_key.to_vec(),
        2 => list.to_vec(),
        3 => {
            // Any run of the properties: parts of values, names, earlier pairs.
            let start = random.below(properties.len() as u64 + 1) as usize;
            let rest = &properties[start..];
            let length = random.below((rest.len() as u64).min(20) + 1) as usize;
            rest[..length].to_vec()
        }
        4 => {
            // The value of any piece.
            let pieces: Vec<&[u8]> = properties.split(|byte| *byte == 2).collect();
            let piece = random.pick(&pieces);
            let sides: Vec<&[u8]> = piece.split(|byte| *byte == 1).collect();
            random.pick(&sides).to_vec()
        }
        5 => {
            let words: Vec<&[u8]> = unique_key.split(|byte| *byte == b' ').collect();
            random.pick(&words).to_vec()
        }
        6 => parts[parts.len() - 1].to_vec(),
        _ => random.pick(&parts).to_vec(),
    };
    if random.one_in(6) {
        beside(random, &key)
    } else {
        key
    }
}

fn tags(bench: &mut Bench, random: &Random) -> Check<()> {
    let tag = match random.below(7) {
        0 => random.pick(&TAGS).to_vec(),
        1 => random.pick(&KEYS).to_vec(),
        2 => {
            let length = random.below(70);
            random.bytes(length)
        }
        3 => vec![random.pick(&[0, 1, 0x7F, 0x80, 0xFF]); random.below(40) as usize],
        4 | 5 => {
            let length = random.below(70);
            mostly_text(random, length)
        }
        _ if random.one_in(30) => mostly_text(random, 70_000),
        _ => Vec::new(),
    };
    bench.tag_code(&tag)?;
    Ok(())
}
