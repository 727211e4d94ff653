//! Document 02, "Item 2. Keys from the accented sites.": UTF-8 by the rows of RFC 3629, and the UTF-16 units of its
//! characters by RFC 2781. Nothing that Rust knows about text is used here; the tests hold both against each other.

use std::ops::RangeInclusive;

use crate::number::Whole;

/// RFC 3629, section 4: "UTF8-tail = %x80-BF".
const TAIL: RangeInclusive<u8> = 0x80..=0xBF;

/// RFC 3629, section 4: "UTF8-char = UTF8-1 / UTF8-2 / UTF8-3 / UTF8-4". A row for each way to write a character: the
/// range of each of its bytes. No two rows have a first byte in common.
const CHARACTERS: [&[RangeInclusive<u8>]; 9] = [
    // "UTF8-1 = %x00-7F"
    &[0x00..=0x7F],
    // "UTF8-2 = %xC2-DF UTF8-tail"
    &[0xC2..=0xDF, TAIL],
    // "UTF8-3 = %xE0 %xA0-BF UTF8-tail / %xE1-EC 2( UTF8-tail ) / %xED %x80-9F UTF8-tail / %xEE-EF 2( UTF8-tail )"
    &[0xE0..=0xE0, 0xA0..=0xBF, TAIL],
    &[0xE1..=0xEC, TAIL, TAIL],
    &[0xED..=0xED, 0x80..=0x9F, TAIL],
    &[0xEE..=0xEF, TAIL, TAIL],
    // "UTF8-4 = %xF0 %x90-BF 2( UTF8-tail ) / %xF1-F3 3( UTF8-tail ) / %xF4 %x80-8F 2( UTF8-tail )"
    &[0xF0..=0xF0, 0x90..=0xBF, TAIL, TAIL],
    &[0xF1..=0xF3, TAIL, TAIL, TAIL],
    &[0xF4..=0xF4, 0x80..=0x8F, TAIL, TAIL],
];

/// Whether the bytes begin with a character that this row writes. A cut character is none.
fn begins_with(bytes: &[u8], row: &[RangeInclusive<u8>]) -> bool {
    bytes.len() >= row.len()
        && row
            .iter()
            .zip(bytes)
            .all(|(range, byte)| range.contains(byte))
}

/// The bytes of the character that stands first, or none where no character stands.
fn first_character(bytes: &[u8]) -> Option<&[u8]> {
    let row = CHARACTERS.iter().find(|row| begins_with(bytes, row))?;
    // "The number of leading ones in the first byte tells how many bytes a character takes." A row's length is that
    // number; a byte below 80 hex has none and is a character of its own.
    Some(&bytes[..row.len()])
}

/// Bytes read as text: the characters from the start on, and what is left at the first place where no character stands.
struct Reading<'a> {
    characters: Vec<&'a [u8]>,
    rest: &'a [u8],
}

/// RFC 3629, section 4: "UTF8-octets = *( UTF8-char )".
fn read(bytes: &[u8]) -> Reading<'_> {
    let mut characters = Vec::new();
    let mut rest = bytes;
    while let Some(character) = first_character(rest) {
        characters.push(character);
        rest = &rest[character.len()..];
    }
    Reading { characters, rest }
}

/// Whether the bytes are UTF-8: "Bytes that are not such UTF-8 (overlong forms, surrogates, values above 10FFFF, cut
/// characters, stray bytes)" leave something that is no character.
pub fn valid(bytes: &[u8]) -> bool {
    read(bytes).rest.is_empty()
}

/// A character's number. RFC 3629, section 3: "0xxxxxxx", "110xxxxx 10xxxxxx", "1110xxxx 10xxxxxx 10xxxxxx",
/// "11110xxx 10xxxxxx 10xxxxxx 10xxxxxx", the bits x from the highest to the lowest.
fn number(character: &[u8]) -> Whole {
    let first = Whole::from(character[0]);
    let mut number = match character.len() {
        1 => first,
        2 => first - 0b1100_0000,
        3 => first - 0b1110_0000,
        _ => first - 0b1111_0000,
    };
    for byte in &character[1..] {
        number = 64 * number + (Whole::from(*byte) - 0b1000_0000);
    }
    number
}

/// The UTF-16 units of the character with number U, by RFC 2781, section 2.1.
fn units_of(u: Whole) -> Vec<Whole> {
    // "1) If U < 0x10000, encode U as a 16-bit unsigned integer and terminate."
    if u < 0x10000 {
        return vec![u];
    }
    // "2) Let U' = U - 0x10000."
    let u = u - 0x10000;
    // "3) Initialize two 16-bit unsigned integers, W1 and W2, to 0xD800 and 0xDC00, respectively."
    // "4) Assign the 10 high-order bits of the 20-bit U' to the 10 low-order bits of W1 and the 10 low-order bits of U'
    // to the 10 low-order bits of W2."
    let w1 = 0xD800 + u / 1_024;
    let w2 = 0xDC00 + u % 1_024;
    vec![w1, w2]
}

/// The UTF-16 units of the bytes' characters. Of bytes that are not UTF-8 those of the characters before the first place
/// where no character stands: the papers leave it open, and only a tag's code by itself can be asked of such bytes.
pub fn units(bytes: &[u8]) -> Vec<Whole> {
    let mut units = Vec::new();
    for character in read(bytes).characters {
        units.extend(units_of(number(character)));
    }
    units
}

#[cfg(test)]
mod tests {
    use super::*;

    /// What Rust's library says: the units, or none where the bytes are not UTF-8.
    fn by_library(bytes: &[u8]) -> Option<Vec<Whole>> {
        let text = std::str::from_utf8(bytes).ok()?;
        Some(text.encode_utf16().map(Whole::from).collect())
    }

    fn same_as_the_library(bytes: &[u8]) {
        let expected = by_library(bytes);
        assert_eq!(valid(bytes), expected.is_some(), "{bytes:x?}");
        let sound = match std::str::from_utf8(bytes) {
            Ok(_) => bytes,
            Err(error) => &bytes[..error.valid_up_to()],
        };
        assert_eq!(Some(units(bytes)), by_library(sound), "{bytes:x?}");
    }

    #[test]
    fn each_row_from_its_first_to_its_last_character() {
        for (bytes, expected) in [
            (&[0x00][..], &[0x0000][..]),
            (&[0x7F], &[0x007F]),
            (&[0xC2, 0x80], &[0x0080]),
            (&[0xDF, 0xBF], &[0x07FF]),
            (&[0xE0, 0xA0, 0x80], &[0x0800]),
            (&[0xE0, 0xBF, 0xBF], &[0x0FFF]),
            (&[0xE1, 0x80, 0x80], &[0x1000]),
            (&[0xEC, 0xBF, 0xBF], &[0xCFFF]),
            (&[0xED, 0x80, 0x80], &[0xD000]),
            (&[0xED, 0x9F, 0xBF], &[0xD7FF]),
            (&[0xEE, 0x80, 0x80], &[0xE000]),
            (&[0xEF, 0xBF, 0xBF], &[0xFFFF]),
            (&[0xF0, 0x90, 0x80, 0x80], &[0xD800, 0xDC00]),
            (&[0xF0, 0xBF, 0xBF, 0xBF], &[0xD8BF, 0xDFFF]),
            (&[0xF1, 0x80, 0x80, 0x80], &[0xD8C0, 0xDC00]),
            (&[0xF3, 0xBF, 0xBF, 0xBF], &[0xDBBF, 0xDFFF]),
            (&[0xF4, 0x80, 0x80, 0x80], &[0xDBC0, 0xDC00]),
            (&[0xF4, 0x8F, 0xBF, 0xBF], &[0xDBFF, 0xDFFF]),
        ] {
            assert!(valid(bytes), "{bytes:x?}");
            assert_eq!(units(bytes), expected, "{bytes:x?}");
            same_as_the_library(bytes);
        }
    }

    #[test]
    fn what_stands_beside_each_row_is_refused() {
        for bytes in [
            // Stray bytes.
            &[0x80][..],
            &[0xBF],
            // Overlong forms.
            &[0xC0, 0x80],
            &[0xC1, 0xBF],
            &[0xE0, 0x80, 0x80],
            &[0xE0, 0x9F, 0xBF],
            &[0xF0, 0x80, 0x80, 0x80],
            &[0xF0, 0x8F, 0xBF, 0xBF],
            // Surrogates, alone and in a pair of six bytes.
            &[0xED, 0xA0, 0x80],
            &[0xED, 0xBF, 0xBF],
            &[0xED, 0xA0, 0xBD, 0xED, 0xB8, 0x80],
            // Above 10FFFF, and first bytes that no character has.
            &[0xF4, 0x90, 0x80, 0x80],
            &[0xF4, 0xBF, 0xBF, 0xBF],
            &[0xF5, 0x80, 0x80, 0x80],
            &[0xF7, 0xBF, 0xBF, 0xBF],
            &[0xF8, 0x88, 0x80, 0x80, 0x80],
            &[0xFC, 0x84, 0x80, 0x80, 0x80, 0x80],
            &[0xFE],
            &[0xFF],
            // Cut characters.
            &[0xC3],
            &[0xE2],
            &[0xE2, 0x82],
            &[0xF0],
            &[0xF0, 0x9F],
            &[0xF0, 0x9F, 0x98],
            // A tail's byte beside its range.
            &[0xC3, 0x7F],
            &[0xC3, 0xC0],
            &[0xE2, 0x82, 0x7F],
            &[0xE2, 0x82, 0xC0],
            &[0xF0, 0x9F, 0x98, 0x7F],
            &[0xF0, 0x9F, 0x98, 0xC0],
        ] {
            for before in ["", "a", "\u{e9}", "\u{20ac}", "\u{1f600}"] {
                for after in ["", "a", "\u{e9}"] {
                    let text = [before.as_bytes(), bytes, after.as_bytes()].concat();
                    assert!(!valid(&text), "{text:x?}");
                    assert_eq!(units(&text), by_library(before.as_bytes()).unwrap());
                    same_as_the_library(&text);
                }
            }
        }
    }

    #[test]
    fn the_number_of_leading_ones_tells_how_many_bytes() {
        for row in CHARACTERS {
            for first in row[0].clone() {
                let ones = first.leading_ones() as usize;
                assert_eq!(row.len(), ones.max(1));
            }
        }
    }

    #[test]
    fn as_the_library_on_every_string_of_up_to_2_bytes() {
        same_as_the_library(&[]);
        for first in 0..=255 {
            same_as_the_library(&[first]);
            for second in 0..=255 {
                same_as_the_library(&[first, second]);
            }
        }
    }

    #[test]
    fn as_the_library_on_every_character() {
        for character in '\0'..=char::MAX {
            same_as_the_library(character.encode_utf8(&mut [0; 4]).as_bytes());
        }
    }

    #[test]
    fn as_the_library_on_bytes_from_the_edges_of_the_rows() {
        const EDGES: [u8; 22] = [
            0x00, 0x7F, 0x80, 0x8F, 0x90, 0x9F, 0xA0, 0xBF, 0xC0, 0xC1, 0xC2, 0xDF, 0xE0, 0xE1,
            0xEC, 0xED, 0xEF, 0xF0, 0xF3, 0xF4, 0xF5, 0xFF,
        ];
        let mut state: u64 = 1;
        let mut next = |bound: usize| {
            state = state
                .wrapping_mul(6_364_136_223_846_793_005)
                .wrapping_add(1_442_695_040_888_963_407);
            (state >> 33) as usize % bound
        };
        for _ in 0..200_000 {
            let mut text = Vec::new();
            for _ in 0..next(8) {
                match next(4) {
                    0 => text.push(EDGES[next(EDGES.len())]),
                    1 => text.push(next(256) as u8),
                    _ => {
                        let character = char::from_u32(next(0x11_0000) as u32 >> next(20));
                        text.extend(character.unwrap_or('a').to_string().bytes());
                    }
                }
            }
            if next(4) == 0 {
                text.pop();
            }
            same_as_the_library(&text);
        }
        // Every four of the edges.
        for number in 0..EDGES.len().pow(4) {
            let place = |power: u32| EDGES[number / EDGES.len().pow(power) % EDGES.len()];
            same_as_the_library(&[place(0), place(1), place(2), place(3)]);
        }
    }
}
