//! Text of every kind: characters of one to four bytes and their edges, and bytes that are not UTF-8. No text has a byte 01
//! or 02, so that each can stand in properties.

use crate::random::Random;

/// The characters at which a decoder may go wrong: the first and the last of each length and around the surrogates, first
/// bytes and tails at the ends of their ranges, the byte order mark, noncharacters, units that look negative.
pub const CHARACTERS: [char; 25] = [
    '\0',
    '\u{7f}',
    '\u{80}',
    '\u{bf}',
    '\u{c0}',
    '\u{e9}',
    '\u{7ff}',
    '\u{800}',
    '\u{fff}',
    '\u{1000}',
    '\u{20ac}',
    '\u{7fff}',
    '\u{8000}',
    '\u{cfff}',
    '\u{d000}',
    '\u{d7ff}',
    '\u{e000}',
    '\u{feff}',
    '\u{ffff}',
    '\u{10000}',
    '\u{1f600}',
    '\u{3ffff}',
    '\u{fffff}',
    '\u{100000}',
    '\u{10ffff}',
];

/// What makes bytes no text, as document 02 names it.
#[derive(Clone, Copy, Debug, PartialEq, Eq)]
pub enum TextFault {
    Overlong2,
    Overlong3,
    Overlong4,
    Surrogate,
    AboveLargest,
    NoFirstByte,
    CutAtEnd,
    CutInside,
    Stray,
}

impl TextFault {
    pub const ALL: [TextFault; 9] = [
        TextFault::Overlong2,
        TextFault::Overlong3,
        TextFault::Overlong4,
        TextFault::Surrogate,
        TextFault::AboveLargest,
        TextFault::NoFirstByte,
        TextFault::CutAtEnd,
        TextFault::CutInside,
        TextFault::Stray,
    ];

    pub fn name(self) -> &'static str {
        match self {
            TextFault::Overlong2 => "overlong form of 2 bytes",
            TextFault::Overlong3 => "overlong form of 3 bytes",
            TextFault::Overlong4 => "overlong form of 4 bytes",
            TextFault::Surrogate => "surrogate",
            TextFault::AboveLargest => "value above 10FFFF",
            TextFault::NoFirstByte => "first byte of F5 to FF",
            TextFault::CutAtEnd => "character cut at the end",
            TextFault::CutInside => "character cut inside",
            TextFault::Stray => "stray byte",
        }
    }

    /// The bytes that are no character. Text may stand before them; behind a cut at the end nothing may.
    fn bytes(self, random: &Random) -> Vec<u8> {
        let tail = || {
            random.pick(&[
                0x80,
                0x8F,
                0x90,
                0x9F,
                0xA0,
                0xBF,
                0x80 | random.below(64) as u8,
            ])
        };
        let from =
            |least: u64, most: u64| random.pick(&[least, most, random.between(least, most)]) as u8;
        match self {
            TextFault::Overlong2 => vec![from(0xC0, 0xC1), tail()],
            TextFault::Overlong3 => vec![0xE0, from(0x80, 0x9F), tail()],
            TextFault::Overlong4 => vec![0xF0, from(0x80, 0x8F), tail(), tail()],
            // Or the pair of a character above FFFF, in six bytes.
            TextFault::Surrogate if random.one_in(4) => vec![
                0xED,
                from(0xA0, 0xAF),
                tail(),
                0xED,
                from(0xB0, 0xBF),
                tail(),
            ],
            TextFault::Surrogate => vec![0xED, from(0xA0, 0xBF), tail()],
            TextFault::AboveLargest => vec![0xF4, from(0x90, 0xBF), tail(), tail()],
            // With as many tails as its leading ones tell, or any.
            TextFault::NoFirstByte => {
                let first = random.pick(&[
                    0xF5,
                    0xF5,
                    0xF7,
                    0xF8,
                    0xFB,
                    0xFC,
                    0xFD,
                    0xFE,
                    0xFF,
                    from(0xF5, 0xFF),
                ]);
                let tails =
                    random.pick(&[3, 3, u64::from(first.leading_ones()) - 1, random.below(8)]);
                let mut bytes = vec![first];
                bytes.extend((0..tails).map(|_| tail()));
                bytes
            }
            TextFault::CutAtEnd => cut_character(random),
            // Another byte in a tail's place, and all else in order.
            TextFault::CutInside if random.one_in(2) => {
                let mut bytes = long_character(random).to_string().into_bytes();
                let place = random.between(1, bytes.len() as u64 - 1) as usize;
                bytes[place] = random.pick(&[0, 0x7F, b'a', b' ', 0xC0, 0xC2, 0xE1, 0xF0, 0xFF]);
                bytes
            }
            // Then a character of one byte, or of more.
            TextFault::CutInside => {
                let next = random.pick(&[
                    '\0',
                    '\u{7f}',
                    'a',
                    '#',
                    ' ',
                    '\u{c0}',
                    '\u{10000}',
                    character(random),
                ]);
                [&cut_character(random)[..], next.to_string().as_bytes()].concat()
            }
            // Alone, or behind a whole character.
            TextFault::Stray => {
                let mut bytes = if random.one_in(2) {
                    Vec::new()
                } else {
                    character(random).to_string().into_bytes()
                };
                bytes.push(tail());
                bytes
            }
        }
    }
}

/// A character of two bytes or more.
pub fn long_character(random: &Random) -> char {
    loop {
        let character = character(random);
        if !character.is_ascii() {
            return character;
        }
    }
}

/// A character of two bytes or more without its last one, or its last ones.
fn cut_character(random: &Random) -> Vec<u8> {
    let mut bytes = long_character(random).to_string().into_bytes();
    bytes.truncate(random.between(1, bytes.len() as u64 - 1) as usize);
    bytes
}

/// Any character but 01 and 02, as many of each length, half of them at the edges.
pub fn character(random: &Random) -> char {
    if random.one_in(2) {
        return random.pick(&CHARACTERS);
    }
    let number = match random.below(4) {
        0 => random.between(0x03, 0x7F),
        1 => random.between(0x80, 0x7FF),
        2 => random.between(0x800, 0xFFFF),
        _ => random.between(0x1_0000, 0x10_FFFF),
    };
    // A surrogate is no character.
    char::from_u32(number as u32).unwrap_or('\u{ac00}')
}

/// One byte of text, at the edges and between them.
fn ascii(random: &Random) -> u8 {
    random.pick(b"abcxyzABC019-_./#~\x00\x03\x7F")
}

/// Text of one byte each, so many of them; a space among them at some rate.
pub fn ascii_run(random: &Random, length: u64) -> Vec<u8> {
    let mut run: Vec<u8> = (0..length).map(|_| ascii(random)).collect();
    if length > 2 && random.one_in(3) {
        run[random.between(1, length - 2) as usize] = b' ';
    }
    run
}

/// Text of so many bytes: of single ones, of characters of one length as far as they go, or of any.
pub fn text(random: &Random, length: u64) -> Vec<u8> {
    let widths = match random.below(5) {
        0 => [1, 1],
        1 => [2, 2],
        2 => [3, 3],
        3 => [4, 4],
        _ => [1, 4],
    };
    let mut bytes = Vec::with_capacity(length as usize + 4);
    while (bytes.len() as u64) < length {
        let left = length - bytes.len() as u64;
        let character = character(random);
        let width = character.len_utf8() as u64;
        if width <= left && (widths[0]..=widths[1]).contains(&width) {
            bytes.extend(character.to_string().bytes());
        } else if left < widths[0] {
            bytes.push(ascii(random));
        }
    }
    bytes
}

/// Most bytes of ASCII right before what is tried: a decoder may take eight bytes at a time, or sixteen.
pub const LONGEST_RUN: u64 = 40;

/// Bytes of which one part is tried, and how many ASCII bytes stand right before it.
pub struct Trial {
    pub bytes: Vec<u8>,
    pub run: u64,
}

impl Trial {
    /// A part with text before it, which ends with a run of ASCII bytes, and behind it, unless it must be last.
    fn around(random: &Random, part: &[u8], must_be_last: bool) -> Trial {
        let before = if random.one_in(3) {
            // No ASCII byte before the run.
            let character = long_character(random);
            let length = random.below(30);
            [text(random, length), character.to_string().into_bytes()].concat()
        } else {
            Vec::new()
        };
        let run = random.below(LONGEST_RUN + 1);
        let behind = match random.below(3) {
            _ if must_be_last => Vec::new(),
            0 => Vec::new(),
            1 => {
                let length = random.between(1, 40);
                ascii_run(random, length)
            }
            _ => {
                let length = random.between(1, 40);
                text(random, length)
            }
        };
        Trial {
            bytes: [&before, &ascii_run(random, run), part, &behind].concat(),
            run,
        }
    }

    /// Bytes that are not UTF-8, at most 127 of them.
    pub fn of_fault(random: &Random, fault: TextFault) -> Trial {
        let part = fault.bytes(random);
        let trial = Trial::around(random, &part, fault == TextFault::CutAtEnd);
        assert!(
            std::str::from_utf8(&trial.bytes).is_err(),
            "{:x?}",
            trial.bytes
        );
        trial
    }

    /// Text with this character in it, at most 127 bytes of it.
    pub fn of_character(random: &Random, character: char) -> Trial {
        let trial = Trial::around(random, character.to_string().as_bytes(), false);
        assert!(
            std::str::from_utf8(&trial.bytes).is_ok(),
            "{:x?}",
            trial.bytes
        );
        trial
    }
}

/// Text, at some rate with a fault: first, last or in the middle. Of so many bytes where that is enough.
pub fn mostly_text(random: &Random, length: u64) -> Vec<u8> {
    if random.one_in(6) {
        faulty_text(random, length)
    } else {
        text(random, length)
    }
}

/// Bytes that are not UTF-8: mostly a long text with a fault first, last or in the middle. Of so many bytes where that is
/// enough.
pub fn faulty_text(random: &Random, length: u64) -> Vec<u8> {
    let fault = random.pick(&TextFault::ALL);
    let part = fault.bytes(random);
    let others = length.saturating_sub(part.len() as u64);
    let before = match random.below(3) {
        _ if fault == TextFault::CutAtEnd => others,
        0 => 0,
        1 => others,
        _ => random.below(others + 1),
    };
    let filler = |length: u64| {
        if random.one_in(2) {
            ascii_run(random, length)
        } else {
            text(random, length)
        }
    };
    [filler(before), part, filler(others - before)].concat()
}
