//! UTF-8 text: whether bytes are such, and the hash of their UTF-16 units.

use super::hash::{continued_bytes, step};

const HIGH: u64 = 0x8080_8080_8080_8080;

/// Whether no byte is 80 hex or more: eight bytes a turn, the last eight once more.
#[inline(always)]
pub fn is_ascii(bytes: &[u8]) -> bool {
    let Some(last) = bytes.last_chunk::<8>() else {
        return bytes.iter().fold(0, |all, byte| all | byte) < 0x80;
    };
    let (eights, _) = bytes.as_chunks::<8>();
    let all = eights.iter().fold(u64::from_ne_bytes(*last), |all, eight| {
        all | u64::from_ne_bytes(*eight)
    });
    all & HIGH == 0
}

/// Text that is not ASCII.
pub trait Decoder {
    fn is_text(bytes: &[u8]) -> bool;

    /// The hash, continued over the units of bytes that were not judged, if they are text.
    fn hashed(start: u32, bytes: &[u8]) -> Option<u32>;
}

/// As the standard library has it.
pub struct Standard;

impl Decoder for Standard {
    #[inline(always)]
    fn is_text(bytes: &[u8]) -> bool {
        std::str::from_utf8(bytes).is_ok()
    }

    #[inline(always)]
    fn hashed(start: u32, bytes: &[u8]) -> Option<u32> {
        let text = std::str::from_utf8(bytes).ok()?;
        Some(text.encode_utf16().fold(start, step))
    }
}

/// A loop over the characters that judges and hashes at once.
pub struct OnePass;

impl Decoder for OnePass {
    #[inline(always)]
    fn is_text(bytes: &[u8]) -> bool {
        each_code(bytes, |_| ())
    }

    #[inline(always)]
    fn hashed(start: u32, bytes: &[u8]) -> Option<u32> {
        let mut hash = start;
        each_code(bytes, |codes| {
            hash = match codes {
                Codes::Eight(eight) => continued_bytes(hash, eight),
                Codes::One(code) => step_code(hash, code),
            }
        })
        .then_some(hash)
    }
}

/// Characters that follow each other.
enum Codes<'a> {
    /// Eight below 80 hex.
    Eight(&'a [u8; 8]),
    One(u32),
}

/// Calls `visit` with the characters, up to the first bytes that are none. Whether there are no such bytes.
#[inline(always)]
fn each_code(bytes: &[u8], mut visit: impl FnMut(Codes)) -> bool {
    let follows = |byte: &u8| byte & 0xC0 == 0x80;
    let mut rest = bytes;
    loop {
        rest = match rest {
            [] => return true,
            [a @ ..0x80, tail @ ..] => match rest.split_first_chunk::<8>() {
                Some((eight, tail)) if u64::from_ne_bytes(*eight) & HIGH == 0 => {
                    visit(Codes::Eight(eight));
                    tail
                }
                _ => {
                    visit(Codes::One(u32::from(*a)));
                    tail
                }
            },
            [a @ 0xC2..0xE0, b, tail @ ..] if follows(b) => {
                visit(Codes::One(two(*a, *b)));
                tail
            }
            [a @ 0xE0..0xF0, b, c, tail @ ..] if follows(b) && follows(c) => {
                let code = three(*a, *b, *c);
                if code < 0x800 || code & 0xF800 == 0xD800 {
                    return false;
                }
                visit(Codes::One(code));
                tail
            }
            [a @ 0xF0..0xF5, b, c, d, tail @ ..] if follows(b) && follows(c) && follows(d) => {
                let code = four(*a, *b, *c, *d);
                if !(0x1_0000..0x11_0000).contains(&code) {
                    return false;
                }
                visit(Codes::One(code));
                tail
            }
            _ => return false,
        }
    }
}

/// The hash, continued over the units of bytes that were judged to be text, character by character. It stays a call, so
/// that a loop over ASCII is short.
#[inline(never)]
pub fn continued_text(start: u32, text: &[u8]) -> u32 {
    let mut hash = start;
    let mut rest = text;
    loop {
        rest = match rest {
            [a @ ..0x80, tail @ ..] => {
                hash = step(hash, *a);
                tail
            }
            [a @ ..0xE0, b, tail @ ..] => {
                hash = step(hash, two(*a, *b));
                tail
            }
            [a @ ..0xF0, b, c, tail @ ..] => {
                hash = step(hash, three(*a, *b, *c));
                tail
            }
            [a, b, c, d, tail @ ..] => {
                hash = step_code(hash, four(*a, *b, *c, *d));
                tail
            }
            _ => return hash,
        }
    }
}

/// The hash, continued over the one or two units of a character.
#[inline(always)]
fn step_code(hash: u32, code: u32) -> u32 {
    if code < 0x1_0000 {
        return step(hash, code);
    }
    let above = code - 0x1_0000;
    step(step(hash, 0xD800 + (above >> 10)), 0xDC00 + (above & 0x3FF))
}

/// The six low bits of a byte, behind those of the ones before it.
#[inline(always)]
fn joined(before: u32, byte: u8) -> u32 {
    before << 6 | u32::from(byte & 0x3F)
}

#[inline(always)]
fn two(a: u8, b: u8) -> u32 {
    joined(u32::from(a & 0x1F), b)
}

#[inline(always)]
fn three(a: u8, b: u8, c: u8) -> u32 {
    joined(joined(u32::from(a & 0xF), b), c)
}

#[inline(always)]
fn four(a: u8, b: u8, c: u8, d: u8) -> u32 {
    joined(joined(joined(u32::from(a & 7), b), c), d)
}
