//! Bytes that are looked for, 16 at a time.

use std::arch::x86_64::{
    __m128i, _mm_cmpeq_epi8, _mm_loadu_si128, _mm_min_epu8, _mm_movemask_epi8, _mm_set1_epi8,
};

/// Bytes looked at in one turn.
const WIDTH: usize = 16;

/// Bytes that are looked for: one by one, or many at a time as a mask.
pub trait Sought {
    fn is(byte: u8) -> bool;
    fn among(block: __m128i) -> __m128i;
}

/// Bytes 0, 1 and 2.
pub struct Low;

impl Sought for Low {
    #[inline(always)]
    fn is(byte: u8) -> bool {
        byte <= 2
    }

    #[inline(always)]
    fn among(block: __m128i) -> __m128i {
        // SSE2 belongs to the baseline.
        unsafe { _mm_cmpeq_epi8(_mm_min_epu8(block, _mm_set1_epi8(2)), block) }
    }
}

pub struct Space;

impl Sought for Space {
    #[inline(always)]
    fn is(byte: u8) -> bool {
        byte == b' '
    }

    #[inline(always)]
    fn among(block: __m128i) -> __m128i {
        // SSE2 belongs to the baseline.
        unsafe { _mm_cmpeq_epi8(block, _mm_set1_epi8(b' ' as i8)) }
    }
}

/// What a block has, a bit for each byte.
struct Marks {
    sought: u32,
    /// 80 hex or more.
    high: u32,
}

/// The marks of the first bytes, as many as are looked at in one turn.
#[inline(always)]
fn marks<S: Sought>(bytes: &[u8]) -> Marks {
    if let Some(block) = bytes.first_chunk::<WIDTH>() {
        // The block has as many bytes as are loaded; SSE2 belongs to the baseline.
        unsafe {
            let block = _mm_loadu_si128(block.as_ptr().cast());
            return Marks {
                sought: _mm_movemask_epi8(S::among(block)) as u32,
                high: _mm_movemask_epi8(block) as u32,
            };
        }
    }
    let mut marks = Marks { sought: 0, high: 0 };
    for (i, byte) in bytes.iter().enumerate() {
        marks.sought |= u32::from(S::is(*byte)) << i;
        marks.high |= u32::from(*byte >> 7) << i;
    }
    marks
}

/// Calls `visit` with the place of each byte that is looked for. Whether no byte is 80 hex or more.
#[inline(always)]
pub fn each<S: Sought>(bytes: &[u8], mut visit: impl FnMut(usize)) -> bool {
    let last = bytes.len().saturating_sub(WIDTH);
    let mut at = 0;
    let mut high = 0;
    while at < bytes.len() {
        // The last block ends with the bytes; what it has in common with the one before is not visited again.
        let from = at.min(last);
        let marks = marks::<S>(&bytes[from..]);
        high |= marks.high;
        let mut left = marks.sought & (u32::MAX << (at - from));
        while left != 0 {
            visit(from + left.trailing_zeros() as usize);
            left &= left - 1;
        }
        at = from + WIDTH;
    }
    high == 0
}
