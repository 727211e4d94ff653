//! How a log is divided.

use crate::archive::Sizes;

const MAX_POSITION: u64 = 1 << 40;

#[derive(Clone, Copy)]
pub struct Geometry {
    pub segment_size: u64,
    pub first_position: u64,
}

impl Geometry {
    #[inline(always)]
    pub fn of(sizes: &Sizes) -> Geometry {
        Geometry {
            segment_size: sizes.segment_size,
            first_position: sizes.first_position,
        }
    }

    /// Door check 1 of a log of so many bytes.
    #[inline(always)]
    pub fn fits(self, length: u64) -> bool {
        let (s, b) = (self.segment_size, self.first_position);
        (1024..=1 << 30).contains(&s)
            && length != 0
            && length <= MAX_POSITION
            && b <= MAX_POSITION - length
            && length.is_multiple_of(s)
            && b.is_multiple_of(s)
    }

    /// Door check 2 of reading.
    #[inline(always)]
    pub fn range_fits(self, length: u64, position: u64, readable_end: u64) -> bool {
        self.first_position <= position
            && position <= readable_end
            && readable_end <= self.first_position + length
    }

    /// The bytes from a position to its segment's end.
    #[inline(always)]
    pub fn rest(self, position: u64) -> u64 {
        self.segment_size - position % self.segment_size
    }
}
