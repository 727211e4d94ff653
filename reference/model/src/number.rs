//! Whole numbers, the two kinds of place, and numbers in bytes.

/// A whole number. The numbers of a call are below 2^64 and the rules multiply them by small constants only, so
/// no sum or product comes near the ends of this type.
pub type Whole = i128;

// "A log position and a place in a queue are different kinds of number and must not be mixed."

/// A position in the commit log.
#[derive(Clone, Copy, Debug, PartialEq, Eq, PartialOrd, Ord)]
pub struct LogPosition(pub u64);

/// A place in a consume queue: an entry's number, or a count of entries.
#[derive(Clone, Copy, Debug, PartialEq, Eq, PartialOrd, Ord)]
pub struct QueuePlace(pub u64);

impl LogPosition {
    pub fn whole(self) -> Whole {
        Whole::from(self.0)
    }

    /// The position `distance` bytes further on.
    pub fn plus(self, distance: Whole) -> LogPosition {
        LogPosition(u64::try_from(self.whole() + distance).expect("a position within the log"))
    }
}

impl QueuePlace {
    pub fn whole(self) -> Whole {
        Whole::from(self.0)
    }
}

/// The number of bytes.
pub fn length(bytes: &[u8]) -> Whole {
    bytes.len() as Whole
}

fn at(place: Whole) -> usize {
    usize::try_from(place).expect("a place within the bytes")
}

/// The `length` bytes at `place`.
pub fn part(bytes: &[u8], place: Whole, length: Whole) -> &[u8] {
    &bytes[at(place)..at(place + length)]
}

/// Writes `new` at `place`.
pub fn write(bytes: &mut [u8], place: Whole, new: &[u8]) {
    bytes[at(place)..at(place) + new.len()].copy_from_slice(new);
}

/// A run of bytes: where it starts in those it is counted from, and how many there are.
#[derive(Clone, Copy, Debug, PartialEq, Eq)]
pub struct Place {
    pub at: Whole,
    pub length: Whole,
}

impl Place {
    /// The bytes of the run.
    pub fn of(self, bytes: &[u8]) -> &[u8] {
        part(bytes, self.at, self.length)
    }
}

/// A big-endian number, not negative: the bytes taken as 0 to 255, the most significant first.
pub fn big_endian(bytes: &[u8]) -> Whole {
    let mut value = 0;
    for byte in bytes {
        value = 256 * value + Whole::from(*byte);
    }
    value
}

/// A little-endian number, not negative: the least significant byte first.
pub fn little_endian(bytes: &[u8]) -> Whole {
    let mut value = 0;
    for byte in bytes.iter().rev() {
        value = 256 * value + Whole::from(*byte);
    }
    value
}

// "All integers are big-endian, signed as in Java."

/// Java's int at `place`: 4 bytes, signed.
pub fn int_at(bytes: &[u8], place: Whole) -> Whole {
    let value = big_endian(part(bytes, place, 4));
    if value < 2_147_483_648 {
        value
    } else {
        value - 4_294_967_296
    }
}

/// Java's long at `place`: 8 bytes, signed.
pub fn long_at(bytes: &[u8], place: Whole) -> Whole {
    let value = big_endian(part(bytes, place, 8));
    if value < 9_223_372_036_854_775_808 {
        value
    } else {
        value - 18_446_744_073_709_551_616
    }
}

/// The bit pattern of the 4 bytes at `place`.
pub fn int_bits_at(bytes: &[u8], place: Whole) -> u64 {
    big_endian(part(bytes, place, 4)) as u64
}

/// The bit pattern of the 8 bytes at `place`.
pub fn long_bits_at(bytes: &[u8], place: Whole) -> u64 {
    big_endian(part(bytes, place, 8)) as u64
}

/// The 4 bytes of a bit pattern, or none where the number is above 2^32 − 1.
pub fn int_bits_bytes(bits: u64) -> Option<[u8; 4]> {
    if bits > 4_294_967_295 {
        return None;
    }
    Some((bits as u32).to_be_bytes())
}

/// The 4 bytes of Java's int. `value` is within its range.
pub fn int_bytes(value: Whole) -> [u8; 4] {
    i32::try_from(value)
        .expect("a value of 4 bytes")
        .to_be_bytes()
}

/// The 8 bytes of Java's long. `value` is within its range.
pub fn long_bytes(value: Whole) -> [u8; 8] {
    i64::try_from(value)
        .expect("a value of 8 bytes")
        .to_be_bytes()
}
