//! RocketMQ's body checksum: CRC-32, without its highest bit. The archive carries it by rule; the tool judges it.

/// Bytes that are taken in one step.
const WIDTH: usize = 16;
const POLYNOMIAL: u32 = 0xedb8_8320;

/// Table `n` has the sum of a byte that `n` zeros follow.
static TABLES: [[u32; 256]; WIDTH] = tables();

const fn tables() -> [[u32; 256]; WIDTH] {
    let mut tables = [[0; 256]; WIDTH];
    let mut byte = 0;
    while byte < 256 {
        let mut sum = byte as u32;
        let mut bit = 0;
        while bit < 8 {
            sum = (sum >> 1) ^ (POLYNOMIAL & (sum & 1).wrapping_neg());
            bit += 1;
        }
        tables[0][byte] = sum;
        byte += 1;
    }
    let mut table = 1;
    while table < WIDTH {
        let mut byte = 0;
        while byte < 256 {
            let before = tables[table - 1][byte];
            tables[table][byte] = (before >> 8) ^ tables[0][(before & 0xff) as usize];
            byte += 1;
        }
        table += 1;
    }
    tables
}

/// What a record of this body carries.
pub fn of_body(body: &[u8]) -> u64 {
    u64::from(crc32(body) & 0x7fff_ffff)
}

fn crc32(bytes: &[u8]) -> u32 {
    let mut sum = u32::MAX;
    let mut blocks = bytes.chunks_exact(WIDTH);
    for block in &mut blocks {
        let mut taken: [u8; WIDTH] = block.try_into().expect("a block");
        for (byte, of_sum) in taken.iter_mut().zip(sum.to_le_bytes()) {
            *byte ^= of_sum;
        }
        sum = 0;
        for (table, byte) in TABLES.iter().rev().zip(taken) {
            sum ^= table[usize::from(byte)];
        }
    }
    for byte in blocks.remainder() {
        let low = (sum & 0xff) as u8 ^ byte;
        sum = (sum >> 8) ^ TABLES[0][usize::from(low)];
    }
    !sum
}

#[cfg(test)]
mod tests {
    use super::*;

    fn bit_by_bit(bytes: &[u8]) -> u32 {
        let mut sum = u32::MAX;
        for byte in bytes {
            sum ^= u32::from(*byte);
            for _ in 0..8 {
                sum = (sum >> 1) ^ (POLYNOMIAL & (sum & 1).wrapping_neg());
            }
        }
        !sum
    }

    #[test]
    fn known_sums() {
        assert_eq!(crc32(b"123456789"), 0xcbf4_3926);
        assert_eq!(of_body(b"123456789"), 0x4bf4_3926);
        assert_eq!(of_body(b""), 0);
    }

    #[test]
    fn blocks_give_what_bits_give() {
        let bytes: Vec<u8> = (0..100u32)
            .map(|number| (number * 37 % 251) as u8)
            .collect();
        for from in 0..20 {
            for to in from..bytes.len() {
                let part = &bytes[from..to];
                assert_eq!(crc32(part), bit_by_bit(part));
            }
        }
    }
}
