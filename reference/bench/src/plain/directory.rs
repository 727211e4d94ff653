//! The directory of queues, read once at the door.

const MOST_ROWS: usize = 16;
const ENTRY: u64 = 20;

/// Where a row's topic stands: at most 16 rows of 135 bytes are before its end.
#[derive(Clone, Copy, Default)]
struct Row {
    id: u32,
    start: u16,
    end: u16,
}

pub struct Directory<'a> {
    bytes: &'a [u8],
    rows: [Row; MOST_ROWS],
    count: usize,
}

impl<'a> Directory<'a> {
    /// Door check 3, of the directory alone.
    #[inline(always)]
    pub fn read(directory: &'a [u8]) -> Option<Directory<'a>> {
        let mut read = Directory {
            bytes: directory,
            rows: [Row::default(); MOST_ROWS],
            count: 0,
        };
        let mut at = 0;
        while at < directory.len() {
            let rest = &directory[at..];
            let head = rest.first_chunk::<8>()?;
            let size = usize::from(u16::from_le_bytes([head[0], head[1]]));
            let kind = u16::from_le_bytes([head[2], head[3]]);
            let id = u32::from_le_bytes([head[4], head[5], head[6], head[7]]);
            if !(9..=135).contains(&size)
                || size > rest.len()
                || kind != 1
                || id >= 1 << 31
                || read.count == MOST_ROWS
                || read.row_of(id, &rest[8..size]).is_some()
            {
                return None;
            }
            read.rows[read.count] = Row {
                id,
                start: (at + 8) as u16,
                end: (at + size) as u16,
            };
            read.count += 1;
            at += size;
        }
        (read.count != 0).then_some(read)
    }

    /// Door check 3, with the queues.
    #[inline(always)]
    pub fn with_queues(
        directory: &'a [u8],
        queue_entries: u64,
        queues_len: usize,
    ) -> Option<Directory<'a>> {
        let right =
            |read: &Directory| queues_len as u64 == read.count as u64 * queue_entries * ENTRY;
        Directory::read(directory).filter(right)
    }

    #[inline(always)]
    pub fn count(&self) -> usize {
        self.count
    }

    #[inline(always)]
    pub fn row_of(&self, id: u32, topic: &[u8]) -> Option<usize> {
        self.rows[..self.count].iter().position(|row| {
            row.id == id
                && self.bytes.get(usize::from(row.start)..usize::from(row.end)) == Some(topic)
        })
    }
}
