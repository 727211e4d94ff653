use crate::archive;
use crate::QueueOffset;

/// The numbers of a record that its sender or the broker chose. Java's signed numbers are given as their bit patterns; a
/// record keeps `body_crc`, `queue_id`, `flag`, `system_flag` and `reconsume_times` in 4 bytes.
#[derive(Clone, Copy, Debug, Default, PartialEq, Eq)]
pub struct Fields {
    /// Carried, never computed or judged.
    pub body_crc: u64,
    pub queue_id: u64,
    pub flag: u64,
    pub queue_offset: QueueOffset,
    pub system_flag: u64,
    pub born_time: u64,
    pub store_time: u64,
    pub reconsume_times: u64,
    pub prepared_offset: u64,
}

impl Fields {
    pub(crate) fn lent(&self) -> archive::Fields {
        archive::Fields {
            body_crc: self.body_crc,
            queue_id: self.queue_id,
            flag: self.flag,
            queue_offset: self.queue_offset.0,
            system_flag: self.system_flag,
            born_time: self.born_time,
            store_time: self.store_time,
            reconsume_times: self.reconsume_times,
            prepared_offset: self.prepared_offset,
        }
    }

    fn of(lent: &archive::Fields) -> Fields {
        Fields {
            body_crc: lent.body_crc,
            queue_id: lent.queue_id,
            flag: lent.flag,
            queue_offset: QueueOffset(lent.queue_offset),
            system_flag: lent.system_flag,
            born_time: lent.born_time,
            store_time: lent.store_time,
            reconsume_times: lent.reconsume_times,
            prepared_offset: lent.prepared_offset,
        }
    }
}

/// What a record carries: lent to be appended, borrowed from the log where it was read.
#[derive(Clone, Copy, Debug, PartialEq, Eq)]
pub struct Message<'a> {
    pub fields: Fields,
    /// 8 bytes, as RocketMQ writes a host: four of address, four of port.
    pub born_host: &'a [u8],
    pub store_host: &'a [u8],
    pub body: &'a [u8],
    /// UTF-8, 1 to 127 bytes.
    pub topic: &'a [u8],
    /// The values of TAGS, KEYS and UNIQ_KEY that count are UTF-8.
    pub properties: &'a [u8],
}

impl Default for Message<'_> {
    /// Zero and empty, but for the hosts: these are 8 zeros, as an append takes none of another length.
    fn default() -> Self {
        Message {
            fields: Fields::default(),
            born_host: &[0; 8],
            store_host: &[0; 8],
            body: &[],
            topic: &[],
            properties: &[],
        }
    }
}

impl<'a> Message<'a> {
    /// Of a record that was read: `own` are its bytes.
    pub(crate) fn of(record: &archive::Record, own: &'a [u8]) -> Message<'a> {
        Message {
            fields: Fields::of(&record.fields),
            born_host: record.born_host.of(own),
            store_host: record.store_host.of(own),
            body: record.body.of(own),
            topic: record.topic.of(own),
            properties: record.properties.of(own),
        }
    }
}

impl archive::Place {
    /// The bytes at this place.
    pub(crate) fn of(self, bytes: &[u8]) -> &[u8] {
        &bytes[self.at as usize..][..self.length as usize]
    }
}

/// What stands at a log position.
#[derive(Clone, Copy, Debug, PartialEq, Eq)]
pub enum Entry<'a> {
    Record { total: u64, message: Message<'a> },
    Blank { total: u64 },
}

impl Entry<'_> {
    /// Bytes up to the next entry.
    pub fn total(&self) -> u64 {
        match self {
            Entry::Record { total, .. } | Entry::Blank { total } => *total,
        }
    }
}
