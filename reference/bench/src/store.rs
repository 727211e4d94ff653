//! The operations behind one set of signatures, those of the C interface: each side is a table of functions, and what
//! calls them is the same code for every side.

use crate::archive::{self, Fields, Figures, Found, Place, Progress, Record, Sizes};
use crate::plain;
use crate::plain::text::{OnePass, Standard};

pub type Append = unsafe extern "C" fn(
    *mut u8,
    usize,
    *const Sizes,
    *const Fields,
    *const u8,
    usize,
    *const u8,
    usize,
    *const u8,
    usize,
    *const u8,
    usize,
    *const u8,
    usize,
    *mut u64,
) -> u32;

pub type ReadRecord =
    unsafe extern "C" fn(*const u8, usize, *const Sizes, u64, u64, *mut Record) -> u32;

pub type Dispatch = unsafe extern "C" fn(
    *const u8,
    usize,
    u64,
    *const Sizes,
    *const u8,
    usize,
    *mut u8,
    usize,
    *mut u8,
    usize,
    u64,
    *mut Progress,
    *mut u64,
) -> u32;

pub type ReadQueue = unsafe extern "C" fn(
    *const u8,
    usize,
    *const Sizes,
    *const u8,
    usize,
    *const Progress,
    u64,
    u64,
    u64,
    u32,
    u64,
    *mut u64,
    usize,
    *mut u64,
) -> u32;

pub type Query = unsafe extern "C" fn(
    *const u8,
    usize,
    *const Sizes,
    *const u8,
    usize,
    *const u8,
    usize,
    u64,
    u64,
    u64,
    *mut u64,
    usize,
    *mut Found,
) -> u32;

pub type Report = unsafe extern "C" fn(
    *const u8,
    usize,
    *const Sizes,
    u64,
    u64,
    *const u8,
    usize,
    *mut Figures,
) -> u32;

pub type TagCode = unsafe extern "C" fn(*const u8, usize) -> u64;

/// One side.
pub struct Store {
    append: Append,
    read_record: ReadRecord,
    dispatch: Dispatch,
    read_queue: ReadQueue,
    query: Query,
    report: Report,
    tag_code: TagCode,
}

pub const ARCHIVE: Store = Store {
    append: archive::swistopal_append,
    read_record: archive::swistopal_read_record,
    dispatch: archive::swistopal_dispatch,
    read_queue: archive::swistopal_read_queue,
    query: archive::swistopal_query,
    report: archive::swistopal_report,
    tag_code: archive::swistopal_tag_code,
};

pub const PLAIN: Store = Store {
    append: plain::append::append::<Standard>,
    read_record: plain::record::read_record::<Standard>,
    dispatch: plain::dispatch::dispatch::<Standard>,
    read_queue: plain::queue::read_queue,
    query: plain::index::query::<Standard>,
    report: plain::report::report::<Standard>,
    tag_code: plain::hash::tag_code_of::<Standard>,
};

/// Plain Rust that goes further: its dispatch reads ahead, and text that is not ASCII is judged and hashed in one pass.
pub const FURTHER: Store = Store {
    append: plain::append::append::<OnePass>,
    read_record: plain::record::read_record::<OnePass>,
    dispatch: plain::ahead::dispatch,
    query: plain::index::query::<OnePass>,
    report: plain::report::report::<OnePass>,
    tag_code: plain::hash::tag_code_of::<OnePass>,
    ..PLAIN
};

/// Plain Rust whose query hashes byte by byte.
pub const BYTEWISE: Store = Store {
    query: plain::index::query_bytewise,
    ..PLAIN
};

/// A log and how it is divided.
pub struct Log {
    pub bytes: Vec<u8>,
    /// S and B; a call that takes only a log looks at no other.
    pub sizes: Sizes,
}

impl Log {
    /// A log of zeros from position 0.
    pub fn new(length: usize, segment_size: u64) -> Log {
        Log {
            bytes: vec![0; length],
            sizes: Sizes {
                segment_size,
                ..Sizes::default()
            },
        }
    }
}

/// What an append is asked to write.
pub struct Message {
    pub fields: Fields,
    pub born_host: [u8; 8],
    pub store_host: [u8; 8],
    pub body: Vec<u8>,
    pub topic: Vec<u8>,
    pub properties: Vec<u8>,
}

/// Directory, queues and index, and how far dispatch has come.
pub struct Filed {
    pub directory: Vec<u8>,
    /// The log's too.
    pub sizes: Sizes,
    pub queues: Vec<u8>,
    pub index: Index,
    pub progress: Progress,
}

pub struct Index {
    /// K and N; a call that takes only an index looks at no other.
    pub sizes: Sizes,
    pub bytes: Vec<u8>,
}

/// What a record holds that was not read.
pub const UNREAD: Record = {
    let place = Place {
        at: u64::MAX,
        length: u64::MAX,
    };
    Record {
        kind: u64::MAX,
        total: u64::MAX,
        position: u64::MAX,
        fields: Fields {
            body_crc: u64::MAX,
            queue_id: u64::MAX,
            flag: u64::MAX,
            queue_offset: u64::MAX,
            system_flag: u64::MAX,
            born_time: u64::MAX,
            store_time: u64::MAX,
            reconsume_times: u64::MAX,
            prepared_offset: u64::MAX,
        },
        born_host: place,
        store_host: place,
        body: place,
        topic: place,
        properties: place,
    }
};

/// What a query asks beside topic and key.
pub struct Range {
    pub first_time: u64,
    pub last_time: u64,
    pub wanted: u64,
}

// Each call below lends buffers that do not overlap, as Rust's references cannot.
impl Store {
    #[inline(always)]
    pub fn append(&self, log: &mut Log, message: &Message, write_position: &mut u64) -> u32 {
        unsafe {
            (self.append)(
                log.bytes.as_mut_ptr(),
                log.bytes.len(),
                &log.sizes,
                &message.fields,
                message.born_host.as_ptr(),
                message.born_host.len(),
                message.store_host.as_ptr(),
                message.store_host.len(),
                message.body.as_ptr(),
                message.body.len(),
                message.topic.as_ptr(),
                message.topic.len(),
                message.properties.as_ptr(),
                message.properties.len(),
                write_position,
            )
        }
    }

    #[inline(always)]
    pub fn read_record(
        &self,
        log: &Log,
        position: u64,
        readable_end: u64,
        record: &mut Record,
    ) -> u32 {
        unsafe {
            (self.read_record)(
                log.bytes.as_ptr(),
                log.bytes.len(),
                &log.sizes,
                position,
                readable_end,
                record,
            )
        }
    }

    /// The answer and the steps.
    #[inline(always)]
    pub fn dispatch(
        &self,
        log: &Log,
        readable_end: u64,
        filed: &mut Filed,
        budget: u64,
    ) -> (u32, u64) {
        let mut steps = 0;
        let answer = unsafe {
            (self.dispatch)(
                log.bytes.as_ptr(),
                log.bytes.len(),
                readable_end,
                &filed.sizes,
                filed.directory.as_ptr(),
                filed.directory.len(),
                filed.queues.as_mut_ptr(),
                filed.queues.len(),
                filed.index.bytes.as_mut_ptr(),
                filed.index.bytes.len(),
                budget,
                &mut filed.progress,
                &mut steps,
            )
        };
        (answer, steps)
    }

    /// The answer and the number found.
    #[inline(always)]
    pub fn read_queue(
        &self,
        filed: &Filed,
        row: u64,
        start: u64,
        wanted: u64,
        tag_code: Option<u64>,
        out: &mut [u64],
    ) -> (u32, u64) {
        let mut found = 0;
        let answer = unsafe {
            (self.read_queue)(
                filed.queues.as_ptr(),
                filed.queues.len(),
                &filed.sizes,
                filed.directory.as_ptr(),
                filed.directory.len(),
                &filed.progress,
                row,
                start,
                wanted,
                u32::from(tag_code.is_some()),
                tag_code.unwrap_or(0),
                out.as_mut_ptr(),
                out.len(),
                &mut found,
            )
        };
        (answer, found)
    }

    /// The answer, and the positions found and items read.
    #[inline(always)]
    pub fn query(
        &self,
        index: &Index,
        topic: &[u8],
        key: &[u8],
        range: &Range,
        out: &mut [u64],
    ) -> (u32, Found) {
        let mut found = Found::default();
        let answer = unsafe {
            (self.query)(
                index.bytes.as_ptr(),
                index.bytes.len(),
                &index.sizes,
                topic.as_ptr(),
                topic.len(),
                key.as_ptr(),
                key.len(),
                range.first_time,
                range.last_time,
                range.wanted,
                out.as_mut_ptr(),
                out.len(),
                &mut found,
            )
        };
        (answer, found)
    }

    #[inline(always)]
    pub fn tag_code(&self, tag: &[u8]) -> u64 {
        unsafe { (self.tag_code)(tag.as_ptr(), tag.len()) }
    }

    /// The answer and the figures of a log from its start on.
    #[inline(always)]
    pub fn report(&self, log: &Log, readable_end: u64, directory: &[u8]) -> (u32, Figures) {
        let mut figures = Figures::default();
        let answer = unsafe {
            (self.report)(
                log.bytes.as_ptr(),
                log.bytes.len(),
                &log.sizes,
                log.sizes.first_position,
                readable_end,
                directory.as_ptr(),
                directory.len(),
                &mut figures,
            )
        };
        (answer, figures)
    }
}
