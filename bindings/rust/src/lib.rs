//! RocketMQ's commit log, consume queues and index file on lent buffers.
//!
//! Seven calls: [`append`], [`read_record`], [`dispatch`], [`read_queue`], [`query`], [`list`], [`report`]. Each takes any
//! numbers and any bytes and brings an [`Answer`]. A refusal, which changes nothing, is an `Err`; a stop that keeps its work is an `Ok`
//! with the answer in it.
//!
//! Six small functions tell what a record makes and whether an index is sound: [`tag_code`], [`makes_entry`],
//! [`item_count`], [`has_item`], [`find_values`], [`check_index`].
//!
//! Topics, keys and tags are text in any language, given as the bytes of their UTF-8 (`"Müller-7".as_bytes()`) and hashed as
//! Java hashes strings, by UTF-16 units. Bytes that are no UTF-8 (RFC 3629) in a topic, or in the values of TAGS, KEYS and
//! UNIQ_KEY that count, make a record unsound: [`append`] refuses it with [`Answer::BadRequest`], and where it stands in a log it
//! is [`Answer::Damaged`]. A [`query`] whose topic or key is no UTF-8 is [`Answer::Malformed`]. Nothing else is judged: neither
//! other properties nor the topics of a directory.
//!
//! ```
//! use swistopal::*;
//!
//! # fn main() -> Result<(), Answer> {
//! let sizes = Sizes {
//!     segment_size: 1024,
//!     first_position: LogPosition(0),
//!     queue_entries: 8,
//!     slot_count: 4,
//!     item_count: 16,
//! };
//! let mut log = vec![0; 2048];
//! let mut write_position = LogPosition(0);
//! let message = Message {
//!     fields: Fields { store_time: 10_000, ..Fields::default() },
//!     topic: b"SORTER",
//!     properties: "TAGS\x01divert\x02UNIQ_KEY\x01parcel-17\x02KEYS\x01Müller-7\x02".as_bytes(),
//!     ..Message::default()
//! };
//! assert_eq!(append(&mut log, &sizes, &message, &mut write_position)?, Appended::Record);
//!
//! let directory = directory(&[(b"SORTER", 0)]);
//! let mut queues = vec![0; sizes.queues_len(1).unwrap()];
//! let mut index = vec![0; sizes.index_len().unwrap()];
//! let mut progress = Progress::from_position(LogPosition(0));
//! let call = Dispatch {
//!     log: &log,
//!     readable_end: write_position,
//!     sizes,
//!     directory: &directory,
//!     budget: u64::MAX,
//! };
//! let dispatched = dispatch(&call, &mut queues, &mut index, &mut progress)?;
//! assert_eq!((dispatched.stop, dispatched.steps), (Answer::Done, 1));
//!
//! let mut out = [LogPosition(0); 32];
//! let question = Query {
//!     index: &index,
//!     sizes,
//!     topic: b"SORTER",
//!     key: "Müller-7".as_bytes(),
//!     first_time: 0,
//!     last_time: 20_000,
//!     wanted: 0,
//! };
//! let found = query(&question, &mut out)?;
//! assert_eq!(found.positions, [LogPosition(0)]);
//! # Ok(())
//! # }
//! ```

mod answer;
mod archive;
mod makes;
mod message;
mod sizes;

pub use answer::Answer;
pub use archive::Figures;
pub use makes::{find_values, has_item, item_count, makes_entry, tag_code, Values};
pub use message::{Entry, Fields, Message};
pub use sizes::{directory, LogPosition, Progress, QueueOffset, Sizes, ENTRY_BYTES};

/// What an append wrote.
#[derive(Clone, Copy, Debug, PartialEq, Eq)]
pub enum Appended {
    /// The record.
    Record,
    /// A blank, as the record does not fit into this segment. The write position is the next segment's start: append again.
    Blank,
}

/// Appends one record at the write position, which moves past what was written. Of the sizes it looks at the segment size
/// and the first position.
///
/// ```
/// use swistopal::*;
///
/// let sizes = Sizes { segment_size: 1024, ..Sizes::default() };
/// let mut log = vec![0; 2048];
/// let mut position = LogPosition(924);
/// let message = Message { topic: b"TT", ..Message::default() };
/// assert_eq!(append(&mut log, &sizes, &message, &mut position), Ok(Appended::Blank));
/// assert_eq!(position, LogPosition(1024));
/// assert_eq!(append(&mut log, &sizes, &message, &mut position), Ok(Appended::Record));
/// assert_eq!(position, LogPosition(1024 + 93));
/// let mut refused = |message| append(&mut log, &sizes, &message, &mut position) == Err(Answer::BadRequest);
/// assert!(refused(Message { topic: b"", ..message }));
/// assert!(refused(Message { topic: b"T\xfc", ..message }));
/// assert!(refused(Message { properties: b"TAGS\x01\xff", ..message }));
/// assert!(refused(Message { store_host: &[0; 20], ..message }));
/// assert!(refused(Message { fields: Fields { flag: 1 << 32, ..Fields::default() }, ..message }));
/// ```
pub fn append(
    log: &mut [u8],
    sizes: &Sizes,
    message: &Message,
    write_position: &mut LogPosition,
) -> Result<Appended, Answer> {
    // SAFETY: every pointer is a slice's or a reference's; what is written is borrowed alone.
    let number = unsafe {
        archive::swistopal_append(
            log.as_mut_ptr(),
            log.len(),
            &sizes.lent(),
            &message.fields.lent(),
            message.born_host.as_ptr(),
            message.born_host.len(),
            message.store_host.as_ptr(),
            message.store_host.len(),
            message.body.as_ptr(),
            message.body.len(),
            message.topic.as_ptr(),
            message.topic.len(),
            message.properties.as_ptr(),
            message.properties.len(),
            &mut write_position.0,
        )
    };
    match Answer::returned(number) {
        Answer::Done => Ok(Appended::Record),
        Answer::BlankWritten => Ok(Appended::Blank),
        refusal => Err(refusal),
    }
}

/// The kind of a blank, SWISTOPAL_BLANK.
const BLANK: u64 = 2;

/// Reads the record or blank at a position, wholly below the readable end. Of the sizes it looks at the segment size and the
/// first position. The topic of a record that was read is UTF-8, and so are its values of TAGS, KEYS and UNIQ_KEY.
///
/// ```
/// use swistopal::*;
///
/// # fn main() -> Result<(), Answer> {
/// let sizes = Sizes { segment_size: 1024, ..Sizes::default() };
/// let mut log = vec![0; 1024];
/// let mut end = LogPosition(0);
/// let message = Message {
///     fields: Fields { queue_offset: QueueOffset(3), store_time: 10_000, ..Fields::default() },
///     born_host: &[10, 20, 0, 11, 0, 0, 0x2a, 0x9f],
///     topic: b"T",
///     body: b"chute 9",
///     ..Message::default()
/// };
/// append(&mut log, &sizes, &message, &mut end)?;
/// assert_eq!(read_record(&log, &sizes, LogPosition(0), end)?, Entry::Record { total: 99, message });
/// assert_eq!(read_record(&log, &sizes, LogPosition(0), LogPosition(98)), Err(Answer::NotReadable));
/// assert_eq!(read_record(&log, &sizes, LogPosition(1), end), Err(Answer::Damaged));
/// log[96] = 0xff;
/// assert_eq!(read_record(&log, &sizes, LogPosition(0), end), Err(Answer::Damaged));
/// # Ok(())
/// # }
/// ```
pub fn read_record<'l>(
    log: &'l [u8],
    sizes: &Sizes,
    position: LogPosition,
    readable_end: LogPosition,
) -> Result<Entry<'l>, Answer> {
    let mut record = archive::Record::default();
    // SAFETY: every pointer is a slice's or a reference's; what is written is borrowed alone.
    let number = unsafe {
        archive::swistopal_read_record(
            log.as_ptr(),
            log.len(),
            &sizes.lent(),
            position.0,
            readable_end.0,
            &mut record,
        )
    };
    match Answer::returned(number) {
        Answer::Done => {}
        stop => return Err(stop),
    }
    let total = record.total;
    if record.kind == BLANK {
        return Ok(Entry::Blank { total });
    }
    let start = (position.0 - sizes.first_position.0) as usize;
    let own = &log[start..][..total as usize];
    let message = Message::of(&record, own);
    Ok(Entry::Record { total, message })
}

/// What a dispatch call is given apart from what it changes.
#[derive(Clone, Copy, Debug)]
pub struct Dispatch<'a> {
    pub log: &'a [u8],
    pub readable_end: LogPosition,
    /// All of them are looked at.
    pub sizes: Sizes,
    pub directory: &'a [u8],
    /// Steps at most; each handles one record or one blank.
    pub budget: u64,
}

/// How far an accepted dispatch call came: the steps done stand, and nothing of the next one does.
#[derive(Clone, Copy, Debug, PartialEq, Eq)]
pub struct Dispatched {
    /// Why it stopped: [`Answer::Done`] is caught up.
    pub stop: Answer,
    pub steps: u64,
}

/// Dispatches records to their queues and to the index file, `files`. A refusal is an `Err` and changes nothing.
///
/// ```
/// use swistopal::*;
///
/// let log = [0; 1024];
/// let call = Dispatch {
///     log: &log,
///     readable_end: LogPosition(1024),
///     sizes: Sizes {
///         segment_size: 1024,
///         first_position: LogPosition(0),
///         queue_entries: 1,
///         slot_count: 1,
///         item_count: 2,
///     },
///     directory: &directory(&[(b"T", 0)]),
///     budget: 10,
/// };
/// let (mut queues, mut index, mut progress) = ([0; 20], [0; 84], Progress::default());
/// let stopped = dispatch(&call, &mut queues, &mut index, &mut progress);
/// assert_eq!(stopped, Ok(Dispatched { stop: Answer::Damaged, steps: 0 }));
/// let refused = dispatch(&call, &mut queues[..19], &mut index, &mut progress);
/// assert_eq!(refused, Err(Answer::BadDirectory));
/// ```
pub fn dispatch(
    call: &Dispatch,
    queues: &mut [u8],
    files: &mut [u8],
    progress: &mut Progress,
) -> Result<Dispatched, Answer> {
    let mut lent = progress.lent();
    let mut steps = 0;
    // SAFETY: every pointer is a slice's or a reference's; what is written is borrowed alone.
    let number = unsafe {
        archive::swistopal_dispatch(
            call.log.as_ptr(),
            call.log.len(),
            call.readable_end.0,
            &call.sizes.lent(),
            call.directory.as_ptr(),
            call.directory.len(),
            queues.as_mut_ptr(),
            queues.len(),
            files.as_mut_ptr(),
            files.len(),
            call.budget,
            &mut lent,
            &mut steps,
        )
    };
    *progress = Progress::of(&lent);
    match Answer::returned(number) {
        refusal @ (Answer::BadSizes
        | Answer::BadPosition
        | Answer::BadDirectory
        | Answer::BadHeader) => Err(refusal),
        stop => Ok(Dispatched { stop, steps }),
    }
}

/// What to read from a queue.
#[derive(Clone, Copy, Debug)]
pub struct QueueReading<'a> {
    pub queues: &'a [u8],
    /// Only the queue entries are looked at.
    pub sizes: Sizes,
    pub directory: &'a [u8],
    /// Only the counts are looked at.
    pub progress: &'a Progress,
    /// The directory's row, from 0.
    pub row: u64,
    pub start: QueueOffset,
    /// Positions at most; not above the output's places. 0: none.
    pub wanted: u64,
    /// Only entries with this tag code; it is a bit pattern.
    pub tag_code: Option<u64>,
}

/// Reads log positions from a queue, in order, and returns the part of `out` that they fill.
///
/// ```
/// use swistopal::*;
///
/// let mut queues = [0; 40];
/// queues[7] = 5;
/// let reading = QueueReading {
///     queues: &queues,
///     sizes: Sizes { queue_entries: 2, ..Sizes::default() },
///     directory: &directory(&[(b"T", 0)]),
///     progress: &Progress { counts: [QueueOffset(1); 16], ..Progress::default() },
///     row: 0,
///     start: QueueOffset(0),
///     wanted: 4,
///     tag_code: None,
/// };
/// let mut out = [LogPosition(0); 4];
/// assert_eq!(read_queue(&reading, &mut out), Ok(&[LogPosition(5)][..]));
/// assert_eq!(read_queue(&reading, &mut out[..3]), Err(Answer::Malformed));
/// ```
pub fn read_queue<'o>(
    reading: &QueueReading,
    out: &'o mut [LogPosition],
) -> Result<&'o [LogPosition], Answer> {
    let mut found = 0;
    // SAFETY: every pointer is a slice's or a reference's; what is written is borrowed alone. A log position is laid out as
    // its number.
    let number = unsafe {
        archive::swistopal_read_queue(
            reading.queues.as_ptr(),
            reading.queues.len(),
            &reading.sizes.lent(),
            reading.directory.as_ptr(),
            reading.directory.len(),
            &reading.progress.lent(),
            reading.row,
            reading.start.0,
            reading.wanted,
            u32::from(reading.tag_code.is_some()),
            reading.tag_code.unwrap_or(0),
            out.as_mut_ptr().cast(),
            out.len(),
            &mut found,
        )
    };
    match Answer::returned(number) {
        Answer::Done => Ok(&out[..found as usize]),
        refusal => Err(refusal),
    }
}

/// What to ask the index.
#[derive(Clone, Copy, Debug)]
pub struct Query<'a> {
    pub index: &'a [u8],
    /// Only the slot count and the item count are looked at.
    pub sizes: Sizes,
    /// UTF-8, 1 to 127 bytes.
    pub topic: &'a [u8],
    /// UTF-8, 1 to 32,767 bytes.
    pub key: &'a [u8],
    pub first_time: u64,
    pub last_time: u64,
    /// Positions at most; not above the output's places. 0 means 32.
    pub wanted: u64,
}

/// What a query found before it ended.
#[derive(Clone, Copy, Debug, PartialEq, Eq)]
pub struct Found<'o> {
    /// [`Answer::Done`] or [`Answer::ChainBroken`].
    pub stop: Answer,
    /// Newest first. Other keys may share the hash: [`has_item`] tells of the record that was read there.
    pub positions: &'o [LogPosition],
    /// Items read, a bad one included.
    pub items_read: u64,
}

/// Queries the index by key and time.
///
/// ```
/// use swistopal::*;
///
/// let question = Query {
///     index: &[0; 84],
///     sizes: Sizes { slot_count: 1, item_count: 2, ..Sizes::default() },
///     topic: b"T",
///     key: b"k",
///     first_time: 0,
///     last_time: 10_000,
///     wanted: 0,
/// };
/// let mut out = [LogPosition(0); 32];
/// let found = Found { stop: Answer::Done, positions: &[], items_read: 0 };
/// assert_eq!(query(&question, &mut out), Ok(found));
/// assert_eq!(query(&question, &mut out[..31]), Err(Answer::Malformed));
/// // Topic and key are each a text by itself.
/// let cut = Query { topic: b"\xc3", key: b"\xa9", ..question };
/// assert_eq!(query(&cut, &mut out), Err(Answer::Malformed));
/// ```
pub fn query<'o>(question: &Query, out: &'o mut [LogPosition]) -> Result<Found<'o>, Answer> {
    let mut found = archive::Found::default();
    // SAFETY: every pointer is a slice's or a reference's; what is written is borrowed alone. A log position is laid out as
    // its number.
    let number = unsafe {
        archive::swistopal_query(
            question.index.as_ptr(),
            question.index.len(),
            &question.sizes.lent(),
            question.topic.as_ptr(),
            question.topic.len(),
            question.key.as_ptr(),
            question.key.len(),
            question.first_time,
            question.last_time,
            question.wanted,
            out.as_mut_ptr().cast(),
            out.len(),
            &mut found,
        )
    };
    match Answer::returned(number) {
        stop @ (Answer::Done | Answer::ChainBroken) => Ok(Found {
            stop,
            positions: &out[..found.positions as usize],
            items_read: found.items_read,
        }),
        refusal => Err(refusal),
    }
}

/// Whether an index file has its length and a sound header, [`Answer::BadSizes`] or [`Answer::BadHeader`] if not. Of the
/// sizes it looks at the slot count and the item count.
///
/// ```
/// use swistopal::*;
///
/// let sizes = Sizes { slot_count: 1, item_count: 2, ..Sizes::default() };
/// let mut index = [0; 84];
/// assert_eq!(check_index(&index, &sizes), Ok(()));
/// assert_eq!(check_index(&index[1..], &sizes), Err(Answer::BadSizes));
/// index[39] = 3;
/// assert_eq!(check_index(&index, &sizes), Err(Answer::BadHeader));
/// ```
pub fn check_index(index: &[u8], sizes: &Sizes) -> Result<(), Answer> {
    // SAFETY: every pointer is a slice's or a reference's; nothing is written.
    let number =
        unsafe { archive::swistopal_check_index(index.as_ptr(), index.len(), &sizes.lent()) };
    match Answer::returned(number) {
        Answer::Done => Ok(()),
        refusal => Err(refusal),
    }
}

/// Least length of the lister's text buffer.
pub const TEXT_BYTES: usize = 65_536;

/// The lister's text and the number on its stop line.
#[derive(Clone, Copy, Debug, PartialEq, Eq)]
pub struct Listing<'t> {
    pub stop: Answer,
    pub text: &'t [u8],
}

/// Lists one segment as text, from its header line to its stop line.
///
/// ```
/// use swistopal::*;
///
/// let mut text = vec![0; TEXT_BYTES];
/// let listing = list(&[0; 1024], &mut text).unwrap();
/// assert_eq!(listing.text, b"position length queue time\nstop 10\n");
/// assert_eq!(listing.stop, Answer::Damaged);
/// assert_eq!(list(&[0; 1024], &mut text[1..]), Err(Answer::Malformed));
/// ```
pub fn list<'t>(segment: &[u8], text: &'t mut [u8]) -> Result<Listing<'t>, Answer> {
    let mut written = 0;
    // SAFETY: every pointer is a slice's or a reference's; what is written is borrowed alone.
    let number = unsafe {
        archive::swistopal_list(
            segment.as_ptr(),
            segment.len(),
            text.as_mut_ptr(),
            text.len(),
            &mut written,
        )
    };
    match Answer::returned(number) {
        Answer::Malformed => Err(Answer::Malformed),
        stop => Ok(Listing {
            stop,
            text: &text[..written as usize],
        }),
    }
}

/// How far a report came: the figures are those of what stands before the stop.
#[derive(Clone, Copy, Debug, PartialEq, Eq)]
pub struct Reported {
    /// [`Answer::Done`] at the readable end, [`Answer::NotReadable`] or [`Answer::Damaged`] where a record is neither.
    pub stop: Answer,
    pub figures: Figures,
}

/// Reports a stretch of the log in figures, from a position to the readable end. Of the sizes it looks at the segment size
/// and the first position.
///
/// ```
/// use swistopal::*;
///
/// # fn main() -> Result<(), Answer> {
/// let sizes = Sizes { segment_size: 1024, ..Sizes::default() };
/// let mut log = vec![0; 1024];
/// let mut end = LogPosition(0);
/// let listed = Message { topic: b"T", body: b"chute 9", properties: b"UNIQ_KEY\x01u", ..Message::default() };
/// append(&mut log, &sizes, &listed, &mut end)?;
/// let prepared = Fields { queue_id: 3, system_flag: 4, ..Fields::default() };
/// append(&mut log, &sizes, &Message { fields: prepared, ..listed }, &mut end)?;
///
/// let directory = directory(&[(b"T", 0)]);
/// let reported = report(&log, &sizes, LogPosition(0), end, &directory)?;
/// assert_eq!(reported.stop, Answer::Done);
/// let figures = reported.figures;
/// assert_eq!((figures.records, figures.rows[0], figures.unlisted), (2, 1, 1));
/// assert_eq!((figures.none, figures.prepared, figures.items), (1, 1, 2));
/// assert_eq!((figures.body_bytes, figures.smallest, figures.largest), (14, 109, 109));
///
/// let cut = report(&log, &sizes, LogPosition(0), LogPosition(end.0 - 1), &directory)?;
/// assert_eq!((cut.stop, cut.figures.records), (Answer::NotReadable, 1));
/// assert_eq!(report(&log, &sizes, end, LogPosition(0), &directory), Err(Answer::BadPosition));
/// assert_eq!(report(&log, &sizes, end, LogPosition(0), b""), Err(Answer::BadDirectory));
/// # Ok(())
/// # }
/// ```
pub fn report(
    log: &[u8],
    sizes: &Sizes,
    position: LogPosition,
    readable_end: LogPosition,
    directory: &[u8],
) -> Result<Reported, Answer> {
    let mut figures = Figures::default();
    // SAFETY: every pointer is a slice's or a reference's; what is written is borrowed alone.
    let number = unsafe {
        archive::swistopal_report(
            log.as_ptr(),
            log.len(),
            &sizes.lent(),
            position.0,
            readable_end.0,
            directory.as_ptr(),
            directory.len(),
            &mut figures,
        )
    };
    match Answer::returned(number) {
        refusal @ (Answer::BadSizes | Answer::BadPosition | Answer::BadDirectory) => Err(refusal),
        stop => Ok(Reported { stop, figures }),
    }
}
