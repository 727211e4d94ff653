//! The C interface as include/swistopal.h declares it: its structs, with the header's names, and its functions.

/// The sizes of a store.
#[derive(Clone, Copy, Debug, Default, PartialEq, Eq)]
#[repr(C)]
pub struct Sizes {
    pub segment_size: u64,
    pub first_position: u64,
    pub queue_entries: u64,
    pub slot_count: u64,
    pub item_count: u64,
}

/// How far dispatch has come.
#[derive(Clone, Copy, Debug, Default, PartialEq, Eq)]
#[repr(C)]
pub struct Progress {
    pub position: u64,
    pub counts: [u64; 16],
}

/// The numbers of a record that its sender or the broker chose.
#[derive(Clone, Copy, Debug, Default, PartialEq, Eq)]
#[repr(C)]
pub struct Fields {
    pub body_crc: u64,
    pub queue_id: u64,
    pub flag: u64,
    pub queue_offset: u64,
    pub system_flag: u64,
    pub born_time: u64,
    pub store_time: u64,
    pub reconsume_times: u64,
    pub prepared_offset: u64,
}

/// A run of bytes.
#[derive(Clone, Copy, Debug, Default, PartialEq, Eq)]
#[repr(C)]
pub struct Place {
    pub at: u64,
    pub length: u64,
}

/// What stands at a log position.
#[derive(Clone, Copy, Debug, Default, PartialEq, Eq)]
#[repr(C)]
pub struct Record {
    pub kind: u64,
    pub total: u64,
    pub position: u64,
    pub fields: Fields,
    pub born_host: Place,
    pub store_host: Place,
    pub body: Place,
    pub topic: Place,
    pub properties: Place,
}

/// What a query found.
#[derive(Clone, Copy, Debug, Default, PartialEq, Eq)]
#[repr(C)]
pub struct Found {
    pub positions: u64,
    pub items_read: u64,
}

/// A stretch of the log in figures, as `swistopal_figures` of include/swistopal.h tells them.
#[derive(Clone, Copy, Debug, Default, PartialEq, Eq)]
#[repr(C)]
pub struct Figures {
    pub records: u64,
    pub blanks: u64,
    pub body_bytes: u64,
    pub smallest: u64,
    pub largest: u64,
    pub rows: [u64; 16],
    pub unlisted: u64,
    pub none: u64,
    pub prepared: u64,
    pub commit: u64,
    pub rollback: u64,
    pub items: u64,
}

/// Where the three values that matter stand in a record's properties.
#[derive(Clone, Copy, Debug, Default, PartialEq, Eq)]
#[repr(C)]
pub struct Values {
    pub tags: Place,
    pub keys: Place,
    pub unique_key: Place,
}

extern "C" {
    pub fn swistopal_append(
        log: *mut u8,
        log_len: usize,
        sizes: *const Sizes,
        fields: *const Fields,
        born_host: *const u8,
        born_host_len: usize,
        store_host: *const u8,
        store_host_len: usize,
        body: *const u8,
        body_len: usize,
        topic: *const u8,
        topic_len: usize,
        properties: *const u8,
        properties_len: usize,
        write_position: *mut u64,
    ) -> u32;

    pub fn swistopal_read_record(
        log: *const u8,
        log_len: usize,
        sizes: *const Sizes,
        position: u64,
        readable_end: u64,
        record: *mut Record,
    ) -> u32;

    pub fn swistopal_dispatch(
        log: *const u8,
        log_len: usize,
        readable_end: u64,
        sizes: *const Sizes,
        directory: *const u8,
        directory_len: usize,
        queues: *mut u8,
        queues_len: usize,
        files: *mut u8,
        files_len: usize,
        budget: u64,
        progress: *mut Progress,
        steps: *mut u64,
    ) -> u32;

    pub fn swistopal_read_queue(
        queues: *const u8,
        queues_len: usize,
        sizes: *const Sizes,
        directory: *const u8,
        directory_len: usize,
        progress: *const Progress,
        row: u64,
        start: u64,
        wanted: u64,
        tag_given: u32,
        tag_code: u64,
        out: *mut u64,
        out_len: usize,
        found: *mut u64,
    ) -> u32;

    pub fn swistopal_query(
        index: *const u8,
        index_len: usize,
        sizes: *const Sizes,
        topic: *const u8,
        topic_len: usize,
        key: *const u8,
        key_len: usize,
        first_time: u64,
        last_time: u64,
        wanted: u64,
        out: *mut u64,
        out_len: usize,
        found: *mut Found,
    ) -> u32;

    pub fn swistopal_list(
        segment: *const u8,
        segment_len: usize,
        text: *mut u8,
        text_len: usize,
        written: *mut u64,
    ) -> u32;

    pub fn swistopal_report(
        log: *const u8,
        log_len: usize,
        sizes: *const Sizes,
        position: u64,
        readable_end: u64,
        directory: *const u8,
        directory_len: usize,
        figures: *mut Figures,
    ) -> u32;

    pub fn swistopal_tag_code(tag: *const u8, tag_len: usize) -> u64;

    pub fn swistopal_makes_entry(system_flag: u64) -> u32;

    pub fn swistopal_item_count(
        system_flag: u64,
        properties: *const u8,
        properties_len: usize,
    ) -> u64;

    pub fn swistopal_has_item(
        system_flag: u64,
        record_topic: *const u8,
        record_topic_len: usize,
        properties: *const u8,
        properties_len: usize,
        topic: *const u8,
        topic_len: usize,
        key: *const u8,
        key_len: usize,
    ) -> u32;

    pub fn swistopal_find_values(properties: *const u8, properties_len: usize, values: *mut Values);

    pub fn swistopal_check_index(index: *const u8, index_len: usize, sizes: *const Sizes) -> u32;
}
