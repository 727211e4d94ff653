//! The broker's stores that other tests use are what they say: the archive reads them, and makes the same from their logs.

mod common;

use common::broker::*;
use common::*;
use std::fs;
use std::path::{Path, PathBuf};

const SOUND: &str = "nothing: the store is sound";

/// Three queues and some transactions, over several segments.
fn plain(store: &Path) -> PathBuf {
    let mut broker = Broker::new(store)
        .segment_size(8192)
        .checkpoint()
        .lock()
        .next_segment();
    for number in 0..200u32 {
        broker.put(Message {
            topic: ["PARCEL", "PARCEL", "TRIM"][number as usize % 3],
            queue_id: [0, 1, 0][number as usize % 3],
            tags: ["", "left", "polygenelubricants"][number as usize % 3],
            keys: &format!("P{} P{}  P0", number, number / 2),
            uniq_key: &format!("0A00000700002A9F{number:08X}"),
            properties: &[("WAIT", "true")],
            body: format!("body {number}").as_bytes(),
            store_time: MORNING + 700 * u64::from(number),
            system_flag: [0, 0, 0, 4, 8, 12, 0][number as usize % 7],
            ..Message::default()
        });
    }
    broker.finish()
}

#[test]
fn a_plain_store_is_as_the_log_gives_it() {
    let folder = Folder::new("broker-plain");
    let store = plain(&folder.join("store"));
    let check = tool("check", &store, &[]);
    check.is(0, SOUND);
    check
        .shows("200 records")
        .shows("3 of 3 queues as the log gives them");
    check.shows("as the log gives it");
    let query = tool(
        "query",
        &store,
        &["--topic", "PARCEL", "--key", "P7", "--body"],
    );
    query.is(0, "2 records").shows("body 7");
}

#[test]
fn hashes_and_checksums_are_those_of_java() {
    for (text, hash) in [
        ("Aa", 2112),
        ("BB", 2112),
        ("é", 233),
        ("polygenelubricants", i32::MIN),
    ] {
        assert_eq!(java_hash(text), hash);
    }
    // Two units outside the basic plane.
    assert_eq!(java_hash("😀"), 31 * 0xd83d + 0xde00);
    assert_eq!(body_checksum(b"123456789"), 0x4bf4_3926);
    assert_eq!(body_checksum(b""), 0);
}

#[test]
fn a_running_broker_holds_its_lock() {
    let folder = Folder::new("broker-running");
    let store = Broker::new(&folder.join("store")).lock().finish();
    let held = |id: u32| {
        let locks = fs::read_to_string("/proc/locks").unwrap();
        let holder = format!("POSIX  ADVISORY  WRITE {id} ");
        locks
            .lines()
            .any(|line| line.contains(&holder) && line.ends_with(" 0 0"))
    };
    let running = Running::on(&store);
    let id = running.id();
    assert!(held(id));
    // Reading the file in this process takes nothing from the other one.
    assert_eq!(fs::read(store.join("lock")).unwrap(), b"lock");
    assert!(held(id));
    drop(running);
    assert!(!held(id));
}

#[test]
fn files_are_cut_and_named_as_a_broker_does() {
    let folder = Folder::new("broker-files");
    let store = folder.join("store");
    let mut broker = Broker::new(&store)
        .segment_size(4096)
        .first_position(8192)
        .slots(5)
        .items(20)
        .queue_entries(10)
        .first_entry("T", 3, 24)
        .abort();
    for number in 0..19u64 {
        let put = broker.put(Message {
            queue_id: 3,
            uniq_key: &format!("U{number}"),
            body: &[7; 300],
            store_time: MORNING + 3000 * number,
            ..Message::default()
        });
        assert_eq!(put.queue_offset, 24 + number);
    }
    // The index is full; a message without keys is enough to begin the next file.
    broker.put(Message::default());
    broker.finish();
    let names = |place: &str| {
        let folder = fs::read_dir(store.join(place)).unwrap();
        let mut names: Vec<String> = folder
            .map(|entry| entry.unwrap().file_name().into_string().unwrap())
            .collect();
        names.sort();
        names
    };
    assert_eq!(
        names("commitlog"),
        ["00000000000000008192", "00000000000000012288"]
    );
    let queue = ["400", "600", "800"].map(|first| format!("{first:0>20}"));
    assert_eq!(names("consumequeue/T/3"), queue);
    let first = fs::read(store.join("consumequeue/T/3").join(&queue[0])).unwrap();
    let blank = [&[0; 8][..], &[0x7f, 0xff, 0xff, 0xff], &[0; 8]].concat();
    assert_eq!((first.len(), &first[..80]), (200, &blank.repeat(4)[..]));
    assert_eq!(first[80..88], 8192u64.to_be_bytes());
    let indexes = names("index");
    assert_eq!(indexes, ["20260302060000000", "20260302060000001"]);
    let rolled = fs::read(store.join("index").join(&indexes[1])).unwrap();
    let full = fs::read(store.join("index").join(&indexes[0])).unwrap();
    assert_eq!((full.len(), rolled.len()), (460, 460));
    assert_eq!(full[36..40], 20u32.to_be_bytes());
    assert_eq!((&rolled[..8], &rolled[8..16]), (&full[8..16], &full[8..16]));
    assert_eq!(
        (&rolled[16..24], &rolled[24..32]),
        (&full[24..32], &full[24..32])
    );
    assert!(rolled[32..].iter().all(|byte| *byte == 0));
}

/// The record at a position of a store's first segment.
fn bytes_at(store: &Path, put: Put) -> Vec<u8> {
    let log = fs::read(segment(store, 0)).unwrap();
    let from = put.position as usize;
    log[from..from + put.length as usize].to_vec()
}

#[test]
fn a_delayed_message_waits_in_a_topic_of_its_own() {
    let folder = Folder::new("broker-delayed");
    let mut broker = Broker::new(&folder.join("store"));
    let put = broker.put(Message {
        queue_id: 2,
        tags: "left",
        delay_level: 5,
        ..Message::default()
    });
    let store = broker.finish();
    let entry = fs::read(queue_file(&store, DELAYED, 4)).unwrap();
    assert_eq!(entry[..8], put.position.to_be_bytes());
    assert_eq!(entry[8..12], put.length.to_be_bytes());
    assert_eq!(entry[12..20], (MORNING + 60_000).to_be_bytes());
    let record = bytes_at(&store, put);
    let properties = b"TAGS\x01left\x02DELAY\x015\x02REAL_TOPIC\x01T\x02REAL_QID\x012\x02";
    assert!(record.ends_with(properties));
    assert_eq!(record[12..16], 4u32.to_be_bytes());
}

#[test]
fn a_host_has_8_or_20_bytes() {
    let folder = Folder::new("broker-hosts");
    let mut broker = Broker::new(&folder.join("store"));
    let puts = [0, 16, 32, 48].map(|system_flag| {
        broker.put(Message {
            system_flag,
            ..Message::default()
        })
    });
    assert_eq!(puts.map(|put| put.length), [92, 104, 104, 116]);
    let store = broker.finish();
    for (put, stored) in puts.into_iter().zip([56, 68, 56, 68]) {
        let record = bytes_at(&store, put);
        assert_eq!(record[stored..stored + 8], MORNING.to_be_bytes());
    }
}

#[test]
fn a_blank_carries_what_the_buffer_had() {
    let folder = Folder::new("broker-blank");
    let mut broker = Broker::new(&folder.join("store")).segment_size(1024);
    let put = broker.put(Message {
        body: &[7; 400],
        ..Message::default()
    });
    let next = broker.put(Message {
        body: &[8; 500],
        ..Message::default()
    });
    assert_eq!(next.position, 1024);
    let store = broker.finish();
    let log = fs::read(segment(&store, 0)).unwrap();
    let blank = &log[put.length as usize..];
    assert_eq!(blank.len(), 1024 - put.length as usize);
    assert_eq!(blank[..4], (blank.len() as u32).to_be_bytes());
    assert_eq!(blank[4..8], [0xcb, 0xd4, 0x31, 0x94]);
    let record = bytes_at(&store, put);
    assert_eq!(blank[8..record.len()], record[8..]);
}
