//! Searches in stores that are not whole: what is found is right, and what may be missing is told.

mod common;

use common::*;
use std::fs;
use std::path::{Path, PathBuf};

const PARCEL: [&str; 4] = ["--topic", "SORTER_DIVERT", "--key", "P000017"];
const TRIM: [&str; 4] = ["--topic", "SORTER_TRIM", "--queue", "0"];
const KEY: [&str; 4] = ["--topic", "T", "--key", "k"];

/// A store whose records have the key `k` and these store times.
fn stored_at(store: &Path, times: &[u64]) {
    made(store, 0, 4096, times.len() as u64, |position, number| {
        let time = times[number as usize];
        record(position, b"T", (0, number), time, b"KEYS\x01k")
    });
    tool("rebuild", store, &SMALL).is(0, "stop      0");
}

/// The store times of the records that a query finds.
fn times_found(store: &Path, options: &[&str]) -> Vec<u64> {
    let options = [&KEY[..], options, &["--json"]].concat();
    let json = tool("query", store, &options).is(0, "").json();
    let records = json.get("records").list().iter();
    records.map(|record| record.get("time").number()).collect()
}

#[test]
fn records_are_judged_by_their_own_times() {
    let folder = Folder::new("times");
    let fallen = folder.join("fallen");
    stored_at(&fallen, &[10_000, 20_000, 5_000]);
    assert_eq!(times_found(&fallen, &["--from", "15000"]), [20_000]);
    assert_eq!(times_found(&fallen, &["--to", "7000"]), [5_000]);
    assert_eq!(
        times_found(&fallen, &["--limit", "1", "--to", "15000"]),
        [5_000]
    );
    assert_eq!(
        times_found(&fallen, &["--limit", "1", "--from", "6000"]),
        [20_000]
    );
    assert_eq!(times_found(&fallen, &["--from", "10000"]), [20_000, 10_000]);
    assert_eq!(times_found(&fallen, &["--from", "20001"]), []);
    // Without a first time the index records no seconds.
    let from_zero = folder.join("zero");
    stored_at(&from_zero, &[0, 20_000]);
    assert_eq!(times_found(&from_zero, &["--from", "5000"]), [20_000]);
}

#[test]
fn only_digits_name_an_index() {
    let folder = Folder::new("names");
    let store = built(&folder, "store");
    let index = index_file(&store);
    fs::write(store.join("index/notes.txt"), "parcel 17: see the log").unwrap();
    fs::copy(&index, index.with_extension("bak")).unwrap();
    tool("check", &store, &[])
        .is(0, "97 of 97 slots filled; as the log gives it")
        .shows("nothing: the store is sound");
    fs::create_dir(store.join("index/20990101000000000")).unwrap();
    let run = tool("query", &store, &PARCEL);
    run.is(0, "2 records of");
    assert_eq!(run.out.lines().count(), 3);
    fs::remove_file(&index).unwrap();
    tool("query", &store, &PARCEL).is(1, "no index in it");
}

#[test]
fn an_index_that_cannot_be_opened_keeps_no_other_from_being_asked() {
    let folder = Folder::new("opened");
    let store = built(&folder, "store");
    let cut = store.join("index/20250101000000000");
    fs::write(&cut, [0; 83]).unwrap();
    let next = format!(
        "20250101000000000: 83 bytes are no index; one has 40 + 4 K + 20 N, K from 1 to 5,000,000 and N from 2 to \
         20,000,000; it is not asked; `swistopal check {}` says what to do",
        store.display()
    );
    tool("query", &store, &PARCEL)
        .is(1, "2 records of")
        .is(1, &next);
    let json = tool("query", &store, &[&PARCEL[..], &["--json"]].concat()).json();
    assert_eq!(json.get("records").list().len(), 2);
    assert_eq!(json.get("faults").list().len(), 1);
    // Slots that fit one of them only, or none.
    fs::write(&cut, [0; 40 + 84]).unwrap();
    let slots = |number| {
        tool(
            "query",
            &store,
            &[&PARCEL[..], &["--slots", number]].concat(),
        )
    };
    slots("97")
        .is(1, "2 records of")
        .is(1, "124 bytes, not 40 + 4 K + 20 N; it is not asked");
    slots("96").is(2, "--slots 96");
}

#[test]
fn what_the_log_lacks_is_told() {
    let folder = Folder::new("lacks");
    let store = built(&folder, "store");
    fs::remove_file(segment(&store, 65_536)).unwrap();
    let lacks = "the segment at 65536 is missing before it";
    for (command, found) in [("query", &PARCEL), ("queue", &TRIM)] {
        tool(command, &store, found).is(1, lacks);
        let json = tool(command, &store, &[&found[..], &["--json"]].concat()).json();
        let faults = json.get("faults").list().iter();
        let mut faults =
            faults.filter(|fault| matches!(fault, Json::Text(text) if text.ends_with(lacks)));
        assert!(faults.next().is_some());
    }
    // Also where there is nothing to ask.
    fs::remove_dir_all(store.join("consumequeue")).unwrap();
    tool("queue", &store, &TRIM)
        .is(1, lacks)
        .is(1, "no queue SORTER_TRIM/0");
    fs::remove_dir_all(store.join("index")).unwrap();
    tool("query", &store, &PARCEL)
        .is(1, lacks)
        .is(1, "no index in it");
}

/// Writes a log of records with these system flags and properties; their positions.
fn written(store: &Path, records: &[(u32, &[u8])]) -> Vec<u64> {
    let (mut positions, mut entry) = (Vec::new(), 0);
    let count = records.len() as u64;
    made(store, 4096, 4096, count, |position, number| {
        let (flag, properties) = records[number as usize];
        let mut bytes = record(position, b"T", (0, entry), 1000, properties);
        bytes[36..40].copy_from_slice(&flag.to_be_bytes());
        entry += u64::from(matches!(flag, 0 | 8));
        positions.push(position);
        bytes
    });
    positions
}

/// The same, of which only the first `indexed` are in the index.
fn grown(store: &Path, indexed: usize, records: &[(u32, &[u8])]) -> Vec<u64> {
    written(store, &records[..indexed]);
    tool("rebuild", store, &SMALL).is(0, "stop      0");
    written(store, records)
}

const WITH_KEY: (u32, &[u8]) = (0, b"KEYS\x01k");
const WITHOUT_KEY: (u32, &[u8]) = (0, b"TAGS\x01t");
const ROLLED_BACK: (u32, &[u8]) = (12, b"KEYS\x01k");
const PREPARED: (u32, &[u8]) = (4, b"KEYS\x01k");

#[test]
fn an_index_that_lags_behind_the_log_is_told() {
    let folder = Folder::new("lags");
    // What makes no items is not missing.
    let even = folder.join("even");
    grown(&even, 1, &[WITH_KEY, WITHOUT_KEY, ROLLED_BACK]);
    tool("query", &even, &KEY).is(0, "1 record of");

    for (name, last) in [("keys", WITH_KEY), ("prepared", PREPARED)] {
        let store = folder.join(name);
        let records = [WITH_KEY, WITHOUT_KEY, ROLLED_BACK, last, WITH_KEY];
        let positions = grown(&store, 1, &records);
        let said = format!(
            "it ends with the record at position 4096, but the log goes on with keys: it lacks 2 records from position {} on, \
             which were looked through here; `swistopal check {}` says what to do",
            positions[3],
            store.display()
        );
        tool("query", &store, &KEY)
            .is(1, "3 records of")
            .is(1, "1 item of the index and 2 records of the log read")
            .is(1, &said);
        let json = tool("query", &store, &[&KEY[..], &["--json"]].concat());
        assert_eq!(json.is(1, "").json().get("faults").list().len(), 1);
        // Up to an end before those records it does not lag.
        let end = positions[3].to_string();
        tool("query", &store, &[&KEY[..], &["--end", &end]].concat()).is(0, "1 record of");
        tool("query", &store, &[&KEY[..], &["--end", "4096"]].concat()).is(1, "answers 8");
    }

    // Nothing in the index: the log is read from its start.
    let empty = folder.join("empty");
    grown(&empty, 1, &[WITHOUT_KEY, WITH_KEY]);
    tool("query", &empty, &KEY)
        .is(1, "it is empty, but the log goes on with keys")
        .is(1, "1 record of");
    // Of several files the one that reaches furthest counts.
    let several = folder.join("several");
    grown(&several, 2, &[WITH_KEY, WITH_KEY]);
    fs::write(several.join("index/20990101000000000"), [0; 40 + 84]).unwrap();
    tool("query", &several, &KEY).is(0, "2 records of");
    // Those of a log whose older segments were removed.
    fs::remove_file(segment(&several, 4096)).unwrap();
    made(&several, 8192, 4096, 1, |position, _| {
        record(position, b"T", (0, 2), 1000, b"KEYS\x01k")
    });
    tool("query", &several, &["--topic", "T", "--key", "other"])
        .is(1, "it lacks 1 record from position 8192 on");
}

#[test]
fn damage_behind_the_index_is_told() {
    let folder = Folder::new("behind");
    let store = folder.join("store");
    let positions = grown(&store, 1, &[WITH_KEY, WITHOUT_KEY, WITH_KEY]);
    edit(&segment(&store, 4096), |bytes| {
        bytes[positions[1] as usize - 4096 + 4] ^= 1
    });
    let said = format!(
        "the log cannot be read from {} to {}, {} bytes: answer 10: the record is damaged; what is behind was looked through",
        positions[1],
        positions[2],
        positions[2] - positions[1]
    );
    tool("query", &store, &KEY)
        .is(1, "2 records of")
        .is(1, "1 record read behind damage")
        .is(1, &said);
}

#[test]
fn a_hole_in_a_queue_is_told() {
    let folder = Folder::new("hole");
    let store = built(&folder, "store");
    let file = queue_file(&store, "SORTER_TRIM", 0);
    let sound = fs::read(&file).unwrap();
    let next = format!("`swistopal check {}` says what to do", store.display());
    let told = |empty: u32, again: u32| {
        format!(
            "{}: the size of entry {empty} is 0, but bytes that are not zero stand from entry {again} on; entries {empty} to \
             299 are not shown; {next}",
            file.display()
        )
    };
    let zeroed = |from: usize, to: usize| {
        let mut bytes = sound.clone();
        bytes[from..to].fill(0);
        fs::write(&file, bytes).unwrap();
    };
    zeroed(5 * 20, 6 * 20);
    let run = tool("queue", &store, &TRIM);
    run.is(1, "5 records of queue SORTER_TRIM/0")
        .is(1, &told(5, 6));
    assert!(!run.err.contains("which has"), "{}", run.err);
    let json = tool("queue", &store, &[&TRIM[..], &["--json"]].concat());
    assert_eq!(json.is(1, "").json().get("faults").list().len(), 1);
    tool("queue", &store, &[&TRIM[..], &["--start", "7"]].concat()).is(1, &told(5, 6));
    tool("queue", &store, &[&TRIM[..], &["--limit", "2"]].concat()).is(1, &told(5, 6));
    // Only the size is lost; then all but the last bytes of the last place.
    zeroed(19 * 20 + 8, 19 * 20 + 12);
    tool("queue", &store, &TRIM).is(1, &told(19, 19));
    let mut bytes = sound.clone();
    *bytes.last_mut().unwrap() = 1;
    fs::write(&file, bytes).unwrap();
    tool("queue", &store, &TRIM)
        .is(1, &told(20, 299))
        .is(1, "20 records");
}

#[test]
fn files_of_a_queue_that_do_not_follow_each_other_are_told() {
    let folder = Folder::new("files");
    let mut made = 0;
    // The queue's 20 entries in files of 8.
    let mut divided = || -> (PathBuf, [PathBuf; 3]) {
        made += 1;
        let store = built(&folder, &format!("store-{made}"));
        let first = queue_file(&store, "SORTER_TRIM", 0);
        let entries = fs::read(&first).unwrap();
        let files = [0, 160, 320].map(|place| {
            let file = first.with_file_name(format!("{place:020}"));
            fs::write(&file, &entries[place..place + 160]).unwrap();
            file
        });
        (store, files)
    };
    let (store, files) = divided();
    fs::write(files[0].with_file_name(format!("{:020}", 480)), [0; 160]).unwrap();
    tool("queue", &store, &TRIM).is(0, "20 records of queue SORTER_TRIM/0, which has 20 entries");
    fs::remove_file(&files[1]).unwrap();
    tool("queue", &store, &TRIM).is(1, "12 records").is(
        1,
        &format!(
            "{}: it starts with entry 16, but the file before it ends with entry 7; entries 8 to 15 are not shown; \
             `swistopal check {}` says what to do",
            files[2].display(),
            store.display()
        ),
    );
    let (store, files) = divided();
    edit(&files[0], |bytes| bytes[7 * 20..].fill(0));
    tool("queue", &store, &TRIM).is(1, "19 records").is(
        1,
        &format!(
            "{}: the size of entry 7 is 0, but bytes that are not zero stand from entry 8 on; entries 7 to 7 are not shown",
            files[0].display()
        ),
    );
    let (store, files) = divided();
    let overlapping = files[0].with_file_name(format!("{:020}", 140));
    fs::rename(&files[1], &overlapping).unwrap();
    tool("queue", &store, &TRIM).is(
        1,
        &format!(
            "{}: it starts with entry 7, but the file before it goes on to entry 7",
            overlapping.display()
        ),
    );
}

#[test]
fn a_queue_that_is_not_there_brings_a_command_that_shows_those_of_the_log() {
    let folder = Folder::new("absent");
    let store = built(&folder, "store");
    let said = format!("`swistopal list --long {}` shows", store.display());
    tool("queue", &store, &["--topic", "SORTER_TRIM", "--queue", "1"]).is(1, &said);
    tool("list", &store, &["--long"]).shows("     0     19  SORTER_TRIM / ");
}

#[test]
fn topics_are_shown_in_paths_too() {
    let folder = Folder::new("paths");
    let store = folder.join("store");
    let topic = "\x1b[2J\nT";
    made(&store, 0, 4096, 1, |position, _| {
        record(position, topic.as_bytes(), (0, 0), 1000, b"")
    });
    tool("rebuild", &store, &SMALL).is(0, "stop      0");
    let file = queue_file(&store, topic, 0);
    let says = |part: &str| {
        let run = tool("queue", &store, &["--topic", topic, "--queue", "0"]);
        run.is(1, &format!("\\x1b[2J\\x0aT/0/00000000000000000000: {part}"));
        assert!(!run.err.contains('\x1b'), "{:?}", run.err);
    };
    edit(&file, |bytes| *bytes.last_mut().unwrap() = 1);
    says("the size of entry 1 is 0");
    fs::write(&file, [0; 21]).unwrap();
    says("21 bytes are no queue file");
    fs::remove_file(&file).unwrap();
    std::os::unix::fs::symlink("nowhere", &file).unwrap();
    says("No such file");
}

/// Only `check` knows whether a rebuild would shorten what is there: query and queue lead to it.
#[test]
fn a_lagging_index_behind_damage_is_kept() {
    let folder = Folder::new("kept");
    let store = folder.join("store");
    let positions = grown(&store, 3, &[WITH_KEY; 5]);
    edit(&segment(&store, 4096), |bytes| {
        bytes[(positions[1] - 4096) as usize + 4] ^= 1;
    });
    let query = tool("query", &store, &KEY);
    query
        .is(1, "but the log goes on with keys")
        .is(1, "says what to do");
    assert!(!query.err.contains("rebuild"), "{}", query.err);
    let check = tool("check", &store, &[]);
    check.is(1, "rebuild only after that");
    assert!(!check.out.contains("--force"), "{}", check.out);
}
