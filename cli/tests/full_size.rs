//! An index of RocketMQ's default size, 420,000,040 bytes, is built and asked without being read into memory.

mod common;

use common::*;
use std::fs;
use std::io::Read;
use std::os::unix::fs::MetadataExt;
use std::path::Path;
use std::process::{Command, Stdio};

/// The most memory in kilobytes that a run held, and its output.
#[allow(clippy::zombie_processes, reason = "wait4 waits for it")]
fn peak(command: &str, store: &Path, options: &[&str]) -> (u64, String) {
    extern "C" {
        fn wait4(process: i32, status: *mut i32, options: i32, usage: *mut [i64; 18]) -> i32;
    }
    let mut child = Command::new(TOOL)
        .arg(command)
        .arg(store)
        .args(options)
        .stdout(Stdio::piped())
        .stderr(Stdio::null())
        .spawn()
        .unwrap();
    let mut out = String::new();
    let mut pipe = child.stdout.take().unwrap();
    pipe.read_to_string(&mut out).unwrap();
    let process = child.id() as i32;
    let (mut status, mut usage) = (0, [0; 18]);
    // SAFETY: a status, and on 64-bit Linux a usage of 18 numbers of 8 bytes; nobody else waits for this child.
    let ended = unsafe { wait4(process, &mut status, 0, &mut usage) };
    assert_eq!((ended, status), (process, 0));
    // Two pairs of times stand before the most memory held.
    (usage[4] as u64, out)
}

/// 50,000 records and 150,000 items: more than one batch, and slots all over the file.
#[test]
fn many_items_within_little_memory() {
    let folder = Folder::new("many");
    let store = folder.join("store");
    made(&store, 0, 1 << 23, 50_000, |position, number| {
        let keys = format!(
            "KEYS\x01P{:06} C{:03}\x02UNIQ_KEY\x01U{number:08}",
            number / 2,
            number % 96
        );
        let queue = ((number % 4) as u32, number / 4);
        record(
            position,
            b"SORTER",
            queue,
            1_772_431_080_000 + 20 * number,
            keys.as_bytes(),
        )
    });
    let (memory, out) = peak("rebuild", &store, &["--batch", "20000"]);
    assert!(out.contains("150,000 items of 19,999,999"), "{out}");
    println!("rebuild of 150,000 items: {memory} kB at most");
    assert!(memory < 120_000, "{memory} kB");
    tool("check", &store, &[]).is(0, "nothing: the store is sound");
    for key in ["P000000", "P012345", "U00049999", "C095"] {
        tool("query", &store, &["--topic", "SORTER", "--key", key])
            .is(0, "newest first")
            .shows(key);
    }
}

#[test]
fn built_and_asked_within_little_memory() {
    let folder = Folder::new("full");
    let store = folder.join("store");
    tool("demo", &store, &[]).is(0, "");
    let (memory, out) = peak("rebuild", &store, &[]);
    assert!(
        out.contains("1,294 items of 19,999,999, 5,000,000 slots"),
        "{out}"
    );
    let index = fs::metadata(index_file(&store)).unwrap();
    assert_eq!(index.len(), 420_000_040);
    println!(
        "rebuild: {memory} kB at most, index: {} kB on disk",
        index.blocks() / 2
    );
    // The pages of 1,294 items and their slots, and what the program has anyway.
    assert!(memory < 40_000, "{memory} kB");
    let (memory, out) = peak(
        "query",
        &store,
        &["--topic", "SORTER_DIVERT", "--key", "P000017"],
    );
    println!("query: {memory} kB at most");
    assert_eq!(out.lines().count(), 3);
    assert!(memory < 40_000, "{memory} kB");
    tool("check", &store, &[]).is(0, "5,000,000 slots filled; as the log gives it");
}
