//! Faults of the medium: names that a terminal must not be given, segments that are missing, bytes that cannot be read.

mod common;

use common::*;
use std::fs::{self, OpenOptions};
use std::io::Read;
use std::os::unix::fs::symlink;
use std::path::Path;
use std::process::{Command, Stdio};

/// A name that clears a terminal and goes on in another line.
const NAME: &str = "\x1b[2J\nX";

/// What was said, with the name, but without its control characters.
#[track_caller]
fn says_safely(run: &Run, status: i32, said: &str) {
    run.is(status, said).is(status, "\\x1b[2J\\x0aX");
    let all = [&run.out[..], &run.err].concat();
    assert!(!all.replace('\n', "").contains(char::is_control), "{all:?}");
}

#[test]
fn no_control_character_reaches_the_terminal() {
    let folder = Folder::new("names");
    // The store's own name.
    let store = folder.join(NAME);
    let listed = |status, said| says_safely(&tool("list", &store, &[]), status, said);
    listed(2, "there is no such folder");
    fs::create_dir(&store).unwrap();
    listed(2, "no folder commitlog in it");
    fs::create_dir(store.join("commitlog")).unwrap();
    listed(1, "no segment in it");
    fs::write(segment(&store, 1 << 40), [0; 1024]).unwrap();
    listed(0, "it ends above 2^40");
    fs::remove_file(segment(&store, 1 << 40)).unwrap();
    fs::write(segment(&store, 0), [0; 1000]).unwrap();
    listed(1, "1,000 bytes are no segment");
    fs::remove_file(segment(&store, 0)).unwrap();
    symlink("nowhere", segment(&store, 0)).unwrap();
    listed(1, "it is there, but cannot be read");

    // A topic's folder, whose file cannot be opened.
    let store = built(&folder, "store");
    let queue = store.join("consumequeue").join(NAME).join("0");
    fs::create_dir_all(&queue).unwrap();
    symlink("nowhere", queue.join("00000000000000000000")).unwrap();
    says_safely(&tool("check", &store, &[]), 1, "cannot open");
    let run = tool("queue", &store, &["--topic", NAME, "--queue", "0"]);
    says_safely(&run, 1, "cannot open");

    // Words of a call, as a script may take them from a disk.
    let option = format!("--{NAME}");
    for (words, said) in [
        (&[NAME][..], "one place is enough"),
        (&["--limit", NAME], "a number from"),
        (&[&option], "no such option"),
    ] {
        says_safely(&tool("list", &store, words), 2, said);
    }
    let run = tool(
        "query",
        &store,
        &["--topic", "T", "--key", "k", "--from", NAME],
    );
    says_safely(&run, 2, "a time is");
    says_safely(&bare(&[NAME]), 2, "no such command");
}

/// A segment of the demo's size that is full: one record, and a blank up to its end.
fn full(store: &Path, first: u64) {
    made(store, first, 65_536, 1, |position, _| {
        let mut bytes = record(position, b"T", (0, first / 65_536), 1000, b"");
        bytes.extend((65_536 - bytes.len() as u32).to_be_bytes());
        bytes.extend([0xcb, 0xd4, 0x31, 0x94]);
        bytes
    });
}

fn cut(path: &Path, length: u64) {
    let file = OpenOptions::new().write(true).open(path).unwrap();
    file.set_len(length).unwrap();
}

#[test]
fn a_missing_segment_leaves_the_others_their_size() {
    let folder = Folder::new("missing");
    let store = folder.join("store");
    full(&store, 0);
    full(&store, 131_072);
    cut(&segment(&store, 131_072), 5000);
    let list = || tool("list", &store, &[]);
    let missing = "00000000000000131072: the segment at 65536 is missing before it";
    list().is(1, missing).shows("92 65444 blank\nstop 0\n");
    list().is(
        1,
        "00000000000000131072: 5,000 bytes of 65,536; it is cut short",
    );
    tool("check", &store, &[]).is(1, "1 segment of 65,536 bytes");
    // The longest file is the last one.
    full(&store, 131_072);
    cut(&segment(&store, 0), 5000);
    let short = "00000000000000000000: 5,000 bytes of 65,536; it is cut short";
    list().is(1, short);
    // A name that is no multiple of any length: the first two files still share one.
    full(&store, 0);
    fs::rename(segment(&store, 131_072), segment(&store, 65_537)).unwrap();
    list().is(
        1,
        "00000000000000065537: its name is no multiple of the segment size 65536; it is not read",
    );
    // All are cut short.
    fs::rename(segment(&store, 65_537), segment(&store, 65_536)).unwrap();
    cut(&segment(&store, 0), 5000);
    cut(&segment(&store, 65_536), 3000);
    list().is(1, short);
}

#[test]
fn segments_of_the_largest_size_may_be_missing() {
    let folder = Folder::new("largest");
    let store = folder.join("store");
    full(&store, 0);
    cut(&segment(&store, 0), 1 << 30);
    fs::write(segment(&store, 2 << 30), [0; 5000]).unwrap();
    let list = |options: &[&str]| tool("list", &store, options);
    let missing = "the segment at 1073741824 is missing before it";
    list(&["--limit", "1"]).is(1, missing);
    // Without a whole file the size has to be told.
    cut(&segment(&store, 0), 5001);
    list(&[]).is(
        1,
        "00000000000000000000: 2,147,483,648 bytes up to the next file are no segment; \
         one has 1,024 to 1,073,741,824, and --segment-size tells how many",
    );
    list(&["--segment-size", "65536"]).is(1, "5,001 bytes of 65,536; it is cut short");
    fs::remove_file(segment(&store, 2 << 30)).unwrap();
    cut(&segment(&store, 0), 1000);
    list(&[]).is(
        1,
        "1,000 bytes are no segment; one has 1,024 to 1,073,741,824, and --segment-size",
    );
}

/// Whoever points at the segments named above has to find them there.
#[test]
fn what_a_log_lacks_begins_with_the_segment() {
    let folder = Folder::new("lacks");
    let store = folder.join("store");
    let told = |first: u64, what: &str| {
        let sentence = format!("swistopal: {}: {what}", segment(&store, first).display());
        let list = tool("list", &store, &[]);
        list.is(1, &sentence);
        assert!(list.err.lines().any(|line| line.starts_with(&sentence)));
    };
    full(&store, 0);
    full(&store, 131_072);
    told(131_072, "the segment at 65536 is missing");
    full(&store, 65_536);
    cut(&segment(&store, 65_536), 65_537);
    told(65_536, "65,537 bytes, though a segment has 65,536");
    cut(&segment(&store, 65_536), 65_535);
    told(65_536, "65,535 bytes of 65,536; it is cut short");
}

/// Whoever lists cannot be far when its first byte comes: the pipe takes less than a quarter of what stands before the cut.
#[test]
fn a_segment_that_is_cut_while_it_is_read() {
    const CUT: u64 = 4 << 20;
    let folder = Folder::new("cut");
    let store = folder.join("store");
    made(&store, 0, 8 << 20, 80_000, |position, number| {
        record(position, b"T", (0, number), 1000, b"")
    });
    let path = segment(&store, 0).canonicalize().unwrap();
    let mut list = Command::new(TOOL);
    list.arg("list").arg(&store);
    list.stdout(Stdio::piped()).stderr(Stdio::piped());
    let mut list = list.spawn().unwrap();
    let out = list.stdout.as_mut().unwrap();
    out.read_exact(&mut [0]).unwrap();
    cut(&path, CUT);
    let ended = list.wait_with_output().unwrap();
    let said = String::from_utf8(ended.stderr).unwrap();
    assert_eq!(ended.status.code(), Some(1), "{said}");
    let place = said.strip_prefix(&format!("swistopal: {}: byte ", path.display()));
    let (byte, sentence) = place.and_then(|place| place.split_once(' ')).expect(&said);
    // It is one of the record that stands across the cut, or of the next one.
    assert!((CUT..CUT + 92).contains(&byte.parse().unwrap()), "{said}");
    assert_eq!(
        sentence,
        "cannot be read: the medium has a fault there, or the file was cut; copy the store to a sound disk \
         and work on the copy; a rebuild under way begins anew there with --restart\n"
    );
}

/// A work file that was cut would only be lengthened again, with zeros for what it had.
#[test]
fn a_work_file_that_was_cut_is_told() {
    let folder = Folder::new("cut_work");
    let whole = built(&folder, "whole");
    for name in ["queues", "store/index"] {
        let store = folder.join(&name.replace('/', "_"));
        tool("demo", &store, &[]).is(0, "");
        let part = [&SMALL[..], &["--budget", "200"]].concat();
        tool("rebuild", &store, &part).is(0, "stop      9");
        let mut file = store.join("swistopal.rebuild").join(name);
        if file.is_dir() {
            let mut files = fs::read_dir(&file).unwrap();
            file = files.next().unwrap().unwrap().path();
        }
        edit(&file, |bytes| bytes.truncate(100));
        for run in [&tool("rebuild", &store, &[]), &tool("rebuild", &store, &[])] {
            run.is(1, "100 bytes, where the rebuild began with")
                .is(1, "--restart begins anew");
        }
        let anew = [&SMALL[..], &["--restart"]].concat();
        tool("rebuild", &store, &anew).is(0, "stop      0");
        assert_eq!(files(&store), files(&whole));
    }
}
