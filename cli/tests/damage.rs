//! Damaged copies of the demo store, and stores of other shapes: a sentence with the place, and the originals untouched.

mod common;

use common::*;
use std::fs::{self, File, OpenOptions};
use std::path::{Path, PathBuf};

const QUERY: [&str; 4] = ["--topic", "SORTER_DIVERT", "--key", "P000017"];
/// A record in the middle of the demo's first segment: the missed divert of parcel 17.
const MIDDLE: usize = 6696;

struct Stores {
    folder: Folder,
    sound: PathBuf,
    made: u32,
}

impl Stores {
    fn new(name: &str) -> Stores {
        let folder = Folder::new(name);
        let sound = built(&folder, "sound");
        Stores {
            folder,
            sound,
            made: 0,
        }
    }

    /// A copy to be damaged.
    fn copy(&mut self) -> PathBuf {
        self.made += 1;
        let store = self.folder.join(&format!("copy-{}", self.made));
        copy(&self.sound, &store);
        store
    }
}

fn zero_from(path: &Path, from: usize, to: usize) {
    edit(path, |bytes| bytes[from..to].fill(0));
}

fn cut(path: &Path, length: u64) {
    let file = OpenOptions::new().write(true).open(path).unwrap();
    file.set_len(length).unwrap();
}

#[test]
fn damage_in_the_log() {
    let mut stores = Stores::new("log");
    // Each field that soundness depends on: magic, total, log position, store time, queue id, system flag, body length.
    for (place, value) in [
        (4, 0xdb),
        (2, 0x7f),
        (35, 1),
        (57, 1),
        (12, 0x80),
        (39, 16),
        (85, 9),
    ] {
        let store = stores.copy();
        edit(&segment(&store, 0), |bytes| bytes[MIDDLE + place] ^= value);
        let before = files(&store);
        tool("list", &store, &[])
            .is(1, "the log stops at 6696 with 10: the record is damaged")
            .shows("\nstop 10\n");
        let check = tool("check", &store, &[]);
        check.is(1, "it stops at 6696 with 10: the record is damaged");
        check.shows("get another copy of commitlog/00000000000000000000");
        // One bad record hides no other one.
        check.shows("it can be read again from 6888 on");
        check.shows("read behind damage: 402 records, 1 blank");
        check.shows("437 entries, 402 of them read behind damage");
        check.shows("1 entry of records where the log was not read");
        assert!(!check.out.contains("behind the log's end"), "{}", check.out);
        // The index names a place where no record stands any more.
        tool("query", &store, &QUERY)
            .is(1, "names position 6696, where reading the log answers 10")
            .is(1, "1 record of");
        tool("query", &store, &[&QUERY[..], &["--json"]].concat()).json();
        tool(
            "queue",
            &store,
            &["--topic", "SORTER_DIVERT", "--queue", "2"],
        )
        .is(1, "an entry names position 6696");
        assert_eq!(files(&store), before);
        let force = [&SMALL[..], &["--force"]].concat();
        tool("rebuild", &store, &force).is(1, "the log stops at 6696 with 10");
        assert_eq!(files(&store), before);
        let rebuild = tool("rebuild", &store, &[&force[..], &["--shorten"]].concat());
        rebuild
            .is(1, "the log stops at 6696 with 10")
            .shows("steps     35, up to position 6696");
        // The index ends at the damage now; the log behind it is looked through.
        tool("query", &store, &QUERY)
            .is(1, "1 record of")
            .is(1, "the log cannot be read from 6696 to 6888");
        assert_eq!(
            fs::read(segment(&store, 0)).unwrap(),
            before[Path::new("commitlog/00000000000000000000")]
        );
    }
    // A zeroed sector inside the log is not the log's end.
    let store = stores.copy();
    zero_from(&segment(&store, 0), MIDDLE, MIDDLE + 512);
    tool("check", &store, &[])
        .is(1, "stops at 6696 with 10: zeros stand there")
        .shows("it can be read again from 72");
    // A blank of a wrong length.
    let store = stores.copy();
    edit(&segment(&store, 0), |bytes| bytes[65_484] = 54);
    tool("list", &store, &[]).is(1, "stops at 65481 with 10");
}

#[test]
fn files_of_wrong_lengths() {
    let mut stores = Stores::new("lengths");
    // The last segment is cut where nothing was written yet, at a record's end, in a record, and to nothing.
    let store = stores.copy();
    cut(&segment(&store, 131_072), 5000);
    tool("list", &store, &[]).is(
        1,
        "00000000000000131072: 5,000 bytes of 65,536; it is cut short",
    );
    tool("check", &store, &[]).is(1, "it is sound up to 83658; only zeros follow");
    cut(&segment(&store, 131_072), 0);
    tool("query", &store, &QUERY).is(1, "2 records").is(
        1,
        "00000000000000131072: 0 bytes of 65,536; it is cut short",
    );
    fs::remove_file(segment(&store, 131_072)).unwrap();
    tool("check", &store, &[]).is(0, "2 segments of 65,536 bytes");
    cut(&segment(&store, 65_536), 83_658 - 65_536);
    tool("list", &store, &[])
        .is(1, "18,122 bytes of 65,536")
        .shows("\nstop 0\n");
    cut(&segment(&store, 65_536), 83_658 - 65_536 - 1);
    tool("list", &store, &[]).is(1, "with 8: the record is not wholly below the readable end");
    let shorten = [&SMALL[..], &["--force", "--shorten"]].concat();
    tool("rebuild", &store, &shorten).is(1, "steps     438");
    // Only one segment, cut: its size is told.
    fs::remove_file(segment(&store, 65_536)).unwrap();
    cut(&segment(&store, 0), 5000);
    tool("list", &store, &["--segment-size", "65536"])
        .is(1, "5,000 bytes of 65,536")
        .shows("stop 8");
    tool("list", &store, &[]).is(1, "with 10");
    cut(&segment(&store, 0), 1023);
    tool("list", &store, &[]).is(1, "1,023 bytes are no segment");
    // A missing one, a longer one, a shorter one between others.
    let store = stores.copy();
    fs::remove_file(segment(&store, 65_536)).unwrap();
    tool("check", &store, &[]).is(1, "the segment at 65536 is missing before it");
    tool("rebuild", &store, &shorten).is(1, "up to position 65536");
    let store = stores.copy();
    cut(&segment(&store, 65_536), 65_537);
    tool("list", &store, &[]).is(1, "65,537 bytes, though a segment has 65,536");
    let store = stores.copy();
    cut(&segment(&store, 0), 60_000);
    tool("list", &store, &[])
        .is(1, "60,000 bytes of 65,536; it is cut short")
        .shows("stop 8");

    let store = stores.copy();
    cut(&queue_file(&store, "SORTER_TRIM", 0), 6001);
    tool("queue", &store, &["--topic", "SORTER_TRIM", "--queue", "0"])
        .is(1, "6,001 bytes are no queue file");
    tool("check", &store, &[]).is(1, "6,001 bytes are no queue file");
    cut(&index_file(&store), 60_427);
    tool("query", &store, &QUERY).is(1, "60,427 bytes are no index");
    tool("check", &store, &[]).is(1, "60,427 bytes are no index");
    cut(&index_file(&store), 0);
    tool("query", &store, &QUERY).is(1, "0 bytes are no index");
}

#[test]
fn folders_of_another_layout() {
    let mut stores = Stores::new("layout");
    let empty = stores.folder.join("empty");
    fs::create_dir(&empty).unwrap();
    for command in ["list", "rebuild", "check"] {
        tool(command, &empty, &[]).is(2, "no folder commitlog in it");
    }
    tool("query", &empty, &QUERY).is(2, "no folder commitlog in it");
    fs::write(empty.join("commitlog"), "").unwrap();
    tool("check", &empty, &[]).is(2, "no folder commitlog in it");
    fs::remove_file(empty.join("commitlog")).unwrap();
    fs::create_dir(empty.join("commitlog")).unwrap();
    fs::write(empty.join("commitlog/notes.txt"), "hello").unwrap();
    tool("check", &empty, &[]).is(1, "no segment in it");
    tool("rebuild", &empty, &[]).is(1, "no segment in it");
    assert_eq!(files(&empty).len(), 1);

    let file = stores.folder.join("file");
    fs::write(&file, [0; 4096]).unwrap();
    for command in ["rebuild", "query", "queue"] {
        let options = ["--topic", "T", "--key", "k", "--queue", "0"];
        let options = match command {
            "rebuild" => &options[..0],
            "query" => &options[..4],
            _ => &["--topic", "T", "--queue", "0"],
        };
        tool(command, &file, options).is(2, "a folder is needed");
    }
    // Names that are numbers, but no positions of a log.
    let far = stores.folder.join("far");
    fs::create_dir_all(far.join("commitlog")).unwrap();
    for first in [u64::MAX - 1023, 1 << 40] {
        let path = segment(&far, first);
        fs::write(&path, [0; 1024]).unwrap();
        tool("check", &far, &[]).is(0, "it ends above 2^40");
        fs::remove_file(path).unwrap();
    }
    fs::write(far.join("commitlog/99999999999999999999"), [0; 1024]).unwrap();
    tool("check", &far, &[]).is(1, "no segment in it");
    let store = stores.copy();
    let trim = queue_file(&store, "SORTER_TRIM", 0);
    fs::copy(&trim, trim.with_file_name("18446744073709551600")).unwrap();
    tool("check", &store, &[]).is(
        1,
        "SORTER_TRIM/0: entry 922337203685477580 names position 4029, where the log has no such record (20 in all)",
    );
    let queue = ["--topic", "SORTER_TRIM", "--queue", "0"];
    tool("queue", &store, &queue).is(1, "40 records").is(
        1,
        "it starts with entry 922337203685477580, but the file before it ends with entry 299",
    );
    // A log without a record.
    let zeros = stores.folder.join("zeros");
    made(&zeros, 0, 4096, 0, |_, _| Vec::new());
    tool("list", &zeros, &[]).is(0, "stop 0");
    tool("rebuild", &zeros, &[]).is(1, "there is nothing to rebuild");
    tool("check", &zeros, &[]).is(0, "0 records");
    assert_eq!(files(&zeros).len(), 1);
    // Missing results.
    let store = stores.copy();
    fs::remove_dir_all(store.join("index")).unwrap();
    tool("query", &store, &QUERY).is(1, "no index in it");
    tool("check", &store, &[]).is(1, "missing  index: 1,294 items by the log");
    fs::remove_file(queue_file(&store, "SORTER_TRIM", 0)).unwrap();
    tool("check", &store, &[]).is(1, "missing  queue SORTER_TRIM/0: 20 entries by the log");
}

#[test]
fn damage_in_queues() {
    let mut stores = Stores::new("queues");
    let trim = ["--topic", "SORTER_TRIM", "--queue", "0"];
    let store = stores.copy();
    // The position of entry 5, then its size.
    edit(&queue_file(&store, "SORTER_TRIM", 0), |bytes| {
        bytes[5 * 20 + 7] ^= 1
    });
    tool("check", &store, &[])
        .is(
            1,
            "SORTER_TRIM/0: entry 5 differs from the log's: position 24841, size ",
        )
        .shows("; by the log position 24840, size ")
        .shows("--force");
    tool("queue", &store, &trim)
        .is(1, "reading the log answers 10")
        .is(1, "19 records");
    tool("queue", &store, &[&trim[..], &["--json"]].concat()).json();
    edit(&queue_file(&store, "SORTER_TRIM", 0), |bytes| {
        bytes[5 * 20..6 * 20].fill(0)
    });
    tool("check", &store, &[]).is(
        1,
        "SORTER_TRIM/0: 1 of 20 entries by the log not there, the first is entry 5, of the record at 24840",
    );
    let store = stores.copy();
    edit(&queue_file(&store, "SORTER_TRIM", 0), |bytes| {
        bytes[20 * 20 + 10] = 1
    });
    tool("check", &store, &[]).is(
        1,
        "SORTER_TRIM/0: entry 20 names position 0, where the log has no such record",
    );
    edit(&queue_file(&store, "SORTER_TRIM", 0), |bytes| {
        bytes[20 * 20 + 5] = 2
    });
    let check = tool("check", &store, &[]);
    check.is(1, "21 entries, 1 of them behind the log's end");
    // It may be the log that is too short.
    assert!(!check.out.contains("swistopal rebuild"), "{}", check.out);
    // An entry of another queue: a record stands there, but not of this one.
    let store = stores.copy();
    edit(&queue_file(&store, "SORTER_TRIM", 0), |bytes| {
        bytes[..8].fill(0)
    });
    tool("queue", &store, &trim).is(1, "position 0, where no record of this queue stands");
    let far = stores.copy();
    edit(&queue_file(&far, "SORTER_TRIM", 0), |bytes| {
        bytes[..8].fill(0xff)
    });
    tool("queue", &far, &trim).is(
        1,
        "answers 2: a position, the readable end or an entry count is bad",
    );
    // A queue that the log does not have.
    let store = stores.copy();
    fs::create_dir_all(store.join("consumequeue/OTHER/7")).unwrap();
    fs::copy(
        queue_file(&store, "SORTER_TRIM", 0),
        queue_file(&store, "OTHER", 7),
    )
    .unwrap();
    tool("check", &store, &[]).is(1, "OTHER/7: 20 entries, but the log has no record of it");
}

#[test]
fn damage_in_the_index() {
    let mut stores = Stores::new("index");
    let item = |number: usize| 40 + 4 * 97 + 20 * number;
    let store = stores.copy();
    edit(&index_file(&store), |bytes| bytes[36] = 0xff);
    tool("query", &store, &[&QUERY[..], &["--slots", "97"]].concat())
        .is(1, "answer 4: the index header is bad");
    tool("query", &store, &QUERY).is(1, "--slots is needed");
    tool("check", &store, &["--slots", "97"]).is(1, "answer 4: the index header is bad");
    tool("check", &store, &["--slots", "96"]).is(2, "--slots 96");
    let store = stores.copy();
    edit(&index_file(&store), |bytes| bytes[item(700) + 11] ^= 1);
    tool("check", &store, &[])
        .is(1, "item 700 differs from the log's: hash ")
        .shows("; by the log hash ");
    edit(&index_file(&store), |bytes| bytes[item(700) + 7] = 1);
    tool("check", &store, &[]).is(1, "item 700 differs from the log's: hash ");
    // Every slot leads nowhere: the last item's one still fits, so the sizes are found.
    let store = stores.copy();
    edit(&index_file(&store), |bytes| {
        for number in 2..1294 {
            bytes[item(number) + 16..item(number) + 20]
                .copy_from_slice(&(number as u32).to_be_bytes());
        }
    });
    tool("query", &store, &[&QUERY[..], &["--json"]].concat())
        .is(1, "answer 16 after 1 item: the chain is broken")
        .json();
    let store = stores.copy();
    edit(&index_file(&store), |bytes| bytes[40..40 + 4 * 97].fill(0));
    tool("check", &store, &["--slots", "97"]).is(1, ": slot 0 is 0, by the log 1,2");
    let store = stores.copy();
    edit(&index_file(&store), |bytes| bytes[7] ^= 1);
    tool("check", &store, &[]).is(
        1,
        ": the header's first time is 1,772,431,080,843, by the log 1,772,431,080,842",
    );
    // Two index files are asked one after the other.
    let store = stores.copy();
    let older = store.join("index/20250101000000000");
    fs::write(&older, [0; 40 + 84]).unwrap();
    tool("query", &store, &QUERY).is(0, "2 records");
    let check = tool("check", &store, &[]);
    check.is(0, "20250101000000000: no item yet");
    check.shows("2 index files; this tool makes one");
    check.shows("as the log gives it");
}

#[test]
fn sizes_of_an_index_are_found() {
    let folder = Folder::new("sizes");
    let store = folder.join("store");
    tool("demo", &store, &[]).is(0, "");
    for (slots, items) in [
        ("1", "1295"),
        ("7", "1300"),
        ("500", "2000"),
        ("4999", "1295"),
        ("1000", "1500"),
    ] {
        let sizes = [
            "--force",
            "--slots",
            slots,
            "--items",
            items,
            "--entries",
            "100",
        ];
        tool("rebuild", &store, &sizes).is(0, "");
        tool("query", &store, &QUERY).is(0, "2 records");
        tool("check", &store, &[]).is(
            0,
            &format!(
                " {} slots filled",
                if slots.len() == 4 {
                    slots.replacen(slots, &format!("{},{}", &slots[..1], &slots[1..]), 1)
                } else {
                    slots.to_string()
                }
            ),
        );
    }
}

/// The number of slots is not taken from a place where only zeros stand.
#[test]
fn sizes_of_an_index_are_not_guessed() {
    let folder = Folder::new("guess");
    let store = folder.join("store");
    // `polygenelubricants` has the index hash 0 by itself; no key gives it with a topic here, so it is written by hand.
    made(&store, 0, 4096, 1, |position, _| {
        record(position, b"T", (0, 0), 1000, b"KEYS\x01k")
    });
    tool("rebuild", &store, &["--slots", "1", "--items", "5"]).is(0, "1 item");
    let index = index_file(&store);
    edit(&index, |bytes| bytes[64..68].fill(0));
    tool("query", &store, &["--topic", "T", "--key", "k"]).is(1, "--slots is needed");
    tool(
        "query",
        &store,
        &["--topic", "T", "--key", "k", "--slots", "1"],
    )
    .is(0, "0 records");
}

#[test]
fn stops_of_a_rebuild() {
    let folder = Folder::new("stops");
    let store = folder.join("store");
    tool("demo", &store, &[]).is(0, "");
    let entries = ["--entries", "99", "--slots", "97", "--items", "3000"];
    tool("rebuild", &store, &entries)
        .is(1, "stop      13: the queue is full")
        .is(1, "more --entries");
    tool("rebuild", &store, &entries)
        .is(1, "stop      13")
        .is(1, "going on at position");
    let items = [
        "--restart",
        "--entries",
        "100",
        "--slots",
        "97",
        "--items",
        "1294",
    ];
    tool("rebuild", &store, &items)
        .is(1, "stop      14: the index is full")
        .is(1, "more --items");
    tool("check", &store, &[]).is(1, "one has begun and stops at 83484 with 14");
    let enough = [
        "--restart",
        "--entries",
        "100",
        "--slots",
        "97",
        "--items",
        "1295",
    ];
    tool("rebuild", &store, &enough).is(0, "stop      0");

    let skipped = folder.join("skipped");
    made(&skipped, 0, 4096, 5, |position, number| {
        let entry = if number < 3 { number } else { number + 1 };
        record(position, b"T", (0, entry), 1000, b"UNIQ_KEY\x01k")
    });
    tool("rebuild", &skipped, &SMALL)
        .is(1, "stop      12: the queue is out of step")
        .is(1, "stopped before the record at 306, entry 4 of queue T/0");
    tool("check", &skipped, &[]).is(
        1,
        "out of step at 306: the record there is entry 4 of queue T/0, though entry 3 comes next",
    );

    let many = folder.join("many");
    made(&many, 0, 4096, 17, |position, number| {
        record(position, b"T", (number as u32, 0), 1000, b"")
    });
    tool("rebuild", &many, &SMALL)
        .is(2, "a 17th queue, T/16; at most 16")
        .is(2, "--queues FILE; --end 1472 rebuilds what is before it");
    tool("check", &many, &[]).is(1, "17 queues; this tool makes 16 at once");
    assert_eq!(files(&many).len(), 1);

    // A name that would leave the store.
    for (number, topic) in [&b".."[..], b".", b"a/../../b", b"/etc", b"a\0b"]
        .into_iter()
        .enumerate()
    {
        let store = folder.join(&format!("topic-{number}"));
        made(&store, 0, 4096, 1, |position, _| {
            record(position, topic, (0, 0), 1000, b"")
        });
        tool("rebuild", &store, &SMALL).is(1, "it cannot be the name of a folder");
        assert_eq!(files(&store).len(), 1);
    }
    // Any other name is one.
    let odd = folder.join("odd");
    made(&odd, 0, 4096, 2, |position, number| {
        record(
            position,
            "\x1b[2J \\ ÿ".as_bytes(),
            (0, number),
            1000,
            "KEYS\x01ß\x02TAGS\x01\x07".as_bytes(),
        )
    });
    tool("rebuild", &odd, &[&SMALL[..], &["--budget", "1"]].concat())
        .is(0, "\\x1b[2J \\\\ ÿ/0: 1 entry");
    tool("rebuild", &odd, &[]).is(0, "stop      0");
    tool("check", &odd, &["--json"]).is(0, "").json();
    tool("list", &odd, &["--long"]).is(0, "\\x07 / ß");
    let json = tool("list", &odd, &["--json"]).is(0, "").json();
    let first = &json.get("entries").list()[0];
    assert_eq!(
        first.get("topic"),
        &Json::Text(String::from("\x1b[2J \\ ÿ"))
    );
}

#[test]
fn logs_of_other_shapes() {
    let folder = Folder::new("shapes");
    // Older segments were removed: the queue's entries start later, as its records say.
    let later = folder.join("later");
    made(&later, 8192, 8192, 20, |position, number| {
        record(
            position,
            b"T",
            ((number % 2) as u32, 40 + number / 2),
            1000 + number,
            b"UNIQ_KEY\x01k",
        )
    });
    tool("rebuild", &later, &SMALL).is(0, "queue     T/1: 50 entries");
    tool("check", &later, &[]).is(0, "20 entries");
    tool("queue", &later, &["--topic", "T", "--queue", "1"]).is(0, "10 records");
    tool(
        "queue",
        &later,
        &["--topic", "T", "--queue", "1", "--start", "45"],
    )
    .is(0, "5 records");
    tool("query", &later, &["--topic", "T", "--key", "k"]).is(0, "20 records");
    tool("rebuild", &later, &["--force", "--entries", "39"])
        .is(1, "queue T/0 starts with entry 40");

    // Segments of 1,024 bytes: they are copied, as they fill no whole pages. The last one is the other way round cut.
    let small = folder.join("small");
    for segment_number in 0..3u64 {
        let first = segment_number * 1024;
        made(&small, first, 1024, 5, |position, number| {
            record(
                position,
                b"T",
                (0, segment_number * 5 + number),
                1000,
                b"UNIQ_KEY\x01key",
            )
        });
        let path = segment(&small, first);
        edit(&path, |bytes| {
            let used = 5 * (91 + 1 + 12);
            bytes[used..used + 4].copy_from_slice(&(1024 - used as u32).to_be_bytes());
            bytes[used + 4..used + 8].copy_from_slice(&[0xcb, 0xd4, 0x31, 0x94]);
        });
    }
    tool("rebuild", &small, &SMALL).is(0, "steps     18, up to position 3072");
    tool("check", &small, &[]).is(0, "3 segments of 1,024 bytes from 0: 15 records, 3 blanks");
    cut(&segment(&small, 2048), 200);
    tool("list", &small, &[]).is(1, "stops at 2152 with 8");
}

#[test]
fn work_folders_that_are_not_as_left() {
    let folder = Folder::new("work");
    let sound = folder.join("sound");
    tool("demo", &sound, &[]).is(0, "");
    let part = [&SMALL[..], &["--budget", "100"]].concat();
    let mut made = 0;
    let mut begun = || {
        made += 1;
        let store = folder.join(&format!("copy-{made}"));
        copy(&sound, &store);
        tool("rebuild", &store, &part).is(0, "stop      9");
        store
    };
    let store = begun();
    let work = |name: &str| store.join("swistopal.rebuild").join(name);
    let lock = File::open(work("lock")).unwrap();
    lock.lock().unwrap();
    tool("rebuild", &store, &[]).is(1, "another rebuild is at work");
    drop(lock);
    edit(&work("journal"), |bytes| bytes[50] ^= 1);
    tool("rebuild", &store, &[]).is(1, "journal: it is damaged; --restart begins anew");
    tool("rebuild", &store, &["--restart", "--budget", "5"]).is(0, "stop      9");
    for damaged in ["swistopal rebuild 2\n", "swistopal rebuild x\n", ""] {
        fs::write(work("plan"), damaged).unwrap();
        tool("rebuild", &store, &[]).is(1, "plan: it is damaged; --restart begins anew");
    }
    fs::write(work("plan"), "swistopal rebuild 1\n").unwrap();
    let another = "plan: another version of this tool has begun the rebuild; --restart begins anew";
    tool("rebuild", &store, &[]).is(1, another);
    tool("check", &store, &[]).is(1, another);

    // The index of the work folder: a bad header, an item too many, a slot below 0.
    let index = |store: &Path| {
        let mut entries = fs::read_dir(store.join("swistopal.rebuild/store/index")).unwrap();
        entries.next().unwrap().unwrap().path()
    };
    let change = |change: fn(&mut Vec<u8>), said: &str, store: PathBuf| {
        // Without the journal, which would mend it.
        tool("rebuild", &store, &["--budget", "100"]).is(0, "");
        edit(&index(&store), change);
        // Only its stage, steps and progress stay.
        edit_journal(&store, |bytes| {
            bytes.truncate(8 + 3 * 8 + 16 * 8);
            bytes.push(0);
        });
        tool("rebuild", &store, &[]).is(1, said).is(1, "--restart");
    };
    change(
        |bytes| bytes[36] = 0x7f,
        "answer 4: the index header is bad",
        begun(),
    );
    change(
        |bytes| bytes[27] = 1,
        "stop      15: the index is ahead of the log",
        begun(),
    );
    change(
        |bytes| bytes[40..40 + 4 * 97].fill(0xff),
        "stop      16: the chain is broken",
        begun(),
    );

    // The log is shorter than it was.
    let store = begun();
    tool("rebuild", &store, &["--end", "5000"]).is(1, "--restart begins anew");

    // Folders and files of that name which are not the tool's.
    let store = folder.join("foreign");
    copy(&sound, &store);
    fs::create_dir(store.join("swistopal.rebuild")).unwrap();
    fs::write(store.join("swistopal.rebuild/mine"), "mine").unwrap();
    let before = files(&store);
    tool("rebuild", &store, &[]).is(2, "it is not the work folder of a rebuild");
    tool("rebuild", &store, &["--restart"]).is(2, "it is not the work folder of a rebuild");
    assert_eq!(files(&store), before);
}

/// Even one who may write everywhere can create no folder where a link stands, and write nothing on a full medium.
#[test]
fn a_medium_that_cannot_be_written() {
    use std::os::unix::fs::{symlink, PermissionsExt};
    let folder = Folder::new("medium");
    let store = folder.join("store");
    tool("demo", &store, &[]).is(0, "");
    let first = segment(&store, 0);
    fs::set_permissions(&first, fs::Permissions::from_mode(0o444)).unwrap();
    tool("list", &store, &[]).is(0, "stop 0");
    let work = store.join("swistopal.rebuild");
    symlink("nowhere", &work).unwrap();
    tool("rebuild", &store, &SMALL)
        .is(1, "cannot create ")
        .is(1, "swistopal.rebuild: File exists")
        .is(1, "copy the store to where it can be written");
    assert_eq!(fs::read_dir(&store).unwrap().count(), 2);
    fs::remove_file(&work).unwrap();
    fs::write(&work, "mine").unwrap();
    tool("rebuild", &store, &SMALL).is(2, "it is not the work folder of a rebuild; move it away");
    assert_eq!(fs::read(&work).unwrap(), b"mine");
    fs::remove_file(&work).unwrap();

    tool(
        "rebuild",
        &store,
        &[&SMALL[..], &["--budget", "5"]].concat(),
    )
    .is(0, "stop      9");
    symlink("/dev/full", work.join("journal.part")).unwrap();
    tool("rebuild", &store, &[]).is(1, "journal.part: No space left on device");
    fs::remove_file(work.join("journal.part")).unwrap();
    tool("rebuild", &store, &[]).is(0, "439 in all");
    tool("check", &store, &[]).is(0, "nothing: the store is sound");
}
