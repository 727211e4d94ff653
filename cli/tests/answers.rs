//! No silent answers: what is cut, left out, not there or asked for in another way than meant is told.

mod common;

use common::broker::{self, Broker, Message, MORNING};
use common::*;
use std::fs;
use std::io::Write;
use std::path::{Path, PathBuf};
use std::process::{Command, Stdio};

const PARCEL: [&str; 4] = ["--topic", "SORTER_DIVERT", "--key", "P000017"];
const TRIM: [&str; 4] = ["--topic", "SORTER_TRIM", "--queue", "0"];

fn text(value: &Json) -> &str {
    match value {
        Json::Text(text) => text,
        other => panic!("no text: {other:?}"),
    }
}

/// Sixty records with one key, in three topics.
fn sixty(store: &Path) -> PathBuf {
    let mut broker = Broker::new(store);
    for number in 0..60u64 {
        let unique = format!("U{number:04}");
        broker.put(Message {
            topic: ["A", "B", "C"][number as usize % 3],
            keys: if number < 59 { "k other" } else { "U0003" },
            uniq_key: &unique,
            body: b"carrier 4",
            store_time: MORNING + number,
            ..Message::default()
        });
    }
    broker.finish()
}

fn query(store: &Path, options: &[&str]) -> Run {
    tool("query", store, options)
}

fn positions(json: &Json) -> Vec<u64> {
    let records = json.get("records").list().iter();
    records
        .map(|record| record.get("position").number())
        .collect()
}

#[test]
fn a_cut_is_told() {
    let folder = Folder::new("cut");
    let store = sixty(&folder.join("store"));
    let key = ["--topic", "A", "--key", "k"];
    let with = |more: &[&'static str]| [&key[..], more].concat();
    // Exactly as many as the limit is no cut.
    let all = query(&store, &with(&["--limit", "20"]));
    all.is(0, "20 records of topic A");
    assert!(!all.err.contains("cut at"), "{}", all.err);
    assert_eq!(
        query(&store, &with(&["--limit", "20", "--json"]))
            .json()
            .get("more"),
        &Json::Truth(false)
    );
    query(&store, &with(&["--limit", "19"]))
        .is(0, "19 records of topic A")
        .is(
            0,
            "cut at --limit 19: there are more; a higher --limit shows them",
        );
    let json = query(&store, &with(&["--limit", "19", "--json"])).json();
    assert_eq!(json.get("more"), &Json::Truth(true));
    assert_eq!(json.get("records").list().len(), 19);
    assert!(text(&json.get("hints").list()[0]).starts_with("cut at --limit 19"));
    // The limit that nobody asked for.
    query(&store, &["--key", "k"])
        .is(0, "32 records")
        .is(0, "cut at --limit 32: there are more");
    query(&store, &["--key", "k", "--scan"]).is(0, "cut at --limit 32: there are 27 more");

    let queue = ["--topic", "A", "--queue", "0", "--limit"];
    tool("queue", &store, &[&queue[..], &["19"]].concat())
        .is(0, "cut at --limit 19: there is 1 more");
    let json = tool("queue", &store, &[&queue[..], &["5", "--json"]].concat()).json();
    assert_eq!(json.get("more").number(), 15);
    let whole = tool("queue", &store, &[&queue[..], &["20"]].concat());
    assert!(!whole.is(0, "20 records").err.contains("cut at"));

    let list = tool("list", &store, &["--limit", "3"]);
    list.is(0, "cut at --limit 3: more follow; --from ")
        .shows("stop limit\n");
    let from = list
        .err
        .split("--from ")
        .nth(1)
        .unwrap()
        .split(' ')
        .next()
        .unwrap();
    let rest = tool("list", &store, &["--from", from]);
    assert_eq!(rest.is(0, "").out.lines().count(), 1 + 57 + 1);
    let json = tool("list", &store, &["--limit", "3", "--json"]).json();
    assert_eq!(json.get("more"), &Json::Truth(true));
    assert_eq!(json.get("end").number().to_string(), from);
    // Behind the last record of a topic there are no more of it.
    let b = tool("list", &store, &["--topic", "B", "--limit", "20"]);
    assert!(!b.is(0, "").err.contains("cut at"), "{}", b.err);
    tool("list", &store, &["--topic", "B", "--limit", "19"]).is(0, "cut at --limit 19");
}

#[test]
fn topics_and_times_that_are_not_there_are_told() {
    let folder = Folder::new("not-there");
    let store = built(&folder, "store");
    let topics = "its topics are: SORTER_DIVERT, SORTER_INDUCTION, SORTER_TRIM";
    query(&store, &["--topic", "SORTER_DIVRT", "--key", "P000017"])
        .is(0, "consumequeue has no topic SORTER_DIVRT")
        .is(0, topics);
    tool("list", &store, &["--topic", "SORTER_DIVRT"])
        .is(0, "the log has no topic SORTER_DIVRT")
        .is(0, topics);
    tool(
        "queue",
        &store,
        &["--topic", "SORTER_DIVRT", "--queue", "0"],
    )
    .is(1, "consumequeue has no topic SORTER_DIVRT")
    .is(1, topics);
    tool(
        "queue",
        &store,
        &["--topic", "SORTER_DIVERT", "--queue", "7"],
    )
    .is(1, "that topic has the queues 0, 1, 2, 3");
    // Only of what was read.
    tool(
        "list",
        &store,
        &["--topic", "SORTER_TRIM", "--from", "83658"],
    )
    .is(0, "the log from 83658 to 83658 has no topic SORTER_TRIM");
    tool("list", &store, &["--topic", "SORTER_TRIM", "--end", "383"])
        .is(0, "the log from 0 to 383 has no topic SORTER_TRIM");
    query(
        &store,
        &["--topic", "SORTER_DIVRT", "--key", "P000017", "--scan"],
    )
    .is(0, "the log has no topic SORTER_DIVRT")
    .is(0, topics);
    let quiet = query(&store, &["--topic", "SORTER_DIVERT", "--key", "P999999"]);
    assert_eq!(
        quiet.is(0, "0 records").err.lines().count(),
        1,
        "{}",
        quiet.err
    );

    let outside = "which are from 2026-03-02T05:58:00.842Z (1772431080842) to 2026-03-02T06:05:28.754Z (1772431528754)";
    for range in [
        ["--to", "2026-03-02T05:58:00Z"],
        ["--from", "1772431528755"],
    ] {
        query(&store, &[&PARCEL[..], &range].concat())
            .is(0, "0 records")
            .is(0, outside);
        let option = format!("{}-time", range[0]);
        tool("list", &store, &[&option, range[1]]).is(0, outside);
        let json = query(&store, &[&PARCEL[..], &range, &["--json"]].concat()).json();
        assert!(text(&json.get("hints").list()[0]).contains("outside the times"));
    }
    let bare_log = folder.join("bare");
    copy(&store, &bare_log);
    fs::remove_dir_all(bare_log.join("consumequeue")).unwrap();
    query(&bare_log, &["--topic", "SORTER_DIVRT", "--key", "P000017"]).is(
        0,
        "there are no queues to tell whether the store has topic SORTER_DIVRT",
    );
    let meant = "if seconds are meant, 2026-03-02T05:58:00.000Z, it is --from 1772431080000";
    query(&store, &[&PARCEL[..], &["--from", "1772431080"]].concat())
        .is(0, "2 records")
        .is(0, meant);
    tool("list", &store, &["--to-time", "1772431080"]).is(0, "it is --to-time 1772431080000");
    let milliseconds = query(
        &store,
        &[&PARCEL[..], &["--from", "1772431080000"]].concat(),
    );
    assert!(!milliseconds.err.contains("meant"), "{}", milliseconds.err);
}

#[test]
fn a_query_needs_no_topic_and_knows_unique_keys() {
    let folder = Folder::new("topics");
    let store = sixty(&folder.join("store"));
    let json = |options: &[&str]| {
        query(&store, &[options, &["--json"]].concat())
            .is(0, "")
            .json()
    };
    let all = json(&["--key", "k", "--limit", "100"]);
    assert_eq!(all.get("records").list().len(), 59);
    let newest_first = positions(&all);
    assert!(newest_first.is_sorted_by(|one, other| one > other));
    assert_eq!(
        positions(&json(&["--key", "k", "--limit", "10"])),
        newest_first[..10]
    );
    assert_eq!(
        positions(&json(&["--key", "k", "--scan", "--limit", "10"])),
        newest_first[..10]
    );
    query(&store, &["--key", "k"])
        .is(0, "with key k in 3 topics")
        .shows("topic / tags / keys");
    // Record 59 has the unique key of record 3 among its keys.
    assert_eq!(json(&["--key", "U0003"]).get("records").list().len(), 2);
    for more in [
        &["--unique-key", "U0003"][..],
        &["--unique-key", "U0003", "--scan"],
    ] {
        let unique = json(more);
        assert_eq!(unique.get("records").list().len(), 1);
        assert_eq!(unique.get("records").list()[0].get("entry").number(), 1);
    }
    assert_eq!(json(&["--unique-key", "k"]).get("records").list().len(), 0);
    query(&store, &["--key", "k", "--unique-key", "k"]).is(2, "one of them is enough");
    query(&store, &[]).is(2, "--key is needed");
    // Also a topic that has no queue, as of a store whose queues are gone.
    fs::remove_dir_all(store.join("consumequeue")).unwrap();
    assert_eq!(
        positions(&json(&["--key", "k", "--limit", "100"])),
        newest_first
    );
}

#[test]
fn a_scan_finds_what_an_index_has() {
    let folder = Folder::new("transactions");
    let mut broker = Broker::new(&folder.join("store"));
    let puts = [0, 4, 8, 12].map(|system_flag| {
        broker.put(Message {
            keys: "k",
            system_flag,
            ..Message::default()
        })
    });
    let store = broker.finish();
    // A record that was rolled back has no item.
    let [none, prepared, committed, _] = puts.map(|put| put.position);
    for more in [
        &[][..],
        &["--scan"],
        &["--topic", "T"],
        &["--topic", "T", "--scan"],
    ] {
        let options = [&["--key", "k", "--json"], more].concat();
        let json = query(&store, &options).is(0, "").json();
        assert_eq!(positions(&json), [committed, prepared, none]);
    }
}

#[test]
fn json_lines_are_what_json_has() {
    let folder = Folder::new("lines");
    let store = built(&folder, "store");
    let calls: [(&str, &str, &[&str]); 3] = [
        ("list", "entries", &["--limit", "40"]),
        ("query", "records", &["--key", "P000017", "--body"]),
        ("queue", "records", &TRIM),
    ];
    for (command, list, options) in calls {
        let json = tool(command, &store, &[options, &["--json"]].concat()).json();
        let run = tool(command, &store, &[options, &["--jsonl"]].concat());
        let mut lines: Vec<Json> = run.is(0, "").out.lines().map(Json::parse).collect();
        let last = lines.pop().unwrap();
        assert_eq!(lines, json.get(list).list(), "{command}");
        assert_eq!(last.get("summary"), &Json::Truth(true));
        assert_eq!(last.get("faults"), json.get("faults"));
        assert_eq!(last.get("more"), json.get("more"));
        tool(command, &store, &[options, &["--json", "--jsonl"]].concat()).is(2, "one of them");
    }
}

#[test]
fn a_list_is_filtered_and_read_from_standard_input() {
    let folder = Folder::new("filter");
    let store = built(&folder, "store");
    let lines = |options: &[&str]| -> Vec<String> {
        let run = tool("list", &store, options);
        run.is(0, "").out.lines().map(String::from).collect()
    };
    let trim = lines(&["--topic", "SORTER_TRIM", "--long"]);
    assert_eq!(trim.len(), 1 + 20 + 1);
    assert!(trim[1..21]
        .iter()
        .all(|line| line.contains(" SORTER_TRIM / trim / ")));
    let time = |line: &str| line.split(' ').nth(3).unwrap().parse::<u64>().unwrap();
    let all = lines(&["--limit", "30"]);
    let (from, to) = (time(&all[4]), time(&all[20]));
    let some = lines(&[
        "--from-time",
        &from.to_string(),
        "--to-time",
        &to.to_string(),
    ]);
    assert_eq!(some[1..18], all[4..21]);
    assert_eq!(some.len(), 1 + 17 + 1);
    tool("list", &store, &["--from-time", "2", "--to-time", "1"])
        .is(2, "--from-time is later than --to-time");

    let input = |bytes: &[u8], options: &[&str]| -> Run {
        let mut call = Command::new(TOOL);
        call.args(["list", "-"]).args(options).stdin(Stdio::piped());
        let mut child = call
            .stdout(Stdio::piped())
            .stderr(Stdio::piped())
            .spawn()
            .unwrap();
        child.stdin.take().unwrap().write_all(bytes).unwrap();
        let output = child.wait_with_output().unwrap();
        Run {
            status: output.status.code().unwrap(),
            out: String::from_utf8(output.stdout).unwrap(),
            err: String::from_utf8(output.stderr).unwrap(),
        }
    };
    let bytes: Vec<Vec<u8>> = [0, 65_536, 131_072]
        .map(|first| fs::read(segment(&store, first)).unwrap())
        .into();
    let whole = tool("list", &store, &[]).out;
    let run = input(&bytes.concat(), &["--segment-size", "65536"]);
    assert_eq!(run.is(0, "").out, whole);
    // A segment by itself starts where its first record says; so does a file of another name.
    let second = tool("list", &segment(&store, 65_536), &[]).out;
    assert_eq!(input(&bytes[1], &[]).is(0, "").out, second);
    let other = folder.join("segment.bak");
    fs::write(&other, &bytes[1]).unwrap();
    assert_eq!(tool("list", &other, &[]).is(0, "").out, second);
    input(&bytes[0][..1000], &[]).is(1, "standard input: 1,000 bytes are no segment");
    input(b"", &[]).is(1, "standard input: 0 bytes are no segment");
}

#[test]
fn a_place_inside_a_record_is_told() {
    let folder = Folder::new("inside");
    let store = built(&folder, "store");
    for from in ["193", "382"] {
        tool("list", &store, &["--from", from]).is(
            2,
            "it is inside the record, which goes from 192 to 383; start at one of these",
        );
    }
    tool("list", &store, &["--from", "65500"])
        .is(2, "it is inside the blank, which goes from 65481 to 65536");
    tool("list", &store, &["--end", "382"]).is(1, "--end 382 is inside the record at 192");
    edit(&segment(&store, 0), |bytes| bytes[192 + 4] ^= 1);
    tool("list", &store, &["--from", "200"])
        .is(
            2,
            "it is inside a part that cannot be read, from 192 to 383",
        )
        .is(2, "--resync goes on behind it");
    tool("list", &store, &["--from", "200", "--resync"])
        .is(1, "")
        .shows("\n383 ");
}

/// A worn disk must not hide or turn around what a terminal shows.
#[test]
fn what_is_not_seen_is_shown_as_escapes() {
    let folder = Folder::new("unseen");
    let store = folder.join("a store's $(touch pwned)");
    let topic = "T\u{202e}gnp";
    made(&store, 0, 4096, 1, |position, _| {
        record(
            position,
            topic.as_bytes(),
            (0, 0),
            1000,
            "KEYS\u{1}a\u{200b}b\u{2}TAGS\u{1}\u{2066}t".as_bytes(),
        )
    });
    tool("rebuild", &store, &SMALL).is(0, "");
    let unseen = |run: &Run| {
        for text in [&run.out, &run.err] {
            assert!(
                !text.contains(['\u{202e}', '\u{200b}', '\u{2066}']),
                "{text:?}"
            );
        }
    };
    let long = tool("list", &store, &["--long"]);
    long.is(0, "")
        .shows("T\\xe2\\x80\\xaegnp / \\xe2\\x81\\xa6t / a\\xe2\\x80\\x8bb");
    unseen(&long);
    for form in ["--json", "--jsonl"] {
        let run = query(&store, &["--key", "a\u{200b}b", form]);
        run.is(0, "").shows("\"T\\u202egnp\"");
        unseen(&run);
    }
    // The words of a command can be pasted into a shell.
    let demo = folder.join("two words");
    tool("demo", &demo, &[]).is(
        0,
        &format!("next: swistopal rebuild '{}'\n", demo.display()),
    );
    fs::remove_dir_all(store.join("index")).unwrap();
    let run = query(&store, &["--key", "k"]);
    let quoted = store.display().to_string().replace('\'', "'\\''");
    run.is(
        1,
        &format!("`swistopal check '{quoted}'` says how to make an index"),
    );
}

/// Old segments are removed while index and queues still name them: that is no fault.
#[test]
fn what_is_older_than_the_log_is_counted() {
    let folder = Folder::new("older");
    let mut broker = Broker::new(&folder.join("store")).segment_size(4096);
    for number in 0..100u64 {
        broker.put(Message {
            keys: "k",
            store_time: MORNING + number,
            ..Message::default()
        });
    }
    let store = broker.finish();
    let ask = ["--topic", "T", "--key", "k", "--limit", "1000", "--json"];
    let before = query(&store, &ask).is(0, "").json();
    broker::remove_segments(&store, 1);
    let after = query(&store, &ask).is(0, "").json();
    let older = after.get("older_than_the_log").number();
    assert!(older > 10);
    assert_eq!(after.get("records").list().len() as u64, 100 - older);
    let kept = positions(&before).into_iter().filter(|at| *at >= 4096);
    assert_eq!(positions(&after), kept.collect::<Vec<u64>>());
    query(&store, &ask[..6]).is(
        0,
        &format!("{older} items of the index older than the log, which starts at 4096"),
    );
    let queue = ["--topic", "T", "--queue", "0"];
    tool("queue", &store, &queue).is(
        0,
        &format!("{older} entries older than the log, which starts at 4096"),
    );
}

/// Records with IPv6 hosts are beyond what the archive reads: they are counted, and are no damage.
#[test]
fn long_hosts_are_a_limit() {
    let folder = Folder::new("hosts");
    let mut broker = Broker::new(&folder.join("store"));
    let mut puts = Vec::new();
    for number in 0..9u64 {
        puts.push(broker.put(Message {
            keys: "k",
            system_flag: [0, 16, 32, 48][number as usize % 4],
            body: b"hello",
            store_time: MORNING + number,
            ..Message::default()
        }));
    }
    let store = broker.finish();
    for options in [&[][..], &["--resync"]] {
        let list = tool("list", &store, options);
        list.is(0, "3 records with hosts of 20 bytes (IPv6), which this tool does not read; that is no damage");
        list.shows(" long-hosts 3\n").shows("stop 0\n");
        assert!(!list.out.contains("behind-damage"), "{}", list.out);
        assert_eq!(list.out.lines().count(), 1 + 3 + 2 + 1);
    }
    let json = tool("list", &store, &["--json"]).is(0, "").json();
    assert_eq!(json.get("damaged_parts").number(), 0);
    let long = &json.get("entries").list()[1];
    assert_eq!(long.get("long_hosts").number(), 3);
    assert_eq!(long.get("damage"), &Json::Truth(false));
    let found = query(&store, &["--topic", "T", "--key", "k"]);
    found.is(0, "3 records of").is(
        0,
        "6 items of the index left out, the first at position 104: hosts of 20 bytes (IPv6)",
    );
    tool("queue", &store, &["--topic", "T", "--queue", "0"])
        .is(0, "3 records of queue T/0")
        .is(
            0,
            "6 entries left out, the first at position 104: hosts of 20 bytes (IPv6)",
        );
    let at = puts[2].position.to_string();
    bare(&["show", store.to_str().unwrap(), &at]).is(2, "it cannot be shown");
}
