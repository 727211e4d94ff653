//! Every command on the demo store.

mod common;

use common::*;
use std::fs;
use std::path::Path;

#[test]
fn help_and_usage() {
    bare(&[]).is(2, "which command?");
    bare(&["--version"]).is(0, "swistopal 0.");
    bare(&["--help"]).is(0, "swistopal COMMAND --help");
    bare(&["sort"]).is(2, "no such command: sort");
    for command in [
        "demo", "list", "report", "rebuild", "query", "queue", "check",
    ] {
        bare(&[command, "--help"]).is(0, &format!("swistopal {command} DIR"));
        bare(&["help", command]).is(0, &format!("swistopal {command} DIR"));
        bare(&[command]).is(2, "which folder?");
        bare(&[command, "a", "b"]).is(2, "b: one place is enough");
        bare(&[command, "a", "--what"]).is(2, "no such option: --what");
    }
    for command in ["list", "report", "rebuild", "check"] {
        let words = [command, "/nowhere/at/all"];
        bare(&words).is(2, "/nowhere/at/all: there is no such folder");
    }
    bare(&["list", "x", "--limit"]).is(2, "--limit needs a value");
    bare(&["list", "x", "--json=1"]).is(2, "--json takes no value");
    bare(&["list", "x", "--limit", "1", "--limit", "2"]).is(2, "--limit is given twice");
    bare(&["query", "x", "--key", "k"]).is(2, "x: there is no such folder");
    bare(&["query", "x", "--topic", "T"]).is(2, "--key is needed");
    bare(&["query", "x", "--topic", "T", "--key="]).is(2, "a topic has 1 to 127 bytes");
    bare(&["queue", "x", "--topic", "T"]).is(2, "--queue is needed");
}

#[test]
fn every_answer_has_its_sentence_in_the_help() {
    let help = bare(&["check", "--help"]).out;
    for answer in swistopal::Answer::ALL {
        let line = format!("{:>4}  {answer}\n", answer.number());
        assert!(help.contains(&line), "{line}");
    }
}

/// The options in a text, each once, in order.
fn options(text: &str) -> Vec<String> {
    let mut found: Vec<String> = text
        .split(|c: char| !c.is_ascii_lowercase() && c != '-')
        .filter(|word| word.starts_with("--") && word.len() > 2)
        .map(String::from)
        .collect();
    found.sort();
    found.dedup();
    found
}

#[test]
fn man_page_and_completion_have_every_option() {
    let man = include_str!("../swistopal.1").replace("\\-", "-");
    let completion = include_str!("../completion.bash");
    let commands = "demo list report rebuild query queue show check";
    for command in commands.split(' ') {
        let mut known = options(&bare(&[command, "--help"]).out);
        for option in &known {
            assert!(
                options(&man).contains(option),
                "{option} is not in the man page"
            );
            // Options are taken: what the tool says is not that there is no such one.
            let said = bare(&[command, "/nowhere/at/all", option]).err;
            assert!(!said.contains("no such option"), "{said}");
        }
        known.push(String::from("--help"));
        known.sort();
        let line = format!("        {command}) options=");
        let line = completion.lines().find(|text| text.starts_with(&line));
        assert_eq!(
            options(line.expect("a line for the command")),
            known,
            "{command}"
        );
    }
    for answer in swistopal::Answer::ALL {
        let line = format!("\n{:>2}  {answer}\n", answer.number());
        assert!(man.contains(&line), "{line}");
    }
}

#[test]
fn completion_completes() {
    let folder = Folder::new("completion");
    let store = built(&folder, "store");
    for topic in ["$(touch pwned) x", "Förderstraße", "分拣 📦"] {
        fs::create_dir(store.join("consumequeue").join(topic)).unwrap();
    }
    let script = concat!(env!("CARGO_MANIFEST_DIR"), "/completion.bash");
    let complete = |words: &[&str]| {
        let call = "source \"$1\"; shift; COMP_WORDS=(\"$@\"); COMP_CWORD=$(($# - 1)); _swistopal; printf '%s\\n' \"${COMPREPLY[@]}\"";
        let output = std::process::Command::new("bash")
            .args(["-c", call, "bash", script, "swistopal"])
            .args(words)
            .current_dir(&folder.0)
            .env("LC_ALL", "C.UTF-8")
            .output()
            .unwrap();
        String::from_utf8(output.stdout).unwrap()
    };
    assert_eq!(complete(&["que"]), "query\nqueue\n");
    assert_eq!(complete(&["re"]), "report\nrebuild\n");
    assert_eq!(complete(&["report", "store", "--html", "st"]), "store\n");
    assert_eq!(complete(&["query", "st"]), "store\n");
    assert_eq!(complete(&["query", "store", "--fr"]), "--from\n");
    assert_eq!(
        complete(&["query", "store", "--topic", "SORTER_T"]),
        "SORTER_TRIM\n"
    );
    assert_eq!(
        complete(&["query", "store", "--topic", "$"]),
        "\\$\\(touch\\ pwned\\)\\ x\n"
    );
    for (start, topic) in [
        ("F", "Förderstraße\n"),
        ("Fö", "Förderstraße\n"),
        ("分", "分拣\\ 📦\n"),
    ] {
        assert_eq!(complete(&["query", "store", "--topic", start]), topic);
    }
    assert_eq!(complete(&["query", "store", "--key", "P"]), "\n");
    assert!(!folder.join("pwned").exists());
}

#[test]
fn huge_and_bad_numbers() {
    let folder = Folder::new("numbers");
    let store = built(&folder, "store");
    let past = "99999999999999999999999";
    for number in [past, "-1", "+1", "1e3", "", " 1", "0x10"] {
        let option = format!("--limit={number}");
        tool("list", &store, &[&option]).is(2, "a number from 0 to 18446744073709551615");
    }
    let most = u64::MAX.to_string();
    tool("list", &store, &["--limit", &most]).is(0, "stop 0");
    tool("list", &store, &["--from", &most]).is(2, "--from 18446744073709551615");
    tool("list", &store, &["--end", &most]).is(2, "the log's files go from 0 to 196608");
    tool("list", &store, &["--segment-size", "5"]).is(2, "a number from 1024 to 1073741824");
    tool("rebuild", &store, &["--slots", "5000001"]).is(2, "a number from 1 to 5000000");
    tool("rebuild", &store, &["--items", "1"]).is(2, "a number from 2 to 20000000");
    tool("rebuild", &store, &["--entries", "300001"]).is(2, "a number from 1 to 300000");
    let query = ["--topic", "SORTER_DIVERT", "--key", "P000017", "--limit"];
    tool("query", &store, &[&query[..], &[&most]].concat()).is(0, "2 records");
    tool("query", &store, &[&query[..], &["0"]].concat()).is(2, "a number from 1");
    let queue = ["--topic", "SORTER_TRIM", "--queue"];
    tool("queue", &store, &[&queue[..], &["2147483648"]].concat()).is(2, "from 0 to 2147483647");
    let queue = ["--topic", "SORTER_TRIM", "--queue", "0", "--limit", &most];
    tool("queue", &store, &queue).is(0, "20 records");
}

#[test]
fn demo_is_the_same_each_time_and_replaces_nothing() {
    let folder = Folder::new("demo");
    let (one, two) = (folder.join("one"), folder.join("two"));
    tool("demo", &one, &[]).is(0, "438 records in 3 segments of 65,536 bytes, 7 queues");
    fs::create_dir(&two).unwrap();
    tool("demo", &two, &[]).is(0, "438 records");
    assert_eq!(files(&one), files(&two));
    tool("demo", &one, &[]).is(2, "it is there already");
    assert_eq!(files(&one), files(&two));
    let file = folder.join("file");
    fs::write(&file, "mine").unwrap();
    tool("demo", &file, &[]).is(2, "it is there already");
    assert_eq!(fs::read(&file).unwrap(), b"mine");
}

/// The lister's text by the archive's own lister, for a segment that it takes.
fn lister(segment: &Path) -> String {
    let mut text = vec![0; swistopal::TEXT_BYTES];
    let bytes = fs::read(segment).unwrap();
    let listing = swistopal::list(&bytes, &mut text).unwrap();
    String::from_utf8(listing.text.to_vec()).unwrap()
}

#[test]
fn list_gives_the_listers_lines() {
    let folder = Folder::new("list");
    let store = built(&folder, "store");
    let first = segment(&store, 0);
    assert_eq!(tool("list", &first, &[]).is(0, "").out, lister(&first));
    // A part of it, damaged, of a size that is no multiple of a page.
    let odd = folder.join("odd");
    edit(&first, |bytes| fs::write(&odd, &bytes[..5003]).unwrap());
    assert_eq!(tool("list", &odd, &[]).is(1, "stops at").out, lister(&odd));

    let all = tool("list", &store, &[]);
    all.is(0, "the log is sound up to 83658; only zeros follow");
    all.shows("position length queue time\n0 192 1 1772431080842\n");
    all.shows("\n65481 55 blank\n65536 ");
    assert_eq!(all.out.lines().count(), 1 + 438 + 1 + 1);
    // The second segment by itself: its name tells where it starts.
    let second = tool("list", &segment(&store, 65_536), &[]);
    let (_, tail) = all.out.split_once("blank\n").unwrap();
    assert_eq!(second.is(0, "").out.split_once('\n').unwrap().1, tail);

    let some = tool("list", &store, &["--from", "192", "--limit", "2"]);
    some.is(0, "cut at --limit 2: more follow; --from 576 goes on");
    assert_eq!(some.out.lines().count(), 4);
    some.shows("stop limit\n");
    tool("list", &store, &["--from", "193"]).is(
        2,
        "--from 193: it is inside the record, which goes from 192 to 383; start at one of these",
    );
    tool("list", &store, &["--from", "83658"]).is(0, "stop 0");
    tool("list", &store, &["--from", "196609"]).is(2, "--from 196609");
    tool("list", &store, &["--end", "383"]).is(0, "stop 0");
    tool("list", &store, &["--end", "382"]).is(1, "stops at 192 with 8");
    tool("list", &store, &["--end", "83700"]).is(1, "stops at 83658 with 10");
    tool("list", &store, &["--long", "--limit", "1"])
        .is(0, "2026-03-02T05:58:00.842Z  1772431080842")
        .shows("SORTER_INDUCTION / induct / 0A14000B2A9F00000001 P000001 C007");

    let json = tool("list", &store, &["--json"]).json();
    assert_eq!(json.get("entries").list().len(), 439);
    assert_eq!(json.get("stop").number(), 0);
    assert_eq!(json.get("end").number(), 83_658);
    let none = tool("list", &store, &["--json", "--limit", "0"]).json();
    assert_eq!(
        (none.get("entries").list().len(), none.get("stop").number()),
        (0, 9)
    );
}

#[test]
fn rebuild_makes_what_check_expects() {
    let folder = Folder::new("rebuild");
    let store = folder.join("store");
    tool("demo", &store, &[]).is(0, "");
    let log = files(&store);
    tool("check", &store, &[])
        .is(1, "missing  queue SORTER_TRIM/0: 20 entries by the log")
        .shows("missing  index: 1,294 items by the log")
        .shows("next     make queues and index from the log: swistopal rebuild");
    assert_eq!(files(&store), log);

    let run = tool("rebuild", &store, &[&SMALL[..], &["--json"]].concat());
    let json = run.is(0, "").json();
    assert_eq!(json.get("steps").number(), 439);
    assert_eq!(json.get("items").number(), 1294);
    assert_eq!(json.get("queues").list().len(), 7);
    tool("check", &store, &[])
        .is(0, "nothing: the store is sound")
        .shows("7 of 7 queues as the log gives them, 438 entries")
        .shows("97 of 97 slots filled; as the log gives it");
    let check = tool("check", &store, &["--json"]).is(0, "").json();
    assert_eq!(check.get("sound"), &Json::Truth(true));
    let built = files(&store);
    for (name, bytes) in &log {
        assert_eq!(built.get(name), Some(bytes));
    }
    assert_eq!(built.len(), log.len() + 8);

    // Nothing is replaced without being asked for.
    let way = "it is there already; --force puts the new one in its place and keeps it";
    tool("rebuild", &store, &SMALL).is(2, way);
    assert_eq!(files(&store), built);
    tool("rebuild", &store, &[&SMALL[..], &["--force"]].concat()).is(0, "stop      0");
    remove_kept(&store);
    assert_eq!(files(&store), built);

    // In parts, by other batches.
    let options = [&SMALL[..], &["--force", "--batch", "7", "--budget", "100"]].concat();
    tool("rebuild", &store, &options).is(0, "stop      9: the budget is spent");
    tool("check", &store, &[]).is(0, "go on with the rebuild");
    tool("rebuild", &store, &["--force", "--slots", "96"]).is(2, "another number of --slots");
    tool("rebuild", &store, &[]).is(2, way);
    tool("rebuild", &store, &["--force", "--budget", "0"]).is(0, "stop      9");
    tool("rebuild", &store, &["--force"])
        .is(0, "439 in all")
        .is(0, "going on at position");
    remove_kept(&store);
    assert_eq!(files(&store), built);

    // Begun, then anew with other sizes. What cannot be done forgets nothing.
    tool("rebuild", &store, &options).is(0, "stop      9");
    let begun = files(&store);
    tool("rebuild", &store, &["--restart"]).is(2, way);
    let refused = ["--restart", "--force", "--queues", "/nowhere/at/all"];
    tool("rebuild", &store, &refused).is(2, "--queues /nowhere/at/all");
    assert_eq!(files(&store), begun);
    let other = [
        "--restart",
        "--force",
        "--slots",
        "96",
        "--items",
        "1296",
        "--entries",
        "100",
    ];
    tool("rebuild", &store, &other).is(0, "1,294 items of 1,295");
    tool("check", &store, &[]).is(0, "nothing: the store is sound");
}

#[test]
fn queues_may_be_listed() {
    let folder = Folder::new("listed");
    let store = folder.join("store");
    tool("demo", &store, &[]).is(0, "");
    let list = folder.join("queues");
    let path = list.to_str().unwrap();
    let rebuild = |text: &str| {
        fs::write(&list, text).unwrap();
        tool(
            "rebuild",
            &store,
            &[&SMALL[..], &["--restart", "--queues", path]].concat(),
        )
    };
    rebuild("").is(2, "0 queues; 1 to 16 can be listed");
    rebuild("SORTER_TRIM\n").is(2, "queues, line 1: a line is a topic");
    rebuild("SORTER_TRIM 0\n\nSORTER_TRIM x\n").is(2, "queues, line 3: a line is a topic");
    rebuild("SORTER_TRIM 0\nSORTER_TRIM 0\n").is(2, "line 2: SORTER_TRIM/0 stands twice");
    let many: String = (0..17).map(|id| format!("T {id}\n")).collect();
    rebuild(&many).is(2, "17 queues");
    tool("rebuild", &store, &["--queues", "/nowhere/at/all"]).is(2, "--queues /nowhere/at/all");
    assert!(!store.join("swistopal.rebuild").exists());

    rebuild("SORTER_INDUCTION 1\n")
        .is(1, "stop      11: the queue is not listed")
        .is(
            1,
            "the record at 192, entry 0 of queue SORTER_DIVERT/1; list its queue in --queues FILE",
        );
    assert!(!store.join("index").exists());
    let all = "SORTER_TRIM 0\nSORTER_INDUCTION 0\nSORTER_INDUCTION 1\nSORTER_DIVERT 3\n\
               SORTER_DIVERT 2\nSORTER_DIVERT 1\nSORTER_DIVERT 0\nANOTHER 5\n";
    rebuild(all).is(0, "queue     ANOTHER/5: 0 entries");
    tool("check", &store, &[]).is(0, "nothing: the store is sound");
}

#[test]
fn query_finds_a_parcel() {
    let folder = Folder::new("query");
    let store = built(&folder, "store");
    let ask = |options: &[&str]| {
        let words = ["--topic", "SORTER_DIVERT", "--key", "P000017"];
        tool("query", &store, &[&words[..], options].concat())
    };
    let both = ask(&[]);
    both.is(
        0,
        "2 records of topic SORTER_DIVERT with key P000017, newest first",
    );
    let lines: Vec<&str> = both.out.lines().collect();
    assert_eq!(lines.len(), 3);
    assert!(lines[1].contains("divert / ") && lines[2].contains("missed / "));
    // The first by its own time, written both ways.
    let json = ask(&["--json", "--limit", "1", "--body"]).is(0, "").json();
    let record = &json.get("records").list()[0];
    let time = record.get("time").number();
    let Json::Text(written) = record.get("time_rfc3339") else {
        panic!("no text");
    };
    assert!(matches!(record.get("body"), Json::Text(body) if body.contains("at chute")));
    for time in [time.to_string(), written.clone()] {
        ask(&["--from", &time]).is(0, "1 record of");
        ask(&["--from", &time, "--to", &time]).is(0, "1 record of");
        ask(&["--to", &time]).is(0, "2 records of");
    }
    ask(&["--from", &(time + 1).to_string()]).is(0, "0 records of");
    ask(&["--to", &(time - 1).to_string()])
        .is(0, "1 record of")
        .shows("missed");
    ask(&["--from", "2", "--to", "1"]).is(2, "--from is later than --to");
    for time in ["yesterday", "281474976710656", "2026-02-30T00:00:00Z", "-5"] {
        ask(&[&format!("--from={time}")]).is(2, "a time is milliseconds from 0");
    }
    ask(&["--body"]).is(0, "").shows("\n    carrier ");

    let none = tool(
        "query",
        &store,
        &["--topic", "SORTER_DIVERT", "--key", "P999999"],
    );
    assert_eq!(none.is(0, "0 records").out, "");
    tool("query", &store, &["--topic", "NOTHING", "--key", "P000017"]).is(0, "0 records");
    // The unique key and the second of the keys.
    tool(
        "query",
        &store,
        &[
            "--topic",
            "SORTER_INDUCTION",
            "--key",
            "0A14000B2A9F00000001",
        ],
    )
    .is(0, "1 record of");
    tool(
        "query",
        &store,
        &["--topic", "SORTER_INDUCTION", "--key", "C007"],
    )
    .is(0, "3 records of");
}

#[test]
fn query_tells_keys_of_the_same_hash_apart() {
    let folder = Folder::new("hash");
    let store = folder.join("store");
    // `Aa` and `BB` have the same hash. Ten of the one, newer than two of the other; the last record has it twice.
    made(&store, 0, 8192, 13, |position, number| {
        let key = match number {
            0 | 1 => "KEYS\x01BB",
            12 => "KEYS\x01BB x BB",
            _ => "KEYS\x01Aa",
        };
        record(position, b"T", (0, number), 10_000 + number, key.as_bytes())
    });
    tool("rebuild", &store, &SMALL).is(0, "");
    let ask = |limit: &str| {
        let options = ["--topic", "T", "--key", "BB", "--limit", limit, "--json"];
        let json = tool("query", &store, &options).is(0, "").json();
        let positions = json
            .get("records")
            .list()
            .iter()
            .map(|record| record.get("position").number());
        (
            positions.collect::<Vec<u64>>(),
            json.get("same_hash_only").number(),
        )
    };
    assert_eq!(ask("1").0.len(), 1);
    let (positions, others) = ask("2");
    assert_eq!((positions.len(), others), (2, 10));
    let (positions, _) = ask("3");
    assert_eq!(positions[1..], [99, 0]);
    tool("query", &store, &["--topic", "T", "--key", "BB"])
        .is(0, "10 records left out: another key with the same hash");

    // Topics of the same hash, too.
    let topics = folder.join("topics");
    made(&topics, 0, 8192, 4, |position, number| {
        let topic = [b"Aa", b"BB"][number as usize % 2];
        record(position, topic, (0, number / 2), 10_000, b"KEYS\x01k")
    });
    tool("rebuild", &topics, &SMALL).is(0, "");
    tool("query", &topics, &["--topic", "Aa", "--key", "k"])
        .is(0, "2 records of topic Aa")
        .is(0, "2 records left out");
}

#[test]
fn queue_shows_its_records() {
    let folder = Folder::new("queue");
    let store = built(&folder, "store");
    let ask = |options: &[&str]| {
        let words = ["--topic", "SORTER_DIVERT", "--queue", "1"];
        tool("queue", &store, &[&words[..], options].concat())
    };
    assert_eq!(ask(&[]).is(0, "59 records").out.lines().count(), 60);
    assert_eq!(
        ask(&["--start", "50"])
            .is(0, "9 records")
            .out
            .lines()
            .count(),
        10
    );
    ask(&["--start", "59"]).is(0, "0 records");
    ask(&["--start", "60"]).is(2, "--start 60: queue SORTER_DIVERT/1 has 59 entries");
    ask(&["--limit", "3"]).is(0, "3 records");
    ask(&["--limit", "0"]).is(0, "0 records");
    let json = ask(&["--json", "--tag", "missed", "--body"])
        .is(0, "")
        .json();
    let missed = json.get("records").list();
    assert!(!missed.is_empty() && missed.len() < 20);
    for record in missed {
        assert_eq!(record.get("tags"), &Json::Text(String::from("missed")));
    }
    ask(&["--tag", "divert"]).is(0, &format!("{} records", 59 - missed.len()));
    ask(&["--tag", "unknown"]).is(0, "0 records");
    ask(&["--tag="]).is(2, "a tag has 1 to 32,000 bytes");
    tool(
        "queue",
        &store,
        &["--topic", "SORTER_DIVERT", "--queue", "9"],
    )
    .is(1, "no queue SORTER_DIVERT/9");
    tool("queue", &store, &["--topic", "../../..", "--queue", "9"])
        .is(1, "cannot be the name of a folder");
}

#[test]
fn a_closed_pipe_is_no_fault() {
    use std::process::{Command, Stdio};
    let folder = Folder::new("pipe");
    let store = built(&folder, "store");
    let mut child = Command::new(TOOL)
        .arg("list")
        .arg(&store)
        .stdout(Stdio::piped())
        .stderr(Stdio::null())
        .spawn()
        .unwrap();
    drop(child.stdout.take());
    assert!(child.wait().unwrap().success());
}
