//! What `check` says to machines, and what it says where something strange stands in a file's place.

mod common;

use common::broker::*;
use common::*;
use std::fs::{self, OpenOptions};
use std::os::unix::fs::symlink;
use std::path::{Path, PathBuf};
use std::process::{Command, Stdio};
use std::thread::sleep;
use std::time::Duration;

const SOUND: &str = "nothing: the store is sound";
const NO_FAULT: &str = "nothing: no fault was found; what was not compared is told above";

fn cut(path: &Path, length: u64) {
    let file = OpenOptions::new().write(true).open(path).unwrap();
    file.set_len(length).unwrap();
}

/// The findings of one kind.
fn of_kind<'j>(json: &'j Json, kind: &str) -> Vec<&'j Json> {
    let findings = json.get("findings").list().iter();
    let kind = Json::Text(String::from(kind));
    findings.filter(|one| one.get("kind") == &kind).collect()
}

#[track_caller]
fn numbers(finding: &Json, values: &[(&str, u64)]) {
    for (name, value) in values {
        assert_eq!(finding.get(name).number(), *value, "{name} of {finding:?}");
    }
}

#[test]
fn numbers_are_numbers() {
    let folder = Folder::new("check-json");
    let store = built(&folder, "store");
    let check = || tool("check", &store, &["--json"]).json();
    let json = check();
    assert_eq!(json.get("sound"), &Json::Truth(true));
    assert_eq!(json.get("limited"), &Json::Truth(false));
    numbers(
        of_kind(&json, "log")[0],
        &[
            ("segments", 3),
            ("segment_size", 65_536),
            ("records", 438),
            ("blanks", 1),
        ],
    );
    numbers(of_kind(&json, "end")[0], &[("position", 83_658)]);
    numbers(
        of_kind(&json, "queues")[0],
        &[("queues", 7), ("same", 7), ("entries", 438)],
    );
    numbers(
        of_kind(&json, "index")[0],
        &[("items", 1294), ("most_items", 2999), ("slots", 97)],
    );

    // Both values wherever something differs.
    edit(&queue_file(&store, "SORTER_TRIM", 0), |bytes| {
        bytes[5 * 20 + 7] ^= 1
    });
    edit(&index_file(&store), |bytes| {
        bytes[40 + 4 * 97 + 20 * 700 + 3] ^= 1
    });
    let json = check();
    assert_eq!(json.get("sound"), &Json::Truth(false));
    let [entry, item] = of_kind(&json, "differs")[..] else {
        panic!("{json:?}");
    };
    let position = entry.get("position_by_log").number();
    numbers(
        entry,
        &[("entry", 5), ("position", position ^ 1), ("entries", 1)],
    );
    assert_eq!(entry.get("topic"), &Json::Text(String::from("SORTER_TRIM")));
    let hash = item.get("hash_by_log").number();
    numbers(item, &[("item", 700), ("hash", hash ^ 1), ("items", 1)]);
    let next = json.get("next").list();
    let Json::Text(command) = next[0].get("command") else {
        panic!("{next:?}");
    };
    assert!(command.starts_with("swistopal rebuild "), "{command}");

    // Damage, and what is missing.
    edit(&segment(&store, 0), |bytes| bytes[6696 + 4] ^= 1);
    fs::remove_dir_all(store.join("index")).unwrap();
    let json = check();
    numbers(
        of_kind(&json, "damage")[0],
        &[("position", 6696), ("goes_on", 6888), ("answer", 10)],
    );
    numbers(
        of_kind(&json, "behind-damage")[0],
        &[("records", 402), ("blanks", 1)],
    );
    numbers(&json.get("missing").list()[0], &[("items_by_log", 1291)]);
}

#[test]
fn limits_are_numbers_too() {
    let folder = Folder::new("check-limits");
    let mut broker = Broker::new(&folder.join("store"));
    for number in 0..40 {
        broker.put(Message {
            queue_id: number % 20,
            delay_level: usize::from(number == 39),
            ..Message::default()
        });
    }
    let store = broker.finish();
    let json = tool("check", &store, &["--json"]).is(0, "").json();
    assert_eq!(json.get("limited"), &Json::Truth(true));
    let limits: Vec<&Json> = json.get("findings").list().iter().collect();
    let limits = limits
        .iter()
        .filter(|one| one.get("limit") == &Json::Truth(true));
    assert_eq!(limits.count(), 2);
    let json_queues = json.get("findings").list().iter();
    let queues = json_queues.filter(|one| one.get("part") == &Json::Text(String::from("limit")));
    let queues: Vec<&Json> = queues.collect();
    numbers(queues[0], &[("queues", 21), ("most", 16)]);
    numbers(queues[1], &[("records", 1)]);
}

#[test]
fn each_line_is_an_object() {
    let folder = Folder::new("check-jsonl");
    let store = built(&folder, "store");
    edit(&segment(&store, 0), |bytes| bytes[6696 + 4] ^= 1);
    let check = tool("check", &store, &["--jsonl"]);
    check.is(1, "");
    let lines: Vec<Json> = check.out.lines().map(Json::parse).collect();
    let (last, findings) = lines.split_last().unwrap();
    let parts: Vec<&Json> = findings.iter().map(|line| line.get("part")).collect();
    let part = |name: &str| Json::Text(String::from(name));
    assert_eq!(parts[0], &part("log"));
    assert!(parts.contains(&&part("next")));
    assert_eq!(last.get("summary"), &Json::Truth(true));
    assert_eq!(last.get("sound"), &Json::Truth(false));
}

#[test]
fn an_index_that_was_cut_is_not_sound() {
    let folder = Folder::new("check-cut");
    let store = folder.join("store");
    tool("demo", &store, &[]).is(0, "");
    tool("rebuild", &store, &[]).is(0, "");
    let index = index_file(&store);
    for length in [300_000_040, 200_000_040, 20_026_000] {
        cut(&index, length);
        let check = tool("check", &store, &[]);
        check.is(1, "420,000,040; it is cut short");
        assert!(!check.out.contains(SOUND), "{}", check.out);
    }
    // Where its items are cut, none is asked.
    cut(&index, 20_020_040);
    assert_eq!(tool("check", &store, &[]).status, 1);

    // One that was made so is said to be so.
    tool("rebuild", &store, &["--force", "--items", "2000"]).is(0, "");
    tool("check", &store, &[]).is(1, "unless it was made with --items 2000");
    tool("check", &store, &["--items", "2000"]).is(0, SOUND);

    // Of several, all have one length.
    let mut broker = Broker::new(&folder.join("rolled")).slots(10).items(40);
    for number in 0..50 {
        broker.put(Message {
            uniq_key: &format!("U{number}"),
            ..Message::default()
        });
    }
    let store = broker.finish();
    tool("check", &store, &[]).is(0, NO_FAULT);
    cut(&index_files(&store)[1], 40 + 4 * 10 + 20 * 20);
    tool("check", &store, &[]).is(1, "480 bytes of 880; it is cut short");
}

#[test]
fn what_cannot_be_read_is_not_missing() {
    let folder = Folder::new("check-unreadable");
    let sound = built(&folder, "sound");
    let mut made = 0;
    let mut copy_of = || {
        made += 1;
        let store = folder.join(&format!("copy-{made}"));
        copy(&sound, &store);
        store
    };
    let unreadable = |store: &Path, said: &str| {
        let check = tool("check", store, &[]);
        check.is(1, said);
        for wrong in ["! missing", "swistopal rebuild", "not there", SOUND] {
            assert!(!check.out.contains(wrong), "{wrong} in {}", check.out);
        }
        check.shows("have what cannot be read made readable");
    };
    // Links that lead to themselves cannot be followed by anyone.
    for name in ["index", "consumequeue", "consumequeue/SORTER_TRIM/0"] {
        let store = copy_of();
        fs::remove_dir_all(store.join(name)).unwrap();
        symlink(store.join(name), store.join(name)).unwrap();
        unreadable(&store, "Too many levels of symbolic links");
        let store = copy_of();
        fs::remove_dir_all(store.join(name)).unwrap();
        fs::write(store.join(name), "a file").unwrap();
        unreadable(&store, "a folder should stand there");
    }
    let store = copy_of();
    let index = index_file(&store);
    fs::remove_file(&index).unwrap();
    symlink(&index, &index).unwrap();
    unreadable(&store, "Too many levels of symbolic links");
}

#[test]
fn folders_and_pipes_are_no_files() {
    let folder = Folder::new("check-pipes");
    let sound = built(&folder, "sound");
    let pipe = |path: &Path| {
        let made = Command::new("mkfifo").arg(path).status().unwrap();
        assert!(made.success());
    };
    type Maker<'m> = (&'m str, &'m dyn Fn(&Path));
    let makers: [Maker; 2] = [
        ("a folder", &|path| fs::create_dir(path).unwrap()),
        ("a pipe", &pipe),
    ];
    for (number, (what, make)) in makers.into_iter().enumerate() {
        for place in 0..2 {
            let store = folder.join(&format!("copy-{number}-{place}"));
            copy(&sound, &store);
            let path = match place {
                0 => index_file(&store),
                _ => queue_file(&store, "SORTER_TRIM", 0),
            };
            fs::remove_file(&path).unwrap();
            make(&path);
            let check = tool("check", &store, &[]);
            check.is(
                1,
                &format!("{}: {what} stands in the place of a file", path.display()),
            );
            assert!(!check.out.contains("swistopal rebuild"), "{}", check.out);
        }
    }
}

#[test]
fn commands_are_quoted_for_a_shell() {
    let folder = Folder::new("check-quotes");
    for name in [
        "two words",
        "it's; touch harm",
        "-x",
        "$(touch harm)",
        "a\u{202e}b",
        "new\nline",
    ] {
        let place = folder.join(name);
        tool("demo", &place, &[]).is(0, "");
        let check = tool("check", &place, &[]);
        check.is(1, ": swistopal rebuild ");
        let (_, call) = check.out.split_once(": swistopal ").unwrap();
        let call = call.lines().next().unwrap();
        shell(&format!("swistopal {call} --slots 97 --items 3000")).is(0, "stop      0");
        tool("check", &place, &[]).is(0, SOUND);
    }
    assert!(!Path::new("harm").exists());
}

/// A check that takes long says how far it is, on each of its walks over the log.
#[test]
fn progress_is_told() {
    let folder = Folder::new("check-progress");
    let store = folder.join("store");
    made(&store, 0, 1 << 25, 250_000, |position, number| {
        record(position, b"T", (number as u32 % 17, number / 17), 1000, b"")
    });
    // It is held for longer than the time between two lines; where, is not known beforehand.
    let told = [50, 10, 100, 200, 20].into_iter().any(|before| {
        let child = Command::new(TOOL)
            .arg("check")
            .arg(&store)
            .stdout(Stdio::null())
            .stderr(Stdio::piped())
            .spawn()
            .unwrap();
        let signal = |name: &str| {
            let id = child.id().to_string();
            Command::new("kill").args([name, &id]).status().unwrap()
        };
        sleep(Duration::from_millis(before));
        signal("-STOP");
        sleep(Duration::from_millis(2100));
        signal("-CONT");
        let said = child.wait_with_output().unwrap().stderr;
        let said = String::from_utf8(said).unwrap();
        assert!(
            said.lines().all(|line| line.starts_with("swistopal: ")),
            "{said}"
        );
        said.contains("% ") || said.contains("%,")
    });
    assert!(told);
}

/// A broker's index files in the order of their names.
fn index_files(store: &Path) -> Vec<PathBuf> {
    let folder = fs::read_dir(store.join("index")).unwrap();
    let mut paths: Vec<PathBuf> = folder.map(|entry| entry.unwrap().path()).collect();
    paths.sort();
    paths
}

/// So many records of one unique key each, a few seconds apart.
fn keyed(broker: &mut Broker, count: u64) -> Vec<Put> {
    let puts = (0..count).map(|number| {
        broker.put(Message {
            uniq_key: &format!("U{number:04}"),
            store_time: MORNING + 3700 * number,
            ..Message::default()
        })
    });
    puts.collect()
}

#[test]
fn a_clock_that_was_put_back_is_no_fault() {
    let folder = Folder::new("check-clock");
    let mut broker = Broker::new(&folder.join("store")).slots(10).items(40);
    keyed(&mut broker, 100);
    let store = broker.finish();
    let paths = index_files(&store);
    assert_eq!(paths.len(), 3);
    fs::rename(&paths[2], store.join("index/20260301000000000")).unwrap();
    let check = tool("check", &store, &[]);
    check.is(0, NO_FAULT);
    check.shows("22 items as the log gives them");
}

#[test]
fn items_of_the_last_record_may_stand_twice() {
    let folder = Folder::new("check-twice");
    let mut broker = Broker::new(&folder.join("store"));
    let last = *keyed(&mut broker, 10).last().unwrap();
    let store = broker.finish();
    let again = |change: u8| {
        edit(&index_file(&store), |bytes| {
            let used = u32::from_be_bytes(bytes[36..40].try_into().unwrap());
            let place = |item: u32| 40 + 4 * 500 + 20 * item as usize;
            let mut item = bytes[place(used - 1)..place(used)].to_vec();
            item[3] ^= change;
            let hash = u32::from_be_bytes(item[..4].try_into().unwrap());
            let slot = 40 + 4 * (hash as usize % 500);
            item[16..].copy_from_slice(&bytes[slot..slot + 4]);
            bytes[place(used)..place(used + 1)].copy_from_slice(&item);
            bytes[slot..slot + 4].copy_from_slice(&used.to_be_bytes());
            bytes[36..40].copy_from_slice(&(used + 1).to_be_bytes());
        });
    };
    again(0);
    let check = tool("check", &store, &[]);
    check.is(0, SOUND).shows("1 item once more");
    // Another key is none of this record.
    again(1);
    let stray = format!(
        "item 12 names position {}, where no record gives it",
        last.position
    );
    let check = tool("check", &store, &[]);
    check.is(1, &stray);
    assert!(!check.out.contains("--force"), "{}", check.out);
}

/// The first item of a file that follows another one has its seconds from there.
#[test]
fn an_index_whose_forerunner_was_removed_is_no_fault() {
    let folder = Folder::new("check-forerunner");
    let mut broker = Broker::new(&folder.join("try")).segment_size(4096);
    let puts = keyed(&mut broker, 60);
    let before = puts.iter().filter(|put| put.position < 4096).count() as u32;
    let mut broker = Broker::new(&folder.join("store"))
        .segment_size(4096)
        .slots(50)
        .items(before + 1);
    keyed(&mut broker, 60);
    let store = broker.finish();
    remove_segments(&store, 1);
    let paths = index_files(&store);
    assert_eq!(paths.len(), 2);
    fs::remove_file(&paths[0]).unwrap();
    let bytes = fs::read(&paths[1]).unwrap();
    let seconds = 40 + 4 * 50 + 20 + 12;
    assert_eq!(bytes[seconds..seconds + 4], 3u32.to_be_bytes());
    tool("check", &store, &[])
        .is(0, "; as the log gives it")
        .shows(SOUND);
    // Those of the others are compared.
    edit(&paths[1], |bytes| bytes[seconds + 23] ^= 1);
    tool("check", &store, &[]).is(1, "the seconds of item 2 is 2, by the log 3");
}

#[test]
fn what_is_older_than_the_log_is_not_left_out_for_a_fault() {
    let folder = Folder::new("check-older");
    let mut broker = Broker::new(&folder.join("store")).segment_size(4096);
    let puts = keyed(&mut broker, 100);
    let store = broker.finish();
    remove_segments(&store, 1);
    tool("check", &store, &[])
        .is(0, SOUND)
        .shows("older than the log, which starts at 4096");
    let number = puts.iter().position(|put| put.position > 4096).unwrap();
    edit(&queue_file(&store, "T", 0), |bytes| {
        bytes[20 * number + 7] ^= 1
    });
    let before = files(&store);
    let check = tool("check", &store, &[]);
    check.is(1, &format!("T/0: entry {number} differs from the log's"));
    assert!(!check.out.contains("--force"), "{}", check.out);
    let (_, call) = check.out.split_once("elsewhere: ").unwrap();
    shell(call.trim()).is(0, "stop      0");
    assert_eq!(files(&store), before);
    let elsewhere = folder.join("store.rebuilt");
    tool("check", &elsewhere, &[]).is(0, SOUND);
    // It is named only once.
    assert!(!tool("check", &store, &[]).out.contains("--into"));
}

#[test]
fn queues_that_are_not_listed_are_not_judged() {
    let folder = Folder::new("check-listed");
    let store = built(&folder, "store");
    let list = folder.join("list");
    fs::write(&list, "SORTER_TRIM 0\n").unwrap();
    let options = ["--queues", list.to_str().unwrap()];
    edit(&queue_file(&store, "SORTER_DIVERT", 0), |bytes| {
        bytes[7] ^= 1
    });
    let check = tool("check", &store, &options);
    check.is(
        0,
        "418 records of queues that are not listed were not compared",
    );
    edit(&queue_file(&store, "SORTER_TRIM", 0), |bytes| bytes[7] ^= 1);
    let check = tool("check", &store, &options);
    check.is(1, "SORTER_TRIM/0: entry 0 differs");
    assert!(!check.out.contains("swistopal rebuild"), "{}", check.out);
    let (_, call) = check.out.split_once("compare all queues: ").unwrap();
    let check = shell(call.trim());
    check
        .is(1, "SORTER_DIVERT/0: entry 0 differs")
        .shows("--force");
}

#[test]
fn damage_over_segments_names_each() {
    let folder = Folder::new("check-over");
    let mut broker = Broker::new(&folder.join("store")).segment_size(4096);
    let puts = keyed(&mut broker, 200);
    let store = broker.finish();
    edit(&segment(&store, 4096), |bytes| bytes[500..].fill(0xff));
    edit(&segment(&store, 8192), |bytes| bytes.fill(0xff));
    edit(&segment(&store, 12_288), |bytes| bytes[..700].fill(0xff));
    let check = tool("check", &store, &[]);
    for first in [4096, 8192, 12_288] {
        check.is(1, &format!("get another copy of commitlog/{first:020}"));
    }
    assert!(!check.out.contains("commitlog/00000000000000016384"));
    // All others are read and compared.
    let lost = puts.iter().filter(|put| {
        let end = put.position + u64::from(put.length);
        end > 4596 && put.position < 12_988
    });
    let lost = lost.count() as u64;
    let entries = 200 - lost;
    check.shows(&format!("{entries} entries, "));
    check.shows(&format!(
        "{lost} entries of records where the log was not read"
    ));
    check.shows(&format!(
        "{lost} items of records where the log was not read"
    ));
    check.shows(&format!("; {entries} items as the log gives them"));
    assert!(!check.out.contains("! queues"), "{}", check.out);
    assert!(!check.out.contains("! index"), "{}", check.out);
}

/// What stands behind damage is judged too.
#[test]
fn a_wrong_entry_behind_damage_is_told() {
    let folder = Folder::new("check-behind");
    let mut broker = Broker::new(&folder.join("store")).segment_size(4096);
    let puts = keyed(&mut broker, 200);
    let store = broker.finish();
    edit(&segment(&store, 0), |bytes| {
        bytes[puts[3].position as usize + 4] ^= 1
    });
    let sound = tool("check", &store, &[]);
    sound.is(1, "199 entries, 196 of them read behind damage");
    assert!(!sound.out.contains("! queues"), "{}", sound.out);
    edit(&queue_file(&store, "T", 0), |bytes| {
        bytes[20 * 150 + 11] ^= 1
    });
    edit(&index_file(&store), |bytes| {
        bytes[40 + 4 * 500 + 20 * 151 + 3] ^= 1
    });
    let check = tool("check", &store, &[]);
    check.is(1, "T/0: entry 150 differs from the log's");
    check.shows("item 151 differs from the log's");
    assert!(!check.out.contains("swistopal rebuild"), "{}", check.out);
}

/// What `queue` calls a fault, `check` does too.
#[test]
fn bytes_behind_the_end_of_a_queue_are_told() {
    let folder = Folder::new("check-hole");
    let store = built(&folder, "store");
    edit(&queue_file(&store, "SORTER_TRIM", 0), |bytes| {
        bytes[20 * 250] = 1
    });
    let said = "the size of entry 20 is 0, but bytes that are not zero stand from entry 250 on";
    tool("queue", &store, &["--topic", "SORTER_TRIM", "--queue", "0"]).is(1, said);
    let check = tool("check", &store, &[]);
    check
        .is(1, said)
        .shows("6 of 7 queues as the log gives them");
    let (_, call) = check.out.split_once("from the log: ").unwrap();
    shell(call.trim()).is(0, "stop      0");
    tool("check", &store, &[]).is(0, "7 of 7 queues");
}

/// A broker may have been told to make larger files than this tool takes.
#[test]
fn files_that_are_too_large_are_no_fault() {
    let folder = Folder::new("check-large");
    let mut queues = Broker::new(&folder.join("queues")).queue_entries(400_000);
    let mut indexes = Broker::new(&folder.join("indexes"))
        .slots(6_000_000)
        .items(24_000_000);
    keyed(&mut queues, 10);
    keyed(&mut indexes, 10);
    for (store, said) in [
        (
            queues.finish(),
            "400,000 entries; this tool reads queue files of 300,000 at most",
        ),
        (
            indexes.finish(),
            "504,000,040 bytes; this tool reads an index of 420,000,040 at most",
        ),
    ] {
        let check = tool("check", &store, &[]);
        check.is(0, said);
        for wrong in ["rebuild", "missing", "not there"] {
            assert!(!check.out.contains(wrong), "{}", check.out);
        }
    }
}
