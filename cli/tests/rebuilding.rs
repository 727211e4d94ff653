//! A rebuild loses nothing: what it replaces is kept, less than is there needs to be asked for, and a broker is noticed.

mod common;

use common::broker::{remove_segments, Broker, Message, Running, MORNING};
use common::*;
use std::fs::{self, File};
use std::path::{Path, PathBuf};
use std::process::{Command, Stdio};

const FORCE: [&str; 7] = [
    "--entries",
    "300",
    "--slots",
    "97",
    "--items",
    "3000",
    "--force",
];
/// A record in the middle of the demo's first segment.
const MIDDLE: usize = 6696;

/// A broker's store: records of so many queues in turn, each with a key.
fn site(store: &Path, queues: u32, records: u32) -> PathBuf {
    let mut broker = Broker::new(store).segment_size(8192);
    for number in 0..records {
        broker.put(Message {
            queue_id: number % queues,
            keys: &format!("P{number}"),
            store_time: MORNING + 1000 * u64::from(number),
            ..Message::default()
        });
    }
    broker.finish()
}

fn last_line(text: &str) -> &str {
    text.lines().last().unwrap_or("")
}

/// Nothing of these files is gone or changed; others may have come.
#[track_caller]
fn still_there(store: &Path, before: &std::collections::BTreeMap<PathBuf, Vec<u8>>) {
    let now = files(store);
    for (name, bytes) in before {
        assert!(now.get(name) == Some(bytes), "{name:?}");
    }
}

#[test]
fn what_is_replaced_is_kept_and_told() {
    let folder = Folder::new("kept");
    let store = built(&folder, "store");
    fs::write(store.join("consumequeue/notes.txt"), "mine").unwrap();
    fs::write(store.join("index/20250101000000000.gz"), "mine").unwrap();
    let old = ["consumequeue", "index"].map(|name| files(&store.join(name)));
    let mut seen = Vec::new();
    // Several within a second have several names.
    for number in 1..=4 {
        let run = tool("rebuild", &store, &FORCE);
        run.is(0, "stop      0");
        let mut names = kept(&store, "consumequeue");
        assert_eq!(names.len(), number);
        assert_eq!(kept(&store, "index").len(), number);
        names.retain(|name| !seen.contains(name));
        let [name] = &names[..] else {
            panic!("{names:?}");
        };
        run.shows(&format!(
            "kept      {}: what was there before\n",
            name.display()
        ));
        seen.push(name.clone());
    }
    let index = PathBuf::from(
        seen[0]
            .to_str()
            .unwrap()
            .replace("/consumequeue.", "/index."),
    );
    assert!(files(&seen[0]) == old[0]);
    assert!(files(&index) == old[1]);
    let json = tool("rebuild", &store, &[&FORCE[..], &["--json"]].concat()).json();
    assert_eq!(json.get("kept").list().len(), 2);
    tool("check", &store, &[]).is(0, "nothing: the store is sound");

    // Without anything to replace nothing is kept.
    let fresh = folder.join("fresh");
    tool("demo", &fresh, &[]).is(0, "");
    let run = tool("rebuild", &fresh, &FORCE);
    assert!(!run.is(0, "stop      0").out.contains("kept"));
    assert_eq!(fs::read_dir(&fresh).unwrap().count(), 3);
}

/// Whoever puts something into the place between a kill and the next run loses neither it nor what was kept.
#[test]
fn nothing_is_renamed_over_what_is_kept() {
    let folder = Folder::new("over");
    let store = built(&folder, "store");
    tool(
        "rebuild",
        &store,
        &[&FORCE[..], &["--budget", "439"]].concat(),
    )
    .is(0, "stop      9");
    let work = store.join("swistopal.rebuild");
    fs::write(work.join("kept"), "2026-03-02T05-58-00Z").unwrap();
    fs::create_dir(store.join("index.2026-03-02T05-58-00Z")).unwrap();
    fs::write(store.join("index.2026-03-02T05-58-00Z/20260302"), "mine").unwrap();
    let before = files(&store.join("index"));
    tool("rebuild", &store, &FORCE).is(2, "index: it was put there after the rebuild had kept");
    assert!(files(&store.join("index")) == before);
    fs::rename(store.join("index"), store.join("index.other")).unwrap();
    tool("rebuild", &store, &FORCE).is(0, "stop      0");
    assert!(files(&store.join("index.other")) == before);
    tool("check", &store, &[]).is(0, "nothing: the store is sound");
}

#[test]
fn fewer_than_are_there_need_to_be_asked_for() {
    let folder = Folder::new("fewer");
    // Forty queues, and a rebuild of the sixteen before the record of the next one.
    let many = site(&folder.join("many"), 40, 80);
    let end = tool("rebuild", &many, &["--force"]);
    let end = end.is(2, "; --end ").err.split("--end ").nth(1).unwrap();
    let end = end.split(' ').next().unwrap().to_string();
    let before = files(&many);
    let options = ["--end", &end, "--force"];
    let run = tool("rebuild", &many, &options);
    run.is(
        2,
        "queue T/0: 1 entry up to number 0 instead of 2 up to number 1",
    );
    run.is(2, "30 queues more: the same of each");
    run.is(2, "index: 16 items instead of 80");
    run.is(
        2,
        "so nothing was replaced; --shorten puts it in place all the same and keeps what is there",
    );
    assert_eq!(run.out, "");
    still_there(&many, &before);
    let run = tool("rebuild", &many, &[&options[..], &["--shorten"]].concat());
    assert_eq!(
        last_line(&run.is(0, "kept      ").out),
        "short     index: 16 items instead of 80"
    );
    let kept = kept(&many, "consumequeue");
    assert!(files(&kept[0]) == files_below(&before, "consumequeue"));

    // Segments that a broker has removed: index and queues still name their records.
    let cut = site(&folder.join("cut"), 1, 400);
    remove_segments(&cut, 2);
    let before = files(&cut);
    let run = tool("rebuild", &cut, &["--force"]);
    run.is(2, " instead of 400 up to number 399")
        .is(2, " items instead of 400");
    still_there(&cut, &before);

    // As many are no question, and neither are more.
    let whole = site(&folder.join("whole"), 3, 90);
    tool("rebuild", &whole, &["--force"]).is(0, "stop      0");
    edit(&index_file(&whole), |bytes| {
        bytes[36..40].copy_from_slice(&5u32.to_be_bytes())
    });
    tool("rebuild", &whole, &["--force"]).is(0, "index     20260302060000000: 90 items");
}

/// In the delayed topic an entry's code is the time of delivery, which a rebuild does not make.
#[test]
fn times_of_delivery_are_not_replaced_without_being_asked() {
    let folder = Folder::new("delayed");
    let mut broker = Broker::new(&folder.join("store")).segment_size(8192);
    for number in 0..20 {
        broker.put(Message {
            keys: &format!("P{number}"),
            delay_level: 3,
            ..Message::default()
        });
    }
    let store = broker.finish();
    let before = files(&store);
    let run = tool("rebuild", &store, &["--force"]);
    run.is(
        2,
        "queue SCHEDULE_TOPIC_XXXX/2: the code of the tags instead of the time of delivery in each entry",
    );
    assert!(files(&store) == before);
    let run = tool("rebuild", &store, &["--force", "--shorten"]);
    assert!(last_line(&run.is(0, "kept      ").out)
        .starts_with("short     queue SCHEDULE_TOPIC_XXXX/2: "));
    let kept = kept(&store, "consumequeue");
    assert!(files(&kept[0]) == files_below(&before, "consumequeue"));
}

/// Older segments were removed: each queue starts at its first record, wherever that comes.
#[test]
fn queues_of_a_log_without_its_start() {
    let folder = Folder::new("start");
    let mut broker = Broker::new(&folder.join("store"))
        .segment_size(8192)
        .first_position(4 * 8192)
        .queue_entries(300)
        .first_entry("T", 0, 100)
        .first_entry("T", 1, 7)
        .first_entry("LATE", 0, 250);
    for number in 0..60u32 {
        broker.put(Message {
            topic: if number < 40 { "T" } else { "LATE" },
            queue_id: number % if number < 40 { 3 } else { 2 },
            keys: &format!("P{number}"),
            ..Message::default()
        });
    }
    let store = broker.finish();
    let list = folder.join("queues");
    fs::write(&list, "LATE 1\nT 0\nLATE 0\nT 2\nT 1\n").unwrap();
    let listed = ["--queues", list.to_str().unwrap()];
    for (number, options) in [
        &[][..],
        &["--batch", "1"],
        &["--batch", "7"],
        &["--budget", "50"],
        &["--budget", "0"],
        &listed,
        &[&listed[..], &["--batch", "3"]].concat(),
        &[&listed[..], &["--budget", "20"]].concat(),
    ]
    .into_iter()
    .enumerate()
    {
        let log = folder.join(&number.to_string());
        copy(&store.join("commitlog"), &log.join("commitlog"));
        let sizes = ["--entries", "300", "--slots", "500", "--items", "2000"];
        let run = tool("rebuild", &log, &[&sizes[..], options].concat());
        if options.contains(&"--budget") {
            run.is(0, "stop      9");
            tool("rebuild", &log, &[]).is(0, "stop      0");
        } else {
            run.is(0, "stop      0");
        }
        assert!(files(&log) == files(&store), "{options:?}");
    }
}

/// Of all files those below a folder, by their names there.
fn files_below(
    all: &std::collections::BTreeMap<PathBuf, Vec<u8>>,
    folder: &str,
) -> std::collections::BTreeMap<PathBuf, Vec<u8>> {
    let below = all.iter().filter_map(|(name, bytes)| {
        let name = name.strip_prefix(folder).ok()?;
        Some((name.to_path_buf(), bytes.clone()))
    });
    below.collect()
}

#[test]
fn an_end_at_damage_needs_to_be_asked_for() {
    let folder = Folder::new("damage");
    let sound = built(&folder, "sound");
    let harms: [(fn(&Path), u64, &str); 3] = [
        (
            |store| edit(&segment(store, 0), |bytes| bytes[MIDDLE + 4] ^= 1),
            10,
            "the log stops at 6696 with 10: the record is damaged",
        ),
        (
            |store| fs::remove_file(segment(store, 65_536)).unwrap(),
            0,
            "the log ends at 65536: ",
        ),
        (
            |store| edit(&segment(store, 65_536), |bytes| bytes.truncate(5000)),
            8,
            "the log stops at ",
        ),
    ];
    for (number, (harm, stop, why)) in harms.into_iter().enumerate() {
        for there in [false, true] {
            let store = folder.join(&format!("{number}-{there}"));
            copy(&sound, &store);
            if !there {
                fs::remove_dir_all(store.join("consumequeue")).unwrap();
                fs::remove_dir_all(store.join("index")).unwrap();
            }
            harm(&store);
            let before = files(&store);
            let run = tool("rebuild", &store, &FORCE);
            run.is(1, why);
            run.is(1, "nothing was put in place: get another copy of that segment, or have queues and index end there with --shorten");
            assert_eq!(run.out, "");
            assert!(files(&store) == before);

            let run = tool("rebuild", &store, &[&FORCE[..], &["--shorten"]].concat());
            run.is(1, why);
            run.shows(&format!("stop      {stop}: "));
            assert!(last_line(&run.out).starts_with("short     "), "{}", run.out);
            assert_eq!(run.out.contains(" instead of "), there, "{}", run.out);
            assert_eq!(kept(&store, "index").len(), usize::from(there));
            let json = [&FORCE[..], &["--shorten", "--json"]].concat();
            let json = tool("rebuild", &store, &json).is(1, "").json();
            assert_eq!(json.get("stop").number(), stop);
            assert!(!json.get("short").list().is_empty());
        }
    }
    // An --end inside a record: the place where one ends is named.
    let log = folder.join("log");
    tool("demo", &log, &[]).is(0, "");
    tool("rebuild", &log, &["--end", "200"]).is(1, "name an --end where a record ends, as 192");
    assert!(!log.join("swistopal.rebuild").exists());
}

#[test]
fn a_running_broker_is_noticed() {
    let folder = Folder::new("running");
    let store = site(&folder.join("store"), 2, 40);
    let reading = |store: &Path| {
        let queue = ["--topic", "T", "--queue", "0"];
        let query = ["--topic", "T", "--key", "P7"];
        [
            tool("list", store, &[]),
            tool("check", store, &[]),
            tool("query", store, &query),
            tool("queue", store, &queue),
        ]
    };
    let quiet = reading(&store);
    let before = files(&store);
    let running = Running::on(&store);
    let held = format!("lock: a broker holds this lock (process {})", running.id());
    for (run, quiet) in reading(&store).iter().zip(&quiet) {
        run.is(quiet.status, &held);
        assert_eq!(run.out, quiet.out);
    }
    let into = folder.join("into");
    let into = into.to_str().unwrap();
    for options in [
        &[][..],
        &["--force"],
        &["--force", "--after-crash", "--restart", "--shorten"],
        &["--into", into],
    ] {
        tool("rebuild", &store, options)
            .is(2, &held)
            .is(2, "stop it first");
    }
    assert!(!Path::new(into).exists());
    drop(running);
    // The file alone is none.
    fs::remove_file(store.join("lock")).unwrap();
    assert!(files(&store) == before);
    fs::write(store.join("lock"), "lock").unwrap();
    for (run, quiet) in reading(&store).iter().zip(&quiet) {
        assert_eq!(run.err, quiet.err);
    }
    // The other kind of lock.
    let lock = File::open(store.join("lock")).unwrap();
    lock.lock().unwrap();
    tool("rebuild", &store, &["--force"]).is(2, "lock: a broker holds this lock");
    drop(lock);
    tool("rebuild", &store, &["--force"]).is(0, "stop      0");
}

#[test]
fn a_crashed_broker_is_told_as_what_it_is() {
    let folder = Folder::new("crashed");
    let store = site(&folder.join("store"), 2, 40);
    fs::write(store.join("abort"), "").unwrap();
    let before = files(&store);
    let told = "abort: a broker writes it when it starts and removes it when it ends, but none holds the store's lock";
    tool("check", &store, &[]).is(0, told);
    tool("list", &store, &[]).is(0, told);
    tool("rebuild", &store, &["--force"])
        .is(2, told)
        .is(2, "--after-crash rebuilds all the same");
    assert!(files(&store) == before);
    tool("rebuild", &store, &["--after-crash"]).is(2, "it is there already");
    tool("rebuild", &store, &["--after-crash", "--force"]).is(0, "stop      0");
    // It is the broker's.
    assert!(store.join("abort").exists());
}

/// All of it, links as links.
fn listing(folder: &Path) -> Vec<(PathBuf, u64, std::time::SystemTime)> {
    let mut found = Vec::new();
    for entry in fs::read_dir(folder).unwrap() {
        let path = entry.unwrap().path();
        let metadata = path.symlink_metadata().unwrap();
        if metadata.is_dir() {
            found.extend(listing(&path));
        }
        found.push((path, metadata.len(), metadata.modified().unwrap()));
    }
    found.sort();
    found
}

#[test]
fn results_may_go_elsewhere() {
    let folder = Folder::new("into");
    let store = folder.join("store");
    tool("demo", &store, &[]).is(0, "");
    let expected = built(&folder, "expected");
    let before = listing(&store);
    let place = folder.join("other/disk");
    let into = ["--into", place.to_str().unwrap()];
    let rebuild =
        |options: &[&str]| tool("rebuild", &store, &[&SMALL[..], &into, options].concat());
    rebuild(&["--budget", "100"]).is(0, "stop      9");
    assert!(place.join("swistopal.rebuild").is_dir());
    rebuild(&[]).is(0, "439 in all");
    rebuild(&[]).is(2, "it is there already");
    rebuild(&["--force"]).is(0, "kept      ");
    // Nothing was written where the log is.
    assert_eq!(listing(&store), before);
    for name in ["consumequeue", "index"] {
        assert!(files(&place.join(name)) == files(&expected.join(name)));
    }
    // The folder is asked as a store is.
    tool("check", &place, &[]).is(0, "nothing: the store is sound");
    tool(
        "query",
        &place,
        &["--topic", "SORTER_DIVERT", "--key", "P000017"],
    )
    .is(0, "2 records");
    tool("queue", &place, &["--topic", "SORTER_TRIM", "--queue", "0"]).is(0, "20 records");
    // The store itself by another name.
    let itself = folder.join("store/../store");
    tool("rebuild", &store, &["--into", itself.to_str().unwrap()]).is(0, "stop      0");

    // A folder with another log, a link to another one, and a link to nowhere.
    let log = "it has another log; name a folder without one";
    let other = ["--into", expected.to_str().unwrap(), "--force"];
    tool("rebuild", &store, &other).is(2, log);
    tool("rebuild", &expected, &into).is(2, log);
    fs::remove_file(place.join("commitlog")).unwrap();
    std::os::unix::fs::symlink("nowhere", place.join("commitlog")).unwrap();
    rebuild(&["--force"]).is(2, log);
    // Something that is no folder.
    fs::write(folder.join("file"), "mine").unwrap();
    let file = folder.join("file");
    tool("rebuild", &store, &["--into", file.to_str().unwrap()]).is(1, "cannot create");
}

/// Each of those that come too late says so, and advises nothing about the folder of the one that works.
#[test]
fn several_at_the_same_moment() {
    let folder = Folder::new("several");
    let expected = built(&folder, "expected");
    let (mut at_work, mut done) = (0, 0);
    for round in 0..40 {
        let store = folder.join(&format!("{round}"));
        tool("demo", &store, &[]).is(0, "");
        let begin = || {
            let mut call = Command::new(TOOL);
            call.arg("rebuild").arg(&store).args(SMALL);
            call.stdout(Stdio::piped()).stderr(Stdio::piped());
            call.spawn().unwrap()
        };
        let runs: Vec<_> = (0..4).map(|_| begin()).collect();
        for run in runs {
            let ended = run.wait_with_output().unwrap();
            let said = String::from_utf8(ended.stderr).unwrap();
            assert!(!said.contains("move"), "{said}");
            match ended.status.code() {
                Some(0) => done += 1,
                Some(1) => {
                    assert!(said.contains("another rebuild is at work; wait"), "{said}");
                    at_work += 1;
                }
                _ => assert!(said.contains("it is there already"), "{said}"),
            }
        }
        assert!(files(&store) == files(&expected));
    }
    println!("{done} done, {at_work} came too late");
    assert!(done >= 40 && at_work > 0);
}

/// A call in a shell, so that it can be given less.
fn shell(script: &str, store: &Path) -> Run {
    let mut call = Command::new("sh");
    call.args(["-c", script, "sh", TOOL]).arg(store);
    let output = call.output().unwrap();
    Run {
        status: output.status.code().expect("it ends by itself"),
        out: String::from_utf8(output.stdout).unwrap(),
        err: String::from_utf8(output.stderr).unwrap(),
    }
}

#[test]
fn a_limit_of_file_sizes_is_told_with_the_file() {
    let folder = Folder::new("size");
    let store = folder.join("store");
    tool("demo", &store, &[]).is(0, "");
    let run = shell("ulimit -f 1000; exec \"$1\" rebuild \"$2\"", &store);
    run.is(1, "cannot write ")
        .is(1, "swistopal.rebuild/queues: File too large");
    tool("rebuild", &store, &[]).is(0, "stop      0");
}

/// A file system in memory of so many bytes, on which a store is copied; for this call alone.
fn in_memory(size: &str, store: &Path, script: &str) -> Run {
    let mount = format!(
        "mount -t tmpfs -o size={size} none \"$2/memory\" && cp -r \"$2/store\" \"$2/memory/\" && {script}"
    );
    let mut call = Command::new("unshare");
    call.args(["-r", "-m", "sh", "-c", &mount, "sh", TOOL])
        .arg(store);
    let output = call.output().unwrap();
    Run {
        status: output.status.code().expect("it ends by itself"),
        out: String::from_utf8(output.stdout).unwrap(),
        err: String::from_utf8(output.stderr).unwrap(),
    }
}

#[test]
fn a_full_file_system_in_memory_is_no_fault_of_the_medium() {
    let folder = Folder::new("memory");
    tool("demo", &folder.join("store"), &[]).is(0, "");
    fs::create_dir(folder.join("memory")).unwrap();
    if in_memory("9m", &folder.0, "true").status != 0 {
        println!("no file system can be mounted here: nothing was tested");
        return;
    }
    // There is room for the log and for a part of the results.
    let rebuild = "exec \"$1\" rebuild \"$2/memory/store\"";
    let mut full = 0;
    for size in ["300k", "400k", "600k", "900k", "1300k", "2m"] {
        let run = in_memory(size, &folder.0, rebuild);
        assert!(
            !run.err.contains("the medium has a fault"),
            "{size}: {}",
            run.err
        );
        if run.status == 1 {
            run.is(1, "No space left on device");
            full += 1;
        }
    }
    assert!(full > 0);
    in_memory("9m", &folder.0, rebuild).is(0, "stop      0");
    // Holes of files that are there: a page for one is needed only by whoever maps it.
    let fill = "\"$1\" rebuild \"$2/memory/store\" --slots 5000000 > /dev/null && \
                { cat /dev/zero > \"$2/memory/rest\" 2> /dev/null; \
                exec \"$1\" query \"$2/memory/store\" --topic SORTER_DIVERT --key NONE; }";
    let run = in_memory("12m", &folder.0, fill);
    assert!(!run.err.contains("the medium has a fault"), "{}", run.err);
    assert!(
        run.err.contains("no space is left for its page") || run.status == 0,
        "{}",
        run.err
    );
}

/// Steps that take long enough for a bar, on a terminal of so many columns.
#[test]
fn the_bar_fits_into_the_terminal() {
    let folder = Folder::new("bar");
    for columns in [60, 20] {
        let store = folder.join(&columns.to_string());
        made(&store, 0, 1 << 21, 15_000, |position, number| {
            record(position, b"T", (0, number), 1000, b"UNIQ_KEY\x01k")
        });
        let script = format!(
            "stty cols {columns}; '{TOOL}' rebuild '{}' --batch 3",
            store.display()
        );
        let mut call = Command::new("script");
        call.args(["-qec", &script, "/dev/null"]);
        call.stdin(Stdio::null()).stdout(Stdio::piped());
        let Ok(mut child) = call.spawn() else {
            println!("no terminal can be had here: nothing was tested");
            return;
        };
        let mut out = child.stdout.take().unwrap();
        let (mut shown, mut some) = (Vec::new(), [0; 256]);
        while shown.iter().filter(|byte| **byte == 0x1b).count() < 3 {
            let length = std::io::Read::read(&mut out, &mut some).unwrap();
            assert!(length > 0, "it ended: {}", String::from_utf8_lossy(&shown));
            shown.extend(&some[..length]);
        }
        child.kill().unwrap();
        child.wait().unwrap();
        let shown = String::from_utf8_lossy(&shown).into_owned();
        let lines: Vec<&str> = shown
            .split('\r')
            .filter(|line| line.contains('%'))
            .collect();
        assert!(lines.len() >= 2, "{shown:?}");
        for line in &lines {
            let text = line.split('\x1b').next().unwrap();
            assert!(text.len() < columns, "{columns}: {text:?}");
            assert_eq!(text.starts_with('['), columns == 60, "{text:?}");
        }
    }
}
