//! What the tool says to do next: it works, it leads on, and it loses nothing.

mod common;

use common::*;
use std::fs::{self, OpenOptions};
use std::os::unix::fs::symlink;
use std::path::Path;

const SOUND: &str = "nothing: the store is sound";
/// A record in the middle of the demo's first segment.
const MIDDLE: usize = 6696;

/// The commands that a check names.
fn named(check: &Run) -> Vec<Vec<&str>> {
    let lines = check.out.lines();
    let next = lines.filter(|line| line.starts_with("  next     "));
    let calls = next.filter_map(|line| line.split_once(": swistopal "));
    calls
        .map(|(_, call)| call.split(' ').collect::<Vec<&str>>())
        .collect()
}

/// Runs the last command that a check names, as a shell does.
#[track_caller]
fn follow(check: &Run) -> Run {
    let lines = check.out.lines();
    let calls = lines.filter_map(|line| line.split_once(": swistopal "));
    let (_, call) = calls.last().expect("a command is named");
    shell(&format!("swistopal {call}"))
}

#[track_caller]
fn hides(run: &Run, part: &str) {
    assert!(!run.out.contains(part), "{part:?} in {}", run.out);
    assert!(!run.err.contains(part), "{part:?} in {}", run.err);
}

/// A check that found a fault, and says what to do.
#[track_caller]
fn faulty(store: &Path, options: &[&str]) -> Run {
    let check = tool("check", store, options);
    check.is(1, "  next     ");
    hides(&check, SOUND);
    check
}

fn damage(store: &Path) {
    edit(&segment(store, 0), |bytes| bytes[MIDDLE + 4] ^= 1);
}

fn cut(path: &Path, length: u64) {
    let file = OpenOptions::new().write(true).open(path).unwrap();
    file.set_len(length).unwrap();
}

/// Five records of a queue; the fourth one skips an entry.
fn out_of_step(store: &Path) {
    made(store, 0, 4096, 5, |position, number| {
        let entry = if number < 3 { number } else { number + 1 };
        record(position, b"T", (0, entry), 1000, b"UNIQ_KEY\x01k")
    });
}

#[test]
fn no_rebuild_replaces_what_goes_on_behind_damage() {
    let folder = Folder::new("behind");
    let sound = built(&folder, "sound");
    let harms: [fn(&Path); 3] = [
        damage,
        |store| fs::remove_file(segment(store, 65_536)).unwrap(),
        |store| cut(&segment(store, 65_536), 5000),
    ];
    for (number, harm) in harms.into_iter().enumerate() {
        for begun in [false, true] {
            let store = folder.join(&format!("{number}-{begun}"));
            copy(&sound, &store);
            if begun {
                tool("rebuild", &store, &["--force", "--budget", "20"]).is(0, "stop      9");
            }
            harm(&store);
            let check = faulty(&store, &[]);
            check.shows("get another copy of ");
            check.shows("rebuild only after that: queues and index made now would end at ");
            hides(&check, "--force");
            hides(&check, "swistopal rebuild");

            fs::remove_dir_all(store.join("commitlog")).unwrap();
            copy(&sound.join("commitlog"), &store.join("commitlog"));
            let check = tool("check", &store, &[]);
            match begun {
                false => check.is(0, SOUND),
                true => follow(check.is(0, "go on with the rebuild")).is(0, "stop      0"),
            };
            tool("check", &store, &[]).is(0, SOUND);
        }
    }

    // Where nothing is there yet, what is before the damage is better than nothing.
    let store = folder.join("log-alone");
    tool("demo", &store, &[]).is(0, "");
    damage(&store);
    follow(&faulty(&store, &[])).is(0, "up to position 6696");
    let check = faulty(&store, &[]);
    check.shows(
        "get another copy of commitlog/00000000000000000000; until then a rebuild goes up to 6696",
    );
    assert!(named(&check).is_empty());
    // With the whole log the rest of it is missing.
    edit(&segment(&store, 0), |bytes| bytes[MIDDLE + 4] ^= 1);
    follow(faulty(&store, &[]).shows("--force")).is(0, "stop      0");
    tool("check", &store, &[]).is(0, SOUND);
}

#[test]
fn the_segments_with_a_fault_are_named() {
    let folder = Folder::new("named");
    let sound = built(&folder, "sound");
    let store = |name: &str| {
        let store = folder.join(name);
        copy(&sound, &store);
        store
    };
    let above = "get another copy of each segment named above";

    // The log ends soundly before the fault.
    let zeros = store("zeros");
    cut(&segment(&zeros, 131_072), 5000);
    hides(
        faulty(&zeros, &[]).shows(above),
        "another copy of commitlog/",
    );
    let missing = store("missing");
    fs::remove_file(segment(&missing, 65_536)).unwrap();
    hides(
        faulty(&missing, &[]).shows(above),
        "another copy of commitlog/",
    );

    // It stops at the fault.
    let stopped = store("stopped");
    edit(&segment(&stopped, 65_536), |bytes| bytes[4] ^= 1);
    let check = faulty(&stopped, &[]);
    check.shows(
        "get another copy of commitlog/00000000000000065536; until then a rebuild goes up to 65536",
    );
    hides(&check, above);
    let short = store("short");
    cut(&segment(&short, 65_536), 5000);
    let check = faulty(&short, &[]);
    check.shows("get another copy of commitlog/00000000000000065536");
    hides(&check, above);

    // One fault of each kind.
    let both = store("both");
    damage(&both);
    cut(&segment(&both, 131_072), 5000);
    faulty(&both, &[])
        .shows("get another copy of commitlog/00000000000000000000")
        .shows(above);

    // An end inside a record is no damage.
    let check = faulty(&sound, &["--end", "6700"]);
    check.shows("name an --end where a record ends, as 6696");
    hides(&check, "get another copy");

    // A file is named as it was given.
    let file = folder.join("file");
    fs::copy(segment(&both, 0), &file).unwrap();
    faulty(&file, &[]).shows(&format!("get another copy of {}; ", file.display()));
}

#[test]
fn what_cannot_be_made_whole_is_made_in_part_only_where_nothing_is() {
    let folder = Folder::new("compared");
    // The record that cannot be taken, and whether one before it can.
    let many = folder.join("many");
    made(&many, 0, 4096, 17, |position, number| {
        record(position, b"T", (number as u32, 0), 1000, b"UNIQ_KEY\x01k")
    });
    let topics = folder.join("topics");
    made(&topics, 0, 4096, 3, |position, number| {
        let topic = [&b"T"[..], b"T", b".."][number as usize];
        record(position, topic, (0, number), 1000, b"UNIQ_KEY\x01k")
    });
    for (store, status, end, why) in [
        (&many, 2, "1632", "17 queues; this tool makes 16 at once"),
        (&topics, 1, "204", "it cannot be the name of a folder"),
    ] {
        tool("rebuild", store, &SMALL)
            .is(status, &format!("; --end {end} rebuilds what is before it"));
        let check = faulty(store, &[]);
        check.shows(why);
        check.shows(&format!(
            "put what is before {end} in place: swistopal rebuild"
        ));
        follow(&check).is(0, &format!("up to position {end}"));
        let check = faulty(store, &[]);
        hides(&check, "swistopal rebuild");
        tool("check", store, &["--end", end]).is(0, SOUND);
    }

    // A log without a record is a new one.
    let none = folder.join("none");
    made(&none, 0, 4096, 0, |_, _| Vec::new());
    tool("check", &none, &[]).is(0, SOUND);
    let first = folder.join("first");
    made(&first, 0, 4096, 1, |position, _| {
        record(position, b"..", (0, 0), 1000, b"")
    });
    faulty(&first, &[]).shows("get another copy of the log: nothing can be rebuilt from this one");
    hides(&tool("rebuild", &first, &SMALL), "--end");

    // One of several indexes, which is none.
    let store = built(&folder, "store");
    fs::write(store.join("index/20250101000000000"), [0; 7]).unwrap();
    follow(faulty(&store, &[]).shows("7 bytes are no index")).is(0, "stop      0");
    tool("check", &store, &[]).is(0, SOUND);
}

#[test]
fn a_list_that_cannot_be_used_is_bad_usage() {
    let folder = Folder::new("list");
    let store = built(&folder, "store");
    let list = folder.join("queues");
    let path = list.to_str().unwrap();
    for command in ["check", "rebuild"] {
        let call = |path: &str| {
            let run = tool(command, &store, &["--queues", path]);
            assert_eq!(run.out, "");
            run
        };
        call("/nowhere/at/all").is(2, "--queues /nowhere/at/all: ");
        fs::write(&list, "SORTER_TRIM\n").unwrap();
        call(path).is(2, "queues, line 1: a line is a topic");
        fs::write(&list, ".. 0\n").unwrap();
        call(path).is(2, "queues: topic ..: it cannot be the name of a folder");
    }
    assert!(!store.join("swistopal.rebuild").exists());
}

#[test]
fn a_stop_leads_on() {
    let folder = Folder::new("leads");
    let store = folder.join("store");
    out_of_step(&store);
    // Without a rebuild under way, with one, and as the rebuild itself says.
    let check = faulty(&store, &[]);
    check.shows(
        "out of step at 306: the record there is entry 4 of queue T/0, though entry 3 comes next",
    );
    check.shows("at 306: get another copy of the log, as records before it are missing or were written twice");
    assert_eq!(named(&check).len(), 1);
    tool("rebuild", &store, &SMALL)
        .is(
            1,
            "stopped before the record at 306, entry 4 of queue T/0; get another copy of the log",
        )
        .is(
            1,
            "the same command with --end 306 puts what is before it in place",
        );
    let begun = folder.join("begun");
    copy(&store, &begun);
    let check = faulty(&begun, &[]);
    check.shows("rebuild  one has begun and stops at 306 with 12");
    hides(&check, "go on with the rebuild");
    follow(&check).is(0, "stop      0");
    tool("rebuild", &store, &[&SMALL[..], &["--end", "306"]].concat())
        .is(0, "queue     T/0: 3 entries");
    for store in [&store, &begun] {
        let check = faulty(store, &[]);
        check.shows("up to 306 queues and index are in place");
        assert!(named(&check).is_empty());
        tool("check", store, &["--end", "306"]).is(0, SOUND);
    }

    // Nothing is before it.
    let first = folder.join("first");
    made(&first, 0, 4096, 1, |position, _| {
        record(position, b"T", (0, 7), 1000, b"")
    });
    hides(
        tool("rebuild", &first, &SMALL).is(1, "stop      12"),
        "--end",
    );
    assert!(named(&faulty(&first, &[])).is_empty());
    // A queue whose first record is behind the stop misses nothing.
    let later = folder.join("later");
    made(&later, 0, 4096, 3, |position, number| {
        record(
            position,
            b"T",
            ([0, 0, 1][number as usize], 2 * number),
            1000,
            b"",
        )
    });
    follow(&faulty(&later, &[])).is(0, "stop      0");
    faulty(&later, &[]).shows("queues and index are in place");
}

#[test]
fn a_full_queue_or_index_leads_on() {
    let folder = Folder::new("full");
    let sizes = [
        (
            ["--entries", "99", "--items", "3000"],
            "--entries, at most 300,000",
        ),
        (
            ["--entries", "300", "--items", "1294"],
            "--items, at most 20,000,000",
        ),
    ];
    for (number, (small, more)) in sizes.into_iter().enumerate() {
        for replacing in [false, true] {
            let store = folder.join(&format!("{number}-{replacing}"));
            tool("demo", &store, &[]).is(0, "");
            if replacing {
                tool("rebuild", &store, &["--items", "2000"]).is(0, "stop      0");
            }
            let anew = if replacing {
                "--restart --force"
            } else {
                "--restart"
            };
            let options = [&small[..], &["--slots", "97", "--force"]].concat();
            let rebuild = tool("rebuild", &store, &options);
            rebuild.is(1, &format!("begin anew with --restart and more {more}"));
            let end = "the same command with --end ";
            assert_eq!(rebuild.err.contains(end), !replacing, "{}", rebuild.err);
            let check = faulty(&store, &[]);
            check.shows(&format!("begin anew with {anew} and more {more}"));
            hides(&check, "go on with the rebuild");
            // What is there is more than what is before the stop.
            assert_eq!(named(&check).is_empty(), replacing);
            if !replacing {
                follow(&check).is(0, "stop      0");
                assert!(!store.join("swistopal.rebuild").exists());
            }
            let anew: Vec<&str> = anew.split(' ').collect();
            tool("rebuild", &store, &[&anew[..], &["--force"]].concat()).is(0, "steps     439");
        }
    }
}

#[test]
fn a_rebuild_under_way_is_gone_on_with_or_begun_anew() {
    let folder = Folder::new("under-way");
    for replacing in [false, true] {
        let store = folder.join(&format!("{replacing}"));
        tool("demo", &store, &[]).is(0, "");
        if replacing {
            tool("rebuild", &store, &SMALL).is(0, "stop      0");
        }
        let part = [&SMALL[..], &["--force", "--budget", "100"]].concat();
        tool("rebuild", &store, &part).is(0, "stop      9");
        let check = tool("check", &store, &[]);
        check.shows("go on with the rebuild, or begin anew with --restart: swistopal rebuild");
        follow(&check).is(0, "439 in all");
        tool("check", &store, &[]).is(0, SOUND);

        // A plan that cannot be read, and one of another log: only a new one helps.
        let other =
            "swistopal rebuild 2\nsegment 1024\nfirst 0\nentries 1\nslots 1\nitems 2\nname 0\n";
        for damaged in ["swistopal rebuild 2\n", other] {
            tool("rebuild", &store, &part).is(0, "stop      9");
            fs::write(store.join("swistopal.rebuild/plan"), damaged).unwrap();
            let check = faulty(&store, &[]);
            check.shows("begin the rebuild anew: swistopal rebuild");
            follow(&check).is(0, "stop      0");
            tool("check", &store, &[]).is(0, SOUND);
        }
    }
    // A plan that no archive takes.
    let store = folder.join("no-rows");
    tool("demo", &store, &[]).is(0, "");
    tool(
        "rebuild",
        &store,
        &[&SMALL[..], &["--budget", "100"]].concat(),
    )
    .is(0, "stop      9");
    edit(&store.join("swistopal.rebuild/plan"), |bytes| {
        let rows = bytes.windows(6).position(|word| word == b"queue ");
        bytes.truncate(rows.unwrap());
    });
    faulty(&store, &[]).shows("the work files are damaged: begin anew with --restart");
    // Damaged work files are not put in place.
    let store = folder.join("ahead");
    tool("demo", &store, &[]).is(0, "");
    tool(
        "rebuild",
        &store,
        &[&SMALL[..], &["--budget", "100"]].concat(),
    )
    .is(0, "stop      9");
    let index = fs::read_dir(store.join("swistopal.rebuild/store/index"))
        .unwrap()
        .next();
    edit(&index.unwrap().unwrap().path(), |bytes| bytes[27] = 1);
    edit_journal(&store, |bytes| {
        bytes.truncate(8 + 3 * 8 + 16 * 8);
        bytes.push(0);
    });
    hides(tool("rebuild", &store, &[]).is(1, "stop      15"), "--end");
}

/// The commands that are named ask the same of the log as the check did.
#[test]
fn options_of_a_check_are_passed_on() {
    let folder = Folder::new("passed");
    let store = folder.join("store");
    made(&store, 0, 4096, 3, |position, number| {
        record(position, b"T", (0, number), 1000, b"UNIQ_KEY\x01k")
    });
    let list = folder.join("queues");
    fs::write(&list, "T 0\nT 1\n").unwrap();
    let options = ["--queues", list.to_str().unwrap(), "--segment-size", "4096"];
    let check = faulty(&store, &options);
    assert_eq!(named(&check)[0][2..], options);
    follow(&check).is(0, "queue     T/1: 0 entries");
    // What is behind an end that was named is neither judged nor to be replaced.
    let check = tool("check", &store, &["--end", "204"]);
    check.is(0, SOUND);
    check.shows("1 entry of records where the log was not read; not compared");
    check.shows("1 item of records where the log was not read; not compared");
    edit(&queue_file(&store, "T", 0), |bytes| bytes[7] ^= 1);
    let check = faulty(&store, &["--end", "204"]);
    hides(&check, "swistopal rebuild");
}

#[test]
fn only_folders_of_the_tool_are_removed() {
    let folder = Folder::new("foreign");
    let store = folder.join("store");
    tool("demo", &store, &[]).is(0, "");
    let finished = store.join("swistopal.rebuild.done");
    fs::create_dir(&finished).unwrap();
    fs::write(finished.join("mine"), "mine").unwrap();
    let before = files(&store);
    for options in [&[][..], &["--restart"]] {
        tool("rebuild", &store, options).is(
            2,
            "swistopal.rebuild.done: it is not the work folder of a rebuild; move it away",
        );
        assert_eq!(files(&store), before);
        assert!(!store.join("swistopal.rebuild").exists());
    }
    // A link goes, what it leads to stays.
    let elsewhere = folder.join("elsewhere");
    fs::rename(&finished, &elsewhere).unwrap();
    fs::write(elsewhere.join("lock"), "").unwrap();
    symlink(&elsewhere, &finished).unwrap();
    tool("rebuild", &store, &SMALL).is(0, "stop      0");
    assert!(!finished.is_symlink());
    assert_eq!(files(&elsewhere).len(), 2);
}
