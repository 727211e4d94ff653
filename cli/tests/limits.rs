//! A healthy store is never called faulty: neither where only a limit of the tool was met, nor in a state that a broker's
//! disk normally has. `query` and `queue` go on with the files that are there.

mod common;

use common::broker::*;
use common::sites::*;
use common::*;
use std::fs;
use std::path::{Path, PathBuf};

/// What was said, without the commas of long numbers.
fn said(run: &Run) -> String {
    format!("{}\n{}", run.out, run.err).replace(',', "")
}

/// Whether a word or a number stands there by itself.
fn has(text: &str, word: &str) -> bool {
    let inside = |c: char| c.is_alphanumeric() || c == '^' || c == '_';
    text.split(|c| !inside(c)).any(|found| found == word)
}

#[track_caller]
fn no_harm(run: &Run) {
    let text = said(run);
    let last: Vec<&str> = text.lines().rev().take(30).collect();
    let last = format!("{:#?}", last);
    assert_eq!(run.status, 0, "{last}");
    for advice in ["rebuild", "another copy"] {
        assert!(!text.contains(advice), "{last}");
    }
    assert!(!run.out.lines().any(|line| line.starts_with('!')), "{last}");
}

/// A check that finds no fault, advises no rebuild, and names these numbers and words.
#[track_caller]
fn checks(store: &Path, options: &[&str], words: &[&str]) {
    let check = tool("check", store, options);
    no_harm(&check);
    for word in words {
        assert!(has(&said(&check), word), "{word} not in {}", check.out);
    }
    let json = tool("check", store, &[options, &["--json"]].concat());
    no_harm(&json);
    let json = json.json();
    assert_eq!(json.get("sound"), &Json::Truth(true));
    // What was not compared is not called sound.
    let limited = json.get("limited") == &Json::Truth(true);
    assert_ne!(check.out.contains("the store is sound"), limited);
}

/// Each parcel is found by its key, and nothing is said against it.
#[track_caller]
fn finds_all(site: &Site) {
    for parcel in &site.parcels {
        finds(site, parcel);
    }
}

#[track_caller]
fn finds(site: &Site, parcel: &Parcel) {
    let found = site.query(parcel);
    no_harm(&found.run);
    assert_eq!(found.positions, [parcel.put.position], "{}", parcel.key);
}

/// Each queue shows its parcels from a position on, in order.
#[track_caller]
fn shows_all(site: &Site, from: u64) {
    for (topic, id) in site.queues() {
        let found = site.queue(topic, id);
        no_harm(&found.run);
        let own = |parcel: &&Parcel| (parcel.topic.as_str(), parcel.queue_id) == (topic, id);
        let positions = site
            .parcels
            .iter()
            .filter(own)
            .map(|parcel| parcel.put.position);
        let expected: Vec<u64> = positions.filter(|position| *position >= from).collect();
        assert_eq!(found.positions, expected, "{topic}/{id}");
    }
}

fn list_of(folder: &Folder, queues: impl Iterator<Item = (u32, u32)>) -> PathBuf {
    let path = folder.join("queues");
    let lines: Vec<String> = queues
        .map(|(line, id)| format!("LINE_{line} {id}\n"))
        .collect();
    fs::write(&path, lines.concat()).unwrap();
    path
}

#[test]
fn forty_queues_are_no_fault() {
    let folder = Folder::new("limit-queues");
    let site = forty_queues(&folder.join("store"));
    checks(&site.store, &[], &["40", "16"]);
    finds_all(&site);
    shows_all(&site, 0);
}

#[test]
fn queues_that_are_not_listed_are_no_fault() {
    let folder = Folder::new("limit-listed");
    let site = forty_queues(&folder.join("store"));
    for (lines, words) in [(8, &["40", "16"][..]), (1, &[])] {
        let listed = (0..2).flat_map(|id| (0..lines).map(move |line| (line, id)));
        let list = list_of(&folder, listed);
        let options = ["--queues", list.to_str().unwrap()];
        checks(&site.store, &options, words);
        let text = said(&tool("check", &site.store, &options));
        assert!(!text.contains("no record of it"), "{text}");
    }
    finds_all(&site);
}

#[test]
fn a_queue_of_400_000_entries_is_no_fault() {
    let folder = Folder::new("limit-entries");
    let site = long_queue(&folder.join("store"));
    checks(&site.store, &[], &["400000", "300000"]);
    finds_all(&site);
    let call = ["--topic", "T", "--queue", "0", "--json"];
    let all = tool("queue", &site.store, &call);
    no_harm(&all);
    assert_eq!(all.json().get("entries").number(), 400_000);
    assert_eq!(all.json().get("records").list().len(), 400_000);
    let last = tool(
        "queue",
        &site.store,
        &[&call[..], &["--start", "399999"]].concat(),
    );
    let parcel = site.parcels.last().unwrap();
    let records = last.json().get("records").list().to_vec();
    assert_eq!(records.len(), 1);
    assert_eq!(records[0].get("position").number(), parcel.put.position);
}

#[test]
fn five_index_files_are_no_fault() {
    let folder = Folder::new("limit-index");
    let site = rolled_index(&folder.join("store"));
    assert_eq!(fs::read_dir(site.store.join("index")).unwrap().count(), 5);
    checks(&site.store, &[], &["5"]);
    let text = said(&tool("check", &site.store, &[]));
    assert!(!text.contains("behind the log's end"), "{text}");
    finds_all(&site);
    shows_all(&site, 0);
}

#[test]
fn delivery_times_are_no_fault() {
    let folder = Folder::new("limit-delayed");
    let site = delayed(&folder.join("store"));
    checks(&site.store, &[], &[DELAYED]);
    finds_all(&site);
    shows_all(&site, 0);
    // Position and size are those of the log, also there.
    edit(&queue_file(&site.store, DELAYED, 3), |bytes| bytes[7] ^= 1);
    assert_eq!(tool("check", &site.store, &[]).status, 1);
}

#[test]
fn hosts_of_20_bytes_are_no_fault() {
    let folder = Folder::new("limit-hosts");
    let site = long_hosts(&folder.join("store"));
    let long = [10, 15, 20].map(|number| &site.parcels[number]);
    let first = long[0].put.position.to_string();
    checks(&site.store, &[], &[&first, "IPv6"]);
    let is_long = |position: u64| long.iter().any(|parcel| parcel.put.position == position);
    for parcel in &site.parcels {
        match is_long(parcel.put.position) {
            false => finds(&site, parcel),
            true => {
                let found = site.query(parcel);
                no_harm(&found.run);
                let text = said(&found.run);
                assert!(has(&text, "IPv6"), "{text}");
                assert!(has(&text, &parcel.put.position.to_string()), "{text}");
            }
        }
    }
    let queue = site.queue("T", 0);
    no_harm(&queue.run);
    let shown = |parcel: &&Parcel| queue.positions.contains(&parcel.put.position);
    let hidden = site.parcels.iter().filter(|parcel| !shown(parcel));
    assert!(hidden.clone().all(|parcel| is_long(parcel.put.position)));
    assert_eq!(has(&said(&queue.run), "IPv6"), hidden.count() > 0);
}

#[test]
fn a_log_above_the_last_position_is_no_fault() {
    let folder = Folder::new("limit-position");
    let site = up_to_the_last_end(&folder.join("up-to"));
    checks(&site.store, &[], &[]);
    finds_all(&site);
    shows_all(&site, 0);

    for (name, make) in [
        ("across", across_the_last_end as fn(&Path) -> Site),
        ("above", above_the_last_end),
    ] {
        let site = make(&folder.join(name));
        checks(&site.store, &[], &["2^40"]);
        let queue = site.queue("T", 0);
        no_harm(&queue.run);
        assert_eq!(queue.positions.len(), site.parcels_before(LAST_END));
        assert!(has(&said(&queue.run), "2^40"), "{}", said(&queue.run));
        for parcel in [&site.parcels[0], &site.parcels[19]] {
            let found = site.query(parcel);
            no_harm(&found.run);
            let told = has(&said(&found.run), "2^40");
            let there = found.positions == [parcel.put.position];
            assert!(told || there, "{}", said(&found.run));
        }
    }
}

#[test]
fn what_is_older_than_the_log_is_no_fault() {
    let folder = Folder::new("normal-older");
    for (name, rolled) in [("one", false), ("rolled", true)] {
        let store = folder.join(name);
        let broker = small(&store);
        let broker = match rolled {
            true => broker.slots(15).items(60),
            false => broker,
        };
        let site = removed_segments(&store, broker);
        let first = 2 * SEGMENT;
        let older = site.parcels_before(first);
        assert!(older > 20);
        // Entries of the queues and items of the index: one and two of each parcel.
        let (entries, items) = (older.to_string(), (2 * older).to_string());
        let words: &[&str] = match rolled {
            true => &["older"],
            false => &["older", &items],
        };
        checks(&store, &[], words);
        let text = said(&tool("check", &store, &[]));
        let by_queue = ["OLD/0", "OLD/1", "T/0", "T/1"].map(|queue| text.contains(queue));
        assert!(has(&text, &entries) || by_queue == [true; 4], "{text}");
        for parcel in &site.parcels {
            if parcel.put.position >= first {
                finds(&site, parcel);
                continue;
            }
            let found = site.query(parcel);
            no_harm(&found.run);
            assert!(found.positions.is_empty());
            assert!(has(&said(&found.run), "older"), "{}", said(&found.run));
        }
        shows_all(&site, first);
        let text = said(&site.queue("OLD", 1).run);
        assert!(has(&text, "5") && has(&text, "older"), "{text}");
    }
}

#[test]
fn an_index_that_has_just_been_rolled_is_no_fault() {
    let folder = Folder::new("normal-rolled");
    for (name, abort) in [("ended", false), ("running", true)] {
        let site = just_rolled_index(&folder.join(name), abort);
        assert_eq!(fs::read_dir(site.store.join("index")).unwrap().count(), 2);
        checks(&site.store, &[], &[]);
        finds_all(&site);
        shows_all(&site, 0);
    }
}

#[test]
fn a_queue_that_starts_above_0_is_no_fault() {
    let folder = Folder::new("normal-start");
    for (name, first, words) in [("near", 24, &[][..]), ("far", 700_000, &["300000"])] {
        let site = later_queue(&folder.join(name), first);
        checks(&site.store, &[], words);
        finds_all(&site);
        shows_all(&site, 0);
    }
    let site = removed_queue_files(&folder.join("removed"));
    checks(&site.store, &[], &["older"]);
    shows_all(&site, 2 * SEGMENT);
}

#[test]
fn files_made_ahead_of_their_use_are_no_fault() {
    let folder = Folder::new("normal-ahead");
    let site = preallocated(&folder.join("store"));
    checks(&site.store, &[], &[]);
    finds_all(&site);
    shows_all(&site, 0);
}

#[test]
fn foreign_files_are_no_fault() {
    let folder = Folder::new("normal-foreign");
    let site = foreign_files(&folder.join("store"));
    checks(&site.store, &[], &[]);
    finds_all(&site);
    shows_all(&site, 0);
}

#[test]
fn accents_are_neither_a_fault_nor_a_limit() {
    let folder = Folder::new("normal-accents");
    let site = accents(&folder.join("store"));
    checks(&site.store, &[], &[]);
    tool("check", &site.store, &[]).is(0, "nothing: the store is sound");
    finds_all(&site);
    shows_all(&site, 0);
}

#[test]
fn all_of_it_together_is_no_fault() {
    let folder = Folder::new("limit-busy");
    let site = busy(&folder.join("store"));
    let first = 2 * SEGMENT;
    checks(&site.store, &[], &["41", "16", "older"]);
    let there = |parcel: &&Parcel| parcel.put.position >= first;
    for parcel in site.parcels.iter().filter(there).step_by(7) {
        finds(&site, parcel);
    }
    shows_all(&site, first);
}

/// A limit hides no fault that can be seen.
#[test]
fn damage_beyond_a_limit_is_a_fault() {
    let folder = Folder::new("limit-damage");
    for (name, make) in [
        ("queues", forty_queues as fn(&Path) -> Site),
        ("index", rolled_index),
        ("hosts", long_hosts),
        ("delayed", delayed),
    ] {
        let site = make(&folder.join(name));
        let third = site.parcels[3].put.position;
        edit(&segment(&site.store, 0), |bytes| {
            bytes[third as usize + 4] ^= 1
        });
        let check = tool("check", &site.store, &[]);
        check.is(1, &third.to_string());
        assert!(!said(&check).contains("--force"), "{}", said(&check));
    }
}
