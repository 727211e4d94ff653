//! A rebuild that is cut anywhere goes on to the same bytes.

mod common;

use common::*;
use std::collections::BTreeMap;
use std::fs;
use std::io::Read;
use std::path::{Path, PathBuf};
use std::process::{Child, Command, Stdio};
use std::thread::sleep;
use std::time::{Duration, Instant};

const KILLS: u32 = 200;

/// The same numbers each time; when a process dies is chance enough.
struct Chance(u64);

impl Chance {
    fn below(&mut self, limit: u64) -> u64 {
        self.0 ^= self.0 << 13;
        self.0 ^= self.0 >> 7;
        self.0 ^= self.0 << 17;
        self.0 % limit
    }
}

type Files = BTreeMap<PathBuf, Vec<u8>>;

fn results(store: &Path) -> [Files; 2] {
    [
        files(&store.join("consumequeue")),
        files(&store.join("index")),
    ]
}

fn begin(store: &Path, batch: &str) -> Child {
    Command::new(TOOL)
        .arg("rebuild")
        .arg(store)
        .args(SMALL)
        .args(["--batch", batch, "--force"])
        .stdout(Stdio::null())
        .stderr(Stdio::piped())
        .spawn()
        .unwrap()
}

const RESULTS: [&str; 2] = ["consumequeue", "index"];
/// Other sizes than those of `begin`: what is replaced is told apart from what comes.
const OTHER: [&str; 6] = ["--entries", "100", "--slots", "1", "--items", "1300"];

/// Results of other sizes stand in a store, or under the names by which a rebuild keeps them: whole, and once.
#[track_caller]
fn found_whole(store: &Path, old: &[Files; 2]) {
    for (name, old) in RESULTS.iter().zip(old) {
        let mut places = kept(store, name);
        places.push(store.join(name));
        places.retain(|place| place.is_dir() && files(place) == *old);
        assert_eq!(places.len(), 1, "{name}: {places:?}");
    }
}

/// They are kept under one time, and the new ones are in their places. A rebuild that was killed after its end is done once
/// more: that one keeps new ones.
#[track_caller]
fn replaced(store: &Path, old: &[Files; 2], new: &[Files; 2]) {
    assert_eq!(results(store), *new);
    let mut times = Vec::new();
    for ((name, old), new) in RESULTS.iter().zip(old).zip(new) {
        for folder in kept(store, name) {
            let found = files(&folder);
            if found == *old {
                times.push(folder.extension().unwrap().to_owned());
            } else {
                assert!(found == *new, "{folder:?}");
            }
        }
    }
    assert_eq!(times.len(), 2, "{times:?}");
    assert_eq!(times[0], times[1]);
    nothing_else(store);
}

#[track_caller]
fn nothing_else(store: &Path) {
    let kept: usize = RESULTS.iter().map(|name| kept(store, name).len()).sum();
    assert_eq!(fs::read_dir(store).unwrap().count(), 3 + kept);
}

#[test]
fn killed_at_random_moments() {
    let folder = Folder::new("killed");
    let whole = built(&folder, "whole");
    let (log, expected) = (files(&whole.join("commitlog")), results(&whole));
    let other = folder.join("other");
    tool("demo", &other, &[]).is(0, "");
    tool("rebuild", &other, &OTHER).is(0, "stop      0");
    let old = results(&other);
    let store = folder.join("store");
    copy(&other, &store);
    // Within the time that this disk needs for a whole one; a slow disk gets there by going on again and again.
    let clock = Instant::now();
    tool("demo", &folder.join("clock"), &[]).is(0, "");
    begin(&folder.join("clock"), "30").wait().unwrap();
    let longest = clock.elapsed().as_micros().clamp(4_000, 160_000) as u64;
    let mut chance = Chance(20_260_302);
    let (mut kills, mut rebuilds, mut resumed) = (0, 0, 0);
    let (mut during_placing, mut half_kept) = (0, 0);
    while kills < KILLS || rebuilds == 0 {
        // In one batch or in many.
        let batch = match chance.below(3) {
            0 => 500,
            _ => 1 + chance.below(60),
        };
        let mut child = begin(&store, &batch.to_string());
        if kills < KILLS {
            sleep(Duration::from_micros(chance.below(longest)));
        } else {
            child.wait().unwrap();
        }
        match child.try_wait().unwrap() {
            Some(status) => {
                // It was quicker: the results are in place, and those that were there are kept. Begin anew from these.
                let mut said = String::new();
                let mut pipe = child.stderr.take().unwrap();
                pipe.read_to_string(&mut said).unwrap();
                assert!(status.success(), "{said}");
                replaced(&store, &old, &expected);
                fs::remove_dir_all(&store).unwrap();
                copy(&other, &store);
                rebuilds += 1;
            }
            None => {
                child.kill().unwrap();
                child.wait().unwrap();
                kills += 1;
                found_whole(&store, &old);
                resumed += u32::from(store.join("swistopal.rebuild/journal").exists());
                during_placing +=
                    u32::from(store.join("swistopal.rebuild/store/consumequeue").exists());
                half_kept += u32::from(!kept(&store, "consumequeue").is_empty());
            }
        }
    }
    println!(
        "{kills} kills, {resumed} with a journal, {during_placing} with results on their way, {half_kept} with old \
         ones kept; {rebuilds} rebuilds"
    );
    tool("rebuild", &store, &[&SMALL[..], &["--force"]].concat()).is(0, "stop      0");
    replaced(&store, &old, &expected);
    assert_eq!(files(&store.join("commitlog")), log);
    tool("check", &store, &[]).is(0, "nothing: the store is sound");
    assert!(resumed > KILLS / 10);
}

/// Killed right after something has come into being, where the moments between two writes are short.
#[test]
fn killed_between_two_writes() {
    let folder = Folder::new("between");
    let whole = built(&folder, "whole");
    let expected = results(&whole);
    let other = folder.join("other");
    tool("demo", &other, &[]).is(0, "");
    tool("rebuild", &other, &OTHER).is(0, "stop      0");
    let old = results(&other);
    let mut chance = Chance(1);
    for (number, landmark) in [
        "swistopal.rebuild",
        "swistopal.rebuild/lock",
        "swistopal.rebuild/queues",
        "swistopal.rebuild/plan.part",
        "swistopal.rebuild/plan",
        "swistopal.rebuild/journal.part",
        "swistopal.rebuild/journal",
        "swistopal.rebuild/kept",
        "swistopal.rebuild/store/consumequeue",
        "consumequeue kept",
        "index kept",
        "swistopal.rebuild.done",
        "consumequeue",
        "index",
    ]
    .into_iter()
    .enumerate()
    {
        for replacing in [false, true] {
            for (late, batch) in [(0, "200"), (500, "500"), (3000, "200"), (0, "500")] {
                let store = folder.join(&format!("{number}-{replacing}-{late}-{batch}"));
                // Results that are replaced stand where the new ones come: those moments are seen by what is kept.
                copy(&other, &store);
                if !replacing {
                    fs::remove_dir_all(store.join("consumequeue")).unwrap();
                    fs::remove_dir_all(store.join("index")).unwrap();
                }
                let there = || match landmark.strip_suffix(" kept") {
                    Some(result) => !kept(&store, result).is_empty(),
                    None => store.join(landmark).exists(),
                };
                let mut child = begin(&store, batch);
                while !there() && child.try_wait().unwrap().is_none() {}
                sleep(Duration::from_micros(chance.below(late + 1)));
                child.kill().unwrap();
                child.wait().unwrap();
                if replacing {
                    found_whole(&store, &old);
                }
                tool("rebuild", &store, &[&SMALL[..], &["--force"]].concat()).is(0, "stop      0");
                if replacing {
                    replaced(&store, &old, &expected);
                } else {
                    assert_eq!(results(&store), expected, "{landmark}");
                    nothing_else(&store);
                }
            }
        }
    }
}

/// After a power cut the newest journal may stand while pages of the index that it changes are old ones, and behind what
/// counts there may be anything of a batch that was cut.
#[test]
fn pages_that_never_reached_the_disk() {
    const SLOTS_END: usize = 40 + 4 * 97;
    let folder = Folder::new("pages");
    let whole = built(&folder, "whole");
    let expected = results(&whole);
    let store = folder.join("store");
    tool("demo", &store, &[]).is(0, "");
    let work = store.join("swistopal.rebuild");
    let mut chance = Chance(7);
    let part = |options: &[&str]| {
        let run = tool("rebuild", &store, &[&SMALL[..], options].concat());
        run.is(0, "stop      9");
        files(&work)
    };
    let index = Path::new("store/index/20260302055800842");
    let mut before = part(&["--budget", "1"]);
    for _ in 0..12 {
        let steps = (1 + chance.below(40)).to_string();
        let after = part(&["--budget", &steps]);
        let (old, new) = (&before[index], &after[index]);
        let mut mixed = new.clone();
        for place in (0..SLOTS_END).step_by(64) {
            let piece = place..(place + 64).min(SLOTS_END);
            if chance.below(2) == 0 {
                mixed[piece.clone()].copy_from_slice(&old[piece]);
            }
        }
        let used = u32::from_be_bytes(new[36..40].try_into().unwrap()) as usize;
        for byte in &mut mixed[SLOTS_END + 20 * used..] {
            *byte = chance.below(3) as u8;
        }
        fs::write(work.join(index), mixed).unwrap();
        // Behind its count each queue has zeros before its next entry is made.
        edit(&work.join("queues"), |bytes| {
            for entry in bytes.chunks_mut(20).filter(|entry| *entry == [0; 20]) {
                entry.fill(chance.below(256) as u8);
            }
        });
        // A next journal was begun and is not whole.
        let journal = &after[Path::new("journal")];
        let cut = chance.below(journal.len() as u64) as usize;
        fs::write(work.join("journal.part"), &journal[..cut]).unwrap();
        // What the journal had promised stands again before the next step.
        part(&["--budget", "0"]);
        assert!(fs::read(work.join(index)).unwrap() == *new);
        assert!(fs::read(work.join("journal")).unwrap() == *journal);
        fs::write(work.join("queues"), &after[Path::new("queues")]).unwrap();
        fs::remove_file(work.join("journal.part")).unwrap();
        before = after;
    }
    edit(&work.join("queues"), |bytes| {
        for entry in bytes.chunks_mut(20).filter(|entry| *entry == [0; 20]) {
            entry.fill(chance.below(256) as u8);
        }
    });
    tool("rebuild", &store, &[]).is(0, "stop      0");
    assert!(results(&store) == expected);
}

/// Results being moved: each of them may be in place already, and what `--force` replaces may be kept already.
#[test]
fn cut_while_results_are_placed() {
    const TIME: &str = "2026-03-02T05-58-00Z";
    let folder = Folder::new("placing");
    let whole = built(&folder, "whole");
    let expected = results(&whole);
    let force = [&SMALL[..], &["--force"]].concat();
    for moved in 0..=4 {
        for replacing in [false, true] {
            let store = folder.join(&format!("{moved}-{replacing}"));
            tool("demo", &store, &[]).is(0, "");
            let mut old = None;
            if replacing {
                tool("rebuild", &store, &OTHER).is(0, "stop      0");
                old = Some(results(&store));
            }
            let all_steps = [&force[..], &["--budget", "439"]].concat();
            tool("rebuild", &store, &all_steps).is(0, "stop      9");
            let work = store.join("swistopal.rebuild");
            copy(
                &whole.join("consumequeue"),
                &work.join("store/consumequeue"),
            );
            fs::write(work.join("kept"), TIME).unwrap();
            edit_journal(&store, |bytes| {
                bytes[15] = 1;
                bytes.truncate(8 + 3 * 8 + 16 * 8);
                bytes.push(0);
            });
            // In the order of the rebuild: aside, into place, for queues and then for the index.
            for step in 0..moved {
                let name = ["consumequeue", "index"][step / 2];
                if step % 2 == 1 {
                    fs::rename(work.join("store").join(name), store.join(name)).unwrap();
                } else if replacing {
                    let kept = store.join(format!("{name}.{TIME}"));
                    fs::rename(store.join(name), kept).unwrap();
                }
            }
            let run = tool("rebuild", &store, &force);
            run.is(0, "steps     0, 439 in all");
            match old {
                Some(old) => {
                    replaced(&store, &old, &expected);
                    run.shows(&format!("consumequeue.{TIME}: what was there before"));
                }
                None => {
                    assert_eq!(results(&store), expected);
                    assert_eq!(fs::read_dir(&store).unwrap().count(), 3);
                }
            }
        }
    }
}

#[test]
fn cut_at_the_beginning_and_at_the_end() {
    let folder = Folder::new("ends");
    let store = built(&folder, "store");
    let expected = results(&store);
    let force = [&SMALL[..], &["--force"]].concat();
    // Cut last of all: only a folder is left to be removed, with its lock as long as anything is in it.
    for left in [&["store", "lock"][..], &["lock"], &[]] {
        let finished = store.join("swistopal.rebuild.done");
        fs::create_dir(&finished).unwrap();
        for name in left {
            fs::write(finished.join(name), "").unwrap();
        }
        tool("rebuild", &store, &force).is(0, "stop      0");
        assert!(!finished.exists());
        assert_eq!(results(&store), expected);
    }
    assert_eq!(kept(&store, "index").len(), 3);
    // Cut first of all: a folder without a lock.
    fs::create_dir(store.join("swistopal.rebuild")).unwrap();
    tool("rebuild", &store, &force).is(0, "stop      0");
    assert_eq!(results(&store), expected);
    // Cut before the plan was written: nothing of it counts.
    fs::create_dir_all(store.join("swistopal.rebuild/store/index")).unwrap();
    for name in [
        "lock",
        "queues",
        "store/index/20260302055800842",
        "plan.part",
    ] {
        fs::write(store.join("swistopal.rebuild").join(name), "part").unwrap();
    }
    tool("rebuild", &store, &force).is(0, "stop      0");
    assert_eq!(results(&store), expected);
}
