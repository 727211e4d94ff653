//! Whatever `check` says to do next: done as it stands there, by a shell, it loses nothing that could be found before. Nor does
//! a rebuild that replaces what is there, and what it says itself.

mod common;

use common::broker::*;
use common::sites::*;
use common::*;
use std::collections::BTreeSet;
use std::fs;
use std::os::unix::fs::symlink;
use std::path::{Path, PathBuf};
use std::process::Command;

/// Parcels that are asked for, of all that a store has.
const ASKED: usize = 12;
/// How often what is said next is followed on one store.
const ROUNDS: usize = 4;

/// What can be found in a store.
struct Sight {
    /// Topic, key and position.
    found: BTreeSet<(String, String, u64)>,
    /// Topic, queue and position.
    shown: BTreeSet<(String, u32, u64)>,
}

impl Sight {
    fn of(site: &Site) -> Sight {
        let step = site.parcels.len().div_ceil(ASKED);
        let mut found = BTreeSet::new();
        for parcel in site.parcels.iter().step_by(step) {
            for position in site.query(parcel).positions {
                found.insert((parcel.topic.clone(), parcel.key.clone(), position));
            }
        }
        let mut shown = BTreeSet::new();
        for (topic, id) in site.queues() {
            for position in site.queue(topic, id).positions {
                shown.insert((String::from(topic), id, position));
            }
        }
        Sight { found, shown }
    }

    #[track_caller]
    fn is_in(&self, later: &Sight, call: &str) {
        let lost: Vec<_> = self.found.difference(&later.found).collect();
        assert!(lost.is_empty(), "{call}\nis no longer found: {lost:?}");
        let lost: Vec<_> = self.shown.difference(&later.shown).collect();
        assert!(lost.is_empty(), "{call}\nis no longer shown: {lost:?}");
    }
}

/// A rebuild's own work is not among what has to stay.
fn of_a_rebuild(name: &Path) -> bool {
    let first = name.components().next().unwrap().as_os_str();
    first.to_str().unwrap().starts_with("swistopal.rebuild")
}

/// Each file is there under its name or under one by which it was kept.
#[track_caller]
fn all_kept(before: &Path, store: &Path, call: &str) {
    let later = paths(store);
    for (name, bytes) in files(before) {
        let length = bytes.len() as u64;
        let same = |path: &PathBuf| {
            fs::metadata(path).unwrap().len() == length && fs::read(path).unwrap() == bytes
        };
        let kept = same_name(store, &name, same) || later.iter().any(same);
        assert!(
            kept || of_a_rebuild(&name),
            "{call}\n{}: it is gone",
            name.display()
        );
    }
}

fn same_name(store: &Path, name: &Path, same: impl Fn(&PathBuf) -> bool) -> bool {
    let path = store.join(name);
    path.is_file() && same(&path)
}

fn paths(folder: &Path) -> Vec<PathBuf> {
    let mut found = Vec::new();
    for entry in fs::read_dir(folder).unwrap() {
        let path = entry.unwrap().path();
        match path.is_dir() {
            true => found.extend(paths(&path)),
            false => found.push(path),
        }
    }
    found
}

/// The commands that a check names, as they stand there: up to the end of the line, or to the mark that closes it.
fn named(check: &Run) -> Vec<String> {
    let lines = check.out.lines();
    let next = lines.filter(|line| line.starts_with("  next     "));
    let calls = next.filter_map(|line| {
        let (said, call) = line.split_once("swistopal ")?;
        let end = if said.ends_with('`') {
            call.find('`')
        } else {
            None
        };
        Some(&call[..end.unwrap_or(call.len())])
    });
    calls.map(|call| format!("swistopal {call}")).collect()
}

/// A place where stores are tried, and where a shell finds the tool by its name.
struct Trial {
    folder: Folder,
}

impl Trial {
    fn new(name: &str) -> Trial {
        let folder = Folder::new(name);
        fs::create_dir(folder.join("bin")).unwrap();
        symlink(TOOL, folder.join("bin/swistopal")).unwrap();
        Trial { folder }
    }

    /// Runs a command as a person does who copies it into a shell.
    #[track_caller]
    fn run(&self, call: &str) {
        let path = std::env::var("PATH").unwrap();
        let path = format!("{}:{path}", self.folder.join("bin").display());
        let mut shell = Command::new("sh");
        shell.args(["-c", call]).env("PATH", path);
        let output = shell.current_dir(&self.folder.0).output().unwrap();
        let said = String::from_utf8_lossy(&output.stderr);
        let status = output.status.code();
        assert!(matches!(status, Some(0 | 1)), "{call}: {status:?}\n{said}");
    }

    /// Follows each command that a check names, each on the store as it was; then what is said after the last one.
    #[track_caller]
    fn follow(&self, site: &Site, options: &[&str]) {
        let pristine = self.folder.join("pristine");
        copy(&site.store, &pristine);
        let before = Sight::of(site);
        let check = tool("check", &site.store, options);
        assert_eq!(files(&site.store), files(&pristine));
        let calls = named(&check);
        for call in &calls {
            fs::remove_dir_all(&site.store).unwrap();
            copy(&pristine, &site.store);
            self.lost_nothing(site, &before, call);
        }
        for _ in 1..ROUNDS {
            let Some(call) = named(&tool("check", &site.store, &[])).pop() else {
                break;
            };
            self.lost_nothing(site, &before, &call);
        }
        fs::remove_dir_all(&site.store).unwrap();
        fs::remove_dir_all(&pristine).unwrap();
    }

    /// Replaces what is there, and once more in the same second; then with each end that was named.
    #[track_caller]
    fn force(&self, site: &Site) {
        let pristine = self.folder.join("pristine");
        copy(&site.store, &pristine);
        let before = Sight::of(site);
        let forced = [&SMALL[..], &["--force"]].concat();
        let said = tool("rebuild", &site.store, &forced).err;
        let ends = said.split("--end ").skip(1).map(|rest| {
            let digits = rest.find(|c: char| !c.is_ascii_digit());
            &rest[..digits.unwrap_or(rest.len())]
        });
        for end in [None].into_iter().chain(ends.map(Some)) {
            let mut call = forced.clone();
            call.extend(end.iter().flat_map(|end| ["--end", *end]));
            let run = tool("rebuild", &site.store, &call);
            let what = format!("{call:?} of {}: {}", site.store.display(), run.err);
            before.is_in(&Sight::of(site), &what);
            all_kept(&pristine, &site.store, &what);
        }
        fs::remove_dir_all(&site.store).unwrap();
        fs::remove_dir_all(&pristine).unwrap();
    }

    #[track_caller]
    fn lost_nothing(&self, site: &Site, before: &Sight, call: &str) {
        self.run(call);
        before.is_in(&Sight::of(site), call);
        all_kept(&self.folder.join("pristine"), &site.store, call);
    }

    fn store(&self, name: &str) -> PathBuf {
        self.folder.join(name)
    }
}

/// Parcels in two queues and several segments.
fn plain(store: &Path) -> Site {
    many(store, 150)
}

fn many(store: &Path, count: usize) -> Site {
    two_queues(small(store), count)
}

type Harm = fn(&Site);

fn index_of(site: &Site) -> PathBuf {
    index_file(&site.store)
}

fn position(site: &Site, parcel: usize) -> usize {
    site.parcels[parcel].put.position as usize
}

fn cut(path: &Path, length: u64) {
    let file = fs::File::options().write(true).open(path).unwrap();
    file.set_len(length).unwrap();
}

fn damage_log(site: &Site) {
    let at = position(site, 20);
    edit(&segment(&site.store, 0), |bytes| bytes[at + 4] ^= 1);
}

/// Harm to the log.
const LOG_HARMS: [(&str, Harm); 8] = [
    ("record", damage_log),
    ("text", |site| {
        let from = position(site, 20);
        edit(&segment(&site.store, 0), |bytes| {
            let tag = bytes[from..]
                .windows(5)
                .position(|five| five == b"TAGS\x01");
            bytes[from + tag.unwrap() + 5] = 0xff
        })
    }),
    ("zeros", |site| {
        let from = position(site, 20);
        edit(&segment(&site.store, 0), |bytes| {
            bytes[from..from + 500].fill(0)
        })
    }),
    ("missing", |site| {
        fs::remove_file(segment(&site.store, SEGMENT)).unwrap()
    }),
    ("short", |site| cut(&segment(&site.store, SEGMENT), 5000)),
    ("last-short", |site| {
        cut(&segment(&site.store, 2 * SEGMENT), 5000)
    }),
    ("end-lost", |site| {
        let from = position(site, 140) - 2 * SEGMENT as usize;
        edit(&segment(&site.store, 2 * SEGMENT), |bytes| {
            bytes[from..].fill(0)
        })
    }),
    ("first-removed", |site| remove_segments(&site.store, 1)),
];

/// Harm to queues and index.
const RESULT_HARMS: [(&str, Harm); 14] = [
    ("none", |_| {}),
    ("no-queues", |site| {
        fs::remove_dir_all(site.store.join("consumequeue")).unwrap()
    }),
    ("no-queue", |site| {
        fs::remove_dir_all(site.store.join("consumequeue/T/1")).unwrap()
    }),
    ("no-index", |site| {
        fs::remove_dir_all(site.store.join("index")).unwrap()
    }),
    ("no-results", |site| {
        fs::remove_dir_all(site.store.join("consumequeue")).unwrap();
        fs::remove_dir_all(site.store.join("index")).unwrap()
    }),
    ("entry", |site| {
        edit(&queue_file(&site.store, "T", 0), |bytes| bytes[27] ^= 1)
    }),
    ("entry-zero", |site| {
        edit(&queue_file(&site.store, "T", 0), |bytes| {
            bytes[100..120].fill(0)
        })
    }),
    ("queue-short", |site| {
        cut(&queue_file(&site.store, "T", 0), 400)
    }),
    ("queue-odd", |site| {
        cut(&queue_file(&site.store, "T", 0), 399)
    }),
    ("item", |site| {
        edit(&index_of(site), |bytes| bytes[40 + 2000 + 20 * 9 + 3] ^= 1)
    }),
    ("slot", |site| {
        edit(&index_of(site), |bytes| bytes[40..2040].fill(0))
    }),
    ("header", |site| {
        edit(&index_of(site), |bytes| bytes[36] = 0xff)
    }),
    ("index-short", |site| cut(&index_of(site), 3000)),
    ("not-an-index", |site| {
        fs::write(site.store.join("index/20260101000000000"), "none").unwrap()
    }),
];

/// Stores without a fault.
const HEALTHY: [fn(&Path) -> Site; 17] = [
    plain,
    forty_queues,
    rolled_index,
    delayed,
    long_hosts,
    across_the_last_end,
    above_the_last_end,
    |store| removed_segments(store, small(store)),
    |store| removed_segments(store, small(store).slots(15).items(60)),
    |store| just_rolled_index(store, false),
    |store| later_queue(store, 24),
    |store| later_queue(store, 700_000),
    removed_queue_files,
    preallocated,
    foreign_files,
    accents,
    busy,
];

#[test]
fn on_healthy_stores() {
    let trial = Trial::new("follow-healthy");
    for (number, make) in HEALTHY.into_iter().enumerate() {
        let site = make(&trial.store(&format!("store-{number}")));
        trial.follow(&site, &[]);
    }
}

#[test]
fn on_a_queue_of_400_000_entries() {
    let trial = Trial::new("follow-long");
    let site = long_queue(&trial.store("store"));
    trial.follow(&site, &[]);
}

#[test]
fn on_damaged_logs() {
    let trial = Trial::new("follow-log");
    for (log_name, harm_log) in LOG_HARMS {
        for (name, harm) in &RESULT_HARMS[..5] {
            let site = plain(&trial.store(&format!("{log_name}-{name}")));
            harm(&site);
            harm_log(&site);
            trial.follow(&site, &[]);
        }
    }
}

#[test]
fn on_damaged_results() {
    let trial = Trial::new("follow-results");
    for (name, harm) in RESULT_HARMS {
        let site = plain(&trial.store(name));
        harm(&site);
        let check = tool("check", &site.store, &[]);
        assert_eq!(check.status, i32::from(name != "none"), "{}", check.out);
        assert!(name != "no-results" || named(&check).len() == 1);
        trial.follow(&site, &[]);
    }
}

#[test]
fn on_damaged_results_with_accents() {
    let trial = Trial::new("follow-accents");
    for (name, harm) in RESULT_HARMS {
        let site = accents(&trial.store(name));
        harm(&site);
        trial.follow(&site, &[]);
    }
}

#[test]
fn on_damaged_results_beyond_a_limit() {
    let trial = Trial::new("follow-beyond");
    for (number, make) in [forty_queues, rolled_index, delayed, long_hosts]
        .into_iter()
        .enumerate()
    {
        for (name, harm) in [
            RESULT_HARMS[1],
            RESULT_HARMS[3],
            RESULT_HARMS[4],
            LOG_HARMS[0],
        ] {
            let site = make(&trial.store(&format!("{number}-{name}")));
            match name {
                "record" => edit(&segment(&site.store, 0), |bytes| {
                    bytes[position(&site, 5) + 4] ^= 1
                }),
                _ => harm(&site),
            }
            trial.follow(&site, &[]);
        }
    }
}

#[test]
fn on_results_that_end_before_the_log_does() {
    let trial = Trial::new("follow-lag");
    for part in ["consumequeue", "index"] {
        let site = plain(&trial.store(&format!("store-{part}")));
        let shorter = many(&trial.store("shorter"), 100);
        fs::remove_dir_all(site.store.join(part)).unwrap();
        copy(&shorter.store.join(part), &site.store.join(part));
        trial.follow(&site, &[]);
    }
}

#[test]
fn on_a_rebuild_that_has_begun() {
    let trial = Trial::new("follow-begun");
    let begin = |site: &Site| {
        let options = [&SMALL[..], &["--force", "--budget", "60"]].concat();
        tool("rebuild", &site.store, &options).is(0, "stop      9");
    };
    let harms: [(&str, Harm); 4] = [
        ("none", |_| {}),
        ("log", damage_log),
        ("plan", |site| {
            fs::write(site.store.join("swistopal.rebuild/plan"), "none").unwrap()
        }),
        ("journal", |site| {
            edit(&site.store.join("swistopal.rebuild/journal"), |bytes| {
                bytes.truncate(20)
            })
        }),
    ];
    for (harm_name, harm) in harms {
        for (name, harm_results) in &RESULT_HARMS[..5] {
            let site = plain(&trial.store(&format!("{harm_name}-{name}")));
            harm_results(&site);
            begin(&site);
            harm(&site);
            trial.follow(&site, &[]);
        }
    }
}

#[test]
fn with_options() {
    let trial = Trial::new("follow-options");
    let list = trial.store("queues");
    let lines: Vec<String> = (0..8)
        .map(|line| format!("LINE_{line} 0\nLINE_{line} 1\n"))
        .collect();
    fs::write(&list, lines.concat()).unwrap();
    let list = list.to_str().unwrap();
    let site = forty_queues(&trial.store("forty"));
    trial.follow(&site, &["--queues", list]);
    for (name, harm) in &RESULT_HARMS[..5] {
        let site = plain(&trial.store(name));
        let end = position(&site, 60).to_string();
        harm(&site);
        trial.follow(&site, &["--end", &end]);
    }
}

#[test]
fn a_forced_rebuild_of_a_healthy_store() {
    let trial = Trial::new("force-healthy");
    for (number, make) in HEALTHY.into_iter().enumerate() {
        let site = make(&trial.store(&format!("store-{number}")));
        trial.force(&site);
    }
}

#[test]
fn a_forced_rebuild_of_a_damaged_store() {
    let trial = Trial::new("force-damaged");
    for (name, harm) in LOG_HARMS.into_iter().chain(RESULT_HARMS) {
        let site = plain(&trial.store(name));
        harm(&site);
        trial.force(&site);
    }
}

/// A folder's name may have what a shell takes for something else.
#[test]
fn under_a_name_that_needs_quotes() {
    let trial = Trial::new("follow-quotes");
    for name in ["two words", "it's", "$HOME", "a;b", "-x", "back`tick"] {
        let site = plain(&trial.store(name));
        fs::remove_dir_all(site.store.join("index")).unwrap();
        let check = tool("check", &site.store, &[]);
        assert_eq!(named(&check).len(), 1, "{}", check.out);
        trial.follow(&site, &[]);
    }
}
