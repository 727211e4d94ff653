//! Results come to their places, and what was there is kept beside them.

use super::folder::empty;
use super::targets::{entry_bytes, index_length};
use super::{zeros, Work};
use crate::failure::{fault, usage, At, Failure};
use crate::journal::{Stage, Writer};
use crate::map::begin_to_sync;
use crate::queues::FIRST_FILE;
use crate::text::shown_path;
use crate::time;
use crate::whole::{is_there, sync_folder, write_whole};
use std::fs;
use std::io;
use std::os::unix::fs::FileExt;
use std::path::{Path, PathBuf};
use std::time::{SystemTime, UNIX_EPOCH};
use swistopal::ENTRY_BYTES;

/// What a rebuild makes.
const RESULTS: [&str; 2] = ["consumequeue", "index"];

impl Work {
    /// What stands in the way of the results; `--force` replaces it.
    pub fn in_the_way(&self) -> Option<PathBuf> {
        let mut places = RESULTS.iter().filter(|name| {
            // One that has been placed already is this rebuild's own.
            self.state.stage == Stage::Building || self.parts.store.join(name).exists()
        });
        places.find_map(|name| occupied(&self.claim.store, name))
    }

    /// Writes the queue files and moves all results to their places. It may be cut anywhere and called again. What was in
    /// their places is kept beside them: these are its names.
    pub fn place(mut self) -> Result<Vec<PathBuf>, Failure> {
        let time = self.time_of_kept()?;
        if self.state.stage == Stage::Building {
            self.write_plan()?;
            self.finish_only_batch()?;
            self.write_queue_files()?;
            self.state.stage = Stage::Placing;
            let journal = Writer::create(&self.parts.journal_part, &self.state);
            let written = journal.and_then(Writer::finish);
            written.at("write", &self.parts.journal_part)?;
            self.commit_journal()?;
        }
        let store = &self.claim.store;
        let mut kept = Vec::new();
        for name in RESULTS {
            let (made, place) = (self.parts.store.join(name), store.join(name));
            let aside = kept_name(store, name, &time);
            if made.exists() {
                if occupied(store, name).is_some() {
                    put_aside(&place, &aside)?;
                    sync_folder(store)?;
                }
                fs::rename(&made, &place).at("move", &made)?;
                sync_folder(store)?;
            }
            if is_there(&aside) {
                kept.push(aside);
            }
        }
        self.claim.discard()?;
        Ok(kept)
    }

    /// The time in the names of what is kept. It is written down, so that a rebuild that was cut goes on with the same one.
    fn time_of_kept(&self) -> Result<String, Failure> {
        let path = &self.parts.kept;
        match fs::read_to_string(path) {
            Err(error) if error.kind() == io::ErrorKind::NotFound => {
                let time = free_time(&self.claim.store);
                write_whole(path, time.as_bytes())?;
                Ok(time)
            }
            Ok(time) if is_name(&time) => Ok(time),
            Ok(_) => fault(format!(
                "{}: it is damaged; --restart begins anew",
                shown_path(path)
            )),
            Err(error) => Err(error).at("read", path),
        }
    }

    fn write_queue_files(&mut self) -> Result<(), Failure> {
        let consumequeue = self.parts.store.join("consumequeue");
        if consumequeue.exists() {
            fs::remove_dir_all(&consumequeue).at("remove", &consumequeue)?;
        }
        let targets = self.take_targets()?;
        let index_length = index_length(&self.plan)? as u64;
        begin_to_sync(&targets.index.file, 0..index_length);
        let queues = &targets.queues.bytes;
        let region = (self.plan.sizes.queue_entries * ENTRY_BYTES) as usize;
        let mut written = Vec::new();
        for (number, row) in self.plan.rows.iter().enumerate() {
            let folder = row.queue.folder(&consumequeue)?;
            fs::create_dir_all(&folder).at("create", &folder)?;
            let path = folder.join(FIRST_FILE);
            let file = zeros(&path, region)?;
            let in_use = entry_bytes(self.state.progress.counts[number]) as usize;
            let bytes = &queues[number * region..number * region + in_use];
            file.write_all_at(bytes, 0).at("write", &path)?;
            begin_to_sync(&file, 0..in_use as u64);
            written.push((file, path, folder));
        }
        // The disk has begun with all of them.
        targets.sync().at("write", &self.claim.folder)?;
        for (file, path, folder) in written {
            file.sync_all().at("write", &path)?;
            for folder in folder.ancestors().take(2) {
                sync_folder(folder)?;
            }
        }
        sync_folder(&consumequeue)?;
        sync_folder(&self.parts.store)
    }
}

/// A result's place in the store, if something is there.
fn occupied(store: &Path, name: &str) -> Option<PathBuf> {
    let place = store.join(name);
    (is_there(&place) && !empty(&place)).then_some(place)
}

fn kept_name(store: &Path, name: &str, time: &str) -> PathBuf {
    store.join(format!("{name}.{time}"))
}

fn is_name(text: &str) -> bool {
    let part = |byte: u8| byte.is_ascii_graphic() && byte != b'/';
    text.bytes().all(part)
}

/// The time, as 2026-03-02T05-58-00Z, and a number behind it if something is kept under it already.
fn free_time(store: &Path) -> String {
    let since = SystemTime::now().duration_since(UNIX_EPOCH);
    let millis = since.map_or(0, |since| since.as_millis() as u64);
    let now = time::rfc3339(millis - millis % 1000).unwrap_or_default();
    let now = now.replace(".000", "").replace(':', "-");
    let taken = |time: &String| {
        let mut names = RESULTS.iter();
        names.any(|name| is_there(&kept_name(store, name, time)))
    };
    let mut others = (2..).map(|number| format!("{now}-{number}"));
    Some(now.clone())
        .filter(|now| !taken(now))
        .or_else(|| others.find(|other| !taken(other)))
        .expect("there is always one more")
}

/// Renames what is in a result's place; nothing is ever renamed over something else.
fn put_aside(place: &Path, aside: &Path) -> Result<(), Failure> {
    if is_there(aside) {
        return usage(format!(
            "{}: it was put there after the rebuild had kept {}; rename it, then the same command goes on",
            shown_path(place),
            shown_path(aside)
        ));
    }
    fs::rename(place, aside).at("move", place)
}

pub fn results_in_the_way(store: &Path) -> Option<PathBuf> {
    RESULTS.iter().find_map(|name| occupied(store, name))
}
