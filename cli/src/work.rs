//! The work folder of a rebuild, where its results go. It is locked while one works in it.
//!
//! plan: what is being built. queues: all queues as one run of bytes. store/index/NAME: the index. journal: the last batch.
//! store/consumequeue: the queue files, when all is done. kept: the time in the names of what `--force` replaces.

mod folder;
mod place;
mod targets;

use crate::failure::{fault, At, Failure};
use crate::index::{item_place, slot_place, Bytes};
use crate::journal::{Journal, Stage, State, Writer};
use crate::log::{End, Log};
use crate::map::{Draft, View};
use crate::plan::{Plan, Refusal, Search};
use crate::queues::directory;
use crate::text::{grouped, shown_path};
use crate::whole::{sync_folder, write_whole};
use folder::FOLDER;
pub use folder::{remove_finished, Claim};
pub use place::results_in_the_way;
use std::fs::{self, File, OpenOptions};
use std::os::unix::fs::FileExt;
use std::path::{Path, PathBuf};
use swistopal::{
    dispatch, Answer, Dispatch, Dispatched, Entry, LogPosition, Progress, ENTRY_BYTES,
};
use targets::{entry_bytes, filled, index_changes, index_length, queues_length, Target, Targets};

/// Steps between two moments in which the progress is shown.
const PIECE: u64 = 32_768;

impl Claim {
    /// Empty work files in a new folder. Without a plan nothing in it counts.
    pub fn begin(self, plan: Plan, search: Search) -> Result<Work, Failure> {
        let mut work = self.work(plan);
        work.make_files()?;
        work.search = Some(search);
        Ok(work)
    }

    /// Goes on from the last journal. Without one nothing counts that stands in the work files.
    pub fn resume(self, plan: Plan) -> Result<Work, Failure> {
        let mut work = self.work(plan);
        if !work.parts.journal.exists() {
            work.make_files()?;
            return Ok(work);
        }
        work.apply_journal()?;
        if work.state.stage == Stage::Building {
            work.clear_items()?;
        }
        Ok(work)
    }

    /// Before its first step.
    fn work(self, plan: Plan) -> Work {
        let parts = Parts::of(&self.folder, &plan);
        let state = State {
            stage: Stage::Building,
            steps: 0,
            progress: Progress::from_position(plan.sizes.first_position),
        };
        Work {
            directory: directory(&plan.queues()),
            claim: self,
            plan,
            parts,
            state,
            targets: None,
            pending: None,
            search: None,
        }
    }
}

/// Paths inside the work folder.
struct Parts {
    store: PathBuf,
    kept: PathBuf,
    queues: PathBuf,
    index_folder: PathBuf,
    index: PathBuf,
    journal: PathBuf,
    journal_part: PathBuf,
}

impl Parts {
    fn of(folder: &Path, plan: &Plan) -> Parts {
        let store = folder.join("store");
        let index_folder = store.join("index");
        Parts {
            kept: folder.join("kept"),
            queues: folder.join("queues"),
            index: index_folder.join(&plan.index_name),
            journal: folder.join("journal"),
            journal_part: folder.join("journal.part"),
            index_folder,
            store,
        }
    }
}

/// A batch that is done in memory.
struct Batch {
    after: State,
    used_before: u64,
}

/// A rebuild with its plan.
pub struct Work {
    claim: Claim,
    pub plan: Plan,
    directory: Vec<u8>,
    parts: Parts,
    state: State,
    targets: Option<Targets>,
    /// A batch that no journal has yet. The first one goes to its place without one, if it reaches the log's end.
    pending: Option<Batch>,
    /// As long as the plan is not written: how queues come into it.
    search: Option<Search>,
}

impl Work {
    /// The first batch of a new rebuild: the log is read once for the queues, for its end and for the steps. Nothing of it
    /// counts before `go_on`. `read` is told how far the rest of the log was read for its queues.
    pub fn first_batch(
        &mut self,
        log: &Log,
        budget: u64,
        mut shown: impl FnMut(LogPosition, u64),
        read: impl FnMut(LogPosition),
    ) -> Result<(Dispatched, End), Failure> {
        let mut done = self.steps(log, log.end(), budget, &mut shown)?;
        let after = self.state();
        let position = after.progress.position;
        let ends = [Answer::Done, Answer::Damaged, Answer::NotReadable];
        let end = match &self.search {
            Some(search) if !ends.contains(&done.stop) => {
                let counts = &after.progress.counts;
                search.rest(&mut self.plan, log, position, counts, read)?
            }
            // It stops where reading does: that is the log's end, or damage.
            _ => {
                done.stop = Answer::Done;
                log.walk(position, |_, _| Ok(true))?
            }
        };
        Ok((done, end))
    }

    /// Writes the plan, and what has been done so far.
    pub fn go_on(&mut self) -> Result<(), Failure> {
        self.directory = directory(&self.plan.queues());
        if let (Some(targets), Some(batch)) = (&mut self.targets, &mut self.pending) {
            targets.fill(&self.plan, &mut batch.after.progress);
        }
        self.write_plan()?;
        self.keep()
    }

    /// Leaves what was done for whoever goes on; a rebuild without a plan leaves nothing.
    pub fn leave(mut self) -> Result<(), Failure> {
        match self.search {
            Some(_) => self.claim.discard(),
            None => self.keep(),
        }
    }

    /// At most so many steps, done as a whole: after a crash either all of them stand or none. `shown` is told the position
    /// and the steps now and then.
    pub fn batch(
        &mut self,
        log: &Log,
        readable_end: LogPosition,
        budget: u64,
        mut shown: impl FnMut(LogPosition, u64),
    ) -> Result<Dispatched, Failure> {
        let done = self.steps(log, readable_end, budget, &mut shown)?;
        self.keep()?;
        Ok(done)
    }

    /// Steps in memory. Items are brought to the file meanwhile.
    fn steps(
        &mut self,
        log: &Log,
        readable_end: LogPosition,
        budget: u64,
        shown: &mut impl FnMut(LogPosition, u64),
    ) -> Result<Dispatched, Failure> {
        let mut targets = self.take_targets()?;
        let used_before = targets.used();
        let mut after = self.kept_state();
        let mut steps = 0;
        let stop = loop {
            let left = PIECE.min(budget - steps);
            let done = self.dispatch(log, readable_end, left, &mut targets, &mut after.progress)?;
            steps += done.steps;
            let brought = targets.bring_items(self.plan.sizes.slot_count);
            brought.at("write", &self.parts.index)?;
            shown(after.progress.position, steps);
            if self.takes_queue(log, done.stop, &mut targets, &mut after.progress)? {
                continue;
            }
            if done.stop != Answer::BudgetSpent || steps == budget {
                break done.stop;
            }
        };
        after.steps += steps;
        self.targets = Some(targets);
        if steps > 0 {
            self.pending = Some(Batch { after, used_before });
        }
        Ok(Dispatched { stop, steps })
    }

    fn dispatch(
        &self,
        log: &Log,
        readable_end: LogPosition,
        budget: u64,
        targets: &mut Targets,
        progress: &mut Progress,
    ) -> Result<Dispatched, Failure> {
        let call = Dispatch {
            log: log.bytes(),
            readable_end,
            sizes: self.plan.sizes,
            directory: &self.directory,
            budget,
        };
        let length = self.plan.sizes.queues_len(self.plan.rows.len() as u64);
        let queues = &mut targets.queues.bytes[..length.unwrap_or(0)];
        let done = dispatch(&call, queues, &mut targets.index.bytes, progress);
        done.or_else(|refusal| self.refused(refusal))
    }

    /// Whether a stop is one at a queue that comes into the plan now.
    fn takes_queue(
        &mut self,
        log: &Log,
        stop: Answer,
        targets: &mut Targets,
        progress: &mut Progress,
    ) -> Result<bool, Failure> {
        let stops = [Answer::QueueNotListed, Answer::OutOfStep];
        let position = progress.position;
        let (Some(search), Ok(Entry::Record { message, .. }), true) =
            (&self.search, log.entry(position), stops.contains(&stop))
        else {
            return Ok(false);
        };
        match search.meet(&mut self.plan, position, &message, &progress.counts) {
            Ok(false) => return Ok(false),
            Ok(true) => {}
            Err(why) => {
                let before = self.plan.has_entries(progress).then_some(position);
                return Err(Refusal { why, before }.into());
            }
        }
        self.directory = directory(&self.plan.queues());
        targets.fill(&self.plan, progress);
        Ok(true)
    }

    /// How far it is.
    pub fn state(&self) -> State {
        let pending = self.pending.as_ref().map(|batch| batch.after);
        pending.unwrap_or_else(|| self.kept_state())
    }

    /// What the journal says. A queue that has no entry by it is at its start.
    fn kept_state(&self) -> State {
        let mut state = self.state;
        for (count, row) in state.progress.counts.iter_mut().zip(&self.plan.rows) {
            *count = row.start.max(*count);
        }
        state
    }

    fn refused<T>(&self, refusal: Answer) -> Result<T, Failure> {
        fault(format!(
            "{}: answer {}: {refusal}; --restart begins anew",
            shown_path(&self.claim.folder),
            refusal.number()
        ))
    }

    /// Writes the journal of the batch that is done, by which it counts, and brings it to the index.
    pub fn keep(&mut self) -> Result<(), Failure> {
        let Some(Batch { after, used_before }) = self.pending.take() else {
            return Ok(());
        };
        let mut targets = self.take_targets()?;
        let brought = targets.bring_entries(&self.plan, &self.state.progress, &after.progress);
        brought.at("write", &self.parts.queues)?;
        // What the journal that goes now has promised is brought to the disk with it.
        targets.sync().at("write", &self.claim.folder)?;
        let index = &targets.index.bytes;
        let changes = index_changes(&Bytes(index), self.plan.sizes.slot_count, used_before);
        let write = || {
            let mut journal = Writer::create(&self.parts.journal_part, &after)?;
            for change in &changes {
                let bytes = &index[change.start as usize..change.end as usize];
                journal.patch(change.start, bytes)?;
            }
            journal.finish()
        };
        write().at("write", &self.parts.journal_part)?;
        self.commit_journal()?;
        self.state = after;
        targets.apply(&changes).at("write", &self.parts.index)?;
        self.targets = Some(targets);
        Ok(())
    }

    /// Writes the plan, by which a rebuild has begun.
    fn write_plan(&mut self) -> Result<(), Failure> {
        if self.search.take().is_some() {
            let path = self.claim.folder.join("plan");
            write_whole(&path, self.plan.to_text().as_bytes())?;
            sync_folder(&self.claim.store)?;
        }
        Ok(())
    }

    /// Brings the only batch to the index. Until a journal says that results are being placed, a start begins anew.
    fn finish_only_batch(&mut self) -> Result<(), Failure> {
        if let Some(Batch { after, used_before }) = self.pending.take() {
            let targets = self.take_targets()?;
            let index = Bytes(&targets.index.bytes);
            let changes = index_changes(&index, self.plan.sizes.slot_count, used_before);
            targets.apply(&changes).at("write", &self.parts.index)?;
            self.state = after;
            self.targets = Some(targets);
        }
        Ok(())
    }

    /// Work files of zeros, and the places before the first entry of a queue as RocketMQ fills them.
    fn make_files(&self) -> Result<(), Failure> {
        let (parts, plan) = (&self.parts, &self.plan);
        fs::create_dir_all(&parts.index_folder).at("create", &parts.index_folder)?;
        let queues = zeros(&parts.queues, queues_length(plan)?)?;
        let region = plan.sizes.queue_entries * ENTRY_BYTES;
        for (number, row) in plan.rows.iter().enumerate() {
            let written = queues.write_all_at(&filled(row.start), number as u64 * region);
            written.at("write", &parts.queues)?;
        }
        queues.sync_all().at("write", &parts.queues)?;
        let index = zeros(&parts.index, index_length(plan)?)?;
        index.sync_all().at("write", &parts.index)?;
        sync_folder(&parts.index_folder)?;
        sync_folder(&parts.store)
    }

    /// The work files with what they have so far.
    fn take_targets(&mut self) -> Result<Targets, Failure> {
        if let Some(targets) = self.targets.take() {
            return Ok(targets);
        }
        let (queues_file, index_file) = self.open_targets()?;
        let queues = self.load_queues(&queues_file)?;
        let index = self.load_index(&index_file)?;
        let brought = Bytes(&index).used();
        Ok(Targets {
            queues: Target {
                file: queues_file,
                bytes: queues,
                from: 0,
            },
            index: Target {
                file: index_file,
                bytes: index,
                from: item_place(self.plan.sizes.slot_count, 0),
            },
            brought,
        })
    }

    fn load_queues(&self, file: &File) -> Result<Draft, Failure> {
        let path = &self.parts.queues;
        let mut queues = Draft::for_file(file, queues_length(&self.plan)?).at("map", path)?;
        let region = self.plan.sizes.queue_entries * ENTRY_BYTES;
        let counts = self.kept_state().progress.counts;
        for (number, count) in counts.iter().enumerate() {
            let from = number as u64 * region;
            let in_use = from..from + entry_bytes(*count);
            queues.load(file, in_use).at("read", path)?;
        }
        Ok(queues)
    }

    fn load_index(&self, file: &File) -> Result<Draft, Failure> {
        let path = &self.parts.index;
        let mut index = Draft::for_file(file, index_length(&self.plan)?).at("map", path)?;
        if self.state.steps > 0 {
            let slots = self.plan.sizes.slot_count;
            let table = &mut index[..slot_place(slots) as usize];
            file.read_exact_at(table, 0).at("read", path)?;
            let used = Bytes(&index).used().min(self.plan.sizes.item_count);
            let items = item_place(slots, 1)..item_place(slots, used);
            index.load(file, items).at("read", path)?;
        }
        Ok(index)
    }

    fn open_targets(&self) -> Result<(File, File), Failure> {
        let Parts { queues, index, .. } = &self.parts;
        Ok((
            whole(queues, queues_length(&self.plan)?)?,
            whole(index, index_length(&self.plan)?)?,
        ))
    }

    fn commit_journal(&self) -> Result<(), Failure> {
        let Parts {
            journal,
            journal_part,
            ..
        } = &self.parts;
        fs::rename(journal_part, journal).at("rename", journal_part)?;
        sync_folder(&self.claim.folder)
    }

    fn apply_journal(&mut self) -> Result<(), Failure> {
        let path = &self.parts.journal;
        let file = File::open(path).at("open", path)?;
        let length = file.metadata().at("read", path)?.len();
        let bytes = View::of_file(&file, length as usize).at("map", path)?;
        let Some(journal) = Journal::read(&bytes) else {
            // It was whole when it was renamed: this is no crash but a worn medium.
            return fault(format!(
                "{}: it is damaged; --restart begins anew",
                shown_path(path)
            ));
        };
        self.state = journal.state;
        if self.state.stage == Stage::Building {
            let (_, index) = self.open_targets()?;
            journal.apply(&index).at("write", &self.parts.index)?;
        }
        Ok(())
    }

    /// A batch that was cut may have left items that count for nothing: they make way for zeros.
    fn clear_items(&self) -> Result<(), Failure> {
        let path = &self.parts.index;
        let (_, file) = self.open_targets()?;
        let used = self.items()? + 1;
        let mut from = item_place(self.plan.sizes.slot_count, used);
        let end = index_length(&self.plan)? as u64;
        let mut block = vec![0; 1 << 20];
        while from < end {
            let length = block.len().min((end - from) as usize);
            let block = &mut block[..length];
            file.read_exact_at(block, from).at("read", path)?;
            if block.iter().any(|byte| *byte != 0) {
                block.fill(0);
                file.write_all_at(block, from).at("write", path)?;
            }
            from += length as u64;
        }
        file.sync_data().at("write", path)
    }

    pub fn items(&self) -> Result<u64, Failure> {
        if let Some(targets) = &self.targets {
            return Ok(targets.used() - 1);
        }
        let index = match self.parts.index.exists() {
            true => self.parts.index.clone(),
            false => self.claim.store.join("index").join(&self.plan.index_name),
        };
        let mut header = [0; 40];
        let file = File::open(&index).at("open", &index)?;
        file.read_exact_at(&mut header, 0).at("read", &index)?;
        Ok(Bytes(&header).used() - 1)
    }
}

/// A work file as it was begun. One that was cut would only be lengthened again, with zeros for what it had.
fn whole(path: &Path, length: usize) -> Result<File, Failure> {
    let mut options = OpenOptions::new();
    let opened = options.read(true).write(true).open(path);
    let file = opened.at("open", path)?;
    let found = file.metadata().at("read", path)?.len();
    if found != length as u64 {
        return fault(format!(
            "{}: {} bytes, where the rebuild began with {}; --restart begins anew",
            shown_path(path),
            grouped(found),
            grouped(length as u64)
        ));
    }
    Ok(file)
}

/// The plan of a rebuild that has begun and not ended, once it has been written.
pub fn plan_under_way(store: &Path) -> Result<Option<Plan>, Failure> {
    let path = store.join(FOLDER).join("plan");
    if !path.exists() {
        return Ok(None);
    }
    let text = fs::read(&path).at("read", &path)?;
    let text = str::from_utf8(&text).unwrap_or_default();
    match Plan::of_text(text) {
        Some(plan) => Ok(Some(plan)),
        None if Plan::is_of_another_version(text) => fault(format!(
            "{}: another version of this tool has begun the rebuild; --restart begins anew",
            shown_path(path)
        )),
        None => fault(format!(
            "{}: it is damaged; --restart begins anew",
            shown_path(path)
        )),
    }
}

/// A new file of zeros; where the file system can, they take no room.
fn zeros(path: &Path, length: usize) -> Result<File, Failure> {
    let mut options = OpenOptions::new();
    let options = options.read(true).write(true).create(true).truncate(true);
    let file = options.open(path).at("create", path)?;
    file.set_len(length as u64).at("write", path)?;
    Ok(file)
}
