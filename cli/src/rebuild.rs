//! `swistopal rebuild`: consume queues and index from the commit log.

use crate::args::Args;
use crate::failure::{fault, usage, At, Failure, Outcome};
use crate::journal::{Stage, State};
use crate::log::{self, End, Log};
use crate::meter::Meter;
use crate::plan::{self, AskedSizes, Plan};
use crate::queues::Queue;
use crate::text::{array, counted, grouped, shown_path, string, Object};
use crate::work::{self, Claim, Work};
use crate::{broker, loss, note, out};
use std::fs;
use std::io::Write;
use std::os::unix::fs::symlink;
use std::path::{Path, PathBuf};
use swistopal::{Answer, Dispatched, Entry, LogPosition};

/// Steps between two journals.
const BATCH: u64 = 1 << 21;
const NOTHING_LEFT: Dispatched = Dispatched {
    stop: Answer::Done,
    steps: 0,
};

pub fn run(args: &Args) -> Result<Outcome, Failure> {
    let store = args.place();
    if store.is_file() {
        return usage(format!("{}: a folder is needed", shown_path(store)));
    }
    let budget = args.number("--budget")?.unwrap_or(u64::MAX);
    let batch = args.number_within("--batch", 1, u64::MAX)?.unwrap_or(BATCH);
    let sizes = AskedSizes::of(args)?;
    let listed = plan::listed(args)?;
    let log = Log::open(args)?;
    log::tell(&log.faults);
    let after_crash = args.flag("--after-crash");
    broker::refuse(store, after_crash)?;
    let place = results_folder(store, args, after_crash)?;

    let (mut work, known) = open(&place, &log, &sizes, listed, args)?;
    let building = work.state().stage == Stage::Building;
    let built = match known {
        Some(end) if !building => Ok((NOTHING_LEFT, end)),
        known => build(&mut work, &log, known, (budget, batch), args),
    };
    let (done, end) = match built {
        Ok(built) => built,
        Err(failure) => return leave(work, failure),
    };
    let mut made = Made::of(&work, done, &log, &end)?;
    if made.caught_up() {
        if building {
            made.short
                .extend(loss::of(&place, &made.plan, &made.state, made.items)?);
            let asked = made.ask(args, &end);
            if let Err(failure) = asked.and_then(|()| broker::refuse(&place, after_crash)) {
                return leave(work, failure);
            }
        }
        // First the files, then the report: nobody may be reading it.
        made.kept = work.place()?;
    }
    made.report(args)?;
    if done.stop == Answer::BudgetSpent {
        note("the same command goes on from here");
    } else if !made.caught_up() {
        let in_the_way = work::results_in_the_way(&place).is_some();
        note(&advice(&log, &made, in_the_way));
    }
    let stopped = !made.caught_up() && done.stop != Answer::BudgetSpent;
    if stopped || !end.sound() || !log.faults.is_empty() {
        Ok(Outcome::Fault)
    } else {
        Ok(Outcome::Sound)
    }
}

/// Ends without results. What went wrong first is told, whatever leaving brings.
fn leave(work: Work, failure: Failure) -> Result<Outcome, Failure> {
    let _ = work.leave();
    Err(failure)
}

/// Where the results go: the store, or the folder of `--into`, which then is a store whose log is a link to this one.
fn results_folder(store: &Path, args: &Args, after_crash: bool) -> Result<PathBuf, Failure> {
    let Some(into) = args.value("--into").map(Path::new) else {
        return Ok(store.to_path_buf());
    };
    let (log, link) = (store.join("commitlog"), into.join("commitlog"));
    let log = log.canonicalize().at("read", &log)?;
    if link.symlink_metadata().is_ok() {
        if link.canonicalize().ok().as_ref() != Some(&log) {
            return usage(format!(
                "--into {}: it has another log; name a folder without one",
                shown_path(into)
            ));
        }
        broker::refuse(into, after_crash)?;
        return Ok(into.to_path_buf());
    }
    fs::create_dir_all(into).at("create", into)?;
    if let Err(error) = symlink(&log, &link) {
        return fault(format!(
            "cannot create {}, a link to the log: {error}; --into needs a file system that has links",
            shown_path(link)
        ));
    }
    broker::refuse(into, after_crash)?;
    Ok(into.to_path_buf())
}

/// The rebuild that is under way and where the log ends, or a new one.
fn open(
    place: &Path,
    log: &Log,
    sizes: &AskedSizes,
    listed: Option<Vec<Queue>>,
    args: &Args,
) -> Result<(Work, Option<End>), Failure> {
    let restart = args.flag("--restart");
    let mut claim = Claim::existing(place)?;
    if let Some(under_way) = claim.take_if(|_| !restart) {
        if let Some(plan) = work::plan_under_way(place)? {
            plan.agrees(log, sizes, listed.as_deref())?;
            let (work, end) = go_on(under_way.resume(plan)?, log, args)?;
            return Ok((work, Some(end)));
        }
        claim = Some(under_way);
    }
    if let Some(occupied) = work::results_in_the_way(place).filter(|_| !args.flag("--force")) {
        return in_the_way(&occupied);
    }
    let (plan, search) = Plan::first(log, sizes, listed)?;
    if let Some(claim) = claim {
        claim.discard()?;
    }
    work::remove_finished(place)?;
    Ok((Claim::create(place)?.begin(plan, search)?, None))
}

fn go_on(work: Work, log: &Log, args: &Args) -> Result<(Work, End), Failure> {
    if let Some(occupied) = work.in_the_way().filter(|_| !args.flag("--force")) {
        return in_the_way(&occupied);
    }
    let from = work.state().progress.position;
    if work.state().steps > 0 {
        note(&format!(
            "going on at position {} after {}",
            from.0,
            counted(work.state().steps, "step", "steps")
        ));
    }
    if from > log.end() {
        return fault(format!(
            "the log now ends at {}, before the {} that was reached; --restart begins anew",
            log.end().0,
            from.0
        ));
    }
    let mut meter = Meter::new("reading", from.0, log.end().0);
    let end = log.walk(from, |position, _| {
        meter.read(position.0);
        Ok(true)
    })?;
    drop(meter);
    if work.state().stage == Stage::Building {
        ask_about_end(log, &end, args)?;
    }
    Ok((work, end))
}

fn in_the_way<T>(place: &Path) -> Result<T, Failure> {
    usage(format!(
        "{}: it is there already; --force puts the new one in its place and keeps it beside it, with the time in its name",
        shown_path(place)
    ))
}

/// Why queues and index end before the log may.
fn ends_early(log: &Log, end: &End) -> Option<String> {
    if !end.sound() {
        return Some(format!("the log {}", end.sentence()));
    }
    let fault = log.faults.first()?;
    Some(format!("the log ends at {}: {fault}", end.position.0))
}

/// A log that ends at damage is rebuilt up to there only by whoever asks for that.
fn ask_about_end(log: &Log, end: &End, args: &Args) -> Result<(), Failure> {
    let Some(why) = ends_early(log, end).filter(|_| !args.flag("--shorten")) else {
        return Ok(());
    };
    if end.answer == Answer::NotReadable && args.value("--end").is_some() {
        return fault(format!(
            "{why}; name an --end where a record ends, as {}",
            end.position.0
        ));
    }
    fault(format!(
        "{why}; nothing was put in place: get another copy of that segment, or have queues and index end there with --shorten"
    ))
}

/// Batch after batch, until the log's end, a stop, or the budget.
fn build(
    work: &mut Work,
    log: &Log,
    known: Option<End>,
    (budget, batch): (u64, u64),
    args: &Args,
) -> Result<(Dispatched, End), Failure> {
    let from = work.state().progress.position;
    let to = known.map_or(log.end(), |end| end.position);
    let mut meter = Meter::new("rebuilding", from.0, to.0);
    let (mut stop, mut steps) = (Answer::BudgetSpent, 0);
    let end = match known {
        Some(end) => end,
        None => {
            let shown = |position: LogPosition, done| meter.show(position.0, done);
            let mut reading = None;
            let read = |at: LogPosition| {
                let begin = || Meter::new("reading", at.0, log.end().0);
                reading.get_or_insert_with(begin).read(at.0);
            };
            let (done, end) = work.first_batch(log, budget.min(batch), shown, read)?;
            ask_about_end(log, &end, args)?;
            if done.stop != Answer::Done {
                work.go_on()?;
            }
            (stop, steps) = (done.stop, done.steps);
            end
        }
    };
    while stop == Answer::BudgetSpent && steps < budget {
        let left = batch.min(budget - steps);
        let shown = |position: LogPosition, done| meter.show(position.0, steps + done);
        let done = work.batch(log, end.position, left, shown)?;
        (stop, steps) = (done.stop, steps + done.steps);
    }
    Ok((Dispatched { stop, steps }, end))
}

/// What a run came to.
struct Made {
    plan: Plan,
    state: State,
    items: u64,
    done: Dispatched,
    /// Why the log was read no further, where its end is not sound.
    stop: Answer,
    /// What the results lack.
    short: Vec<String>,
    kept: Vec<PathBuf>,
}

impl Made {
    fn of(work: &Work, done: Dispatched, log: &Log, end: &End) -> Result<Made, Failure> {
        let caught_up = done.stop == Answer::Done;
        let early = ends_early(log, end).filter(|_| caught_up);
        Ok(Made {
            plan: work.plan.clone(),
            state: work.state(),
            items: work.items()?,
            done,
            stop: if caught_up { end.answer } else { done.stop },
            short: early.into_iter().collect(),
            kept: Vec::new(),
        })
    }

    fn caught_up(&self) -> bool {
        self.done.stop == Answer::Done
    }

    /// Less than is there is put in place only by whoever asks for that.
    fn ask(&self, args: &Args, end: &End) -> Result<(), Failure> {
        if self.short.is_empty() || args.flag("--shorten") {
            return Ok(());
        }
        for loss in &self.short {
            note(loss);
        }
        usage(format!(
            "a rebuild up to {} would leave less than is there, so nothing was replaced; --shorten puts it in place all the \
             same and keeps what is there beside it, with the time in its name",
            end.position.0
        ))
    }

    fn report(&self, args: &Args) -> Result<(), Failure> {
        let mut out = out();
        match args.flag("--json") {
            true => writeln!(out, "{}", self.object())?,
            false => self.lines(&mut out)?,
        }
        out.flush()?;
        Ok(())
    }

    fn object(&self) -> String {
        let counts = self.plan.rows.iter().zip(&self.state.progress.counts);
        let queues: Vec<String> = counts
            .map(|(row, count)| {
                Object::new()
                    .bytes("topic", &row.queue.topic)
                    .number("queue", row.queue.id.into())
                    .number("entries", count.0)
                    .end()
            })
            .collect();
        let strings = |texts: Vec<String>| array(&texts);
        let kept = self.kept.iter().map(|path| string(&shown_path(path)));
        Object::new()
            .number("steps", self.done.steps)
            .number("steps_in_all", self.state.steps)
            .number("position", self.state.progress.position.0)
            .raw("queues", &array(&queues))
            .text("index", &self.plan.index_name)
            .number("slots", self.plan.sizes.slot_count)
            .number("items", self.items)
            .raw("kept", &strings(kept.collect()))
            .number("stop", self.stop.number().into())
            .text("sentence", &self.stop.to_string())
            .raw(
                "short",
                &strings(self.short.iter().map(|text| string(text)).collect()),
            )
            .end()
    }

    fn lines(&self, out: &mut impl Write) -> Result<(), Failure> {
        let (state, done) = (&self.state, &self.done);
        let in_all = if state.steps == done.steps {
            String::new()
        } else {
            format!(", {} in all", grouped(state.steps))
        };
        let position = state.progress.position.0;
        let steps = grouped(done.steps);
        writeln!(out, "steps     {steps}{in_all}, up to position {position}")?;
        for (row, count) in self.plan.rows.iter().zip(&state.progress.counts) {
            let entries = counted(count.0, "entry", "entries");
            writeln!(out, "queue     {}: {entries}", row.queue.shown())?;
        }
        writeln!(
            out,
            "index     {}: {} of {}, {} slots",
            self.plan.index_name,
            counted(self.items, "item", "items"),
            grouped(self.plan.sizes.item_count - 1),
            grouped(self.plan.sizes.slot_count)
        )?;
        for kept in &self.kept {
            let kept = shown_path(kept);
            writeln!(out, "kept      {kept}: what was there before")?;
        }
        writeln!(out, "stop      {}: {}", self.stop.number(), self.stop)?;
        for short in &self.short {
            writeln!(out, "short     {short}")?;
        }
        Ok(())
    }
}

/// What to do about a stop that is none of the log's end.
fn advice(log: &Log, made: &Made, in_the_way: bool) -> String {
    let (stop, progress) = (made.done.stop, &made.state.progress);
    let position = progress.position;
    let place = match log.entry(position) {
        Ok(Entry::Record { message, .. }) => format!(
            "the record at {}, entry {} of queue {}/{}",
            position.0,
            message.fields.queue_offset.0,
            crate::text::shown(message.topic),
            message.fields.queue_id
        ),
        _ => format!("position {}", position.0),
    };
    let remedy = made.plan.remedy(stop, "--restart");
    // What is there may go on behind it.
    let end = match made.plan.may_end(stop, progress) && !in_the_way {
        true => format!(
            "; the same command with --end {} puts what is before it in place",
            position.0
        ),
        false => String::new(),
    };
    format!("stopped before {place}; {remedy}{end}")
}
