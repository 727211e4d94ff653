//! `swistopal list`: the lister's lines for segments of any permitted size.

use crate::args::Args;
use crate::failure::{usage, Failure, Outcome};
use crate::form::{Form, Results};
use crate::log::{self, End, Log, Met, Passed, Place, Skipped, Why};
use crate::note;
use crate::record::{self, Read, With};
use crate::text::{strings, Object};
use crate::wanted::{seconds, Wanted};
use std::io::Write;
use swistopal::{Entry, LogPosition};

const LONG: With = With {
    topic: true,
    body: false,
};

pub fn run(args: &Args) -> Result<Outcome, Failure> {
    let limit = args.number("--limit")?.unwrap_or(u64::MAX);
    let mut wanted = Wanted::of(args, "--from-time", "--to-time")?;
    let log = match args.place().as_os_str() == "-" {
        true => Log::of_input(args)?,
        false => Log::open(args)?,
    };
    let resync = args.flag("--resync");
    let from = start(args, &log, resync)?;
    let mut listing = Listing::start(args)?;
    let (end, how) = listing.read(&log, from, resync, limit, &mut wanted)?;
    let mut hints = seconds(args, &["--from-time", "--to-time"]);
    let (whole, until) = (from == log.first(), end.position.0);
    let place = match (whole, how) {
        (true, How::Whole) if args.value("--end").is_none() => String::from("the log"),
        _ => format!("the log from {} to {until}", from.0),
    };
    hints.extend(wanted.hints(&place));
    listing.end(&log, &end, how == How::Cut, &hints)?;
    match how {
        How::Cut => note(&format!(
            "cut at --limit {limit}: more follow; --from {} goes on",
            end.position.0
        )),
        _ if !end.sound() || end.why == Why::Zeros => note(&format!("the log {}", end.sentence())),
        _ => {}
    }
    if how == How::Stopped {
        let on = || format!("--resync goes on behind {}", end.position.0);
        hints.push(log.end_inside(&end).unwrap_or_else(on));
    }
    log::tell(&hints);
    listing.tell();
    log::tell(&log.faults);
    log::tell(&log.limits);
    let sound = end.sound() || how == How::Cut;
    let damaged = listing.passed.damaged.count > 0;
    Ok(match sound && log.faults.is_empty() && !damaged {
        true => Outcome::Sound,
        false => Outcome::Fault,
    })
}

/// How a listing ended.
#[derive(Clone, Copy, PartialEq, Eq)]
enum How {
    /// With the log.
    Whole,
    /// At the limit.
    Cut,
    /// At damage.
    Stopped,
}

fn mark(behind: bool) -> &'static str {
    match behind {
        true => " behind-damage",
        false => "",
    }
}

/// Where to start. Inside a record is no place to start at.
fn start(args: &Args, log: &Log, resync: bool) -> Result<LogPosition, Failure> {
    let Some(from) = args.number("--from")? else {
        return Ok(log.first());
    };
    let (first, end) = (log.first().0, log.files_end().0);
    if !(first..=end).contains(&from) {
        return usage(format!(
            "--from {from}: the log's files go from {first} to {end}"
        ));
    }
    let from = LogPosition(from);
    match log.place(from)? {
        Place::Entry { position, entry } if position < from => {
            let next = position.0 + entry.total();
            usage(format!(
                "--from {}: it is inside the {}, which goes from {} to {next}; start at one of these",
                from.0,
                record::kind(&entry),
                position.0
            ))
        }
        Place::Skipped(skipped) if skipped.from < from && !resync => usage(format!(
            "--from {}: it is inside a part that cannot be read, {}; --resync goes on behind it",
            from.0,
            skipped.sentence()
        )),
        _ => Ok(from),
    }
}

/// What has been listed so far.
struct Listing {
    results: Results,
    long: bool,
    entries: u64,
    passed: Passed,
}

impl Listing {
    fn start(args: &Args) -> Result<Listing, Failure> {
        let long = args.flag("--long");
        let mut results = Results::start(Form::of(args)?, Object::new(), "entries")?;
        match (results.is_text(), long) {
            (true, true) => record::heading(results.text(), LONG)?,
            (true, false) => writeln!(results.text(), "position length queue time")?,
            (false, _) => {}
        }
        Ok(Listing {
            results,
            long,
            entries: 0,
            passed: Passed::default(),
        })
    }

    fn read(
        &mut self,
        log: &Log,
        from: LogPosition,
        resync: bool,
        limit: u64,
        wanted: &mut Wanted,
    ) -> Result<(End, How), Failure> {
        let mut cut = false;
        let each = |met: Met| {
            match met {
                Met::Entry {
                    position,
                    entry,
                    behind,
                } if wanted.takes(&entry) => match self.entries == limit {
                    true => cut = true,
                    false => self.entry(position, &entry, behind)?,
                },
                Met::Entry { .. } => {}
                Met::Skipped(skipped) => self.skipped(&skipped)?,
            }
            Ok(!cut)
        };
        let (end, stopped) = match resync {
            true => (log.walk_on(from, each)?, false),
            false => log.walk_to_damage(from, each)?,
        };
        let how = match (cut, stopped) {
            (true, _) => How::Cut,
            (_, true) => How::Stopped,
            _ => How::Whole,
        };
        Ok((end, how))
    }

    fn entry(&mut self, position: LogPosition, entry: &Entry, behind: bool) -> Result<(), Failure> {
        self.entries += 1;
        match *entry {
            Entry::Record { total, message } => self.record(&Read {
                position,
                total,
                message,
                behind,
            }),
            Entry::Blank { total } => self.blank(position, total, behind),
        }
    }

    fn record(&mut self, read: &Read) -> Result<(), Failure> {
        if !self.results.is_text() {
            return self.results.add(&record::object(read, false));
        }
        let text = self.results.text();
        if self.long {
            record::line(text, read, LONG)?;
        } else {
            let (LogPosition(position), length) = (read.position, read.total);
            let (queue, time) = (read.message.fields.queue_id, read.message.fields.store_time);
            let mark = mark(read.behind);
            writeln!(text, "{position} {length} {queue} {time}{mark}")?;
        }
        Ok(())
    }

    fn blank(&mut self, position: LogPosition, length: u64, behind: bool) -> Result<(), Failure> {
        if self.results.is_text() {
            let (LogPosition(position), mark) = (position, mark(behind));
            writeln!(self.results.text(), "{position} {length} blank{mark}")?;
            return Ok(());
        }
        let blank = Object::new()
            .number("position", position.0)
            .number("length", length)
            .truth("blank", true)
            .truth("behind_damage", behind);
        self.results.add(&blank.end())
    }

    fn skipped(&mut self, skipped: &Skipped) -> Result<(), Failure> {
        self.passed.add(skipped);
        if !self.results.is_text() {
            return self.results.add(&record::skipped_object(skipped));
        }
        writeln!(self.results.text(), "{}", record::skipped_line(skipped))?;
        Ok(())
    }

    fn end(&mut self, log: &Log, end: &End, cut: bool, hints: &[String]) -> Result<(), Failure> {
        let sentence = match cut {
            true => String::from("cut at --limit"),
            false => end.reason(),
        };
        let tail = Object::new()
            .number("stop", end.answer.number().into())
            .text("sentence", &sentence)
            .number("end", end.position.0)
            .truth("more", cut)
            .number("damaged_parts", self.passed.damaged.count)
            .number("damaged_bytes", self.passed.damaged.bytes)
            .raw("hints", &strings(hints))
            .raw("limits", &strings(&log.limits))
            .raw("faults", &strings(&log.faults));
        if self.results.is_text() {
            let text = self.results.text();
            match cut {
                true => writeln!(text, "stop limit")?,
                false => writeln!(text, "stop {}", end.answer.number())?,
            }
        }
        self.results.end(tail)
    }

    fn tell(&self) {
        let passed = &self.passed;
        for (what, parts) in [
            ("passed over", &passed.damaged),
            ("left out", &passed.left_out),
        ] {
            if let Some(sentence) = parts.sentence() {
                note(&format!("{what}: {sentence}"));
            }
        }
    }
}
