//! `swistopal report`: a shift in figures, from the log alone.

mod bars;
mod columns;
mod page;
mod rows;
mod scale;
mod svg;
mod table;
mod tally;

use crate::args::Args;
use crate::failure::{Failure, Outcome};
use crate::log::{self, Log};
use crate::text::{array, shown_path, strings, Object};
use crate::time::{self, HOUR};
use crate::wanted::{seconds, Wanted};
use crate::whole::write_new;
use crate::{out, queues, shell};
use std::io::Write;
use std::path::Path;
use swistopal::{Figures, LogPosition};
use tally::{Reach, Tally};

const FROM: &str = "--from-time";
const TO: &str = "--to-time";
/// What JSON has no value for where no record counts.
const NO_REACH: [&str; 6] = [
    "first_time",
    "first_time_rfc3339",
    "last_time",
    "last_time_rfc3339",
    "first_record",
    "last_record",
];

pub fn run(args: &Args) -> Result<Outcome, Failure> {
    let named = match args.value("--queues") {
        Some(path) => Some(queues::read_list(Path::new(path))?),
        None => None,
    };
    let mut wanted = Wanted::of(args, FROM, TO)?;
    let page = args.value("--html").map(Path::new);
    page.map_or(Ok(()), |path| page::judge_place(path, args.place()))?;
    let log = Log::open(args)?;
    let tally = tally::count(&log, &mut wanted, named)?;
    let report = Report {
        place: shown_path(args.place()),
        from: log.first(),
        wanted: wanted.times,
        hints: hints(args, &log, &wanted, &tally),
        tally,
        limits: log.limits,
        faults: log.faults,
    };
    // First the file, then the table: nobody may be reading it.
    let written = page.map(|path| write_new(path, page::page(&report).as_bytes()));
    let printed = report.print(args.flag("--json"));
    log::tell(&report.said());
    written.unwrap_or(Ok(()))?;
    printed?;
    Ok(match report.is_sound() {
        true => Outcome::Sound,
        false => Outcome::Fault,
    })
}

/// What may help, and what to do next. Nothing of it loses anything.
fn hints(args: &Args, log: &Log, wanted: &Wanted, tally: &Tally) -> Vec<String> {
    let (from, to) = (log.first().0, tally.end.position.0);
    let mut hints = seconds(args, &[FROM, TO]);
    if tally.total.records == 0 {
        hints.push(match wanted.takes_all() {
            true => format!("the log has no record from {from} to {to}"),
            false => String::from("no record was stored in this range"),
        });
    }
    let place = match tally.stopped || args.value("--end").is_some() {
        true => format!("the log from {from} to {to}"),
        false => String::from("the log"),
    };
    hints.extend(wanted.hints(&place));
    if tally.stopped || !log.faults.is_empty() {
        let call = shell::call(args, "check", &["--segment-size", "--end"]);
        let next = || format!("the figures go up to {to}; next: {call}");
        hints.push(log.end_inside(&tally.end).unwrap_or_else(next));
    }
    hints
}

/// What was counted, and what there is to say about it.
struct Report {
    place: String,
    /// Where the log starts.
    from: LogPosition,
    /// First and last time that were asked for.
    wanted: (u64, u64),
    tally: Tally,
    hints: Vec<String>,
    limits: Vec<String>,
    faults: Vec<String>,
}

/// Records by their transaction type.
fn types(figures: &Figures) -> [(&'static str, u64); 4] {
    [
        ("none", figures.none),
        ("prepared", figures.prepared),
        ("commit", figures.commit),
        ("rollback", figures.rollback),
    ]
}

/// A time for people, and in milliseconds.
fn both(time: u64) -> String {
    format!("{} ({time})", time::shown(time))
}

/// A part of a whole in percent, with one place behind the point.
fn share(part: u64, whole: u64) -> String {
    let thousandths = (part * 2000 / whole.max(1)).div_ceil(2);
    format!("{}.{} %", thousandths / 10, thousandths % 10)
}

impl Report {
    fn is_sound(&self) -> bool {
        self.tally.end.sound() && self.faults.is_empty()
    }

    /// Whether times were asked for.
    fn has_limit(&self) -> bool {
        self.wanted != (0, time::LAST)
    }

    /// First and last time that were asked for.
    fn asked(&self) -> [String; 2] {
        let (first, last) = self.wanted;
        [(first, 0), (last, time::LAST)].map(|(time, limit)| match time == limit {
            true => format!("no limit ({time})"),
            false => both(time),
        })
    }

    /// How the log ends if not soundly, what may help, what was left out, and what the log lacks.
    fn said(&self) -> Vec<String> {
        let (end, left_out) = (&self.tally.end, &self.tally.passed.left_out);
        let stop = (!end.sound()).then(|| format!("the log {}", end.sentence()));
        let left_out = left_out.sentence().map(|part| format!("left out: {part}"));
        let said = stop.into_iter().chain(self.hints.clone()).chain(left_out);
        let lacks = [&self.faults[..], &self.limits[..]].concat();
        said.chain(lacks).collect()
    }

    fn print(&self, json: bool) -> Result<(), Failure> {
        let mut out = out();
        match json {
            true => writeln!(out, "{}", self.object())?,
            false => table::print(self, &mut out)?,
        }
        out.flush()?;
        Ok(())
    }

    fn object(&self) -> String {
        let (tally, total) = (&self.tally, &self.tally.total);
        let types = types(total).into_iter();
        let types = types.fold(Object::new(), |all, (name, records)| {
            all.number(name, records)
        });
        let queues = tally.queues.iter().map(|(queue, records)| {
            let object = Object::new().bytes("topic", &queue.topic);
            let object = object.number("queue", queue.id.into());
            object.number("records", *records).end()
        });
        let hours = tally.hours.iter().map(|(hour, figures)| {
            let object = Object::new().time("hour", hour * HOUR);
            let object = object.number("records", figures.records);
            let object = object.number("body_bytes", figures.body_bytes);
            object.number("items", figures.items).end()
        });
        let object = Object::new()
            .time("from_time", self.wanted.0)
            .time("to_time", self.wanted.1)
            .number("records", total.records)
            .number("blanks", total.blanks)
            .number("body_bytes", total.body_bytes)
            .number("smallest", total.smallest)
            .number("largest", total.largest)
            .number("items", total.items)
            .raw("types", &types.end())
            .raw("queues", &array(&queues.collect::<Vec<_>>()))
            .number("unlisted", total.unlisted)
            .raw("hours", &array(&hours.collect::<Vec<_>>()));
        object.and(&self.ending()).end()
    }

    /// The part of it that tells what was read.
    fn ending(&self) -> Object {
        let (end, passed) = (&self.tally.end, &self.tally.passed);
        let object = Object::new();
        let object = match &self.tally.reach {
            Some(Reach { times, records }) => object
                .time("first_time", times.0)
                .time("last_time", times.1)
                .number("first_record", records.0 .0)
                .number("last_record", records.1 .0),
            None => NO_REACH
                .iter()
                .fold(object, |all, name| all.raw(name, "null")),
        };
        object
            .number("start", self.from.0)
            .number("end", end.position.0)
            .number("stop", end.answer.number().into())
            .text("sentence", &end.reason())
            .number("long_hosts", passed.left_out.long_hosts)
            .raw("hints", &strings(&self.hints))
            .raw("limits", &strings(&self.limits))
            .raw("faults", &strings(&self.faults))
    }
}

#[cfg(test)]
mod tests {
    use super::share;

    #[test]
    fn shares_are_rounded() {
        for (part, whole, text) in [
            (0, 0, "0.0 %"),
            (1, 3, "33.3 %"),
            (2, 3, "66.7 %"),
            (1, 2000, "0.1 %"),
            (1, 2001, "0.0 %"),
            (11_951_325_042, 11_951_325_042, "100.0 %"),
        ] {
            assert_eq!(share(part, whole), text, "{part} of {whole}");
        }
    }
}
