//! `swistopal check`: what is sound, where it stops, what is missing, what to do next.
//!
//! Queues and index are compared with what the archive makes from the log in memory, so no rule is judged twice.

mod advice;
mod compared;
mod exact;
mod made;
mod maker;
mod merge;
mod reach;
mod report;
mod results;
mod sides;
mod survey;
mod tell;
mod tell_index;
mod tell_queues;

use crate::args::Args;
use crate::failure::{Failure, Outcome};
use crate::index::{Bytes, MOST_ITEMS, MOST_SLOTS};
use crate::log::Log;
use crate::plan::{self, Plan, Row};
use crate::queues::{Queue, MOST_ENTRIES};
use crate::work;
use advice::{Site, Standing};
use compared::Comparer;
use made::Made;
use reach::Reach;
use report::{fault, sound, Report};
use results::Results;
pub use survey::DELAYED;
use swistopal::{Answer, QueueOffset, Sizes};

pub fn run(args: &Args) -> Result<Outcome, Failure> {
    let store = args.place();
    let listed = plan::listed(args)?;
    let log = Log::open(args)?;
    let results = match store.is_file() {
        true => None,
        false => Some(Results::open(args)?),
    };
    let made = match &results {
        Some(results) => begin(&log, results, listed.as_deref())?,
        None => None,
    };
    let survey = survey::walk(&log, made, args.flag("--bodies"))?;
    let mut report = Report::default();
    tell::log(&log, &survey, &mut report);
    tell::bodies(&survey, &mut report);
    let site = Site::new(args, &log, &survey);
    tell::limits(&log, &survey, &mut report);
    match results {
        Some(results) => check_results(&site, &results, listed, &mut report)?,
        None => site.copies(&mut report),
    }
    if report.sound() && !report.advises() {
        report.advise(match report.limited() {
            true => "nothing: no fault was found; what was not compared is told above",
            false => "nothing: the store is sound",
        });
    }
    report.print(args)?;
    match report.sound() {
        true => Ok(Outcome::Sound),
        false => Ok(Outcome::Fault),
    }
}

/// What the archive is to make on the first walk: an index of the size of the one that is there. Nothing, if what is there
/// cannot be the same: several index files, or one that begins before the log.
fn begin(log: &Log, results: &Results, listed: Option<&[Queue]>) -> Result<Option<Made>, Failure> {
    let newest = results.indexes.last();
    let (slot_count, item_count) = newest.map_or((MOST_SLOTS, MOST_ITEMS), |index| {
        (index.sizes.slot_count, index.sizes.item_count)
    });
    let first = newest.and_then(|index| Bytes(&index.bytes).first_position());
    let older = first.is_some_and(|first| first < log.first().0);
    if older || results.indexes.len() > 1 || log.bytes().is_empty() {
        return Ok(None);
    }
    let start = QueueOffset(0);
    let rows = listed.unwrap_or_default().iter();
    let rows = rows.map(|queue| Row {
        queue: queue.clone(),
        start,
    });
    let plan = Plan {
        sizes: Sizes {
            queue_entries: MOST_ENTRIES,
            slot_count,
            item_count,
            ..log.sizes
        },
        index_name: String::new(),
        rows: rows.collect(),
    };
    Made::new(log, plan, listed.is_some()).map(Some)
}

fn check_results(
    site: &Site,
    results: &Results,
    listed: Option<Vec<Queue>>,
    report: &mut Report,
) -> Result<(), Failure> {
    let Site {
        args, log, survey, ..
    } = site;
    let reach = Reach::of(log, survey, args.value("--end").is_some());
    let comparer = Comparer {
        store: args.place(),
        log,
        survey,
        reach: &reach,
        results,
        listed,
    };
    let compared = comparer.compare()?;
    let listed = comparer.listed.as_deref();
    if let Some((position, answer)) = compared.refused {
        let (at, number) = (position.0, answer.number());
        let sentence = format!(
            "the record at {at}: the archive makes nothing of it, answer {number}: {answer}"
        );
        report.add(fault("queues", "record", sentence).number("position", at));
    }
    tell_queues::queues(&compared.sides, &reach, listed, report);
    if let Some(sentence) = &results.unreadable {
        report.add(fault("queues", "unreadable", sentence.clone()));
    }
    tell_index::index(&compared, results, &reach, report);
    let standing = Standing::of(&compared, results);
    site.copies(report);
    if !check_work(site, &standing, report)? {
        site.results(&standing, report);
    }
    Ok(())
}

/// Whether a rebuild is under way.
fn check_work(site: &Site, standing: &Standing, report: &mut Report) -> Result<bool, Failure> {
    let begun = match work::plan_under_way(site.args.place()) {
        Ok(None) => return Ok(false),
        Ok(Some(plan)) if plan.is_for(site.log) => Ok(plan),
        Ok(Some(_)) => Err(String::from(
            "one has begun with a log of another start or segment size",
        )),
        Err(Failure::Fault(sentence)) => Err(sentence),
        Err(other) => return Err(other),
    };
    match begun {
        Ok(plan) => {
            let mut made = Made::new(site.log, plan, true)?;
            made.go_on(site.log, site.sound_end());
            tell_begun(&made, report);
            site.begun(&made, standing, report);
        }
        Err(sentence) => {
            report.add(fault("rebuild", "damaged", sentence));
            site.restart(standing, report);
        }
    }
    Ok(true)
}

/// Whether the rebuild that is under way comes to its end.
fn tell_begun(made: &Made, report: &mut Report) {
    let position = made.progress.position.0;
    report.add(match made.stop {
        Answer::Done => sound(
            "rebuild",
            "begun",
            String::from("one has begun and not ended"),
        ),
        stop => fault(
            "rebuild",
            "stops",
            format!("one has begun and {}", made.stops()),
        )
        .number("position", position)
        .number("answer", u64::from(stop.number())),
    });
}
