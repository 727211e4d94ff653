//! The jobs that are timed.

mod append;
mod budget;
mod dispatch;
mod hash;
mod keys;
mod query;
mod queue;
mod read;
mod report;
mod text;

use crate::effort::Effort;
use crate::report as table;
use crate::report::{Point, Row};

/// What a job gives: rows with a ratio, or points of a series.
enum Job {
    Rows(fn(Effort, &mut dyn FnMut(Row))),
    Points(fn(Effort, &mut dyn FnMut(Point))),
}

/// Those with rows first, since each kind has its table.
const JOBS: [(&str, Job); 12] = [
    ("append", Job::Rows(append::run)),
    ("read", Job::Rows(read::run)),
    ("dispatch", Job::Rows(dispatch::run)),
    ("queue", Job::Rows(queue::run)),
    ("query", Job::Rows(query::run)),
    ("hash", Job::Rows(hash::run)),
    ("text", Job::Rows(text::run)),
    ("report", Job::Rows(report::run)),
    ("growth", Job::Points(dispatch::run_growth)),
    ("budget", Job::Points(budget::run)),
    ("keys", Job::Points(keys::run)),
    ("stretch", Job::Points(report::run_stretch)),
];

pub fn names() -> impl Iterator<Item = &'static str> {
    JOBS.iter().map(|(name, _)| *name)
}

pub fn is_name(name: &str) -> bool {
    names().any(|job| job == name)
}

/// All jobs, or the one that is named.
pub fn run(effort: Effort, only: Option<&str>) {
    let mut rows_started = false;
    let mut points_started = false;
    for (name, job) in &JOBS {
        if only.is_some_and(|only| only != *name) {
            continue;
        }
        say(name);
        match job {
            Job::Rows(run) => {
                if !std::mem::replace(&mut rows_started, true) {
                    table::start_rows();
                }
                run(effort, &mut |row| table::row(&row));
            }
            Job::Points(run) => {
                if !std::mem::replace(&mut points_started, true) {
                    table::start_points();
                }
                run(effort, &mut |point| table::point(&point));
            }
        }
    }
}

/// A line of progress.
fn say(what: &str) {
    eprintln!("bench: {what}");
}
