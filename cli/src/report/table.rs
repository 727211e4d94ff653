//! A report as text.

use super::{both, share, types, Report};
use crate::text::{counted, grouped, shown};
use crate::time;
use std::io::{self, Write};

/// The longest bar of an hour.
const BAR: u64 = 40;

pub fn print(report: &Report, out: &mut impl Write) -> io::Result<()> {
    figures(report, out)?;
    by_type(report, out)?;
    by_queue(report, out)?;
    by_hour(report, out)?;
    ending(report, out)
}

fn figures(report: &Report, out: &mut impl Write) -> io::Result<()> {
    let total = &report.tally.total;
    let named = [
        ("records", total.records),
        ("blanks", total.blanks),
        ("body bytes", total.body_bytes),
        ("smallest record", total.smallest),
        ("largest record", total.largest),
        ("index items", total.items),
    ];
    let named = named.map(|(name, number)| (name, grouped(number)));
    let width = named.iter().map(|(_, number)| number.len()).max();
    let width = width.unwrap_or_default();
    for (name, number) in named {
        writeln!(out, "{name:15}  {number:>width$}")?;
    }
    Ok(())
}

fn by_type(report: &Report, out: &mut impl Write) -> io::Result<()> {
    let total = &report.tally.total;
    let mut lines = vec![["records", "share", "type"].map(String::from)];
    for (name, records) in types(total) {
        let share = share(records, total.records);
        lines.push([grouped(records), share, String::from(name)]);
    }
    columns(&lines, out)
}

fn by_queue(report: &Report, out: &mut impl Write) -> io::Result<()> {
    let total = &report.tally.total;
    let share = |records| share(records, total.records);
    let mut lines = vec![["records", "share", "queue", "topic"].map(String::from)];
    for (queue, records) in &report.tally.queues {
        let (id, topic) = (queue.id.to_string(), shown(&queue.topic));
        lines.push([grouped(*records), share(*records), id, topic]);
    }
    let (number, share) = (grouped(total.unlisted), share(total.unlisted));
    let others = String::from("queues that are not listed");
    lines.push([number, share, String::from("-"), others]);
    columns(&lines, out)
}

fn by_hour(report: &Report, out: &mut impl Write) -> io::Result<()> {
    let hours = &report.tally.hours;
    let most = hours.values().map(|figures| figures.records).max();
    let most = most.unwrap_or_default();
    let mut lines = vec![["records", "body bytes", "hour"].map(String::from)];
    for (without, hour, figures) in report.tally.hours_in_order() {
        if without > 0 {
            let without = counted(without, "hour", "hours");
            let line = format!("({without} without a record)");
            lines.push([String::new(), String::new(), line]);
        }
        let (records, bytes) = (figures.records, figures.body_bytes);
        let bar = "#".repeat((records * BAR).div_ceil(most) as usize);
        let line = format!("{}  {bar}", time::shown_hour(hour));
        lines.push([grouped(records), grouped(bytes), line]);
    }
    columns(&lines, out)
}

fn ending(report: &Report, out: &mut impl Write) -> io::Result<()> {
    let (tally, end) = (&report.tally, &report.tally.end);
    writeln!(out)?;
    if report.has_limit() {
        let [from, to] = report.asked();
        writeln!(out, "asked     from {from} to {to}")?;
    }
    if let Some(reach) = &tally.reach {
        let (from, to) = (both(reach.times.0), both(reach.times.1));
        writeln!(out, "stored    from {from} to {to}")?;
        let (first, last) = (reach.records.0 .0, reach.records.1 .0);
        writeln!(
            out,
            "counted   first the record at {first}, last the one at {last}"
        )?;
    }
    let (from, to, stop) = (report.from.0, end.position.0, end.answer.number());
    writeln!(out, "read      from {from} to {to}")?;
    writeln!(out, "stop      {stop}: the log {}", end.sentence())
}

/// Lines below a heading, with an empty line before them. What is in the last column may be of any width.
fn columns<const N: usize>(lines: &[[String; N]], out: &mut impl Write) -> io::Result<()> {
    let mut widths = [0; N];
    for line in lines {
        for (width, cell) in widths.iter_mut().zip(line) {
            *width = cell.len().max(*width);
        }
    }
    writeln!(out)?;
    for line in lines {
        let (last, cells) = line.split_last().expect("a column is there");
        for (cell, width) in cells.iter().zip(widths) {
            write!(out, "{cell:>width$}  ")?;
        }
        writeln!(out, "{last}")?;
    }
    Ok(())
}
