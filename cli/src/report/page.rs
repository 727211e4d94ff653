//! A report as one page of its own, with tables and plots. It asks for nothing that is not in it.

use super::bars::{self, Bar};
use super::columns::Columns;
use super::scale::Unit;
use super::svg::About;
use super::tally::Reach;
use super::{both, share, types, Report};
use crate::failure::{usage, Failure};
use crate::text::{counted, grouped, html, shown, shown_path};
use crate::time;
use crate::whole::{folder_of, refuse_existing};
use std::os::unix::ffi::OsStrExt;
use std::path::Path;
use swistopal::Figures;

const STYLE: &str = include_str!("page.css");
/// Bars of queues at most.
const MOST_BARS: usize = 20;
const UNLISTED: &str = "queues that are not listed";
/// Folders of a store that only a broker and a rebuild write to.
const STORE: [&str; 3] = ["commitlog", "consumequeue", "index"];

/// Whether a page may be written to a file. It is asked before the log is read, as that may take long.
pub fn judge_place(path: &Path, store: &Path) -> Result<(), Failure> {
    refuse_existing(path)?;
    let shown = shown_path(path);
    if path.file_name().is_none() || path.as_os_str().as_bytes().ends_with(b"/") {
        return usage(format!("--html {shown}: a file's name is needed"));
    }
    let folder = folder_of(path).canonicalize().ok();
    let Some(folder) = folder.filter(|folder| folder.is_dir()) else {
        return usage(format!("--html {shown}: there is no such folder"));
    };
    let own = STORE.iter().map(|name| store.join(name).canonicalize());
    let mut own = own.filter_map(Result::ok);
    match own.any(|own| folder.starts_with(own)) {
        true => usage(format!(
            "--html {shown}: nothing but the store's own files may be in this folder"
        )),
        false => Ok(()),
    }
}

/// The page's text.
pub fn page(report: &Report) -> String {
    let title = format!("Shift report: {}", report.place);
    let parts = [
        heading(report),
        said(report),
        figures(&report.tally.total),
        by_hour(report),
        by_type(&report.tally.total),
        by_queue(report),
        hours(report),
        reading(report),
    ];
    format!(
        "<!DOCTYPE html>\n<html lang=\"en\">\n<head>\n<meta charset=\"utf-8\">\n\
         <meta name=\"viewport\" content=\"width=device-width, initial-scale=1\">\n\
         <title>{}</title>\n<style>\n{STYLE}</style>\n</head>\n<body>\n<main>\n{}\
         <footer>swistopal {}: the figures are those of the commit log alone. Hours and times are UTC.</footer>\n\
         </main>\n</body>\n</html>\n",
        html(&title),
        parts.concat(),
        env!("CARGO_PKG_VERSION")
    )
}

fn heading(report: &Report) -> String {
    let place = html(&report.place);
    let span = match &report.tally.reach {
        Some(Reach {
            times: (first, last),
            ..
        }) => format!(
            "stored from {} to {}",
            time::shown(*first),
            time::shown(*last)
        ),
        None => String::from("no record"),
    };
    format!("<header>\n<h1>Shift report</h1>\n<p>{place}</p>\n<p>{span}</p>\n</header>\n")
}

fn said(report: &Report) -> String {
    let said = report.said().into_iter();
    let said: Vec<String> = said
        .map(|sentence| format!("<li>{}</li>\n", html(&sentence)))
        .collect();
    let (class, title) = match report.is_sound() {
        _ if said.is_empty() => return String::new(),
        true => ("said", "To know"),
        false => (
            "said fault",
            "The log has a fault: these figures are not all of it",
        ),
    };
    let said = said.concat();
    format!("<section class=\"{class}\">\n<h2>{title}</h2>\n<ul>\n{said}</ul>\n</section>\n")
}

fn figures(total: &Figures) -> String {
    let figures = [
        ("Records", "records", total.records),
        ("Body bytes", "body_bytes", total.body_bytes),
        ("Index items", "items", total.items),
        ("Smallest record, bytes", "smallest", total.smallest),
        ("Largest record, bytes", "largest", total.largest),
        ("Blanks", "blanks", total.blanks),
    ];
    let figures = figures.map(|(title, name, number)| {
        let number = grouped(number);
        format!("<div><dt>{title}</dt><dd data-figure=\"{name}\">{number}</dd></div>\n")
    });
    let figures = figures.concat();
    section(
        "Figures",
        &format!("<dl class=\"figures\">\n{figures}</dl>\n"),
    )
}

fn by_hour(report: &Report) -> String {
    let plots = [
        (
            "records",
            "Records",
            Unit::Records,
            (|hour| hour.records) as fn(&Figures) -> u64,
        ),
        ("bytes", "Body bytes", Unit::Bytes, |hour| hour.body_bytes),
    ];
    let hours = &report.tally.hours;
    let plots = plots.map(|(id, what, unit, value)| {
        let values: Vec<(u64, u64)> = hours.iter().map(|(hour, of)| (*hour, value(of))).collect();
        let Some(columns) = Columns::of(&values) else {
            return String::new();
        };
        let title = format!("{what} per {}", columns.span());
        let about = About {
            id,
            title: &title,
            description: "A column for each; the numbers of each hour are in the table below.",
        };
        section(
            &title,
            &format!("<figure>\n{}</figure>\n", columns.svg(&about, unit)),
        )
    });
    plots.concat()
}

fn by_type(total: &Figures) -> String {
    let types = types(total);
    let about = About {
        id: "types",
        title: "Records by transaction type",
        description: "A bar for each type; its records are also in the table below.",
    };
    let bar = |(name, records)| bar(String::from(name), records, total.records);
    let svg = bars::svg(&about, &types.map(bar));
    let rows = types.map(|(name, records)| {
        let cells = numbers(records, total.records);
        format!("<tr data-type=\"{name}\"><th scope=\"row\">{name}</th>{cells}</tr>\n")
    });
    let caption = "Records of each transaction type";
    let table = table("types", caption, &["Type", "Records", "Share"], &rows);
    let content = format!("<figure>\n{svg}</figure>\n{table}");
    section("By transaction type", &content)
}

fn by_queue(report: &Report) -> String {
    let (tally, total) = (&report.tally, &report.tally.total);
    let mut rows: Vec<String> = tally
        .queues
        .iter()
        .map(|(queue, records)| {
            let (topic, id) = (html(&shown(&queue.topic)), queue.id);
            let cells = numbers(*records, total.records);
            format!(
                "<tr data-queue><th scope=\"row\">{topic}</th>\
                 <td class=\"number\" data-figure=\"queue\">{id}</td>{cells}</tr>\n"
            )
        })
        .collect();
    let cells = numbers(total.unlisted, total.records);
    rows.push(format!(
        "<tr data-unlisted><th scope=\"row\" colspan=\"2\">{UNLISTED}</th>{cells}</tr>\n"
    ));
    let plot = queue_plot(report);
    let caption = format!(
        "Records of each queue, {}",
        counted(tally.queues.len() as u64, "queue", "queues")
    );
    let headings = ["Topic", "Queue", "Records", "Share"];
    let table = table("queues", &caption, &headings, &rows);
    section("By queue", &format!("{plot}{table}"))
}

/// The queues with most records. The others have no bar, as all of them together would make the rest small.
fn queue_plot(report: &Report) -> String {
    let (tally, whole) = (&report.tally, report.tally.total.records);
    let mut sorted: Vec<(String, u64)> = tally
        .queues
        .iter()
        .map(|(queue, records)| (queue.shown(), *records))
        .collect();
    sorted.sort_by_key(|(_, records)| std::cmp::Reverse(*records));
    let rest = sorted.split_off(sorted.len().min(MOST_BARS));
    let about = About {
        id: "queues",
        title: "Records by queue",
        description: "A bar for each queue, most records first; all queues are in the table below.",
    };
    let most = sorted.into_iter();
    let most: Vec<Bar> = most.map(|(name, of)| bar(name, of, whole)).collect();
    let svg = bars::svg(&about, &most);
    let others = counted(rest.len() as u64, "other queue", "other queues");
    let others = (others, rest.iter().map(|(_, records)| records).sum());
    let unlisted = (String::from(UNLISTED), tally.total.unlisted);
    let without = [others, unlisted].into_iter();
    let without = without.filter(|(_, records)| *records > 0);
    let without: Vec<String> = without
        .map(|(name, records)| format!("{name} {}", label(records, whole)))
        .collect();
    let caption = match without.is_empty() {
        true => String::new(),
        false => format!(
            "<figcaption>Without a bar: {}</figcaption>\n",
            without.join("; ")
        ),
    };
    format!("<figure>\n{svg}{caption}</figure>\n")
}

fn hours(report: &Report) -> String {
    let mut rows = Vec::new();
    for (without, hour, figures) in report.tally.hours_in_order() {
        if without > 0 {
            let without = counted(without, "hour", "hours");
            rows.push(format!(
                "<tr class=\"gap\"><td colspan=\"4\">{without} without a record</td></tr>\n"
            ));
        }
        let cells = [
            ("records", figures.records),
            ("body_bytes", figures.body_bytes),
            ("items", figures.items),
        ];
        let cells = cells.map(|(name, number)| number_cell(name, number));
        let (start, shown) = (hour * time::HOUR, time::shown_hour(hour));
        let cells = cells.concat();
        rows.push(format!(
            "<tr data-hour=\"{start}\"><th scope=\"row\">{shown}</th>{cells}</tr>\n"
        ));
    }
    let caption = "Figures of each hour that has a record";
    let headings = ["Hour (UTC)", "Records", "Body bytes", "Index items"];
    let table = table("hours", caption, &headings, &rows);
    section("By hour", &table)
}

/// What was asked for and read, and how it ended.
fn reading(report: &Report) -> String {
    let (tally, end) = (&report.tally, &report.tally.end);
    let [from, to] = report.asked();
    let ended = format!("the log {}", end.sentence());
    let reach = tally.reach.map(|Reach { times, records }| {
        let (first, last) = (records.0 .0, records.1 .0);
        [
            both(times.0),
            both(times.1),
            first.to_string(),
            last.to_string(),
        ]
    });
    let nothing = || ["-"; 4].map(String::from);
    let [first_time, last_time, first, last] = reach.unwrap_or_else(nothing);
    let rows = [
        ("from_time", "Asked for, from", from),
        ("to_time", "Asked for, to", to),
        ("first_time", "First store time", first_time),
        ("last_time", "Last store time", last_time),
        ("first_record", "First record counted, position", first),
        ("last_record", "Last record counted, position", last),
        ("start", "Read from position", report.from.0.to_string()),
        ("end", "Read to position", end.position.0.to_string()),
        ("stop", "Answer at its end", end.answer.number().to_string()),
        ("sentence", "How it ended", ended),
    ];
    let rows = rows.map(|(name, title, text)| {
        let text = html(&text);
        format!("<tr><th scope=\"row\">{title}</th><td data-figure=\"{name}\">{text}</td></tr>\n")
    });
    let rows = rows.concat();
    let table = format!(
        "<table class=\"named\" data-table=\"reading\">\n<caption>Times and positions</caption>\n\
         <tbody>\n{rows}</tbody>\n</table>\n"
    );
    section("What was read", &table)
}

fn section(title: &str, content: &str) -> String {
    format!("<section>\n<h2>{title}</h2>\n{content}</section>\n")
}

/// The first column has words, the others numbers.
fn table(name: &str, caption: &str, headings: &[&str], rows: &[String]) -> String {
    let headings = headings.iter().enumerate().map(|(column, heading)| {
        let class = if column > 0 { " class=\"number\"" } else { "" };
        format!("<th scope=\"col\"{class}>{heading}</th>")
    });
    let (headings, rows) = (headings.collect::<String>(), rows.concat());
    format!(
        "<table data-table=\"{name}\">\n<caption>{caption}</caption>\n<thead>\n<tr>{headings}</tr>\n</thead>\n\
         <tbody>\n{rows}</tbody>\n</table>\n"
    )
}

fn number_cell(name: &str, number: u64) -> String {
    let number = grouped(number);
    format!("<td class=\"number\" data-figure=\"{name}\">{number}</td>")
}

/// Records, and their share of all.
fn numbers(records: u64, whole: u64) -> String {
    let (records, share) = (number_cell("records", records), share(records, whole));
    format!("{records}<td class=\"number\">{share}</td>")
}

fn bar(name: String, records: u64, whole: u64) -> Bar {
    Bar {
        name,
        value: records,
        label: label(records, whole),
    }
}

fn label(records: u64, whole: u64) -> String {
    format!("{} ({})", grouped(records), share(records, whole))
}
