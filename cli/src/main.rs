//! `swistopal`: looks into a RocketMQ store folder, and rebuilds its queues and its index from the commit log.
//!
//! The archive does all reading, rebuilding and searching. This program finds, maps and lends files.

mod args;
mod broker;
mod check;
mod crc;
mod demo;
mod failure;
mod files;
mod form;
mod help;
mod index;
mod journal;
mod list;
mod log;
mod loss;
mod map;
mod medium;
mod meter;
mod near;
mod plan;
mod query;
mod queue;
mod queues;
mod rebuild;
mod record;
mod report;
mod shell;
mod show;
mod text;
mod time;
mod wanted;
mod whole;
mod work;

use args::Args;
use failure::{usage, Failure, Outcome};
use std::env;
use std::ffi::OsString;
use std::io::{self, BufWriter, StdoutLock, Write};
use std::os::unix::ffi::OsStrExt;
use std::process::ExitCode;

struct Command {
    name: &'static str,
    help: &'static str,
    flags: &'static [&'static str],
    values: &'static [&'static str],
    run: fn(&Args) -> Result<Outcome, Failure>,
}

const COMMANDS: [Command; 8] = [
    Command {
        name: "demo",
        help: help::DEMO,
        flags: &[],
        values: &[],
        run: demo::run,
    },
    Command {
        name: "list",
        help: help::LIST,
        flags: &["--json", "--jsonl", "--long", "--resync"],
        values: &[
            "--from",
            "--limit",
            "--topic",
            "--from-time",
            "--to-time",
            "--segment-size",
            "--end",
        ],
        run: list::run,
    },
    Command {
        name: "report",
        help: help::REPORT,
        flags: &["--json"],
        values: &[
            "--from-time",
            "--to-time",
            "--queues",
            "--html",
            "--segment-size",
            "--end",
        ],
        run: report::run,
    },
    Command {
        name: "rebuild",
        help: help::REBUILD,
        flags: &[
            "--json",
            "--force",
            "--shorten",
            "--restart",
            "--after-crash",
        ],
        values: &[
            "--into",
            "--queues",
            "--budget",
            "--batch",
            "--entries",
            "--slots",
            "--items",
            "--segment-size",
            "--end",
        ],
        run: rebuild::run,
    },
    Command {
        name: "query",
        help: help::QUERY,
        flags: &["--json", "--jsonl", "--body", "--scan"],
        values: &[
            "--topic",
            "--key",
            "--unique-key",
            "--from",
            "--to",
            "--limit",
            "--slots",
            "--segment-size",
            "--end",
        ],
        run: query::run,
    },
    Command {
        name: "queue",
        help: help::QUEUE,
        flags: &["--json", "--jsonl", "--body"],
        values: &[
            "--topic",
            "--queue",
            "--start",
            "--limit",
            "--tag",
            "--segment-size",
            "--end",
        ],
        run: queue::run,
    },
    Command {
        name: "show",
        help: help::SHOW,
        flags: &["--json", "--raw"],
        values: &["--segment-size", "--end"],
        run: show::run,
    },
    Command {
        name: "check",
        help: help::CHECK,
        flags: &["--json", "--jsonl", "--bodies"],
        values: &["--queues", "--slots", "--items", "--segment-size", "--end"],
        run: check::run,
    },
];

/// Results; everything else goes to standard error.
fn out() -> BufWriter<StdoutLock<'static>> {
    BufWriter::with_capacity(1 << 16, io::stdout().lock())
}

/// Says something on standard error.
fn note(sentence: &str) {
    // If nobody listens, the results and the exit status still tell.
    let _ = writeln!(io::stderr(), "swistopal: {sentence}");
}

fn print(text: &str) -> Result<Outcome, Failure> {
    let mut out = out();
    out.write_all(text.as_bytes())?;
    out.flush()?;
    Ok(Outcome::Sound)
}

fn main() -> ExitCode {
    medium::ignore_size_signal();
    match run() {
        Ok(Outcome::Sound) | Err(Failure::Unread) => ExitCode::SUCCESS,
        Ok(Outcome::Fault) => ExitCode::from(1),
        Err(Failure::Fault(sentence)) => {
            note(&sentence);
            ExitCode::from(1)
        }
        Err(Failure::Usage(sentence)) => {
            note(&sentence);
            ExitCode::from(2)
        }
    }
}

fn run() -> Result<Outcome, Failure> {
    let mut words = env::args_os().skip(1);
    let Some(name) = words.next() else {
        return usage("which command? swistopal --help shows them");
    };
    let rest: Vec<OsString> = words.collect();
    if name == "--version" {
        return print(concat!("swistopal ", env!("CARGO_PKG_VERSION"), "\n"));
    }
    if name == "--help" || name == "-h" || name == "help" {
        let named = rest.first().and_then(|name| command(name));
        return print(named.map_or(help::ALL, |command| command.help));
    }
    let Some(command) = command(&name) else {
        return usage(format!(
            "no such command: {}; swistopal --help shows them",
            text::shown(name.as_bytes())
        ));
    };
    if rest.iter().any(|word| word == "--help" || word == "-h") {
        return print(command.help);
    }
    let second = (command.name == "show").then_some("position");
    let args = Args::parse(rest.into_iter(), command.flags, command.values, second);
    let args = args.map_err(|failure| match failure {
        Failure::Usage(sentence) => Failure::Usage(format!(
            "{sentence}; swistopal {} --help says more",
            command.name
        )),
        other => other,
    })?;
    // A rebuild refuses by itself, and the demo makes a new folder.
    if !["demo", "rebuild"].contains(&command.name) {
        broker::warn(args.place());
    }
    (command.run)(&args)
}

fn command(name: &std::ffi::OsStr) -> Option<&'static Command> {
    COMMANDS.iter().find(|command| name == command.name)
}
