//! Times the archive behind the C interface against fast plain Rust that does the same with the same checks. The sides
//! run in turn on the same buffers; answers, numbers and bytes are compared before a job is timed.

// The lister and most of the small functions are not timed.
#[allow(dead_code)]
#[path = "../../../bindings/rust/src/archive.rs"]
mod archive;
mod data;
mod effort;
mod jobs;
mod plain;
mod report;
mod store;
mod timing;

use effort::Effort;
use std::process::ExitCode;

struct Arguments {
    short: bool,
    only: Option<String>,
}

fn usage() -> String {
    let names: Vec<&str> = jobs::names().collect();
    format!("usage: bench [--short] [--only {}]", names.join("|"))
}

fn arguments() -> Option<Arguments> {
    let mut arguments = Arguments {
        short: false,
        only: None,
    };
    let mut given = std::env::args().skip(1);
    while let Some(name) = given.next() {
        match name.as_str() {
            "--short" => arguments.short = true,
            "--only" => arguments.only = Some(given.next().filter(|job| jobs::is_name(job))?),
            _ => return None,
        }
    }
    Some(arguments)
}

fn main() -> ExitCode {
    let Some(arguments) = arguments() else {
        eprintln!("{}", usage());
        return ExitCode::from(2);
    };
    let effort = Effort {
        short: arguments.short,
    };
    jobs::run(effort, arguments.only.as_deref());
    ExitCode::SUCCESS
}
