//! What a check says: findings, what is missing, what to do next; for people and for machines.

use crate::args::Args;
use crate::failure::Failure;
use crate::out;
use crate::text::{array, string, Object};
use std::io::{self, Write};

/// What a finding means.
#[derive(Clone, Copy, PartialEq, Eq)]
pub enum Weight {
    Sound,
    /// Nothing is wrong with the store, but this tool goes no further.
    Limit,
    Fault,
}

/// One thing that was looked at. Its kind and the names of its values stay the same; its sentence is for people.
pub struct Finding {
    pub part: &'static str,
    kind: &'static str,
    pub weight: Weight,
    sentence: String,
    /// Names, and values in JSON.
    values: Vec<(&'static str, String)>,
}

pub fn sound(part: &'static str, kind: &'static str, sentence: String) -> Finding {
    Finding::new(Weight::Sound, part, kind, sentence)
}

pub fn limit(kind: &'static str, sentence: String) -> Finding {
    Finding::new(Weight::Limit, "limit", kind, sentence)
}

pub fn fault(part: &'static str, kind: &'static str, sentence: String) -> Finding {
    Finding::new(Weight::Fault, part, kind, sentence)
}

/// What the log gives and is not there.
pub fn missing(kind: &'static str, sentence: String) -> Finding {
    Finding::new(Weight::Fault, "missing", kind, sentence)
}

impl Finding {
    fn new(weight: Weight, part: &'static str, kind: &'static str, sentence: String) -> Finding {
        Finding {
            part,
            kind,
            weight,
            sentence,
            values: Vec::new(),
        }
    }

    pub fn number(mut self, name: &'static str, value: u64) -> Finding {
        self.values.push((name, value.to_string()));
        self
    }

    /// A bit pattern of Java's, as Java's number.
    pub fn signed(mut self, name: &'static str, value: u64) -> Finding {
        self.values.push((name, (value as i64).to_string()));
        self
    }

    pub fn text(mut self, name: &'static str, value: &str) -> Finding {
        self.values.push((name, string(value)));
        self
    }

    pub fn bytes(mut self, name: &'static str, value: &[u8]) -> Finding {
        self.values.push((name, crate::text::of_bytes(value)));
        self
    }

    /// A value that is JSON already.
    pub fn raw(mut self, name: &'static str, value: String) -> Finding {
        self.values.push((name, value));
        self
    }

    fn object(&self) -> String {
        let object = Object::new()
            .text("part", self.part)
            .text("kind", self.kind)
            .truth("sound", self.weight != Weight::Fault)
            .truth("limit", self.weight == Weight::Limit);
        let values = self.values.iter();
        let object = values.fold(object, |object, (name, value)| object.raw(name, value));
        object.text("sentence", &self.sentence).end()
    }
}

/// Something to do.
#[derive(PartialEq, Eq)]
pub struct Next {
    sentence: String,
    command: Option<String>,
}

impl Next {
    fn object(&self) -> String {
        let object = Object::new().text("part", "next");
        let object = object.text("sentence", &self.sentence);
        match &self.command {
            Some(command) => object.text("command", command).end(),
            None => object.end(),
        }
    }
}

#[derive(Default)]
pub struct Report {
    findings: Vec<Finding>,
    next: Vec<Next>,
}

impl Report {
    pub fn add(&mut self, finding: Finding) {
        self.findings.push(finding);
    }

    pub fn sound(&self) -> bool {
        let mut findings = self.findings.iter();
        findings.all(|finding| finding.weight != Weight::Fault)
    }

    /// Whether queues and index are as the log gives them.
    pub fn results_sound(&self) -> bool {
        let mut findings = self.findings.iter();
        findings.all(|finding| {
            finding.weight != Weight::Fault
                || !["queues", "index", "missing"].contains(&finding.part)
        })
    }

    /// Whether a limit of this tool was met.
    pub fn limited(&self) -> bool {
        let mut findings = self.findings.iter();
        findings.any(|finding| finding.weight == Weight::Limit)
    }

    pub fn advises(&self) -> bool {
        !self.next.is_empty()
    }

    pub fn advise(&mut self, sentence: impl Into<String>) {
        self.push(Next {
            sentence: sentence.into(),
            command: None,
        });
    }

    pub fn advise_command(&mut self, what: &str, command: String) {
        self.push(Next {
            sentence: String::from(what),
            command: Some(command),
        });
    }

    fn push(&mut self, next: Next) {
        if !self.next.contains(&next) {
            self.next.push(next);
        }
    }

    pub fn print(&self, args: &Args) -> Result<(), Failure> {
        let mut out = out();
        if args.flag("--jsonl") {
            self.print_lines(&mut out)?;
        } else if args.flag("--json") {
            self.print_object(&mut out)?;
        } else {
            self.print_text(&mut out)?;
        }
        out.flush()?;
        Ok(())
    }

    /// What was found, and what is missing.
    fn parts(&self) -> (Vec<&Finding>, Vec<&Finding>) {
        let is_found = |finding: &&Finding| finding.part != "missing";
        self.findings.iter().partition(is_found)
    }

    fn print_lines(&self, out: &mut impl Write) -> io::Result<()> {
        for finding in &self.findings {
            writeln!(out, "{}", finding.object())?;
        }
        for next in &self.next {
            writeln!(out, "{}", next.object())?;
        }
        let end = Object::new().truth("summary", true);
        let end = end.truth("sound", self.sound());
        writeln!(out, "{}", end.truth("limited", self.limited()).end())
    }

    fn print_object(&self, out: &mut impl Write) -> io::Result<()> {
        let (found, missing) = self.parts();
        let objects = |findings: &[&Finding]| {
            let objects: Vec<String> = findings.iter().map(|one| one.object()).collect();
            array(&objects)
        };
        let next: Vec<String> = self.next.iter().map(Next::object).collect();
        let object = Object::new()
            .truth("sound", self.sound())
            .truth("limited", self.limited())
            .raw("findings", &objects(&found))
            .raw("missing", &objects(&missing))
            .raw("next", &array(&next));
        writeln!(out, "{}", object.end())
    }

    fn print_text(&self, out: &mut impl Write) -> io::Result<()> {
        let (found, missing) = self.parts();
        for finding in found.iter().chain(&missing) {
            let mark = match finding.weight {
                Weight::Fault => "! ",
                _ => "  ",
            };
            writeln!(out, "{mark}{:8} {}", finding.part, finding.sentence)?;
        }
        for next in &self.next {
            let command = next.command.as_ref();
            let command = command.map_or(String::new(), |command| format!(": {command}"));
            writeln!(out, "  next     {}{command}", next.sentence)?;
        }
        Ok(())
    }
}
