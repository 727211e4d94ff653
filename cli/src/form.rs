//! How results are written: as text, as one JSON object, or as JSON Lines.

use crate::args::Args;
use crate::failure::{usage, Failure};
use crate::text::Object;
use std::io::{BufWriter, StdoutLock, Write};

#[derive(Clone, Copy, PartialEq, Eq)]
pub enum Form {
    Text,
    Json,
    JsonLines,
}

impl Form {
    pub fn of(args: &Args) -> Result<Form, Failure> {
        match (args.flag("--json"), args.flag("--jsonl")) {
            (true, true) => usage("--json and --jsonl: one of them is enough"),
            (true, false) => Ok(Form::Json),
            (false, true) => Ok(Form::JsonLines),
            (false, false) => Ok(Form::Text),
        }
    }
}

/// Results one after the other. As JSON they are a list in one object; as JSON Lines each has a line, and the last line has
/// what else the object would have. Text is written as it comes.
pub struct Results {
    out: BufWriter<StdoutLock<'static>>,
    form: Form,
    head: Object,
    first: bool,
}

impl Results {
    /// `head` has the fields before the list.
    pub fn start(form: Form, head: Object, list: &str) -> Result<Results, Failure> {
        let mut results = Results {
            out: crate::out(),
            form,
            head,
            first: true,
        };
        if form == Form::Json {
            let start = results.head.clone().raw(list, "[");
            write!(results.out, "{}", start.unclosed())?;
        }
        Ok(results)
    }

    pub fn is_text(&self) -> bool {
        self.form == Form::Text
    }

    pub fn text(&mut self) -> &mut impl Write {
        &mut self.out
    }

    pub fn add(&mut self, object: &str) -> Result<(), Failure> {
        match self.form {
            Form::JsonLines => writeln!(self.out, "{object}")?,
            _ if self.first => write!(self.out, "\n{object}")?,
            _ => write!(self.out, ",\n{object}")?,
        }
        self.first = false;
        Ok(())
    }

    /// `tail` has the fields behind the list.
    pub fn end(&mut self, tail: Object) -> Result<(), Failure> {
        match self.form {
            Form::Text => {}
            Form::Json => writeln!(self.out, "\n],{}", &tail.end()[1..])?,
            Form::JsonLines => {
                let last = Object::new().truth("summary", true);
                let last = last.and(&self.head).and(&tail);
                writeln!(self.out, "{}", last.end())?
            }
        }
        self.out.flush()?;
        Ok(())
    }
}
