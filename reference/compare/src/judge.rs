//! What archive and model left, compared; and how a difference is said.

use std::fmt::Display;
use std::panic::{catch_unwind, AssertUnwindSafe};

use crate::lent::{Cell, Lent};
use crate::operations::Operation;

/// Where archive and model part.
#[derive(Debug)]
pub struct Difference {
    pub operation: Operation,
    /// The number of the operation in its scenario, from 1.
    pub number: u64,
    pub call: String,
    pub field: String,
    /// Both sides and what they have there.
    pub sides: [(&'static str, String); 2],
    pub note: Option<String>,
}

pub type Check<T> = Result<T, Box<Difference>>;

/// The sides of most differences.
pub const ARCHIVE_AND_MODEL: [&str; 2] = ["archive", "model"];

/// Names the call at hand in a difference.
pub struct Judge<'a> {
    pub operation: Operation,
    pub number: u64,
    pub sides: [&'static str; 2],
    pub call: &'a dyn Fn() -> String,
}

impl Judge<'_> {
    pub fn difference<T>(
        &self,
        field: &str,
        archive: impl Display,
        model: impl Display,
    ) -> Check<T> {
        Err(Box::new(Difference {
            operation: self.operation,
            number: self.number,
            call: (self.call)(),
            field: field.to_string(),
            sides: [
                (self.sides[0], archive.to_string()),
                (self.sides[1], model.to_string()),
            ],
            note: None,
        }))
    }

    pub fn same<T: PartialEq + Display>(&self, field: &str, archive: T, model: T) -> Check<()> {
        if archive == model {
            Ok(())
        } else {
            self.difference(field, archive, model)
        }
    }

    pub fn same_cells<T: Cell>(&self, field: &str, archive: &Lent<T>, model: &[T]) -> Check<()> {
        self.same_named(archive, model, |place| format!("{field}[{place}]"))?;
        self.guards_kept(field, archive)
    }

    /// A struct, whose members have names.
    pub fn same_members(
        &self,
        field: &str,
        members: &[&str],
        archive: &Lent<u64>,
        model: &[u64],
    ) -> Check<()> {
        assert_eq!(members.len(), model.len(), "a name for each member");
        self.same_named(archive, model, |place| {
            format!("{field}.{}", members[place])
        })?;
        self.guards_kept(field, archive)
    }

    fn same_named<T: Cell>(
        &self,
        archive: &Lent<T>,
        model: &[T],
        name: impl Fn(usize) -> String,
    ) -> Check<()> {
        let content = archive.content();
        if content == model {
            return Ok(());
        }
        let place = content
            .iter()
            .zip(model)
            .position(|(archive, model)| archive != model)
            .expect("both are of one length");
        self.difference(&name(place), content[place], model[place])
    }

    fn guards_kept<T: Cell>(&self, field: &str, archive: &Lent<T>) -> Check<()> {
        if archive.guards_kept() {
            Ok(())
        } else {
            self.difference(field, "wrote outside of it", "its guards")
        }
    }

    /// What the model gives; its panic is a difference.
    pub fn model<T>(&self, call: impl FnOnce() -> T) -> Check<T> {
        match catch_unwind(AssertUnwindSafe(call)) {
            Ok(given) => Ok(given),
            Err(_) => self.difference("answer", "given", "the model panicked"),
        }
    }
}

/// Bytes as text, cut where they are many.
pub fn shown(bytes: &[u8]) -> String {
    let text = bytes.escape_ascii().to_string();
    if text.len() <= 200 {
        format!("\"{text}\"")
    } else {
        format!("\"{}\".. ({} bytes)", &text[..200], bytes.len())
    }
}
