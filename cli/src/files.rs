//! Files of queues and index: what stands in their place may be anything.

use crate::failure::Failure;
use crate::text::shown_path;
use std::fs::{self, File};
use std::io::{self, ErrorKind};
use std::os::unix::fs::FileTypeExt;
use std::path::{Path, PathBuf};

/// Why a file of the store is not looked into.
pub struct Refused {
    pub sentence: String,
    pub unfit: Unfit,
}

#[derive(Clone, Copy, PartialEq, Eq)]
pub enum Unfit {
    /// It cannot be read, or it is no file.
    Unreadable,
    /// Its bytes are none of such a file.
    Content,
    /// It is larger than this tool takes.
    Limit,
}

impl Refused {
    pub fn new(unfit: Unfit, sentence: String) -> Refused {
        Refused { sentence, unfit }
    }

    fn unreadable(doing: &str, path: &Path, error: io::Error) -> Refused {
        let sentence = format!("cannot {doing} {}: {error}", shown_path(path));
        Refused::new(Unfit::Unreadable, sentence)
    }

    fn no_file(path: &Path, what: &str) -> Refused {
        let sentence = format!("{}: {what}", shown_path(path));
        Refused::new(Unfit::Unreadable, sentence)
    }
}

impl From<Refused> for Failure {
    fn from(refused: Refused) -> Failure {
        Failure::Fault(refused.sentence)
    }
}

/// Opens a file for reading, and tells its length. Opening a pipe would wait for its writer.
pub fn open(path: &Path) -> Result<(File, u64), Refused> {
    let cannot = |error| Refused::unreadable("open", path, error);
    let kind = fs::metadata(path).map_err(cannot)?.file_type();
    if !kind.is_file() {
        let what = if kind.is_dir() {
            "a folder"
        } else if kind.is_fifo() {
            "a pipe"
        } else {
            "something else"
        };
        let what = format!("{what} stands in the place of a file");
        return Err(Refused::no_file(path, &what));
    }
    let file = File::open(path).map_err(cannot)?;
    let length = file.metadata().map_err(cannot)?.len();
    Ok((file, length))
}

/// The paths in a folder, by name; none if it is not there.
pub fn within(folder: &Path) -> Result<Vec<PathBuf>, Refused> {
    let cannot = |error| Refused::unreadable("read", folder, error);
    match fs::symlink_metadata(folder) {
        Err(error) if error.kind() == ErrorKind::NotFound => return Ok(Vec::new()),
        found => found.map_err(cannot)?,
    };
    if !fs::metadata(folder).map_err(cannot)?.is_dir() {
        return Err(Refused::no_file(folder, "a folder should stand there"));
    }
    let mut paths = Vec::new();
    for entry in fs::read_dir(folder).map_err(cannot)? {
        paths.push(entry.map_err(cannot)?.path());
    }
    paths.sort();
    Ok(paths)
}
