//! Files that are there whole or not at all.

use crate::failure::{usage, At, Failure};
use crate::text::shown_path;
use std::fs::{self, File};
use std::io::{self, Write};
use std::path::{Path, PathBuf};
use std::process;

/// Whatever it is; a link that leads nowhere too.
pub fn is_there(path: &Path) -> bool {
    path.symlink_metadata().is_ok()
}

/// Writes a file of the tool's own, in place of one that may be there.
pub fn write_whole(path: &Path, bytes: &[u8]) -> Result<(), Failure> {
    let part = path.with_extension("part");
    let file = File::create(&part).at("create", &part)?;
    fill(file, &part, bytes)?;
    put_in_place(&part, path)
}

/// Writes a file where none is. Neither it nor the part of it that is written first replaces anything.
pub fn write_new(path: &Path, bytes: &[u8]) -> Result<(), Failure> {
    let part = part_of(path);
    let file = File::create_new(&part).at("create", &part)?;
    let placed = fill(file, &part, bytes)
        .and_then(|()| refuse_existing(path))
        .and_then(|()| put_in_place(&part, path));
    if placed.is_err() {
        // What went wrong first is told.
        let _ = fs::remove_file(&part);
    }
    placed
}

/// A new file is wanted.
pub fn refuse_existing(path: &Path) -> Result<(), Failure> {
    match is_there(path) {
        true => usage(format!(
            "{}: it is there already, and nothing is written over; name another file",
            shown_path(path)
        )),
        false => Ok(()),
    }
}

/// A name beside a file's that nobody else takes.
fn part_of(path: &Path) -> PathBuf {
    let mut name = path.file_name().unwrap_or_default().to_os_string();
    name.push(format!(".{}.part", process::id()));
    path.with_file_name(name)
}

fn fill(mut file: File, path: &Path, bytes: &[u8]) -> Result<(), Failure> {
    let written = file.write_all(bytes).and_then(|()| file.sync_all());
    written.at("write", path)
}

fn put_in_place(part: &Path, path: &Path) -> Result<(), Failure> {
    fs::rename(part, path).at("rename", part)?;
    sync_folder(folder_of(path))
}

/// A name alone is one in the folder where the tool was called.
pub fn folder_of(path: &Path) -> &Path {
    let parent = path.parent().filter(|parent| *parent != Path::new(""));
    parent.unwrap_or(Path::new("."))
}

/// Waits until the disk has a folder's names. Some file systems know no such wait for folders.
pub fn sync_folder(folder: &Path) -> Result<(), Failure> {
    match File::open(folder).and_then(|folder| folder.sync_all()) {
        Err(error) if error.kind() == io::ErrorKind::InvalidInput => Ok(()),
        synced => synced.at("write", folder),
    }
}
