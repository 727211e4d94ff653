//! A broker that works on the store. RocketMQ locks the first byte of the store's file `lock` while it runs, and has a file
//! `abort` there from its start to an end in order.

use crate::failure::{usage, At, Failure};
use crate::map::lock_holder;
use crate::note;
use crate::text::shown_path;
use std::fs::{self, File, TryLockError};
use std::io;
use std::path::Path;

enum Broker {
    None,
    /// It holds the lock.
    Running(String),
    /// A file `abort` without a lock.
    Crashed(String),
}

/// Warns whoever reads a store that a broker may be writing.
pub fn warn(store: &Path) {
    match found(store) {
        Ok(Broker::None) => {}
        Ok(Broker::Running(sentence)) => note(&format!(
            "{sentence}: what it writes meanwhile may be told as a fault that is none; stop it, or work on a copy"
        )),
        Ok(Broker::Crashed(sentence)) => note(&sentence),
        Err(Failure::Usage(sentence) | Failure::Fault(sentence)) => note(&format!(
            "{sentence}: whether a broker is running cannot be told"
        )),
        Err(Failure::Unread) => {}
    }
}

/// Refuses to write where a broker is running, or may be.
pub fn refuse(store: &Path, after_crash: bool) -> Result<(), Failure> {
    match found(store)? {
        Broker::None => Ok(()),
        Broker::Running(sentence) => usage(format!(
            "{sentence}: stop it first, or rebuild a copy of the store"
        )),
        Broker::Crashed(_) if after_crash => Ok(()),
        Broker::Crashed(sentence) => usage(format!(
            "{sentence}; if it runs nowhere any more, --after-crash rebuilds all the same"
        )),
    }
}

fn found(store: &Path) -> Result<Broker, Failure> {
    let (lock, abort) = (store.join("lock"), store.join("abort"));
    if let Some(by) = holder(&lock)? {
        return Ok(Broker::Running(format!(
            "{}: a broker holds this lock{by}",
            shown_path(lock)
        )));
    }
    match fs::symlink_metadata(&abort) {
        Ok(_) => Ok(Broker::Crashed(format!(
            "{}: a broker writes it when it starts and removes it when it ends, but none holds the store's lock: it has \
             crashed, or this is a copy, or it runs on another machine",
            shown_path(abort)
        ))),
        Err(error) if absent(&error) => Ok(Broker::None),
        Err(error) => Err(error).at("read", &abort),
    }
}

/// Who holds a lock on a file, of either kind that Linux has. Asking for it takes none of a broker's kind.
fn holder(path: &Path) -> Result<Option<String>, Failure> {
    let file = match File::open(path) {
        Err(error) if absent(&error) => return Ok(None),
        opened => opened.at("open", path)?,
    };
    if let Some(process) = lock_holder(&file).at("read", path)? {
        return Ok(Some(match process {
            1.. => format!(" (process {process})"),
            _ => String::new(),
        }));
    }
    match file.try_lock_shared() {
        Ok(()) => Ok(None),
        Err(TryLockError::WouldBlock) => Ok(Some(String::new())),
        // Some file systems have no such locks.
        Err(TryLockError::Error(_)) => Ok(None),
    }
}

fn absent(error: &io::Error) -> bool {
    matches!(
        error.kind(),
        io::ErrorKind::NotFound | io::ErrorKind::NotADirectory
    )
}
