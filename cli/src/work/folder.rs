//! The work folder itself: whose it is, its lock, its end.

use crate::failure::{fault, usage, At, Failure};
use crate::text::shown_path;
use crate::whole::{is_there, sync_folder};
use std::fs::{self, File, OpenOptions, TryLockError};
use std::io;
use std::os::unix::fs::MetadataExt;
use std::path::{Path, PathBuf};

pub const FOLDER: &str = "swistopal.rebuild";
const FINISHED: &str = "swistopal.rebuild.done";
const LOCK: &str = "lock";

/// The work folder, locked.
pub struct Claim {
    pub store: PathBuf,
    pub folder: PathBuf,
    _lock: File,
}

impl Claim {
    /// The rebuild that is under way, if there is one. At most its lock is written, if it was cut before it had one.
    pub fn existing(store: &Path) -> Result<Option<Claim>, Failure> {
        let folder = store.join(FOLDER);
        while folder.exists() {
            ask_for_lock(&folder)?;
            if let Some(claim) = Claim::of(store, &folder)? {
                return Ok(Some(claim));
            }
        }
        Ok(None)
    }

    pub fn create(store: &Path) -> Result<Claim, Failure> {
        let folder = store.join(FOLDER);
        match fs::create_dir(&folder) {
            Ok(()) => match Claim::of(store, &folder)? {
                Some(claim) => Ok(claim),
                None => at_work(&folder),
            },
            Err(error) if error.kind() == io::ErrorKind::AlreadyExists && folder.is_dir() => {
                at_work(&folder)
            }
            Err(error) => fault(format!(
                "cannot create {}: {error}; a rebuild works where its results go: name another folder with --into, or copy \
                 the store to where it can be written",
                shown_path(folder)
            )),
        }
    }

    fn of(store: &Path, folder: &Path) -> Result<Option<Claim>, Failure> {
        let claim = |lock| Claim {
            store: store.to_path_buf(),
            folder: folder.to_path_buf(),
            _lock: lock,
        };
        lock(folder).map(|lock| lock.map(claim))
    }

    /// Ends this rebuild and removes its folder: the rename is the end, the rest is tidying.
    pub fn discard(self) -> Result<(), Failure> {
        let finished = self.store.join(FINISHED);
        remove_finished(&self.store)?;
        fs::rename(&self.folder, &finished).at("rename", &self.folder)?;
        sync_folder(&self.store)?;
        remove(&finished).at("remove", &finished)
    }
}

/// A folder of ours has the lock, or nothing if it was cut right at its beginning or its end. Another rebuild may begin or end
/// while this is looked at, so it is looked at again.
fn ask_for_lock(folder: &Path) -> Result<(), Failure> {
    let ours = || folder.join(LOCK).exists() || empty(folder) || !is_there(folder);
    if (0..3).any(|_| ours()) {
        return Ok(());
    }
    usage(format!(
        "{}: it is not the work folder of a rebuild; move it away",
        shown_path(folder)
    ))
}

fn at_work<T>(folder: &Path) -> Result<T, Failure> {
    fault(format!(
        "{}: another rebuild is at work; wait until it has ended",
        shown_path(folder)
    ))
}

/// Takes a work folder's lock. None if the folder was renamed or removed meanwhile: the rebuild that had it has ended.
fn lock(folder: &Path) -> Result<Option<File>, Failure> {
    let path = folder.join(LOCK);
    let mut options = OpenOptions::new();
    let options = options.create(true).truncate(false).write(true);
    let lock = match options.open(&path) {
        Err(error) if error.kind() == io::ErrorKind::NotFound => return Ok(None),
        opened => opened.at("open", &path)?,
    };
    match lock.try_lock() {
        Ok(()) => {}
        Err(TryLockError::WouldBlock) => return at_work(folder),
        Err(TryLockError::Error(error)) => return Err(error).at("lock", &path),
    }
    let locked = lock.metadata().at("read", &path)?;
    let same = fs::metadata(&path)
        .is_ok_and(|named| (named.dev(), named.ino()) == (locked.dev(), locked.ino()));
    Ok(same.then_some(lock))
}

/// What a finished or discarded rebuild may have left.
pub fn remove_finished(store: &Path) -> Result<(), Failure> {
    let finished = store.join(FINISHED);
    if !finished.exists() {
        return Ok(());
    }
    ask_for_lock(&finished)?;
    match lock(&finished)? {
        Some(_held) => remove(&finished).at("remove", &finished),
        None => Ok(()),
    }
}

/// The lock goes last: by it what a cut leaves is known as ours.
fn remove(folder: &Path) -> io::Result<()> {
    // A link goes without what it leads to.
    if !folder.is_symlink() {
        for entry in fs::read_dir(folder)? {
            let entry = entry?;
            if entry.file_type()?.is_dir() {
                fs::remove_dir_all(entry.path())?;
            } else if entry.file_name() != LOCK {
                fs::remove_file(entry.path())?;
            }
        }
    }
    fs::remove_dir_all(folder)
}

pub fn empty(folder: &Path) -> bool {
    fs::read_dir(folder).is_ok_and(|mut entries| entries.next().is_none())
}
