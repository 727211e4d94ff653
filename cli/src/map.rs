//! Files as memory, who has locked one, how wide the terminal is. Everything `unsafe` of the tool is here and in `medium`, which tells of bytes
//! that cannot be read.
//!
//! Every mapping is private: no byte of a file is ever changed through one. A read-only mapping is also made from a file
//! that was opened for reading alone.
//!
//! Safety. A `Mapping` owns the address range that the kernel gave it, from `mmap` to its `munmap` in `drop`, and lends it
//! for no longer than it lives. Bytes may be lent as a slice while nobody changes them: of the store's files this is what the
//! tool asks of its users (a store is read while no broker writes it); of the work files of a rebuild the lock sees to it.

#[cfg(not(all(target_os = "linux", target_pointer_width = "64")))]
compile_error!("the constants and types of mmap and sigaction are those of 64-bit Linux");

use crate::medium::Watch;
use std::ffi::{c_int, c_uint, c_ulong, c_void};
use std::fs::File;
use std::io;
use std::ops::{Deref, DerefMut, Range};
use std::os::fd::AsRawFd;
use std::os::unix::fs::FileExt;
use std::ptr;

extern "C" {
    fn mmap(
        address: *mut c_void,
        length: usize,
        protection: c_int,
        flags: c_int,
        file: c_int,
        offset: i64,
    ) -> *mut c_void;
    fn munmap(address: *mut c_void, length: usize) -> c_int;
    fn getpagesize() -> c_int;
    fn sync_file_range(file: c_int, offset: i64, length: i64, flags: c_uint) -> c_int;
    fn fcntl(file: c_int, command: c_int, ...) -> c_int;
    fn ioctl(file: c_int, request: c_ulong, ...) -> c_int;
}

/// `struct flock`.
#[repr(C)]
struct FileLock {
    kind: i16,
    whence: i16,
    start: i64,
    length: i64,
    process: i32,
}

const SYNC_FILE_RANGE_WRITE: c_uint = 2;
const TIOCGWINSZ: c_ulong = 0x5413;
const STANDARD_ERROR: c_int = 2;
const F_GETLK: c_int = 5;
const F_WRLCK: i16 = 1;
const F_UNLCK: i16 = 2;

const PROT_NONE: c_int = 0;
const PROT_READ: c_int = 1;
const PROT_WRITE: c_int = 2;
const MAP_PRIVATE: c_int = 0x02;
const MAP_FIXED: c_int = 0x10;
const MAP_ANONYMOUS: c_int = 0x20;
const MAP_NORESERVE: c_int = 0x4000;
const NO_FILE: c_int = -1;
/// So much memory a file that is taken over needs at most.
const LOADED_AT_ONCE: u64 = 1 << 24;

/// The size that pieces lying side by side must be a multiple of.
pub fn page_size() -> u64 {
    // SAFETY: it takes nothing and always answers.
    unsafe { getpagesize() as u64 }
}

/// Lets the disk begin with a file's bytes. Whether it has them only a sync tells.
pub fn begin_to_sync(file: &File, bytes: Range<u64>) {
    let (offset, length) = (bytes.start as i64, (bytes.end - bytes.start) as i64);
    // SAFETY: it takes numbers alone. Where it cannot be done the sync does all of it.
    unsafe { sync_file_range(file.as_raw_fd(), offset, length, SYNC_FILE_RANGE_WRITE) };
}

/// How wide the terminal on standard error is, if it says so.
pub fn columns() -> Option<usize> {
    let mut size = [0u16; 4];
    // SAFETY: rows, columns and two sizes in pixels are written to what is lent.
    let failed = unsafe { ioctl(STANDARD_ERROR, TIOCGWINSZ, &mut size) };
    let [_, columns, ..] = size;
    (failed == 0 && columns > 0).then_some(columns.into())
}

/// The process that holds a POSIX lock on a file's first byte; 0 or less if it cannot be named.
pub fn lock_holder(file: &File) -> io::Result<Option<i32>> {
    let mut lock = FileLock {
        kind: F_WRLCK,
        whence: 0,
        start: 0,
        length: 1,
        process: 0,
    };
    // SAFETY: the lock is lent for the call, and asking changes nothing else.
    let failed = unsafe { fcntl(file.as_raw_fd(), F_GETLK, &mut lock) };
    if failed != 0 {
        return Err(io::Error::last_os_error());
    }
    Ok((lock.kind != F_UNLCK).then_some(lock.process))
}

/// Has the processor bring bytes near that are read soon. None of them is touched, so one that the medium does not give does
/// not end the tool here.
pub fn bring_near(bytes: &[u8]) {
    #[cfg(target_arch = "x86_64")]
    for line in bytes.chunks(64) {
        use std::arch::x86_64::{_mm_prefetch, _MM_HINT_T0};
        // SAFETY: it is a hint, which reads and writes nothing.
        unsafe { _mm_prefetch::<_MM_HINT_T0>(line.as_ptr().cast()) };
    }
    #[cfg(not(target_arch = "x86_64"))]
    let _ = bytes;
}

struct Mapping {
    start: *mut u8,
    length: usize,
    watch: Option<Watch>,
}

impl Mapping {
    fn new(length: usize, protection: c_int, flags: c_int, file: c_int) -> io::Result<Mapping> {
        if length == 0 {
            let start = ptr::NonNull::dangling().as_ptr();
            return Ok(Mapping {
                start,
                length,
                watch: None,
            });
        }
        let flags = flags | MAP_PRIVATE | MAP_NORESERVE;
        // SAFETY: the kernel chooses the range; nothing that is mapped already is touched.
        let start = unsafe { mmap(ptr::null_mut(), length, protection, flags, file, 0) };
        if start as isize == -1 {
            return Err(io::Error::last_os_error());
        }
        Ok(Mapping {
            start: start.cast(),
            length,
            watch: None,
        })
    }

    fn watch<'f>(
        &mut self,
        size: usize,
        files: impl Iterator<Item = &'f File>,
        doing: &'static str,
    ) -> io::Result<()> {
        let start = self.start as usize;
        let bytes = start..start + self.length;
        self.watch = Some(Watch::over(bytes, size, files, doing)?);
        Ok(())
    }

    /// Puts a file's bytes from an offset on, or zeros without a file, at a place of this range.
    fn place(
        &mut self,
        place: usize,
        length: usize,
        protection: c_int,
        file: Option<(&File, usize)>,
    ) -> io::Result<()> {
        assert!(place
            .checked_add(length)
            .is_some_and(|end| end <= self.length));
        if length == 0 {
            return Ok(());
        }
        let flags = MAP_PRIVATE | MAP_NORESERVE | MAP_FIXED;
        let (flags, file, offset) = match file {
            Some((file, offset)) => (flags, file.as_raw_fd(), offset as i64),
            None => (flags | MAP_ANONYMOUS, NO_FILE, 0),
        };
        // SAFETY: the range lies within this mapping, which is borrowed alone: what is replaced is not lent.
        let at = unsafe {
            mmap(
                self.start.add(place).cast(),
                length,
                protection,
                flags,
                file,
                offset,
            )
        };
        if at as isize == -1 {
            return Err(io::Error::last_os_error());
        }
        Ok(())
    }
}

impl Drop for Mapping {
    fn drop(&mut self) {
        // First, as the kernel may map something else here then.
        self.watch = None;
        if self.length > 0 {
            // SAFETY: the range is this mapping's own, and whatever borrowed it has ended.
            unsafe { munmap(self.start.cast(), self.length) };
        }
    }
}

/// Bytes that are only read.
pub struct View(Mapping);

impl View {
    /// A file's first bytes.
    pub fn of_file(file: &File, length: usize) -> io::Result<View> {
        let mut mapping = Mapping::new(length, PROT_READ, 0, file.as_raw_fd())?;
        mapping.watch(length, [file].into_iter(), "read")?;
        Ok(View(mapping))
    }

    /// Files side by side as one run of bytes, `size` for each: a multiple of the page size. A shorter file is followed by
    /// zeros up to its size.
    pub fn of_files(files: &[(File, u64)], size: u64) -> io::Result<View> {
        let size = usize::try_from(size).map_err(io::Error::other)?;
        let total = size.checked_mul(files.len());
        let total = total.ok_or_else(|| io::Error::other("too long for memory"))?;
        let mut mapping = Mapping::new(total, PROT_NONE, MAP_ANONYMOUS, NO_FILE)?;
        let page = page_size() as usize;
        for (number, (file, length)) in files.iter().enumerate() {
            // The kernel fills a file's last page with zeros; whole pages past it would not be readable.
            let present = (*length as usize).min(size).next_multiple_of(page);
            let (place, rest) = (number * size, size - present);
            mapping.place(place, present, PROT_READ, Some((file, 0)))?;
            mapping.place(place + present, rest, PROT_READ, None)?;
        }
        mapping.watch(size, files.iter().map(|(file, _)| file), "read")?;
        Ok(View(mapping))
    }
}

impl Deref for View {
    type Target = [u8];

    fn deref(&self) -> &[u8] {
        // SAFETY: the whole range is readable and lives as long as self.
        unsafe { std::slice::from_raw_parts(self.0.start, self.0.length) }
    }
}

/// Bytes to work on. What is written stays in this mapping and reaches no file.
pub struct Draft(Mapping);

impl Draft {
    /// Zeros in the place of a file's bytes. `load` brings in those that the file has already.
    pub fn for_file(file: &File, length: usize) -> io::Result<Draft> {
        let mut draft = Draft::of_zeros(length)?;
        let watched = draft.0.watch(length, [file].into_iter(), "read or written");
        watched.map(|()| draft)
    }

    /// Takes the file's bytes over.
    pub fn load(&mut self, file: &File, bytes: Range<u64>) -> io::Result<()> {
        let mut from = bytes.start;
        while from < bytes.end {
            let to = bytes.end.min(from + LOADED_AT_ONCE);
            file.read_exact_at(&mut self[from as usize..to as usize], from)?;
            self.settle(file, from..to)?;
            from = to;
        }
        Ok(())
    }

    /// Gives back the memory of bytes that the file has as well; its pages stand in their place. The last one stays, as
    /// it may go on.
    pub fn settle(&mut self, file: &File, bytes: Range<u64>) -> io::Result<()> {
        let page = page_size();
        let (from, to) = (bytes.start / page * page, bytes.end / page * page);
        if to <= from {
            return Ok(());
        }
        let (from, length) = (from as usize, (to - from) as usize);
        let (protection, file) = (PROT_READ | PROT_WRITE, Some((file, from)));
        self.0.place(from, length, protection, file)
    }

    /// Zeros; a page takes memory when it is first written.
    pub fn of_zeros(length: usize) -> io::Result<Draft> {
        let mapping = Mapping::new(length, PROT_READ | PROT_WRITE, MAP_ANONYMOUS, NO_FILE)?;
        Ok(Draft(mapping))
    }
}

impl Deref for Draft {
    type Target = [u8];

    fn deref(&self) -> &[u8] {
        // SAFETY: the whole range is readable and lives as long as self.
        unsafe { std::slice::from_raw_parts(self.0.start, self.0.length) }
    }
}

impl DerefMut for Draft {
    fn deref_mut(&mut self) -> &mut [u8] {
        // SAFETY: the whole range is writable, lives as long as self and is borrowed alone.
        unsafe { std::slice::from_raw_parts_mut(self.0.start, self.0.length) }
    }
}

#[cfg(test)]
mod tests {
    use super::*;
    use std::env;
    use std::fs;
    use std::hint::black_box;
    use std::os::unix::process::ExitStatusExt;
    use std::path::{Path, PathBuf};
    use std::process::{Command, Output};

    /// Says where a test's child has its files; others have none.
    const FOLDER: &str = "SWISTOPAL_TEST_FOLDER";

    /// Runs one of these tests again, in a process that is to end in it: `ends` is given a folder of its own. The parent
    /// has the folder and how the child ended.
    fn ending(test: &str, ends: impl FnOnce(&Path)) -> (PathBuf, Output) {
        if let Some(folder) = env::var_os(FOLDER) {
            ends(Path::new(&folder));
            panic!("the process should have ended");
        }
        let folder = env::temp_dir().join(format!("swistopal-{test}-{}", std::process::id()));
        fs::create_dir_all(&folder).unwrap();
        let mut child = Command::new(env::current_exe().unwrap());
        let test = format!("map::tests::{test}");
        child.args(["--exact", &test, "--nocapture"]);
        let ended = child.env(FOLDER, &folder).output().unwrap();
        let real = folder.canonicalize().unwrap();
        fs::remove_dir_all(folder).unwrap();
        (real, ended)
    }

    fn file(path: &Path, pages: u64) -> File {
        let mut options = File::options();
        let options = options.read(true).write(true).create(true).truncate(true);
        let file = options.open(path).unwrap();
        file.set_len(pages * page_size()).unwrap();
        file
    }

    #[track_caller]
    fn told(ended: &Output, path: &Path, sentence: &str) {
        let said = String::from_utf8_lossy(&ended.stderr);
        assert_eq!(ended.status.code(), Some(1), "{said}");
        assert_eq!(
            said,
            format!(
                "swistopal: {}: {sentence}: the medium has a fault there, or the file was cut; copy the store to \
                 a sound disk and work on the copy; a rebuild under way begins anew there with --restart\n",
                path.display()
            )
        );
    }

    #[test]
    fn a_byte_that_cannot_be_read() {
        let (folder, ended) = ending("a_byte_that_cannot_be_read", |folder| {
            let size = 4 * page_size();
            let files = ["first", "second"].map(|name| (file(&folder.join(name), 4), size));
            let view = View::of_files(&files, size).unwrap();
            files[1].0.set_len(page_size()).unwrap();
            let page = page_size() as usize;
            assert_eq!(view[..5 * page], vec![0; 5 * page]);
            black_box(view[6 * page + 7]);
        });
        let byte = format!("byte {} cannot be read", 2 * page_size() + 7);
        told(&ended, &folder.join("second"), &byte);
    }

    #[test]
    fn a_byte_that_cannot_be_written() {
        let (folder, ended) = ending("a_byte_that_cannot_be_written", |folder| {
            let file = file(&folder.join("work"), 4);
            let mut draft = Draft::for_file(&file, 4 * page_size() as usize).unwrap();
            draft.load(&file, 0..2 * page_size()).unwrap();
            file.set_len(0).unwrap();
            draft[black_box(0)] = 1;
        });
        let sentence = "byte 0 cannot be read or written";
        told(&ended, &folder.join("work"), sentence);
    }

    #[test]
    fn a_fault_elsewhere_is_left_to_the_signal() {
        let (_, ended) = ending("a_fault_elsewhere_is_left_to_the_signal", |folder| {
            let (file, length) = (file(&folder.join("file"), 4), 4 * page_size() as usize);
            let _near = View::of_file(&file, length).unwrap();
            let unwatched = View(Mapping::new(length, PROT_READ, 0, file.as_raw_fd()).unwrap());
            file.set_len(0).unwrap();
            black_box(unwatched[0]);
        });
        assert_eq!(ended.status.signal(), Some(7));
        assert_eq!(String::from_utf8_lossy(&ended.stderr), "");
    }

    #[test]
    fn a_mapping_that_has_ended_is_watched_no_longer() {
        let file = File::open(env::current_exe().unwrap()).unwrap();
        for _ in 0..70_000 {
            drop(View::of_file(&file, 1).unwrap());
        }
    }
}
