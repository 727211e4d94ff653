//! Mapped bytes that cannot be read: a sector is worn, the file was cut since, or a file system in memory is full and has no
//! page for a hole. The kernel sends SIGBUS when one is touched; the handler here says which byte of which file it is and
//! ends the tool with exit status 1.
//!
//! Safety. The handler may run between any two instructions: it reads the table and what stands in it, which nobody changes,
//! and calls `open`, `pread`, `write` and `_exit` alone. A file's place stands in the table as long as its `Watch` lives, and the tool has one
//! thread, so no `Watch` ends while the handler runs.

use crate::text::shown_path;
use std::ffi::{c_char, c_int, c_void, CString};
use std::fs::{self, File};
use std::io;
use std::ops::Range;
use std::os::fd::AsRawFd;
use std::os::unix::ffi::OsStringExt;
use std::ptr;
use std::sync::atomic::{AtomicPtr, Ordering};
use std::sync::Once;

extern "C" {
    fn sigaction(signal: c_int, action: *const Action, before: *mut Action) -> c_int;
    fn signal(signal: c_int, handler: usize) -> usize;
    fn open(path: *const c_char, flags: c_int, ...) -> c_int;
    fn pread(file: c_int, bytes: *mut c_void, length: usize, offset: i64) -> isize;
    fn write(file: c_int, bytes: *const c_void, length: usize) -> isize;
    fn _exit(status: c_int) -> !;
}

#[repr(C)]
struct Action {
    handler: extern "C" fn(c_int, *const Information, *const c_void),
    mask: [u64; 16],
    flags: c_int,
    restorer: usize,
}

/// The first fields of what the kernel tells about a signal.
#[repr(C)]
struct Information {
    number: c_int,
    error: c_int,
    code: c_int,
    _gap: c_int,
    address: usize,
}

const SIGBUS: c_int = 7;
const SIGXFSZ: c_int = 25;
const SIG_IGN: usize = 1;
const O_RDONLY: c_int = 0;
const SA_SIGINFO: c_int = 4;
const SA_RESETHAND: c_int = c_int::MIN;
const STANDARD_ERROR: c_int = 2;

/// As many as the kernel maps for one process, unless it was told otherwise.
const MOST: usize = 1 << 16;
static TABLE: [AtomicPtr<Place>; MOST] = [const { AtomicPtr::new(ptr::null_mut()) }; MOST];

/// Where files lie in memory.
struct Place {
    bytes: Range<usize>,
    /// Of each file.
    size: usize,
    files: Vec<Name>,
    doing: &'static str,
}

/// A file's path, as it is shown and as it is opened.
struct Name {
    shown: String,
    path: CString,
}

/// Has faults of mapped files told as long as it lives.
pub struct Watch(&'static AtomicPtr<Place>);

impl Watch {
    /// Files side by side, `size` bytes for each. `doing` is what a bad byte cannot be: read, or read or written.
    pub fn over<'f>(
        bytes: Range<usize>,
        size: usize,
        files: impl Iterator<Item = &'f File>,
        doing: &'static str,
    ) -> io::Result<Watch> {
        static CAUGHT: Once = Once::new();
        CAUGHT.call_once(catch);
        let place = Box::into_raw(Box::new(Place {
            bytes,
            size,
            files: files.map(Name::of).collect(),
            doing,
        }));
        let free = TABLE.iter().find(|entry| {
            let (set, unset) = (Ordering::AcqRel, Ordering::Relaxed);
            let taken = entry.compare_exchange(ptr::null_mut(), place, set, unset);
            taken.is_ok()
        });
        free.map(Watch).ok_or_else(|| {
            // SAFETY: it is the box from above and stands in no entry.
            drop(unsafe { Box::from_raw(place) });
            io::Error::other("too many files at once")
        })
    }
}

impl Drop for Watch {
    fn drop(&mut self) {
        let place = self.0.swap(ptr::null_mut(), Ordering::AcqRel);
        // SAFETY: it came from a box, and this entry alone had it.
        drop(unsafe { Box::from_raw(place) });
    }
}

impl Name {
    fn of(file: &File) -> Name {
        let link = format!("/proc/self/fd/{}", file.as_raw_fd());
        let path = fs::read_link(link).unwrap_or_default();
        Name {
            shown: match path.as_os_str().is_empty() {
                true => String::from("a mapped file"),
                false => shown_path(&path),
            },
            path: CString::new(path.into_os_string().into_vec()).unwrap_or_default(),
        }
    }

    /// Whether a byte can be read without being mapped.
    fn readable(&self, byte: usize) -> bool {
        let mut read = 0u8;
        // SAFETY: the path ends with a zero, and one byte is lent.
        unsafe {
            let file = open(self.path.as_ptr(), O_RDONLY);
            file >= 0 && pread(file, (&raw mut read).cast(), 1, byte as i64) == 1
        }
    }
}

/// A file that grows past the limit of its size is an error of its write then, which says which file.
pub fn ignore_size_signal() {
    // SAFETY: no code is named, the signal is only ignored.
    unsafe { signal(SIGXFSZ, SIG_IGN) };
}

fn catch() {
    let action = Action {
        handler: tell,
        mask: [0; 16],
        // The default action is back before the handler runs: if it only returns, the next touch ends the process.
        flags: SA_SIGINFO | SA_RESETHAND,
        restorer: 0,
    };
    // SAFETY: the action is as the C library has it, and the handler does what a handler may do.
    let failed = unsafe { sigaction(SIGBUS, &action, ptr::null_mut()) };
    assert_eq!(failed, 0, "SIGBUS can be caught");
}

extern "C" fn tell(_signal: c_int, information: *const Information, _context: *const c_void) {
    // SAFETY: the kernel lends it to the handler.
    let address = unsafe { (*information).address };
    for entry in &TABLE {
        // SAFETY: what stands in the table is whole and is not freed meanwhile.
        match unsafe { entry.load(Ordering::Acquire).as_ref() } {
            Some(place) if place.bytes.contains(&address) => place.end_at(address),
            _ => {}
        }
    }
}

impl Place {
    fn end_at(&self, address: usize) -> ! {
        let place = address - self.bytes.start;
        let (file, byte) = (&self.files[place / self.size], place % self.size);
        let mut digits = [0; 20];
        let why: &[u8] = match file.readable(byte) {
            true => b" by mapping, though it can be otherwise: no space is left for its page on this file system in \
                     memory; make room there, then the same command does it\n",
            false => b": the medium has a fault there, or the file was cut; copy the store to a sound disk \
                       and work on the copy; a rebuild under way begins anew there with --restart\n",
        };
        for part in [
            b"swistopal: ",
            file.shown.as_bytes(),
            b": byte ",
            decimal(byte, &mut digits),
            b" cannot be ",
            self.doing.as_bytes(),
            why,
        ] {
            // SAFETY: the bytes are lent for the call.
            unsafe { write(STANDARD_ERROR, part.as_ptr().cast(), part.len()) };
        }
        // SAFETY: it only ends the process.
        unsafe { _exit(1) }
    }
}

/// A number's digits, without taking memory.
fn decimal(mut number: usize, digits: &mut [u8; 20]) -> &[u8] {
    let mut from = digits.len();
    loop {
        from -= 1;
        digits[from] = b'0' + (number % 10) as u8;
        number /= 10;
        if number == 0 {
            return &digits[from..];
        }
    }
}
