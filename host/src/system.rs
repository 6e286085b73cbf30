//! What the standard library has no safe word for: open files by their numbers, which of the first three were closed at the start, a file's
//! owner, and signals that end a run. This is the one file of the command with unsafe code. What is declared here is the C library's, on
//! Linux of 64 bits.
use std::ffi::{CString, OsStr};
use std::fs::File;
use std::io;
use std::mem::ManuallyDrop;
use std::os::raw::{c_char, c_int, c_uint};
use std::os::unix::ffi::OsStrExt;
use std::os::unix::io::{AsRawFd, FromRawFd};
use std::path::Path;
use std::ptr;
use std::sync::atomic::{AtomicBool, AtomicPtr, Ordering::SeqCst};

/// A set of signals: 1,024 bits.
#[repr(C)]
struct Signals([u64; 16]);

extern "C" {
    fn fcntl(number: c_int, command: c_int, ...) -> c_int;
    fn signal(signal: c_int, handler: usize) -> usize;
    fn raise(signal: c_int) -> c_int;
    fn unlink(path: *const c_char) -> c_int;
    fn fchown(number: c_int, owner: c_uint, group: c_uint) -> c_int;
    fn sigprocmask(how: c_int, set: *const Signals, old: *mut Signals) -> c_int;
}

const F_GETFD: c_int = 1;
const EBADF: i32 = 9;
const SIG_DFL: usize = 0;
const SIG_IGN: usize = 1;
const SIG_BLOCK: c_int = 0;
const SIG_SETMASK: c_int = 2;
/// SIGHUP, SIGINT and SIGTERM.
const ENDING: [c_int; 3] = [1, 2, 15];

/// The number that a name of the system for an open file has: `/dev/stdout`, `/dev/fd/3`, `/proc/self/fd/3`.
pub fn number(word: &OsStr) -> Option<u16> {
    let word = word.to_str()?;
    let digits = match word {
        "/dev/stdin" => "0",
        "/dev/stdout" => "1",
        "/dev/stderr" => "2",
        _ => word.strip_prefix("/dev/fd/").or_else(|| word.strip_prefix("/proc/self/fd/"))?,
    };
    // A number is read with a sign too, which no such name has.
    digits.parse().ok().filter(|_| digits.bytes().all(|b| b.is_ascii_digit()))
}

/// The open file behind a descriptor that the command was started with. It is not closed when it is let go. Where nothing is open under the
/// number, writing to it fails.
pub fn stream(number: u16) -> ManuallyDrop<File> {
    // SAFETY: the file is never dropped, so a descriptor that belongs to another is not closed; reading and writing ask for no more.
    ManuallyDrop::new(unsafe { File::from_raw_fd(number.into()) })
}

/// Gives a file another owner and group. False where that is not permitted, or fails.
pub fn give(file: &File, owner: u32, group: u32) -> bool {
    // SAFETY: the descriptor is that of a file which is borrowed, and stays open.
    unsafe { fchown(file.as_raw_fd(), owner, group) == 0 }
}

/// Which of the first three were closed when the program was started. Before `main` the runtime opens /dev/null in their place, which takes
/// all that is written: so it is asked earlier.
static CLOSED: [AtomicBool; 3] = [AtomicBool::new(false), AtomicBool::new(false), AtomicBool::new(false)];

#[used]
#[link_section = ".init_array"]
static AT_THE_START: extern "C" fn() = look;

extern "C" fn look() {
    for (closed, number) in CLOSED.iter().zip(0..) {
        // SAFETY: this command takes no third argument and changes nothing.
        closed.store(unsafe { fcntl(number, F_GETFD) } == -1, SeqCst);
    }
}

/// An error where a standard stream was closed at the start.
pub fn given(number: u16) -> io::Result<()> {
    match CLOSED.get(usize::from(number)) {
        Some(closed) if closed.load(SeqCst) => Err(io::Error::from_raw_os_error(EBADF)),
        _ => Ok(()),
    }
}

/// The path of the temporary file while there is one, with a zero byte at its end; else null.
static SCRATCH: AtomicPtr<c_char> = AtomicPtr::new(ptr::null_mut());

/// From here on a signal that ends the run removes the temporary file first. One that is ignored, as under nohup, stays ignored.
pub fn watch() {
    for number in ENDING {
        // SAFETY: the handler calls only what a handler may call.
        unsafe {
            if signal(number, ended as extern "C" fn(c_int) as usize) == SIG_IGN {
                signal(number, SIG_IGN);
            }
        }
    }
}

/// The handler: the file goes, and the signal does what it does without a handler.
extern "C" fn ended(number: c_int) {
    let path = SCRATCH.swap(ptr::null_mut(), SeqCst);
    // SAFETY: unlink, signal and raise may be called by a handler. The path is freed only after it is taken out of its place.
    unsafe {
        if !path.is_null() {
            unlink(path);
        }
        signal(number, SIG_DFL);
        raise(number);
    }
}

/// Makes a temporary file, with these signals held back until its path is known to the handler.
pub fn make(path: &Path, create: impl FnOnce() -> io::Result<File>) -> io::Result<File> {
    let bits = ENDING.iter().fold(0, |bits, number| bits | 1 << (number - 1));
    let (mut set, mut old) = (Signals([0; 16]), Signals([0; 16]));
    set.0[0] = bits;
    // SAFETY: both sets are there, of the size that the system's have.
    unsafe { sigprocmask(SIG_BLOCK, &set, &mut old) };
    let file = create();
    if file.is_ok() {
        let path = CString::new(path.as_os_str().as_bytes()).unwrap_or_default();
        SCRATCH.store(path.into_raw(), SeqCst);
    }
    // SAFETY: as above.
    unsafe { sigprocmask(SIG_SETMASK, &old, ptr::null_mut()) };
    file
}

/// The temporary file has got its name, or is removed.
pub fn done() {
    let path = SCRATCH.swap(ptr::null_mut(), SeqCst);
    if !path.is_null() {
        // SAFETY: it came from `into_raw` in `make`, and is taken out of its place here alone.
        drop(unsafe { CString::from_raw(path) });
    }
}

#[cfg(test)]
mod tests {
    use super::*;

    #[test]
    fn names_of_open_files() {
        let rows = [("/dev/stdin", Some(0)), ("/dev/stderr", Some(2)), ("/dev/fd/1", Some(1)), ("/proc/self/fd/12", Some(12))];
        let none = ["-", "/dev/null", "/dev/fd/", "/dev/fd/+1", "/dev/fd/1/x", "/dev/fd/65536", "dev/fd/1"].map(|name| (name, None));
        for (name, expected) in rows.into_iter().chain(none) {
            assert_eq!(number(OsStr::new(name)), expected, "{name}");
        }
    }
}
