//! What only the C library offers, which the standard library links anyway. This is the tool's only `unsafe` code.
//!
//! Why the calls are sound: a descriptor is lent by an open `File` and stays open for the whole call; a name is a `CStr`, which
//! ends in a zero byte; a buffer goes over as its own pointer and length, is borrowed for the call, and none of these calls
//! keeps a pointer. The types are those of the C library on Linux.
#![allow(unsafe_code)]

use std::ffi::{c_char, c_int, c_ulong, c_void, CStr, CString};
use std::fs::File;
use std::io;
use std::os::fd::{AsFd, AsRawFd};
use std::sync::atomic::{AtomicBool, AtomicI32, Ordering};

extern "C" {
    fn flistxattr(fd: c_int, list: *mut c_char, size: usize) -> isize;
    fn fgetxattr(fd: c_int, name: *const c_char, value: *mut c_void, size: usize) -> isize;
    fn fsetxattr(fd: c_int, name: *const c_char, value: *const c_void, size: usize, flags: c_int) -> c_int;
    fn fremovexattr(fd: c_int, name: *const c_char) -> c_int;
    fn signal(number: c_int, handler: usize) -> usize;
    fn siginterrupt(number: c_int, flag: c_int) -> c_int;
    fn raise(number: c_int) -> c_int;
    fn ioctl(fd: c_int, request: c_ulong, ...) -> c_int;
}

/// For opening: a pipe's other end isn't waited for (O_NONBLOCK). Regular files don't know the difference.
pub const WITHOUT_WAITING: c_int = 0o4000;

/// For opening: what is a link isn't opened (O_NOFOLLOW, whose number differs between processors).
pub const NO_LINK: c_int = match cfg!(any(target_arch = "arm", target_arch = "aarch64", target_arch = "powerpc64")) {
    true => 0o100000,
    false => 0o400000,
};

/// No system takes more for one value or one list of names: Linux' own limit.
const LARGEST: usize = 1 << 16;

/// The names of a file's extended attributes; none where the file system has no such thing.
pub fn attribute_names(file: &File) -> io::Result<Vec<CString>> {
    let mut list = vec![0; LARGEST];
    // Sound: at most `list.len()` bytes are written to `list`.
    let filled = unsafe { flistxattr(file.as_raw_fd(), list.as_mut_ptr().cast(), list.len()) };
    let Ok(filled) = usize::try_from(filled) else { return absent_as(Vec::new()) };
    list.truncate(filled);
    Ok(list
        .split_inclusive(|&byte| byte == 0)
        .filter_map(|name| Some(CStr::from_bytes_with_nul(name).ok()?.to_owned()))
        .collect())
}

/// The value of an extended attribute, if the file has it.
pub fn attribute(file: &File, name: &CStr) -> io::Result<Option<Vec<u8>>> {
    let mut value = vec![0; LARGEST];
    // Sound: at most `value.len()` bytes are written to `value`.
    let filled = unsafe { fgetxattr(file.as_raw_fd(), name.as_ptr(), value.as_mut_ptr().cast(), value.len()) };
    let Ok(filled) = usize::try_from(filled) else { return absent_as(None) };
    value.truncate(filled);
    Ok(Some(value))
}

/// Sets an extended attribute.
pub fn set_attribute(file: &File, name: &CStr, value: &[u8]) -> io::Result<()> {
    // Sound: `value.len()` bytes are read from `value`. Flags 0: it may be there or not.
    done(unsafe { fsetxattr(file.as_raw_fd(), name.as_ptr(), value.as_ptr().cast(), value.len(), 0) })
}

/// Removes an extended attribute; it is no error if there is none.
pub fn remove_attribute(file: &File, name: &CStr) -> io::Result<()> {
    // Sound: nothing but the descriptor and the name is handed over.
    done(unsafe { fremovexattr(file.as_raw_fd(), name.as_ptr()) }).or_else(|_| absent_as(()))
}

fn done(answer: c_int) -> io::Result<()> {
    match answer {
        0 => Ok(()),
        _ => Err(io::Error::last_os_error()),
    }
}

/// The last error, unless it says that there is no such attribute (ENODATA) or no attributes at all (EOPNOTSUPP).
fn absent_as<T>(absent: T) -> io::Result<T> {
    let error = io::Error::last_os_error();
    match error.raw_os_error() {
        Some(61 | 95) => Ok(absent),
        _ => Err(error),
    }
}

/// How many columns a terminal has; none if it is no terminal, or doesn't know.
pub fn columns(terminal: &impl AsFd) -> Option<usize> {
    /// Asks for the size of a terminal (TIOCGWINSZ).
    const SIZE: c_ulong = 0x5413;
    // Lines, columns, and both in dots.
    let mut size: [u16; 4] = [0; 4];
    // Sound: the request writes four such numbers to where its third argument points, and nothing where it fails.
    let answer = unsafe { ioctl(terminal.as_fd().as_raw_fd(), SIZE, size.as_mut_ptr()) };
    (answer == 0 && size[1] > 0).then_some(usize::from(size[1]))
}

/// The signals that end a run and can be caught, by their numbers and names.
const SIGNALS: [(c_int, &str); 5] = [(1, "SIGHUP"), (2, "SIGINT"), (3, "SIGQUIT"), (15, "SIGTERM"), (25, "SIGXFSZ")];
/// What `signal` takes in place of a handler.
const DEFAULT: usize = 0;
const IGNORE: usize = 1;

/// The signal that came, or 0.
static CAUGHT: AtomicI32 = AtomicI32::new(0);
/// Those of `SIGNALS` that were ignored when the run began, as `nohup` does.
static IGNORED: [AtomicBool; SIGNALS.len()] = [const { AtomicBool::new(false) }; SIGNALS.len()];

extern "C" fn note(number: c_int) {
    CAUGHT.store(number, Ordering::Relaxed);
}

/// From here on a signal only leaves a note, so that the work can end in good order.
pub fn watch_signals() {
    let handler = note as extern "C" fn(c_int) as usize;
    for ((number, _), ignored) in SIGNALS.iter().zip(&IGNORED) {
        // Sound: the handler has the type that `signal` wants, lives as long as the program, and stores into an atomic number,
        // which is allowed at any moment.
        let before = unsafe { signal(*number, handler) };
        if before == IGNORE {
            ignored.store(true, Ordering::Relaxed);
            // Sound: no handler is handed over.
            unsafe { signal(*number, IGNORE) };
        } else {
            // Sound: two numbers are handed over. A read that waits for somebody's bytes is then given up, and not begun again.
            unsafe { siginterrupt(*number, 1) };
        }
    }
}

/// The signal that asks for the end, if one came.
pub fn ended_by() -> Option<&'static str> {
    let caught = CAUGHT.load(Ordering::Relaxed);
    SIGNALS.iter().find(|(number, _)| *number == caught).map(|(_, name)| *name)
}

/// Signals end the run at once again, and one that came does so now: whoever waits for this run learns what ended it.
pub fn obey_signals() {
    for ((number, _), ignored) in SIGNALS.iter().zip(&IGNORED) {
        if !ignored.load(Ordering::Relaxed) {
            // Sound: no handler is handed over.
            unsafe { signal(*number, DEFAULT) };
        }
    }
    let caught = CAUGHT.load(Ordering::Relaxed);
    if caught != 0 {
        // Sound: nothing but a number is handed over.
        unsafe { raise(caught) };
    }
}
