//! Locks: readers share one, whoever replaces a file holds it alone. Nobody is waited for but by `--wait`.
use crate::failure::{printable, Failure};
use crate::files::{go_on, trouble};
use std::fs::{self, File, Metadata, TryLockError};
use std::io::ErrorKind;
use std::os::unix::fs::MetadataExt;
use std::path::Path;
use std::sync::atomic::{AtomicU64, Ordering};
use std::thread;
use std::time::{Duration, Instant};

/// How many seconds this run waits for a lock.
static WAIT: AtomicU64 = AtomicU64::new(0);
/// How often it is looked again meanwhile.
const AGAIN: Duration = Duration::from_millis(20);

/// From here on others are waited for.
pub fn wait_for(seconds: u64) {
    WAIT.store(seconds, Ordering::Relaxed);
}

/// Locks a file, alone or with other readers; answers whether that took a wait.
pub fn lock(file: &File, alone: bool, verb: &str, named: &Path) -> Result<bool, Failure> {
    let (began, most) = (Instant::now(), WAIT.load(Ordering::Relaxed));
    let mut waited = false;
    loop {
        match if alone { file.try_lock() } else { file.try_lock_shared() } {
            Ok(()) => return Ok(waited),
            // A file system without locks: the comparison at the end is all there is.
            Err(TryLockError::Error(error)) if error.kind() == ErrorKind::Unsupported => return Ok(waited),
            Err(TryLockError::Error(error)) => return Err(trouble(verb, named, error)),
            Err(TryLockError::WouldBlock) if began.elapsed().as_secs() < most => {
                go_on(verb, named)?;
                thread::sleep(AGAIN);
                waited = true;
            }
            Err(TryLockError::WouldBlock) => {
                let whose = holders(file);
                let why = match most {
                    0 => format!("another program has locked it{whose}; --wait SECONDS waits for that"),
                    _ => format!("another program has locked it{whose}, and didn't let go of it in {most} s"),
                };
                return Err(trouble(verb, named, why));
            }
        }
    }
}

/// Who has locked a file, as far as the system tells.
fn holders(file: &File) -> String {
    let (Ok(found), Ok(locks)) = (file.metadata(), fs::read_to_string("/proc/locks")) else { return String::new() };
    let name = file_number(&found);
    let mut whose: Vec<String> = Vec::new();
    for line in locks.lines() {
        let words: Vec<&str> = line.split_whitespace().collect();
        // A number, the kind, how strict, for what, the process and the file; who waits has an arrow.
        if let [_, "FLOCK", _, _, process, number, ..] = words[..] {
            if number == name {
                // Whoever took it may have ended, and left it to a process that it started.
                let program = fs::read_to_string(format!("/proc/{process}/comm"));
                let program = program.map(|name| format!(" ({})", printable(Path::new(name.trim_end()))));
                whose.push(format!("process {process}{}", program.unwrap_or_default()));
            }
        }
    }
    whose.dedup();
    match whose.is_empty() {
        true => String::new(),
        false => format!(": {}", whose.join(", ")),
    }
}

/// A file as the system's list of locks names it: both numbers of its device in hexadecimal, and its own.
fn file_number(found: &Metadata) -> String {
    let device = found.dev();
    let (major, minor) = (device >> 8 & 0xfff | device >> 32 & !0xfff, device & 0xff | device >> 12 & !0xff);
    format!("{major:02x}:{minor:02x}:{}", found.ino())
}
