//! Why a command did not do what it was asked, how that is said, and the exit status it gets.
use navorzim::Refusal;
use std::fmt;
use std::path::{Path, PathBuf};

/// What ends a command early.
#[derive(Debug)]
pub enum Failure {
    /// The library, or the length of a file of many stripes, said no.
    Refused(Refused),
    /// The planner answered patterns: `text` is the answer, for standard output, and `what` a sentence on what can't be rebuilt.
    NoPlan { text: String, what: String, code: PathBuf },
    /// Disks are missing and can be rebuilt: `text` is the answer, and nothing is to be complained of.
    Missing { text: String },
    /// Stripes whose survivors can't be sound: `text` is the answer, for standard output, and `what` says how many.
    Unsound { text: String, what: String, stripes: PathBuf },
    /// Something else stands where a disk's file should be: `text` is the answer, for standard output, and `what` says it.
    InTheWay { text: String, what: String },
    /// The library said no, and there is a picture of why: `text`, for standard output.
    Drawn { text: String, refused: Refused },
    /// The command line can't be understood; `command` is the one whose help is of use.
    Misuse { what: String, command: &'static str },
    /// A file can't be read, written or used as asked.
    File(String),
    /// The demonstration came out other than it must; `text` is what it said until then.
    Unexpected { text: String, what: String },
}

/// A refusal with what the tool knows besides: the numbers at fault, and the file they came from.
#[derive(Debug)]
pub struct Refused {
    pub refusal: Refusal,
    pub detail: String,
    pub file: Option<PathBuf>,
}

/// A file's name for a message: what would move a terminal's cursor, end the line or turn its direction is shown as an escape.
pub fn printable(path: &Path) -> String {
    let turns = |c: char| matches!(c, '\u{200e}' | '\u{200f}' | '\u{2028}'..='\u{202e}' | '\u{2066}'..='\u{2069}');
    let mut shown = String::new();
    for c in path.to_string_lossy().chars() {
        match c.is_control() || turns(c) {
            true => shown.extend(c.escape_default()),
            false => shown.push(c),
        }
    }
    shown
}

impl Failure {
    /// A refusal that concerns a file.
    pub fn refused(refusal: Refusal, detail: String, file: &Path) -> Failure {
        let file = Some(file.to_path_buf());
        Failure::Refused(Refused { refusal, detail, file })
    }

    /// 1 for a refusal, for disks that can't be rebuilt and for stripes that can't be sound, 2 for everything that never reached the library,
    /// 3 for disks that are missing and can be rebuilt.
    pub fn status(&self) -> u8 {
        match self {
            Failure::Refused(_) | Failure::Drawn { .. } | Failure::NoPlan { .. } => 1,
            Failure::Unsound { .. } | Failure::InTheWay { .. } | Failure::Unexpected { .. } => 1,
            Failure::Misuse { .. } | Failure::File(_) => 2,
            Failure::Missing { .. } => 3,
        }
    }
}

impl fmt::Display for Refused {
    fn fmt(&self, f: &mut fmt::Formatter<'_>) -> fmt::Result {
        let (number, place) = (self.refusal.number(), self.refusal.place());
        write!(f, "refused {number} at {place}: {}", self.refusal)?;
        if !self.detail.is_empty() {
            write!(f, ": {}", self.detail)?;
        }
        match &self.file {
            Some(file) => write!(f, " ({})", printable(file)),
            None => Ok(()),
        }
    }
}

impl fmt::Display for Failure {
    fn fmt(&self, f: &mut fmt::Formatter<'_>) -> fmt::Result {
        match self {
            Failure::Missing { text } => write!(f, "{text}"),
            Failure::Refused(refused) | Failure::Drawn { refused, .. } => write!(f, "{refused}"),
            Failure::NoPlan { what, code: file, .. } | Failure::Unsound { what, stripes: file, .. } => {
                write!(f, "{what} ({})", printable(file))
            }
            Failure::Misuse { what, command: "" } => {
                write!(f, "{what}\n`navorzim help` says how it is used")
            }
            Failure::Misuse { what, command } => {
                write!(f, "{what}\n`navorzim {command} --help` says how it is used")
            }
            Failure::File(what) | Failure::InTheWay { what, .. } | Failure::Unexpected { what, .. } => {
                write!(f, "{what}")
            }
        }
    }
}
