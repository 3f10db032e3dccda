//! Files that are read: sheets with a limit, stripes piece by piece, and how it is noticed that somebody else wrote one meanwhile.
use crate::failure::{printable, Failure};
use crate::place::Place;
use crate::{locks, system};
use std::fs::{self, File, Metadata, OpenOptions};
use std::io::{self, BufReader, ErrorKind, Read};
use std::os::fd::AsFd;
use std::os::unix::fs::{FileTypeExt, MetadataExt, OpenOptionsExt};
use std::path::{Path, PathBuf};

pub const BUFFER: usize = 1 << 18;

/// Whether a path stands for standard input or output. A file with this name is given as `./-`.
pub fn is_standard(path: &Path) -> bool {
    path.as_os_str() == "-"
}

/// A failure at a file.
pub fn trouble(verb: &str, path: &Path, why: impl std::fmt::Display) -> Failure {
    Failure::File(format!("can't {verb} {}: {why}", printable(path)))
}

/// Refuses to go on if a signal asks for the end.
pub fn go_on(verb: &str, path: &Path) -> Result<(), Failure> {
    match system::ended_by() {
        None => Ok(()),
        Some(signal) => Err(trouble(verb, path, format!("the run was ended by {signal}"))),
    }
}

/// A sheet's bytes, but never more than one above the longest: the library refuses those by their length, whatever follows.
pub fn read_sheet(path: &Path, longest: usize) -> Result<Vec<u8>, Failure> {
    let mut file = match is_standard(path) {
        true => standard_input()?,
        false => open_regular(&Place::named_only(path), Purpose::Read, Links::Followed)
            .map_err(|failure| or_dash(failure, path, FROM_STANDARD))?,
    };
    let mut sheet = vec![0; longest + 1];
    let length = fill(&mut file, path, &mut sheet)?;
    sheet.truncate(length);
    Ok(sheet)
}

/// Standard input as a file of its own, without the buffer that the standard library keeps.
fn standard_input() -> Result<File, Failure> {
    let file = io::stdin().as_fd().try_clone_to_owned();
    file.map(File::from).map_err(|error| trouble("read", Path::new("-"), error))
}

/// Fills the piece as far as the bytes go; answers how many there are. A signal ends the wait for them.
fn fill(from: &mut impl Read, path: &Path, piece: &mut [u8]) -> Result<usize, Failure> {
    let mut filled = 0;
    while filled < piece.len() {
        go_on("read", path)?;
        match from.read(&mut piece[filled..]) {
            Ok(0) => break,
            Ok(more) => filled += more,
            Err(error) if error.kind() == ErrorKind::Interrupted => {}
            Err(error) => return Err(trouble("read", path, error)),
        }
    }
    Ok(filled)
}

/// Which file it is, how long, and when it was last touched.
#[derive(Clone, Debug, PartialEq, Eq)]
struct Stamp {
    device: u64,
    inode: u64,
    length: u64,
    modified: (i64, i64),
    changed: (i64, i64),
}

impl Stamp {
    fn of(metadata: &Metadata) -> Stamp {
        Stamp {
            device: metadata.dev(),
            inode: metadata.ino(),
            length: metadata.len(),
            modified: (metadata.mtime(), metadata.mtime_nsec()),
            changed: (metadata.ctime(), metadata.ctime_nsec()),
        }
    }
}

/// What is done about a link in a file's place.
#[derive(Clone, Copy, Debug, PartialEq, Eq)]
pub enum Links {
    /// it is followed, as any program does
    Followed,
    /// it is refused: whoever made it may not be allowed to read what it leads to
    Refused,
}

/// What a file is opened for.
#[derive(Clone, Copy, Debug, PartialEq, Eq)]
pub enum Purpose {
    Read,
    /// another file will take its place; it is opened for writing, since whoever may not write it may not replace it either
    Replace,
    ReadAndReplace,
}

impl Purpose {
    fn verb(self) -> &'static str {
        match self {
            Purpose::Read => "read",
            Purpose::Replace | Purpose::ReadAndReplace => "write",
        }
    }
}

/// A regular file that is open and locked, and how it was found.
#[derive(Debug)]
pub struct Held {
    pub place: Place,
    pub file: File,
    found: Stamp,
    purpose: Purpose,
}

impl Held {
    pub fn open(path: &Path, purpose: Purpose) -> Result<Held, Failure> {
        Held::open_at(Place::named_only(path), purpose, Links::Followed)
    }

    pub fn open_at(place: Place, purpose: Purpose, links: Links) -> Result<Held, Failure> {
        let file = loop {
            let file = open_regular(&place, purpose, links)?;
            let waited = locks::lock(&file, purpose != Purpose::Read, purpose.verb(), place.named())?;
            // Whoever was waited for may have put another file there.
            if !waited || is_at(&file, &place) {
                break file;
            }
        };
        let fails = |why: String| trouble(purpose.verb(), place.named(), why);
        let found = file.metadata().map_err(|error| fails(error.to_string()))?;
        if purpose != Purpose::Read && found.permissions().readonly() {
            return Err(fails("it is write-protected".to_string()));
        }
        let found = Stamp::of(&found);
        Ok(Held { place, file, found, purpose })
    }

    /// The file's name for messages.
    pub fn named(&self) -> &Path {
        self.place.named()
    }

    /// Refuses if the file isn't the one that was found, under its name or as it is open: pieces of two states would be put
    /// together as one, or somebody's newer content would be lost.
    pub fn unchanged(&self) -> Result<(), Failure> {
        let now = [self.file.metadata(), fs::metadata(self.place.path())];
        if now.iter().all(|now| now.as_ref().is_ok_and(|now| Stamp::of(now) == self.found)) {
            Ok(())
        } else {
            Err(self.changed())
        }
    }

    /// Refuses if the file isn't at a place itself, but by a link at most: a folder on the way may have been exchanged.
    pub fn is_at(&self, place: &Place) -> Result<(), Failure> {
        match fs::symlink_metadata(place.path()) {
            Ok(now) if Stamp::of(&now) == self.found => Ok(()),
            _ => Err(self.changed()),
        }
    }

    fn changed(&self) -> Failure {
        match self.purpose {
            Purpose::Read => trouble("use", self.named(), "it changed while it was read"),
            Purpose::Replace | Purpose::ReadAndReplace => {
                trouble("write", self.named(), "somebody else wrote or replaced it meanwhile; it is left as it is")
            }
        }
    }

    /// How long the file was found to be.
    pub fn length(&self) -> u64 {
        self.found.length
    }

    /// The same open file, under the same lock.
    pub fn again(&self) -> Result<Held, Failure> {
        let file = self.file.try_clone().map_err(|error| trouble(self.purpose.verb(), self.named(), error))?;
        Ok(Held { place: self.place.clone(), file, found: self.found.clone(), purpose: self.purpose })
    }
}

/// Opens a file if it is a regular one.
pub fn open_regular(place: &Place, purpose: Purpose, links: Links) -> Result<File, Failure> {
    open_or_why(place, purpose, links).map_err(|why| trouble(purpose.verb(), place.named(), why))
}

/// The same; answers why not, for a sentence about the file.
pub fn open_or_why(place: &Place, purpose: Purpose, links: Links) -> Result<File, String> {
    let path = place.path();
    let fails = |error: io::Error| error.to_string();
    let regular = |found: &Metadata| kind(found).map_or(Ok(()), |kind| Err(format!("it is {kind}")));
    // Before it is opened, since to open a device may move it, and after, since it may have been exchanged; nor is a pipe's
    // other end waited for.
    let (found, flags) = match links {
        Links::Followed => (fs::metadata(&path), system::WITHOUT_WAITING),
        Links::Refused => (fs::symlink_metadata(&path), system::WITHOUT_WAITING | system::NO_LINK),
    };
    regular(&found.map_err(fails)?)?;
    let mut options = OpenOptions::new();
    let options = options.read(purpose != Purpose::Replace).write(purpose != Purpose::Read);
    let file = options.custom_flags(flags).open(path).map_err(fails)?;
    regular(&file.metadata().map_err(fails)?)?;
    Ok(file)
}

/// Whether a file is the one that a place leads to; also where nothing can be said, since then opening it anew is no help.
fn is_at(file: &File, place: &Place) -> bool {
    match (file.metadata(), fs::metadata(place.path())) {
        (Ok(open), Ok(there)) => (open.dev(), open.ino()) == (there.dev(), there.ino()),
        _ => true,
    }
}

/// Many stripes, or their data, that are read piece by piece: a regular file, or standard input.
pub struct Input {
    path: PathBuf,
    /// none for standard input
    held: Option<Held>,
    reader: BufReader<File>,
    /// bytes that have been read
    taken: u64,
}

impl Input {
    pub fn open(path: &Path, purpose: Purpose) -> Result<Input, Failure> {
        let (held, file) = if is_standard(path) {
            (None, standard_input()?)
        } else {
            let held = Held::open(path, purpose).map_err(|failure| match purpose {
                Purpose::Read => or_dash(failure, path, FROM_STANDARD),
                Purpose::Replace | Purpose::ReadAndReplace => failure,
            })?;
            let file = held.again()?.file;
            (Some(held), file)
        };
        let reader = BufReader::with_capacity(BUFFER, file);
        Ok(Input { path: path.to_path_buf(), held, reader, taken: 0 })
    }

    pub fn held(&self) -> Option<&Held> {
        self.held.as_ref()
    }

    pub fn path(&self) -> &Path {
        &self.path
    }

    /// How long the file is; nobody knows it of standard input.
    pub fn length(&self) -> Option<u64> {
        self.held.as_ref().map(Held::length)
    }

    /// How many bytes have been read.
    pub fn taken(&self) -> u64 {
        self.taken
    }

    /// Fills the piece as far as the input goes; answers how many bytes there were. A file goes as far as it was long when it was
    /// opened.
    pub fn read(&mut self, piece: &mut [u8]) -> Result<usize, Failure> {
        let left = self.length().map_or(u64::MAX, |length| length - self.taken);
        let most = usize::try_from(left).map_or(piece.len(), |left| piece.len().min(left));
        let filled = fill(&mut self.reader, &self.path, &mut piece[..most])?;
        self.taken += filled as u64;
        match &self.held {
            Some(held) if filled < most => Err(held.changed()),
            _ => Ok(filled),
        }
    }
}

/// What does where a file that isn't a regular one is refused.
const FROM_STANDARD: &str = "a dash, -, reads from standard input, which < leads from there";
pub const TO_STANDARD: &str = "a dash, -, writes to standard output, which > leads there";

/// A refusal of a pipe or a device, with what would do in its place.
pub fn or_dash(failure: Failure, path: &Path, instead: &str) -> Failure {
    let special = fs::metadata(path).is_ok_and(|found| !found.is_file() && !found.is_dir());
    match failure {
        Failure::File(what) if special => Failure::File(format!("{what}; {instead}")),
        failure => failure,
    }
}

/// What is no regular file, by what it is.
pub fn kind(found: &Metadata) -> Option<&'static str> {
    let kind = found.file_type();
    if kind.is_file() {
        None
    } else if kind.is_symlink() {
        // Nothing but an array's files is looked at without following links.
        Some("a link; --links takes links, for arrays whose disks lie on several media")
    } else if kind.is_dir() {
        Some("a folder")
    } else if kind.is_fifo() {
        Some("a pipe, not a regular file")
    } else if kind.is_socket() {
        Some("a socket, not a regular file")
    } else {
        Some("a device, not a regular file")
    }
}
