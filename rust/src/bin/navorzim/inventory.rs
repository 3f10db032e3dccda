//! What is in an array's folder: which disks are there, which are not, and what else.
use crate::array::Array;
use crate::disks::Disks;
use crate::failure::{printable, Failure};
use crate::files::{go_on, kind, open_or_why, open_regular, trouble, Links, Purpose, BUFFER};
use crate::label::Label;
use crate::progress::Progress;
use crate::replacement::is_temporary;
use navorzim::Refusal;
use std::collections::HashMap;
use std::ffi::OsString;
use std::fs::{self, File, Metadata};
use std::io::{self, ErrorKind};
use std::os::unix::fs::{FileExt, MetadataExt};
use std::path::Path;

/// How a disk's file was found.
#[derive(Clone, Debug, PartialEq, Eq)]
pub enum Found {
    /// a regular file of the right length, with the disk's label
    There,
    /// no file
    Missing,
    /// a regular file of another length
    Length(u64),
    /// the very file of a disk before it
    SameAs(usize),
    /// the file of another disk or another array, or of none
    Stranger(String),
    /// what is no file, or can't be looked at
    Unfit(String),
    /// a file that can't be read: where, and why
    Unreadable(u64, String),
    /// there, but to be done without
    SetAside,
}

/// A folder that was looked through.
#[derive(Debug)]
pub struct Inventory {
    pub disks: Vec<Found>,
    /// names that aren't the array's
    pub extra: Vec<OsString>,
}

impl Inventory {
    /// Looks through a folder. Of the disks that are to be done without, it is seen only whether they are there.
    pub fn take(array: &Array, without: &Disks) -> Result<Inventory, Failure> {
        if without.iter().any(|disk| disk >= array.code.disks as u64) {
            return Err(array.code.explain(Refusal::NoSuchDisk, without, None, 0));
        }
        let (mut disks, mut files) = (Vec::new(), HashMap::new());
        for disk in 0..array.code.disks {
            let (found, file) = match look(array, disk) {
                Err(Found::Missing) => (Found::Missing, (0, 0)),
                _ if without.has(disk) => (Found::SetAside, (0, 0)),
                Err(unfit) => (unfit, (0, 0)),
                // Links of both kinds are seen through.
                Ok(found) => match files.get(&(found.dev(), found.ino())) {
                    Some(&before) => (Found::SameAs(before), (0, 0)),
                    None => (whose(array, disk)?, (found.dev(), found.ino())),
                },
            };
            if found == Found::There {
                files.insert(file, disk);
            }
            disks.push(found);
        }
        Ok(Inventory { disks, extra: extra(array)? })
    }

    /// Reads every byte of every disk that is there, and notes those that can't be read.
    pub fn read_all(&mut self, array: &Array) -> Result<(), Failure> {
        let there: Vec<usize> = (0..self.disks.len()).filter(|&disk| self.disks[disk] == Found::There).collect();
        let progress = Progress::counting("bytes", Some(array.file_length().saturating_mul(there.len() as u64)));
        for disk in there {
            let place = array.disk(disk);
            let file = open_regular(&place, Purpose::Read, array.links)?;
            // Where this fails, so does the reading.
            if array.owns(&file, disk).is_ok_and(|owned| !owned) {
                return Err(trouble("use", place.named(), JUST_CHANGED));
            }
            if let Some((at, why)) = first_unreadable(&file, place.named(), &progress)? {
                self.disks[disk] = Found::Unreadable(at, why.to_string());
            }
        }
        Ok(())
    }

    /// The disks that can't be read.
    pub fn lost(&self) -> Disks {
        self.chosen(|found| *found != Found::There)
    }

    /// The disks that have no file.
    pub fn missing(&self) -> Disks {
        self.chosen(|found| *found == Found::Missing)
    }

    fn chosen(&self, chosen: impl Fn(&Found) -> bool) -> Disks {
        Disks::of((0..self.disks.len()).filter(|&disk| chosen(&self.disks[disk])).map(|disk| disk as u64))
    }

    /// What is there in a disk's place that isn't the disk; none if the disk is there, or nothing is.
    pub fn fault(&self, array: &Array, disk: usize) -> Option<String> {
        match self.disks.get(disk)? {
            Found::There | Found::Missing | Found::SetAside | Found::Unreadable(..) => None,
            Found::Length(length) => Some(format!("it has {length} bytes, not {}", array.file_length())),
            Found::SameAs(before) => Some(format!("it is the same file as {}", array.name(*before))),
            Found::Stranger(why) | Found::Unfit(why) => Some(why.clone()),
        }
    }

    /// The disks that aren't read because of what is there in their place, a line each.
    pub fn fault_lines(&self, array: &Array) -> String {
        let faults = (0..self.disks.len()).filter_map(|disk| Some((disk, self.fault(array, disk)?)));
        faults.map(|(disk, fault)| format!("  {} isn't read: {fault}\n", array.name(disk))).collect()
    }

    /// The names that aren't the array's, each with what it is.
    pub fn extra_words(&self) -> Vec<String> {
        let words = |name: &OsString| match is_temporary(name) {
            true => "a temporary file: of a run at work, or of one that was killed",
            false => "not a part of the array",
        };
        self.extra.iter().map(|name| format!("{}: {}", printable(Path::new(name)), words(name))).collect()
    }
}

/// What is said of a file that was found to be a disk, and isn't any more when it is opened to be read.
pub const JUST_CHANGED: &str = "it has just changed its length or its label";

/// What can be done about a disk that is there and can't be read.
pub fn way_out(disk: usize) -> String {
    format!("--without {disk} does without it")
}

/// Reads a file to its end; answers the first place that can't be read, to a sector, and why.
fn first_unreadable(file: &File, named: &Path, progress: &Progress) -> Result<Option<(u64, io::Error)>, Failure> {
    const SECTOR: usize = 512;
    let length = file.metadata().map_err(|error| trouble("read", named, error))?.len();
    // Sector by sector up to `doubtful`, where more at once couldn't be read.
    let (mut piece, mut place, mut doubtful) = (vec![0; BUFFER], 0, 0);
    while place < length {
        go_on("read", named)?;
        let step = if place < doubtful { SECTOR } else { BUFFER };
        match file.read_at(&mut piece[..step], place) {
            Ok(0) => return Err(trouble("use", named, "it changed while it was read")),
            Ok(read) => {
                place += read as u64;
                progress.advance(read as u64);
            }
            Err(error) if error.kind() == ErrorKind::Interrupted => {}
            Err(error) if place < doubtful => return Ok(Some((place, error))),
            Err(_) => doubtful = place + BUFFER as u64,
        }
    }
    Ok(None)
}

/// The regular file in a disk's place.
fn look(array: &Array, disk: usize) -> Result<Metadata, Found> {
    let path = array.disk(disk).path();
    let found = match array.links {
        Links::Followed => fs::metadata(&path),
        Links::Refused => fs::symlink_metadata(&path),
    };
    match found {
        Ok(found) => match kind(&found) {
            Some(kind) => Err(Found::Unfit(format!("it is {kind}"))),
            None => Ok(found),
        },
        Err(error) if error.kind() == ErrorKind::NotFound => match fs::symlink_metadata(&path) {
            Ok(_) => Err(Found::Unfit("it is a link to nothing".to_string())),
            Err(_) => Err(Found::Missing),
        },
        Err(error) => Err(Found::Unfit(error.to_string())),
    }
}

/// Whose the regular file in a disk's place is, by its label. Nobody is asked for a lock: what is read later is compared again then.
fn whose(array: &Array, disk: usize) -> Result<Found, Failure> {
    let unfit = |why: String| Ok(Found::Unfit(format!("{why}; {}", way_out(disk))));
    let file = match open_or_why(&array.disk(disk), Purpose::Read, array.links) {
        Ok(file) => file,
        Err(why) => return unfit(format!("it can't be opened: {why}")),
    };
    let (length, label) = match file.metadata().and_then(|found| Ok((found.len(), Label::read(&file)?))) {
        Ok(read) => read,
        Err(error) => return unfit(format!("its end can't be read: {error}")),
    };
    match label {
        label if label == Label::of(array, disk) && length == array.file_length() => Ok(Found::There),
        Some(label) if Label::of(array, disk).as_ref() != Some(&label) => stranger(array, disk, &label),
        _ if length != array.file_length() => Ok(Found::Length(length)),
        _ => Ok(Found::Stranger(NO_LABEL.to_string())),
    }
}

/// What is said of a file of the right length without a label.
const NO_LABEL: &str = "it has no label, or a damaged one: whose it is isn't known";

/// What a label says that isn't the disk's. Of an array that has the same identity and another description nothing can be believed.
fn stranger(array: &Array, disk: usize, label: &Label) -> Result<Found, Failure> {
    let (path, number) = (array.disk(disk), label.disk);
    let is = |what: String| Ok(Found::Stranger(format!("this is disk {number} of {what}")));
    let Some(birth) = &array.birth else {
        return is("an array with labels, and `array` is of version 1, which has none".to_string());
    };
    let Ok(other) = Array::read(&array.folder, array.links, path.named(), &label.text) else {
        return Ok(Found::Stranger(NO_LABEL.to_string()));
    };
    if other.birth.map(|other| other.identity) != Some(birth.identity) {
        return is("another array".to_string());
    }
    if label.text == array.text().into_bytes() {
        return is(format!("this array, under the name {}", array.name(disk)));
    }
    let (here, there) = (array.text(), String::from_utf8_lossy(&label.text).to_string());
    let differs = here.lines().zip(there.lines()).enumerate().find(|(_, (here, there))| here != there);
    let what = differs.map_or("one is longer".to_string(), |(line, (here, there))| {
        format!("line {} is '{here}' in `array`, and '{there}' in the label", line + 1)
    });
    Err(trouble("use", path.named(), format!("its label and `array` disagree: {what}")))
}

fn extra(array: &Array) -> Result<Vec<OsString>, Failure> {
    let fails = |error| trouble("read", array.folder.named(), error);
    let mut extra = Vec::new();
    for entry in fs::read_dir(array.folder.path()).map_err(fails)? {
        let name = entry.map_err(fails)?.file_name();
        if !name.to_str().is_some_and(|name| array.has(name)) {
            extra.push(name);
        }
    }
    extra.sort();
    Ok(extra)
}
