//! The label at the end of a disk's file: the array's whole description, and a line with the disk's number and a check value.
use crate::array::Array;
use crate::checksum::crc32;
use crate::failure::Failure;
use crate::files::{open_regular, trouble, Links, Purpose};
use crate::lists::decimal;
use crate::place::OpenFolder;
use crate::replacement::is_temporary;
use std::ffi::OsStr;
use std::fs::{self, File};
use std::io;
use std::os::unix::fs::FileExt;
use std::path::Path;
use std::sync::Arc;

/// What the last line begins with.
const HEAD: &str = "navorzim label 1 disk ";
/// How long the last line is.
const LAST_LINE: usize = 51;
/// No description is longer.
const LONGEST: usize = 32 << 10;

/// A label that was read, with the right check value.
#[derive(Clone, Debug, PartialEq, Eq)]
pub struct Label {
    pub disk: usize,
    /// the description of the array that it belongs to
    pub text: Vec<u8>,
}

impl Label {
    /// A disk's label in an array; none in version 1.
    pub fn of(array: &Array, disk: usize) -> Option<Label> {
        array.birth.as_ref().map(|_| Label { disk, text: array.text().into_bytes() })
    }

    pub fn bytes(&self) -> Vec<u8> {
        let mut bytes = self.text.clone();
        bytes.extend(format!("{HEAD}{:02} text {:05} check ", self.disk, self.text.len()).bytes());
        let check = crc32(&bytes);
        bytes.extend(format!("{check:08x}\n").bytes());
        bytes
    }

    /// The label at the end of a file, if there is one and it isn't damaged. Whose disk a file is, is decided by this alone.
    pub fn read(file: &File) -> io::Result<Option<Label>> {
        let length = file.metadata()?.len();
        let Some(before_line) = length.checked_sub(LAST_LINE as u64) else { return Ok(None) };
        let mut line = [0; LAST_LINE];
        file.read_exact_at(&mut line, before_line)?;
        let Some((disk, text)) = numbers(&line) else { return Ok(None) };
        let Some(before_text) = before_line.checked_sub(text as u64).filter(|_| text <= LONGEST) else {
            return Ok(None);
        };
        let mut bytes = vec![0; text + LAST_LINE];
        file.read_exact_at(&mut bytes, before_text)?;
        let label = Label { disk, text: bytes[..text].to_vec() };
        // One spelling only: the check value and every other byte are as they would be written.
        Ok((label.bytes() == bytes).then_some(label))
    }
}

/// The description that the labels in a folder have, if there are any: they must agree. `path` is where it should be.
pub fn agreed(folder: &Arc<OpenFolder>, links: Links, path: &Path) -> Result<Option<Vec<u8>>, Failure> {
    let entries = fs::read_dir(folder.path()).map_err(|error| trouble("read", folder.named(), error))?;
    let names = entries.flatten().filter_map(|entry| entry.file_name().into_string().ok());
    let mut names: Vec<String> = names.filter(|name| !is_temporary(OsStr::new(name))).collect();
    names.sort();
    let mut agreed: Option<(String, Label)> = None;
    for name in names {
        let file = open_regular(&folder.at(&name), Purpose::Read, links).ok();
        let Some(label) = file.and_then(|file| Label::read(&file).ok()?) else { continue };
        match &agreed {
            None => agreed = Some((name, label)),
            Some((_, first)) if first.text == label.text => {}
            Some((first, _)) => {
                let why = format!("it isn't there, and the labels of {first} and {name} describe two arrays");
                return Err(trouble("read", path, why));
            }
        }
    }
    Ok(agreed.map(|(_, label)| label.text))
}

/// The disk, and how long the description is.
fn numbers(line: &[u8]) -> Option<(usize, usize)> {
    let rest = std::str::from_utf8(line).ok()?.strip_prefix(HEAD)?;
    let (disk, rest) = rest.split_once(" text ")?;
    let (text, _) = rest.split_once(" check ")?;
    Some((decimal(disk)? as usize, decimal(text)? as usize))
}
