//! An array as a folder: a file a disk, with the disk's strips one after the other and a label, and a text, `array`, that says what
//! they are.
use crate::birth::Birth;
use crate::checksum::crc32;
use crate::failure::{printable, Failure, Refused};
use crate::files::{is_standard, trouble, Held, Links, Purpose};
use crate::label::{self, Label};
use crate::lists::decimal;
use crate::place::{OpenFolder, Place};
use crate::replacement::is_temporary;
use crate::sheets::{counted, Code};
use navorzim::Refusal;
use std::ffi::OsStr;
use std::fs::{self, File};
use std::io::{self, ErrorKind, Read};
use std::os::unix::fs::MetadataExt;
use std::path::Path;
use std::sync::Arc;

/// The name of the description.
const NAME: &str = "array";
/// What its first line says: before there were labels, and since.
const VERSION_1: &str = "navorzim array 1";
const VERSION_2: &str = "navorzim array 2";
/// What is said of an array of version 1.
pub const NO_LABELS: &str = "version 1, without labels: a disk of another array can't be noticed";
/// No description is longer: 64 disks with the longest names, 64 rows, and some lines more.
const LONGEST: usize = 32 << 10;
/// The longest name that a file can have.
const LONGEST_NAME: usize = 255;

/// An array's description.
#[derive(Debug)]
pub struct Array {
    pub folder: Arc<OpenFolder>,
    /// whether its files may be links
    pub links: Links,
    /// none in version 1, whose disks have no labels
    pub birth: Option<Birth>,
    /// the family's name and parameters, for people: as it was written, since a later version may know more families
    family: Option<String>,
    pub code: Code,
    /// L
    pub symbol_length: u64,
    pub stripes: u64,
    /// bytes of data; the last stripe is filled up with zeros
    pub length: u64,
    /// the disks' files
    names: Vec<String>,
}

impl Array {
    /// The array of so many bytes of data under the names that `split` gives.
    pub fn new(folder: Arc<OpenFolder>, birth: Birth, code: Code, symbol_length: u64, length: u64) -> Array {
        let names = (0..code.disks).map(|disk| format!("disk-{disk}")).collect();
        let stripes = stripes_for(&code, symbol_length, length);
        let (links, birth, family) = (Links::Refused, Some(birth), code.family_name());
        Array { folder, links, birth, family, code, symbol_length, stripes, length, names }
    }

    /// Opens a folder, for all that is done there, and reads its description, which stays open and locked. Where it is lost, the labels
    /// have it.
    pub fn open(folder: &Path, links: Links) -> Result<(Array, Option<Held>), Failure> {
        let path = folder.join(NAME);
        let folder = OpenFolder::open(folder).map_err(|error| trouble("read", &path, error))?;
        if fs::symlink_metadata(folder.at(NAME).path()).is_err_and(|error| error.kind() == ErrorKind::NotFound) {
            if let Some(text) = label::agreed(&folder, links, &path)? {
                return Ok((Array::read(&folder, links, &path, &text)?, None));
            }
        }
        let held = Held::open_at(folder.at(NAME), Purpose::Read, links)?;
        let mut bytes = Vec::new();
        let read = (&held.file).take(LONGEST as u64 + 1).read_to_end(&mut bytes);
        read.map_err(|error| trouble("read", &path, error))?;
        Ok((Array::read(&folder, links, &path, &bytes)?, Some(held)))
    }

    /// Reads a description. A fault is that of the file at the path.
    pub fn read(folder: &Arc<OpenFolder>, links: Links, path: &Path, bytes: &[u8]) -> Result<Array, Failure> {
        let array = Reader::new(folder, path, bytes)?.array()?;
        Ok(Array { links, ..array })
    }

    /// Where a disk's file is.
    pub fn disk(&self, disk: usize) -> Place {
        self.folder.at(self.name(disk))
    }

    pub fn name(&self, disk: usize) -> &str {
        self.names.get(disk).map_or("", String::as_str)
    }

    /// Where the description is.
    pub fn description(&self) -> Place {
        self.folder.at(NAME)
    }

    /// Whether a name in the folder is a part of the array.
    pub fn has(&self, name: &str) -> bool {
        name == NAME || self.names.iter().any(|own| own == name)
    }

    /// Refuses to write a file that is, or would be, a part of the array.
    pub fn keep_apart(&self, path: &Path) -> Result<(), Failure> {
        let identity = |path: &Path| fs::metadata(path).ok().map(|found| (found.dev(), found.ino()));
        let folder = identity(path.parent().filter(|parent| *parent != Path::new("")).unwrap_or(Path::new(".")));
        let own = path.file_name().and_then(OsStr::to_str).is_some_and(|name| self.has(name));
        match !is_standard(path) && own && folder == identity(&self.folder.path()) {
            true => Err(trouble("write", path, "it is a part of the array")),
            false => Ok(()),
        }
    }

    /// Bytes of a disk's strip.
    pub fn strip_length(&self) -> u64 {
        self.code.rows as u64 * self.symbol_length
    }

    /// Bytes of a disk's strips. `open` has tested that there is such a number.
    pub fn disk_length(&self) -> u64 {
        self.stripes.saturating_mul(self.strip_length())
    }

    /// The label of a disk's file; empty in version 1.
    pub fn label(&self, disk: usize) -> Vec<u8> {
        Label::of(self, disk).map_or(Vec::new(), |label| label.bytes())
    }

    /// Whether a file is a disk of this array: so long, and with the disk's label, or in version 1 with none.
    pub fn owns(&self, file: &File, disk: usize) -> io::Result<bool> {
        Ok(file.metadata()?.len() == self.file_length() && Label::read(file)? == Label::of(self, disk))
    }

    /// Bytes of a disk's file, with its label.
    pub fn file_length(&self) -> u64 {
        self.disk_length().saturating_add(self.label(0).len() as u64)
    }

    /// The description as a text: a line each for the version, the identity, when it was made, the family if it is one, L, the
    /// stripes, the data's length, the head of the code sheet and each of its rows, both in hexadecimal, each disk's file, and the
    /// check value of every byte before it. Version 1 has no identity, and what goes with it.
    pub fn text(&self) -> String {
        let (head, rows) = self.code.sheet.split_at(6);
        let mut lines = match &self.birth {
            None => vec![VERSION_1.to_string()],
            Some(birth) => vec![
                VERSION_2.to_string(),
                format!("identity {}", hexadecimal(&birth.identity)),
                format!("made {}", birth.made),
            ],
        };
        lines.extend(self.family.iter().map(|family| format!("family {family}")));
        lines.push(format!("symbol {}", self.symbol_length));
        lines.push(format!("stripes {}", self.stripes));
        lines.push(format!("length {}", self.length));
        lines.push(format!("code {}", hexadecimal(head)));
        lines.extend(rows.chunks(8).map(|row| format!("row {}", hexadecimal(row))));
        lines.extend(self.names.iter().enumerate().map(|(disk, name)| format!("disk {disk} {name}")));
        let text: String = lines.iter().map(|line| format!("{line}\n")).collect();
        match self.birth {
            None => text,
            Some(_) => format!("{text}check {:08x}\n", crc32(text.as_bytes())),
        }
    }
}

fn hexadecimal(bytes: &[u8]) -> String {
    bytes.iter().map(|byte| format!("{byte:02x}")).collect()
}

/// How many stripes so many bytes of data fill.
fn stripes_for(code: &Code, symbol_length: u64, length: u64) -> u64 {
    length.div_ceil((code.data as u64).saturating_mul(symbol_length).max(1))
}

/// Reads a description line by line. Every fault names its line.
struct Reader<'a> {
    folder: &'a Arc<OpenFolder>,
    path: &'a Path,
    bytes: &'a [u8],
    lines: Vec<&'a str>,
    /// the lines that have been read
    read: usize,
    /// the lines before the one with L
    before: usize,
}

impl<'a> Reader<'a> {
    fn new(folder: &'a Arc<OpenFolder>, path: &'a Path, bytes: &'a [u8]) -> Result<Reader<'a>, Failure> {
        let fault = |line: usize, why: &str| trouble("use", path, format!("line {line}: {why}"));
        let lines_in = |bytes: &[u8]| bytes.iter().filter(|&&byte| byte == b'\n').count();
        if bytes.len() > LONGEST {
            return Err(fault(
                lines_in(&bytes[..LONGEST]) + 1,
                &format!("it goes on after {LONGEST} bytes, where no description does"),
            ));
        }
        let text = std::str::from_utf8(bytes).map_err(|error| {
            let line = lines_in(&bytes[..error.valid_up_to()]) + 1;
            fault(line, "it isn't text")
        })?;
        let Some(text) = text.strip_suffix('\n') else {
            return Err(fault(lines_in(bytes) + 1, "it has no end"));
        };
        let lines = text.split('\n').collect();
        Ok(Reader { folder, path, bytes, lines, read: 0, before: 1 })
    }

    fn array(mut self) -> Result<Array, Failure> {
        let birth = match self.next_line()? {
            VERSION_1 => None,
            VERSION_2 => Some(self.birth()?),
            _ => return Err(self.fault(format!("'{VERSION_2}', or the same with 1, must stand here"))),
        };
        let family = self.family(&birth)?;
        self.before = self.read;
        let (symbol_length, stripes, length) =
            (self.number("symbol")?, self.number("stripes")?, self.number("length")?);
        let code = self.code()?;
        self.fits(&code, symbol_length, stripes, length)?;
        let names = (0..code.disks).map(|disk| self.name(disk)).collect::<Result<Vec<String>, Failure>>()?;
        let last_name = self.read;
        if birth.is_some() {
            self.check()?;
        }
        if self.read < self.lines.len() {
            let why = format!("it is one too many: the code has {}", counted(code.disks, "disk"));
            return Err(self.fault_at(self.read + 1, why));
        }
        if let Some(at) = (0..names.len()).find(|&at| names[..at].contains(&names[at])) {
            let line = last_name - (names.len() - 1 - at);
            return Err(self.fault_at(line, format!("'{}' is another disk's file already", names[at])));
        }
        let (folder, links) = (Arc::clone(self.folder), Links::Refused);
        Ok(Array { folder, links, birth, family, code, symbol_length, stripes, length, names })
    }

    fn birth(&mut self) -> Result<Birth, Failure> {
        let mut identity = [0; 16];
        identity.copy_from_slice(&self.bytes("identity", 16)?);
        Ok(Birth { identity, made: self.words("made", "when that was")? })
    }

    /// The line with the family, if it is there.
    fn family(&mut self, birth: &Option<Birth>) -> Result<Option<String>, Failure> {
        match self.lines.get(self.read) {
            Some(line) if birth.is_some() && line.starts_with("family ") => {
                self.words("family", "its name and parameters").map(Some)
            }
            _ => Ok(None),
        }
    }

    /// What a line says to people.
    fn words(&mut self, word: &str, what: &str) -> Result<String, Failure> {
        let words = self.value(word, what)?;
        match words.len() <= LONGEST_NAME && printable(Path::new(words)) == words {
            true => Ok(words.to_string()),
            false => Err(self.fault("it is too long, or has signs that can't be shown".to_string())),
        }
    }

    /// The check value.
    fn check(&mut self) -> Result<(), Failure> {
        let before: usize = self.lines.iter().take(self.read).map(|line| line.len() + 1).sum();
        let expected = crc32(&self.bytes[..before]);
        let found = self.bytes("check", 4)?;
        if found != expected.to_be_bytes() {
            let found = hexadecimal(&found);
            let why = format!("it is {found}, but what stands before it gives {expected:08x}: something has changed");
            return Err(self.fault(why));
        }
        Ok(())
    }

    fn next_line(&mut self) -> Result<&'a str, Failure> {
        self.read += 1;
        match self.lines.get(self.read - 1) {
            Some(line) => Ok(line),
            None => Err(self.fault("it is missing".to_string())),
        }
    }

    /// A fault of the line that was read last.
    fn fault(&self, why: String) -> Failure {
        self.fault_at(self.read, why)
    }

    fn fault_at(&self, line: usize, why: String) -> Failure {
        trouble("use", self.path, format!("line {line}: {why}"))
    }

    /// What follows a word and a blank.
    fn value(&mut self, word: &str, what: &str) -> Result<&'a str, Failure> {
        let line = self.next_line()?;
        let value = line.strip_prefix(word).and_then(|rest| rest.strip_prefix(' '));
        value.ok_or_else(|| self.fault(format!("'{word}' and {what} must stand here")))
    }

    fn number(&mut self, word: &str) -> Result<u64, Failure> {
        let value = self.value(word, "a number")?;
        let number = decimal(value).filter(|number| number.to_string() == value);
        number.ok_or_else(|| self.fault(format!("'{word}' and a decimal number must stand here")))
    }

    fn bytes(&mut self, word: &str, count: usize) -> Result<Vec<u8>, Failure> {
        let what = format!("{} hexadecimal digits (a to f small)", 2 * count);
        let value = self.value(word, &what)?.as_bytes();
        let digit = |byte: u8| match byte {
            b'0'..=b'9' => Some(byte - b'0'),
            b'a'..=b'f' => Some(byte - b'a' + 10),
            _ => None,
        };
        let bytes: Option<Vec<u8>> =
            value.chunks(2).map(|pair| Some(digit(pair[0])? << 4 | digit(*pair.get(1)?)?)).collect();
        let bytes = bytes.filter(|bytes| bytes.len() == count);
        bytes.ok_or_else(|| self.fault(format!("'{word}' and {what} must stand here")))
    }

    /// The code sheet, which the library judges. A refusal names the line of the row at fault, or of the head.
    fn code(&mut self) -> Result<Code, Failure> {
        let mut sheet = self.bytes("code", 6)?;
        let head = self.read;
        for _ in 0..sheet[5] {
            sheet.extend(self.bytes("row", 8)?);
        }
        Code::read(self.path, sheet).map_err(|refusal| {
            let line = match refusal {
                Refusal::StrayBit { row, .. } => head as u64 + 1 + row,
                _ => head as u64,
            };
            let (detail, file) = (format!("line {line}"), Some(self.path.to_path_buf()));
            Failure::Refused(Refused { refusal, detail, file })
        })
    }

    /// Of the three numbers: that L is one, that the data fill the stripes, and that files can be so long.
    fn fits(&self, code: &Code, symbol_length: u64, stripes: u64, length: u64) -> Result<(), Failure> {
        if !(1..=65536).contains(&symbol_length) {
            return Err(
                self.fault_at(self.before + 1, format!("a symbol is 1 to 65536 bytes long, not {symbol_length}"))
            );
        }
        let expected = stripes_for(code, symbol_length, length);
        if stripes != expected {
            let (piece, expected) = (code.data as u64 * symbol_length, counted(expected, "stripe"));
            let why = format!("{length} bytes of data, {piece} a stripe, fill {expected}, not {stripes}");
            return Err(self.fault_at(self.before + 2, why));
        }
        match stripes.checked_mul(code.rows as u64 * symbol_length) {
            Some(0..=0x7fff_ffff_ffff_ffff) => Ok(()),
            _ => Err(self.fault_at(self.before + 3, format!("{length} bytes of data are more than files can hold"))),
        }
    }

    /// The name of a disk's file: one that a file in the folder can have, and that a line and a terminal can show.
    fn name(&mut self, disk: usize) -> Result<String, Failure> {
        let name = self.value(&format!("disk {disk}"), "the name of its file")?;
        let why = match name {
            "" | "." | ".." => "it is no name for a file",
            NAME => "the description itself can't be a disk",
            _ if name.contains('/') => "a disk's file lies in the folder itself",
            _ if name.contains('\0') || printable(Path::new(name)) != name => "it has signs that can't be shown",
            _ if name.len() > LONGEST_NAME => "it is longer than a name can be",
            _ if is_temporary(OsStr::new(name)) => "temporary files have such names, and are removed",
            _ => return Ok(name.to_string()),
        };
        Err(self.fault(why.to_string()))
    }
}
