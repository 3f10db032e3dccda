//! The command line: named options, and the words that stand in order.
use crate::disks::Disks;
use crate::failure::Failure;
use crate::files::{is_standard, Links};
use crate::lists::decimal;
use crate::locks;
use crate::planning::Choice;
use crate::wanted::Request;
use std::collections::VecDeque;
use std::ffi::{OsStr, OsString};
use std::os::unix::ffi::OsStrExt;
use std::path::{Path, PathBuf};

/// The options that take no value.
const FLAGS: &[&str] = &["--dry-run", "--fewest", "--in-place", "--links", "--read"];

/// Whether an option takes a value.
pub fn takes_value(option: &str) -> bool {
    !FLAGS.contains(&option)
}

/// What follows a command's name, sorted. A question removes what it answers, so that `finish` finds what nobody asked for.
#[derive(Debug)]
pub struct Arguments {
    command: &'static str,
    words: VecDeque<OsString>,
    options: Vec<(&'static str, OsString)>,
    help: bool,
    /// what is read from standard input
    standard_input: Option<String>,
    /// whether standard output takes a command's bytes, so that what it says goes elsewhere
    standard_output: bool,
}

impl Arguments {
    /// Sorts the words of a command that knows `known` options, each with a value but the flags.
    pub fn read(
        command: &'static str,
        known: &'static [&'static str],
        given: impl IntoIterator<Item = OsString>,
    ) -> Result<Arguments, Failure> {
        let (words, options) = (VecDeque::new(), Vec::new());
        let mut sorted =
            Arguments { command, words, options, help: false, standard_input: None, standard_output: false };
        let mut given = given.into_iter();
        while let Some(word) = given.next() {
            match word.as_bytes() {
                b"--" => sorted.words.extend(given.by_ref()),
                b"-h" | b"--help" => sorted.help = true,
                b"-" => sorted.words.push_back(word),
                [b'-', ..] => sorted.read_option(&word, known, &mut given)?,
                _ => sorted.words.push_back(word),
            }
        }
        Ok(sorted)
    }

    /// `--name VALUE`, `--name=VALUE` or `-n VALUE`.
    fn read_option(
        &mut self,
        word: &OsStr,
        known: &'static [&'static str],
        given: &mut impl Iterator<Item = OsString>,
    ) -> Result<(), Failure> {
        let bytes = word.as_bytes();
        let equals = bytes.iter().position(|&byte| byte == b'=');
        let (name, joined) = match equals {
            Some(at) if bytes.starts_with(b"--") => {
                (&bytes[..at], Some(OsStr::from_bytes(&bytes[at + 1..]).to_os_string()))
            }
            _ => (bytes, None),
        };
        let name = if name == b"--output" { b"-o" } else { name };
        let Some(&name) = known.iter().find(|option| option.as_bytes() == name) else {
            let what = format!("{} has no option {}", self.command, shown(word));
            return Err(self.misuse(what));
        };
        if self.options.iter().any(|(taken, _)| *taken == name) {
            return Err(self.misuse(format!("{name} is given twice")));
        }
        let value = match (takes_value(name), joined) {
            (false, None) => OsString::new(),
            (false, Some(_)) => return Err(self.misuse(format!("{name} takes no value"))),
            (true, joined) => match joined.or_else(|| given.next()) {
                Some(value) => value,
                None => return Err(self.misuse(format!("{name} needs a value"))),
            },
        };
        self.options.push((name, value));
        Ok(())
    }

    /// Whether help was asked for.
    pub fn asks_for_help(&self) -> bool {
        self.help
    }

    /// The next word.
    pub fn word(&mut self, name: &str) -> Result<OsString, Failure> {
        self.words.pop_front().ok_or_else(|| self.misuse(format!("{name} is missing")))
    }

    /// The next word as a file.
    pub fn file(&mut self, name: &str) -> Result<PathBuf, Failure> {
        let word = self.word(name)?;
        self.as_file(name, word)
    }

    /// The next word as a file that is read, or `-` for standard input.
    pub fn source(&mut self, name: &str) -> Result<PathBuf, Failure> {
        let word = self.word(name)?;
        self.as_source(name, word)
    }

    /// The value of an option as a file that is read, or `-` for standard input, if it is given.
    pub fn source_option(&mut self, name: &str) -> Result<Option<PathBuf>, Failure> {
        let value = self.option(name);
        value.map(|word| self.as_source(name, word)).transpose()
    }

    /// The value of an option as a file that is written, or `-` for standard output, if it is given.
    pub fn target_option(&mut self, name: &str) -> Result<Option<PathBuf>, Failure> {
        match self.option(name) {
            Some(word) if word == "-" => {
                self.standard_output = true;
                Ok(Some(PathBuf::from(word)))
            }
            word => word.map(|word| self.as_file(name, word)).transpose(),
        }
    }

    /// Whether standard output takes the command's bytes.
    pub fn takes_standard_output(&self) -> bool {
        self.standard_output
    }

    /// Refuses to read from standard input what goes to standard output: bytes would be out before the last ones are seen and tested.
    pub fn not_both_standard(&self, source: &Path) -> Result<(), Failure> {
        match is_standard(source) && self.standard_output {
            true => Err(self.misuse("- can't be both read and written: name a file for one of them".to_string())),
            false => Ok(()),
        }
    }

    /// The next word as a number.
    pub fn number(&mut self, name: &str) -> Result<u64, Failure> {
        let word = self.word(name)?;
        self.as_number(name, &word)
    }

    /// The next word as the lost disks.
    pub fn disks(&mut self, name: &str) -> Result<Disks, Failure> {
        let word = self.word(name)?;
        self.as_disks(name, &word)
    }

    /// The next word as the lost disks, if there is one.
    pub fn disks_if_any(&mut self, name: &str) -> Result<Option<Disks>, Failure> {
        let word = self.words.pop_front();
        word.map(|word| self.as_disks(name, &word)).transpose()
    }

    /// The value of an option as a file, if it is given.
    pub fn file_option(&mut self, name: &str) -> Result<Option<PathBuf>, Failure> {
        let value = self.option(name);
        value.map(|word| self.as_file(name, word)).transpose()
    }

    /// The value of an option as a number, if it is given.
    pub fn number_option(&mut self, name: &str) -> Result<Option<u64>, Failure> {
        let value = self.option(name);
        value.map(|word| self.as_number(name, &word)).transpose()
    }

    /// The value of an option as the lost disks, if it is given.
    pub fn disks_option(&mut self, name: &str) -> Result<Option<Disks>, Failure> {
        let value = self.option(name);
        value.map(|word| self.as_disks(name, &word)).transpose()
    }

    /// Whether a flag is given.
    pub fn flag(&mut self, name: &str) -> bool {
        self.option(name).is_some()
    }

    /// Has this run wait for locks, if that is asked for.
    pub fn wait(&mut self) -> Result<(), Failure> {
        if let Some(seconds) = self.number_option("--wait")? {
            locks::wait_for(seconds);
        }
        Ok(())
    }

    /// The disks to do without although they are there.
    pub fn without(&mut self) -> Result<Disks, Failure> {
        Ok(self.disks_option("--without")?.unwrap_or(Disks::NONE))
    }

    /// Whether an array's files may be links.
    pub fn links(&mut self) -> Links {
        match self.flag("--links") {
            true => Links::Followed,
            false => Links::Refused,
        }
    }

    /// The symbols that `--want` asks for, if it is given.
    pub fn wanted(&mut self) -> Result<Option<Request>, Failure> {
        let Some(word) = self.option("--want") else { return Ok(None) };
        match Request::read(&word) {
            Ok(request) => Ok(Some(request)),
            Err(why) => Err(self.misuse(format!("--want: {why}"))),
        }
    }

    /// Whether a plan with the fewest reads is asked for.
    pub fn choice(&mut self) -> Choice {
        match self.flag("--fewest") {
            true => Choice::FewestReads,
            false => Choice::Usual,
        }
    }

    /// Where the output goes, a file or `-` for standard output; asked for by name, so that no file is written that nobody named.
    pub fn output(&mut self) -> Result<PathBuf, Failure> {
        let file = self.target_option("-o")?;
        file.ok_or_else(|| self.misuse("-o FILE is missing".to_string()))
    }

    /// The folder that the output goes to.
    pub fn folder(&mut self) -> Result<PathBuf, Failure> {
        let folder = self.file_option("-o")?;
        folder.ok_or_else(|| self.misuse("-o ARRAY is missing".to_string()))
    }

    /// The symbol length, L.
    pub fn symbol_length(&mut self) -> Result<u64, Failure> {
        let length = self.number_option("--symbol")?;
        length.ok_or_else(|| self.misuse("--symbol L is missing".to_string()))
    }

    /// Refuses words that nobody asked for.
    pub fn finish(&mut self) -> Result<(), Failure> {
        match self.words.pop_front() {
            None => Ok(()),
            Some(word) => Err(self.misuse(format!("'{}' is one word too many", shown(&word)))),
        }
    }

    /// A misuse of this command.
    pub fn misuse(&self, what: String) -> Failure {
        Failure::Misuse { what, command: self.command }
    }

    fn option(&mut self, name: &str) -> Option<OsString> {
        let at = self.options.iter().position(|(taken, _)| *taken == name)?;
        Some(self.options.swap_remove(at).1)
    }

    fn as_source(&mut self, name: &str, word: OsString) -> Result<PathBuf, Failure> {
        if word != "-" {
            return self.as_file(name, word);
        }
        match self.standard_input.replace(name.to_string()) {
            None => Ok(PathBuf::from(word)),
            Some(other) => Err(self.misuse(format!("{other} and {name} can't both be -: standard input is read once"))),
        }
    }

    fn as_file(&self, name: &str, word: OsString) -> Result<PathBuf, Failure> {
        if word == "-" {
            let what = format!("{name} can't be -: name a file");
            return Err(self.misuse(what));
        }
        if word.is_empty() {
            return Err(self.misuse(format!("{name} is an empty name")));
        }
        Ok(PathBuf::from(word))
    }

    fn as_number(&self, name: &str, word: &OsStr) -> Result<u64, Failure> {
        let number = word.to_str().and_then(decimal);
        let most = u64::MAX;
        number.ok_or_else(|| {
            self.misuse(format!("{name} must be a decimal number from 0 to {most}, not '{}'", shown(word)))
        })
    }

    fn as_disks(&self, name: &str, word: &OsStr) -> Result<Disks, Failure> {
        let disks = word.to_str().and_then(Disks::read);
        disks.ok_or_else(|| {
            self.misuse(format!("{name} must be a disk, like 3, or several, like 0,3 or 0-2, not '{}'", shown(word)))
        })
    }
}

/// A word for a message: one line, and not too long of it.
pub fn shown(word: &OsStr) -> String {
    let text = word.to_string_lossy();
    let mut short: String = text.escape_debug().take(60).collect();
    if text.escape_debug().count() > 60 {
        short.push('…');
    }
    short
}
