//! Where a command's bytes go: to a file, which has its name only when it is complete, or to standard output.
use crate::failure::Failure;
use crate::files::{go_on, is_standard, trouble, Held, BUFFER};
use crate::replacement::Replacement;
use std::fs::File;
use std::io::{self, BufWriter, IsTerminal, Write};
use std::os::fd::AsFd;
use std::path::Path;

pub enum Output {
    File(Box<Replacement>),
    Standard(BufWriter<File>),
}

impl Output {
    /// Begins a file, which must be none of `kept` nor of those that it is made of, or standard output. A terminal is no place for
    /// bytes that aren't text.
    pub fn begin(path: &Path, kept: &[&Path], made_of: &[&Held]) -> Result<Output, Failure> {
        if is_standard(path) && io::stdout().is_terminal() {
            return Err(trouble("write", path, "standard output is a terminal: send it to a file or to a program"));
        }
        Output::begin_any(path, kept, made_of)
    }

    /// The same for text too, which a terminal can show.
    fn begin_any(path: &Path, kept: &[&Path], made_of: &[&Held]) -> Result<Output, Failure> {
        if !is_standard(path) {
            return Ok(Output::File(Box::new(Replacement::begin(path, kept, made_of)?)));
        }
        let file = io::stdout().as_fd().try_clone_to_owned().map_err(|error| trouble("write", path, error))?;
        Ok(Output::Standard(BufWriter::with_capacity(BUFFER, File::from(file))))
    }

    /// Adds bytes.
    pub fn write(&mut self, bytes: &[u8]) -> Result<(), Failure> {
        match self {
            Output::File(file) => file.write(bytes),
            Output::Standard(writer) => {
                go_on("write", Path::new("-"))?;
                writer.write_all(bytes).map_err(|error| trouble("write", Path::new("-"), error))
            }
        }
    }

    /// Brings everything to its place, unless somebody else wrote there or in what was read meanwhile.
    pub fn finish<'a>(self, read: impl IntoIterator<Item = &'a Held>) -> Result<(), Failure> {
        match self {
            Output::File(file) => file.finish(read),
            Output::Standard(mut writer) => {
                writer.flush().map_err(|error| trouble("write", Path::new("-"), error))?;
                // The bytes are out; that they are good is said by the status.
                read.into_iter().try_for_each(Held::unchanged)
            }
        }
    }
}

/// Writes a sheet whole.
pub fn put(path: &Path, kept: &[&Path], sheet: &[u8]) -> Result<(), Failure> {
    whole(Output::begin(path, kept, &[])?, sheet)
}

/// Writes a text whole.
pub fn put_text(path: &Path, kept: &[&Path], text: &str) -> Result<(), Failure> {
    whole(Output::begin_any(path, kept, &[])?, text.as_bytes())
}

fn whole(mut output: Output, bytes: &[u8]) -> Result<(), Failure> {
    output.write(bytes)?;
    output.finish(None)
}
