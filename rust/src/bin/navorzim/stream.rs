//! Long inputs, worked on stripe by stripe: no more than one stripe is in memory at a time.
use crate::failure::Failure;
use crate::files::{trouble, Held, Input, Purpose};
use crate::output::Output;
use crate::progress::Progress;
use crate::replacement::Replacement;
use crate::sheets::{counted, Code};
use navorzim::Refusal;
use std::path::Path;

/// What an input of many stripes holds, piece by piece.
pub struct Pieces {
    /// how many symbols a piece has, as the rules call it: N or K
    pub name: &'static str,
    pub symbols: usize,
    pub symbol_length: u64,
    /// the refusal of a length that isn't pieces
    pub refusal: Refusal,
}

impl Pieces {
    /// Whole stripes.
    pub fn stripes(code: &Code, symbol_length: u64) -> Pieces {
        Pieces { name: "N", symbols: code.symbols(), symbol_length, refusal: Refusal::StripeLength }
    }

    /// The data of stripes.
    pub fn data(code: &Code, symbol_length: u64) -> Pieces {
        Pieces { name: "K", symbols: code.data, symbol_length, refusal: Refusal::DataLength }
    }

    /// Bytes of one piece. The library has taken the code and the symbol length before: at most 64 × 65,536.
    pub fn length(&self) -> usize {
        usize::try_from(self.symbol_length).unwrap_or(usize::MAX).saturating_mul(self.symbols).max(1)
    }

    /// The refusal of an input of so many bytes that is no piece, or not whole pieces.
    fn refused(&self, length: u64, path: &Path) -> Failure {
        let piece = self.length() as u64;
        let detail = format!(
            "it has {length} bytes, which is {} × {piece} + {}; {} × L is {} × {} = {piece}",
            length / piece,
            length % piece,
            self.name,
            self.symbols,
            self.symbol_length
        );
        Failure::refused(self.refusal, detail, path)
    }
}

/// How an input must end.
#[derive(Clone, Copy, Debug)]
pub enum End {
    /// with a whole piece, after one or more
    Whole,
    /// anywhere: the last piece is filled up with zeros
    Anywhere,
    /// after so many bytes: the last piece is filled up with zeros
    After(u64),
}

/// An input, piece by piece.
pub struct Stream {
    input: Input,
    pieces: Pieces,
    end: End,
}

impl Stream {
    /// Opens an input. Where its length is known, it is tested before the first piece is worked on.
    pub fn open(path: &Path, pieces: Pieces, end: End, purpose: Purpose) -> Result<Stream, Failure> {
        let stream = Stream { input: Input::open(path, purpose)?, pieces, end };
        if let Some(length) = stream.input.length() {
            stream.ends_well(length)?;
        }
        Ok(stream)
    }

    fn ends_well(&self, length: u64) -> Result<(), Failure> {
        match self.end {
            End::Whole if length == 0 || !length.is_multiple_of(self.pieces.length() as u64) => {
                Err(self.pieces.refused(length, self.input.path()))
            }
            End::After(expected) if length != expected => {
                let why = format!("it has {}, not the {expected} that --length asks for", counted(length, "byte"));
                Err(trouble("use", self.input.path(), why))
            }
            End::Whole | End::Anywhere | End::After(_) => Ok(()),
        }
    }

    pub fn input(&self) -> &Input {
        &self.input
    }

    /// How many pieces there are, if that is known.
    pub fn count(&self) -> Option<u64> {
        self.input.length().map(|length| length.div_ceil(self.pieces.length() as u64))
    }

    /// Fills the piece with the next one; false if there is none.
    pub fn next(&mut self, piece: &mut [u8]) -> Result<bool, Failure> {
        let filled = self.input.read(piece)?;
        if filled < piece.len() {
            // Here it ends.
            self.ends_well(self.input.taken())?;
            piece[filled..].fill(0);
        }
        Ok(filled > 0)
    }
}

/// Works on each piece of an input in turn and puts what comes out of it in place of the target, or of the input where there is no
/// target; answers how many there were. No file of `kept` is replaced, nor the input where a target is named.
pub fn each(
    mut stream: Stream,
    target: Option<&Path>,
    kept: &[&Path],
    mut work: impl FnMut(&mut [u8], &mut Output) -> Result<(), Failure>,
) -> Result<u64, Failure> {
    let mut output = match (target, stream.input.held()) {
        (Some(target), held) => Output::begin(target, kept, held.as_slice())?,
        (None, Some(held)) => Output::File(Box::new(Replacement::in_place(held, kept)?)),
        (None, None) => return Err(trouble("write", stream.input.path(), "standard input can't be replaced")),
    };
    let progress = Progress::new(stream.count());
    let count = pass(&mut stream, &progress, |_, piece| work(piece, &mut output))?;
    progress.flushing("it".to_string());
    output.finish(stream.input.held())?;
    Ok(count)
}

/// Looks at each piece of an input in turn, with its number, and writes nothing; answers how many there were. Refuses if the input changed
/// meanwhile.
pub fn look_at_each(
    mut stream: Stream,
    mut look: impl FnMut(u64, &[u8]) -> Result<(), Failure>,
) -> Result<u64, Failure> {
    let progress = Progress::new(stream.count());
    let count = pass(&mut stream, &progress, |number, piece| look(number, piece))?;
    stream.input.held().map_or(Ok(()), Held::unchanged)?;
    Ok(count)
}

/// One pass over an input: each piece, with its number, in the same place of memory.
fn pass(
    stream: &mut Stream,
    progress: &Progress,
    mut work: impl FnMut(u64, &mut [u8]) -> Result<(), Failure>,
) -> Result<u64, Failure> {
    let mut piece = vec![0; stream.pieces.length()];
    let mut count = 0;
    while stream.next(&mut piece)? {
        work(count, &mut piece)?;
        progress.advance(1);
        count += 1;
    }
    Ok(count)
}
