//! Disks of an array, read in blocks of stripes.
//!
//! XOR goes byte by byte. So the symbols of several stripes, the bytes of each symbol side by side, are one stripe of longer symbols,
//! and one call of the library works on all of them.
use crate::array::Array;
use crate::failure::Failure;
use crate::files::{trouble, Held, Purpose};
use crate::inventory::{way_out, JUST_CHANGED};
use std::fmt::Display;
use std::io::ErrorKind;
use std::ops::Range;
use std::os::unix::fs::FileExt;

/// How long the symbols of a block are, where L isn't longer: what a plan reads then stays in the processor's own memory.
const SYMBOL: u64 = 1 << 14;
/// Symbols of this length are read one by one, each to its place; shorter ones together, and then put to their places.
const APART: usize = 1 << 12;

/// Some stripes of an array, one after the other.
#[derive(Clone, Copy, Debug)]
pub struct Block {
    pub first: u64,
    pub stripes: usize,
}

/// The stripes of an array as blocks.
#[derive(Clone, Copy, Debug)]
pub struct Blocks {
    stripes: u64,
    most: u64,
}

impl Blocks {
    pub fn of(array: &Array) -> Blocks {
        Blocks { stripes: array.stripes, most: (SYMBOL / array.symbol_length).clamp(1, array.stripes.max(1)) }
    }

    pub fn count(&self) -> u64 {
        self.stripes.div_ceil(self.most)
    }

    pub fn block(&self, number: u64) -> Block {
        let first = number * self.most;
        Block { first, stripes: self.most.min(self.stripes - first) as usize }
    }

    /// The most stripes of a block.
    pub fn most(&self) -> usize {
        self.most as usize
    }
}

/// Disks that are read, each with the rows that are needed of it. No other disk is opened, and no other row is read.
pub struct Survivors<'a> {
    array: &'a Array,
    disks: Vec<Survivor>,
}

struct Survivor {
    held: Held,
    disk: usize,
    /// rows beside each other
    runs: Vec<Range<usize>>,
}

impl<'a> Survivors<'a> {
    /// Opens the disks that have these symbols, which rise.
    pub fn open(array: &'a Array, symbols: &[usize]) -> Result<Survivors<'a>, Failure> {
        let code = &array.code;
        let of_one_disk = symbols.chunk_by(|one, next| code.disk_of(*one) == code.disk_of(*next));
        let disks = of_one_disk.map(|symbols| {
            let disk = code.disk_of(symbols[0]);
            let held = Held::open_at(array.disk(disk), Purpose::Read, array.links)?;
            // The very file that is read from here on, whatever the inventory found under its name.
            let owned = array.owns(&held.file, disk).map_err(|error| cannot_read(&held, disk, error))?;
            if !owned {
                return Err(trouble("use", held.named(), JUST_CHANGED));
            }
            let runs = symbols.chunk_by(|one, next| one + 1 == *next);
            let runs = runs.map(|run| code.row_of(run[0])..code.row_of(run[0]) + run.len()).collect();
            Ok(Survivor { held, disk, runs })
        });
        Ok(Survivors { array, disks: disks.collect::<Result<_, Failure>>()? })
    }

    /// The open files.
    pub fn held(&self) -> impl Iterator<Item = &Held> {
        self.disks.iter().map(|disk| &disk.held)
    }

    /// Reads a block's symbols to their places in a stripe of long symbols. `shelf` is room for what lies together in a file.
    pub fn read(&self, block: Block, stripe: &mut [u8], shelf: &mut Vec<u8>) -> Result<(), Failure> {
        for survivor in &self.disks {
            for run in &survivor.runs {
                // All rows of a disk lie beside those of the next stripe.
                let together = if run.len() == self.array.code.rows { block.stripes } else { 1 };
                for begin in (0..block.stripes).step_by(together) {
                    self.read_piece(survivor, run, block, begin..begin + together, stripe, shelf)?;
                }
            }
        }
        Ok(())
    }

    /// Reads what lies together in a file: rows of some of the block's stripes.
    fn read_piece(
        &self,
        survivor: &Survivor,
        run: &Range<usize>,
        block: Block,
        stripes: Range<usize>,
        stripe: &mut [u8],
        shelf: &mut Vec<u8>,
    ) -> Result<(), Failure> {
        let (rows, length) = (self.array.code.rows, self.array.symbol_length as usize);
        let first = survivor.disk * rows + run.start;
        let from = ((block.first + stripes.start as u64) * rows as u64 + run.start as u64) * length as u64;
        let count = stripes.len() * run.len();
        // The place of symbol after symbol as they lie in the file.
        let to = |piece: usize| {
            let (symbol, nth) = (first + piece % run.len(), stripes.start + piece / run.len());
            let at = (symbol * block.stripes + nth) * length;
            at..at + length
        };
        if count == 1 || length >= APART {
            return (0..count)
                .try_for_each(|piece| survivor.read(&mut stripe[to(piece)], from + (piece * length) as u64));
        }
        shelf.resize(count * length, 0);
        survivor.read(shelf, from)?;
        for (piece, symbol) in shelf.chunks_exact(length).enumerate() {
            stripe[to(piece)].copy_from_slice(symbol);
        }
        Ok(())
    }
}

impl Survivor {
    fn read(&self, bytes: &mut [u8], from: u64) -> Result<(), Failure> {
        self.held.file.read_exact_at(bytes, from).map_err(|error| match error.kind() {
            ErrorKind::UnexpectedEof => trouble("use", self.held.named(), "it changed while it was read"),
            _ => {
                let length = bytes.len();
                cannot_read(&self.held, self.disk, format!("{error}, in the {length} bytes from {from} on"))
            }
        })
    }
}

fn cannot_read(held: &Held, disk: usize, why: impl Display) -> Failure {
    trouble("read", held.named(), format!("{why}; {}", way_out(disk)))
}
