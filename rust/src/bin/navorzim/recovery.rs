//! Symbols of an array, those of lost disks among them, block by block.
use crate::array::Array;
use crate::disks::Disks;
use crate::failure::Failure;
use crate::gather::{Block, Blocks, Survivors};
use crate::sheets::{counted, Code, Plan};
use crate::wanted::disks_and_rows;

/// An array that is read, with the lost symbols that a plan brings back.
pub struct Recovery<'a> {
    array: &'a Array,
    lost: &'a Disks,
    plan: Option<&'a Plan>,
    survivors: Survivors<'a>,
}

/// Room for a block.
pub struct Room {
    /// the block as one stripe of long symbols
    pub stripe: Vec<u8>,
    /// for bytes on their way from and to the files
    pub shelf: Vec<u8>,
}

impl Room {
    pub fn new() -> Room {
        Room { stripe: Vec::new(), shelf: Vec::new() }
    }

    /// The most bytes that the blocks of an array take.
    pub fn needed(array: &Array) -> usize {
        let size = Blocks::of(array).most() * array.symbol_length as usize;
        (array.code.symbols() + array.code.rows) * size
    }
}

impl<'a> Recovery<'a> {
    /// Opens the disks of the symbols that a plan reads and of those that are read besides.
    pub fn open(
        array: &'a Array,
        lost: &'a Disks,
        plan: Option<&'a Plan>,
        besides: &[usize],
    ) -> Result<Recovery<'a>, Failure> {
        let mut symbols = plan.map_or(Vec::new(), |plan| plan.sources(&array.code, lost));
        symbols.extend(besides);
        symbols.sort_unstable();
        symbols.dedup();
        Ok(Recovery { array, lost, plan, survivors: Survivors::open(array, &symbols)? })
    }

    pub fn survivors(&self) -> &Survivors<'a> {
        &self.survivors
    }

    /// A block: what is read, and what the plan makes of it. Other symbols hold anything.
    pub fn block(&self, block: Block, room: &mut Room) -> Result<(), Failure> {
        let (code, size) = (&self.array.code, block.stripes * self.array.symbol_length as usize);
        room.stripe.resize(code.symbols() * size, 0);
        self.survivors.read(block, &mut room.stripe, &mut room.shelf)?;
        // A test of the survivors, once there is one, belongs here: after they are read, before anything is made of them.
        if let Some(plan) = self.plan {
            // The library checks the plan again, for every block: none is believed because it was once believed.
            navorzim::rebuild_disks(&code.sheet, &self.lost.as_bytes(), &plan.sheet, size as u64, &mut room.stripe)
                .map_err(|refusal| code.explain(refusal, self.lost, Some(plan), self.array.symbol_length))?;
        }
        Ok(())
    }
}

/// What is read, in words: how many symbols of each stripe, how many bytes, and where they lie.
pub fn reading(array: &Array, symbols: &[usize]) -> String {
    format!(
        "{} of each of {}, {}{}",
        counted(symbols.len(), "symbol"),
        counted(array.stripes, "stripe"),
        counted(bytes_read(array, symbols), "byte"),
        from(&array.code, symbols)
    )
}

/// Where symbols lie, if there are any.
fn from(code: &Code, symbols: &[usize]) -> String {
    let symbols: Vec<u64> = symbols.iter().map(|&symbol| symbol as u64).collect();
    match symbols.is_empty() {
        true => String::new(),
        false => format!(", from {}", disks_and_rows(code, &symbols)),
    }
}

pub fn bytes_read(array: &Array, symbols: &[usize]) -> u64 {
    (symbols.len() as u64).saturating_mul(array.symbol_length).saturating_mul(array.stripes)
}
