//! Plans, checks and rebuilds for small disk arrays that are coded with XOR.
//!
//! The work is done by a library written in Rattle, in which every function is proved to meet its contract. This crate makes it
//! safe to call from Rust. Each call tests everything itself, never panics and keeps nothing between calls. A refused call changes
//! no byte that it was lent.
//!
//! An array has n disks of r symbols each, N = n × r in all, and a symbol is L bytes. K symbols of data go in. A *code sheet* (22 to
//! 518 bytes) says which data symbols each symbol is the XOR of. A *stripe* is N × L bytes, symbol s at byte s × L. A *plan sheet*
//! (9 to 3,210 bytes) says how to bring the *wanted* symbols of lost disks back: in edition 1 all of one disk, in edition 2 a list on
//! one disk, in edition 3 all of several disks or a list on them. `docs/RULES.md` has all of it, byte for byte.
//!
//! ```
//! use navorzim::{check, encode, plan, rebuild, Family, Planning};
//!
//! let sheet = Family::Liberation { w: 5, data_disks: 5 }.sheet()?;
//! let data = vec![7; 25 * 64];
//! let mut stripe = vec![0; 35 * 64];
//! encode(&sheet, 64, &data, &mut stripe)?;
//!
//! // Disk 0 dies.
//! let whole = stripe.clone();
//! stripe[..5 * 64].fill(0xff);
//! let Planning::Plan { plan, reads } = plan(&sheet, 0)? else { panic!("a Liberation array survives one disk") };
//! assert_eq!(check(&sheet, 0, &plan), Ok(reads));
//! rebuild(&sheet, 0, &plan, 64, &mut stripe)?;
//! assert_eq!(stripe, whole);
//! # Ok::<(), navorzim::Refusal>(())
//! ```
//!
//! Where one record is enough, [`plan_wanted`] plans for some of the lost symbols. [`check`] and [`rebuild`] take its plan like any
//! other. [`plan_into`], [`plan_wanted_into`], [`plan_disks_into`], [`plan_fewest_into`] and [`plan_priced_into`] write to a buffer of
//! the caller's; where there is a plan they allocate nothing.
//!
//! Where more than one disk is lost, [`plan_disks`], [`check_disks`] and [`rebuild_disks`] take a list of disks. The calls that take
//! one disk mean the list of that disk.
//!
//! Where at most 16 symbols survive, [`plan_fewest`] plans with the fewest reads that there can be.
//!
//! Where some disks are dearer to read than others, or can't be read at all now, [`plan_priced`] looks for a plan that costs less.
//!
//! Where no plan can be, planning answers how much is gone, as [`Pattern`]s.
//!
//! Before a rebuild, [`test_survivors`] says whether what survives can be sound, by the [`equations`] among the surviving symbols.
#![deny(unsafe_code)]
#![warn(missing_docs)]

mod ffi;
mod pattern;
mod prices;
mod refusal;
mod sets;
mod survivors;

pub use pattern::{lost_pattern, Pattern};
pub use prices::{plan_priced, plan_priced_into, DiskState, PricedPlanned, PricedPlanning, Search};
pub use refusal::{Refusal, WantedSymbol};
pub use survivors::{equations, test_survivors, Equation, Soundness};

use pattern::all_patterns;

/// The length of the longest code sheet.
pub const LONGEST_CODE_SHEET: usize = 518;

/// The length of the longest plan sheet. A buffer of this length is enough for every plan: [`plan_into`] asks for 3,081 bytes or
/// more, [`plan_wanted_into`] for 3,114 or more, [`plan_disks_into`], [`plan_fewest_into`] and [`plan_priced_into`] for as many as this
/// or more.
pub const PLAN_BUFFER: usize = 3210;

/// A family of codes that can be asked for by name.
#[derive(Clone, Copy, Debug, PartialEq, Eq)]
pub enum Family {
    /// `data_disks` disks of `rows` rows, and one disk with the XOR of each row.
    SingleParity {
        /// k, from 1 to 63.
        data_disks: u64,
        /// r, from 1 to 32. (k + 1) × r is at most 64.
        rows: u64,
    },
    /// Plank's Liberation codes: two parity disks, w rows.
    Liberation {
        /// 3, 5 or 7.
        w: u64,
        /// k, from 2 to w.
        data_disks: u64,
    },
    /// p − 1 data disks of p − 1 rows, row parity, and parity of the diagonals over data and row parity.
    RowDiagonal {
        /// 3, 5 or 7.
        p: u64,
    },
    /// p data disks of p − 1 rows, row parity, and parity of the diagonals, each with the one that has no row of its own.
    EvenOdd {
        /// 3, 5 or 7.
        p: u64,
    },
}

impl Family {
    /// Writes the family's code sheet at the front of the buffer and answers its length. The bytes after it stay.
    ///
    /// # Errors
    ///
    /// [`Refusal::NotInFamily`], then [`Refusal::SheetBufferTooShort`].
    pub fn write_sheet(&self, buffer: &mut [u8]) -> Result<usize, Refusal> {
        let written = match *self {
            Family::SingleParity { data_disks, rows } => ffi::single_parity(data_disks, rows, buffer),
            Family::Liberation { w, data_disks } => ffi::liberation(w, data_disks, buffer),
            Family::RowDiagonal { p } => ffi::row_diagonal(p, buffer),
            Family::EvenOdd { p } => ffi::evenodd(p, buffer),
        };
        unless_refused(written.number, written.place, written.length as usize)
    }

    /// The family's code sheet.
    ///
    /// # Errors
    ///
    /// [`Refusal::NotInFamily`].
    ///
    /// ```
    /// use navorzim::{Family, Refusal};
    /// assert_eq!(Family::RowDiagonal { p: 3 }.sheet()?.len(), 70);
    /// assert_eq!(Family::RowDiagonal { p: 4 }.sheet(), Err(Refusal::NotInFamily));
    /// # Ok::<(), Refusal>(())
    /// ```
    pub fn sheet(&self) -> Result<Vec<u8>, Refusal> {
        let mut sheet = vec![0; LONGEST_CODE_SHEET];
        let length = self.write_sheet(&mut sheet)?;
        sheet.truncate(length);
        Ok(sheet)
    }
}

/// The shape of a code: how many disks, rows and symbols it has.
#[derive(Clone, Copy, Debug, PartialEq, Eq)]
pub struct CodeShape {
    /// n, the disks, from 2 to 64.
    pub disks: usize,
    /// r, the rows of each disk, from 1 to 32.
    pub rows: usize,
    /// K, the data symbols, from 1 to 64. For symbols of L bytes the data is K × L bytes long.
    pub data_symbols: usize,
    /// N = n × r, the symbols of a stripe, from 2 to 64. For symbols of L bytes a stripe is N × L bytes long.
    pub symbols: usize,
}

/// Reads a code sheet and answers its shape. No other call needs that: each reads its sheets anew.
///
/// # Errors
///
/// The code sheet's (1 to 6).
///
/// ```
/// use navorzim::{read_code, CodeShape, Family, Refusal};
/// let sheet = Family::Liberation { w: 5, data_disks: 4 }.sheet()?;
/// assert_eq!(read_code(&sheet)?, CodeShape { disks: 6, rows: 5, data_symbols: 20, symbols: 30 });
/// assert_eq!(read_code(&sheet[..9]), Err(Refusal::CodeSheetTooShort));
/// # Ok::<(), Refusal>(())
/// ```
pub fn read_code(sheet: &[u8]) -> Result<CodeShape, Refusal> {
    let code = ffi::read_code(sheet);
    let shape = CodeShape {
        disks: code.disks as usize,
        rows: code.rows as usize,
        data_symbols: code.data_symbols as usize,
        symbols: code.symbols as usize,
    };
    unless_refused(code.number, code.place, shape)
}

/// Encodes K data symbols of `symbol_length` bytes into the whole stripe.
///
/// # Errors
///
/// In this order: the code sheet's (1 to 6), [`Refusal::SymbolLength`], [`Refusal::DataLength`], [`Refusal::StripeLength`].
pub fn encode(sheet: &[u8], symbol_length: u64, data: &[u8], stripe: &mut [u8]) -> Result<(), Refusal> {
    let verdict = ffi::encode(sheet, symbol_length, data, stripe);
    unless_refused(verdict.number, verdict.place, ())
}

/// Judges a plan sheet, of any edition, for a code and a failed disk. Answers how many surviving symbols the plan reads.
///
/// # Errors
///
/// In this order: the code sheet's (1 to 6), [`Refusal::NoSuchDisk`], the plan sheet's (7 and 11 to 25).
pub fn check(sheet: &[u8], disk: u64, plan: &[u8]) -> Result<u64, Refusal> {
    let checked = ffi::check(sheet, disk, plan);
    unless_plan_refused(plan, checked.number, checked.place, checked.reads)
}

/// Judges a plan sheet, of any edition, for a code and its failed disks: `disks` holds their numbers, rising. Answers how many
/// surviving symbols the plan reads. A plan for other disks, be it some of these or more than these, is refused.
///
/// # Errors
///
/// In this order: the code sheet's (1 to 6), [`Refusal::NoSuchDisk`], [`Refusal::BadDiskList`], the plan sheet's (7 and 11 to 25).
pub fn check_disks(sheet: &[u8], disks: &[u8], plan: &[u8]) -> Result<u64, Refusal> {
    let checked = ffi::check_disks(sheet, disks, plan);
    unless_plan_refused(plan, checked.number, checked.place, checked.reads)
}

/// What [`plan_into`], [`plan_wanted_into`], [`plan_disks_into`] and [`plan_fewest_into`] answer.
#[derive(Clone, Debug, PartialEq, Eq)]
pub enum Planned {
    /// A plan sheet stands at the front of the buffer.
    Plan {
        /// Its length in bytes.
        length: usize,
        /// How many surviving symbols it reads.
        reads: u64,
    },
    /// There is no plan, as with [`Planning::NoPlan`]. Nothing was written.
    NoPlan {
        /// What is gone.
        patterns: Vec<Pattern>,
    },
}

/// What [`plan`], [`plan_wanted`], [`plan_disks`] and [`plan_fewest`] answer.
#[derive(Clone, Debug, PartialEq, Eq)]
pub enum Planning {
    /// A plan.
    Plan {
        /// The plan sheet.
        plan: Vec<u8>,
        /// How many surviving symbols it reads.
        reads: u64,
    },
    /// No plan of any length can bring all wanted symbols back.
    NoPlan {
        /// What is gone: at least one pattern, and at most as many as there are wanted symbols. Each one's stripe is zero in every
        /// surviving symbol and not zero in some wanted one.
        patterns: Vec<Pattern>,
    },
}

/// Plans the rebuild of a whole disk. The plan sheet is of edition 1.
///
/// # Errors
///
/// In this order: the code sheet's (1 to 6), [`Refusal::NoSuchDisk`].
///
/// ```
/// use navorzim::{plan, Pattern, Planning};
/// // Two disks of one symbol each, rows 1 and 2: nothing of disk 0 is on disk 1.
/// let apart = [4, 1, 2, 1, 2, 2, 1, 0, 0, 0, 0, 0, 0, 0, 2, 0, 0, 0, 0, 0, 0, 0];
/// assert_eq!(plan(&apart, 0), Ok(Planning::NoPlan { patterns: vec![Pattern(1)] }));
/// ```
pub fn plan(sheet: &[u8], disk: u64) -> Result<Planning, Refusal> {
    owned(|buffer| plan_into(sheet, disk, buffer))
}

/// Plans the rebuild of a whole disk, as [`plan`] does, into a buffer of 3,081 bytes or more. The bytes after the plan stay.
///
/// # Errors
///
/// In this order: the code sheet's (1 to 6), [`Refusal::NoSuchDisk`], [`Refusal::PlanBufferTooShort`].
pub fn plan_into(sheet: &[u8], disk: u64, buffer: &mut [u8]) -> Result<Planned, Refusal> {
    planned(ffi::plan(sheet, disk, buffer), sheet, &as_list(disk), &[])
}

/// Plans the rebuild of some symbols of a disk. `wanted` holds their numbers, disk × r + row, rising.
///
/// The plan sheet is of edition 2 and wants exactly these symbols. A rebuild by it leaves the disk's other symbols as they are. It
/// may read fewer symbols than a plan for the whole disk, and may exist where that one does not.
///
/// # Errors
///
/// In this order: the code sheet's (1 to 6), [`Refusal::NoSuchDisk`], [`Refusal::BadWantedList`].
///
/// ```
/// use navorzim::{check, encode, plan_wanted, rebuild, Family, Planning, Refusal};
///
/// let sheet = Family::SingleParity { data_disks: 3, rows: 4 }.sheet()?;
/// let mut stripe = [0; 16];
/// encode(&sheet, 1, &[1, 2, 3, 4, 5, 6, 7, 8, 9, 10, 11, 12], &mut stripe)?;
/// stripe[4..8].fill(0xff);
///
/// // Disk 1 has symbols 4 to 7. Somebody waits for row 2 of it, symbol 6.
/// let Planning::Plan { plan, reads } = plan_wanted(&sheet, 1, &[6])? else { panic!("single parity survives one disk") };
/// assert_eq!((reads, check(&sheet, 1, &plan)), (3, Ok(3)));
/// rebuild(&sheet, 1, &plan, 1, &mut stripe)?;
/// assert_eq!(stripe[4..8], [0xff, 0xff, 7, 0xff]);
///
/// // A list rises, and stays on the disk.
/// assert_eq!(plan_wanted(&sheet, 1, &[5, 6, 6]), Err(Refusal::BadWantedList { position: 2 }));
/// assert_eq!(plan_wanted(&sheet, 1, &[3]), Err(Refusal::BadWantedList { position: 0 }));
/// # Ok::<(), Refusal>(())
/// ```
pub fn plan_wanted(sheet: &[u8], disk: u64, wanted: &[u8]) -> Result<Planning, Refusal> {
    owned(|buffer| plan_wanted_into(sheet, disk, wanted, buffer))
}

/// Plans the rebuild of some symbols of a disk, as [`plan_wanted`] does, into a buffer of 3,114 bytes or more. The bytes after the plan
/// stay.
///
/// # Errors
///
/// In this order: the code sheet's (1 to 6), [`Refusal::NoSuchDisk`], [`Refusal::BadWantedList`], [`Refusal::PlanBufferTooShort`].
pub fn plan_wanted_into(sheet: &[u8], disk: u64, wanted: &[u8], buffer: &mut [u8]) -> Result<Planned, Refusal> {
    planned(ffi::plan_wanted(sheet, disk, wanted, buffer), sheet, &as_list(disk), wanted)
}

/// Plans the rebuild of several disks, or of some of their symbols. `disks` holds the numbers of the lost disks, rising; `wanted` those
/// of the symbols to be brought back, disk × r + row, rising, or nothing for all symbols of these disks.
///
/// The plan sheet is of edition 3 and has exactly these lists, also for one disk. A rebuild by it leaves the lost symbols that aren't
/// wanted as they are.
///
/// # Errors
///
/// In this order: the code sheet's (1 to 6), [`Refusal::NoSuchDisk`], [`Refusal::BadDiskList`], [`Refusal::BadWantedList`].
///
/// ```
/// use navorzim::{check_disks, encode, plan_disks, rebuild_disks, Family, Planning, Refusal};
///
/// let sheet = Family::EvenOdd { p: 3 }.sheet()?;
/// let mut stripe = [0; 10];
/// encode(&sheet, 1, &[1, 2, 3, 4, 5, 6], &mut stripe)?;
/// let whole = stripe;
///
/// // Lightning takes disks 0 and 2: symbols 0, 1, 4 and 5.
/// stripe[..2].fill(0xff);
/// stripe[4..6].fill(0xff);
/// let Planning::Plan { plan, reads } = plan_disks(&sheet, &[0, 2], &[])? else { panic!("EVENODD survives any two disks") };
/// assert_eq!(check_disks(&sheet, &[0, 2], &plan), Ok(reads));
/// rebuild_disks(&sheet, &[0, 2], &plan, 1, &mut stripe)?;
/// assert_eq!(stripe, whole);
///
/// // A plan is for the disks that it was made for, no more and no fewer.
/// assert_eq!(check_disks(&sheet, &[0], &plan), Err(Refusal::PlanOfAnotherDisk));
/// assert_eq!(plan_disks(&sheet, &[2, 0], &[]), Err(Refusal::BadDiskList { position: 1 }));
/// # Ok::<(), Refusal>(())
/// ```
pub fn plan_disks(sheet: &[u8], disks: &[u8], wanted: &[u8]) -> Result<Planning, Refusal> {
    owned(|buffer| plan_disks_into(sheet, disks, wanted, buffer))
}

/// Plans the rebuild of several disks, as [`plan_disks`] does, into a buffer of [`PLAN_BUFFER`] bytes or more. The bytes after the plan
/// stay.
///
/// # Errors
///
/// In this order: the code sheet's (1 to 6), [`Refusal::NoSuchDisk`], [`Refusal::BadDiskList`], [`Refusal::BadWantedList`],
/// [`Refusal::PlanBufferTooShort`].
pub fn plan_disks_into(sheet: &[u8], disks: &[u8], wanted: &[u8], buffer: &mut [u8]) -> Result<Planned, Refusal> {
    planned(ffi::plan_disks(sheet, disks, wanted, buffer), sheet, disks, wanted)
}

/// Plans as [`plan_disks`] does, with the fewest reads: no plan that brings these symbols back, of any edition and of any length, reads
/// fewer surviving symbols. It is for small arrays, of which at most 16 symbols survive.
///
/// Where no plan can be, the answer is that of [`plan_disks`].
///
/// # Errors
///
/// In this order: the code sheet's (1 to 6), [`Refusal::NoSuchDisk`], [`Refusal::BadDiskList`], [`Refusal::BadWantedList`],
/// [`Refusal::TooManySurvivors`], which comes whether or not there is a plan.
///
/// ```
/// use navorzim::{check_disks, plan_disks, plan_fewest, Family, Planning, Refusal};
///
/// // The square code: four disks of two symbols, d0 d1, d2 d3, d0+d2 d1+d3, d0+d3 d1+d2.
/// let rows = [1, 2, 4, 8, 5, 10, 9, 6];
/// let rows = rows.into_iter().flat_map(u64::to_le_bytes);
/// let square: Vec<u8> = [4, 1, 4, 2, 4, 8].into_iter().chain(rows).collect();
///
/// // Disk 0 is lost. d0 is d2 + (d0+d2), d1 is d2 + (d1+d2): three reads are enough, and two are not.
/// let Planning::Plan { plan, reads } = plan_fewest(&square, &[0], &[])? else { panic!("one disk has a plan") };
/// assert_eq!((reads, check_disks(&square, &[0], &plan)), (3, Ok(3)));
/// let Planning::Plan { reads: usual, .. } = plan_disks(&square, &[0], &[])? else { panic!("one disk has a plan") };
/// assert!(usual >= reads);
///
/// // Of seven disks of five symbols too many survive.
/// let large = Family::Liberation { w: 5, data_disks: 5 }.sheet()?;
/// assert_eq!(plan_fewest(&large, &[0], &[]), Err(Refusal::TooManySurvivors { survivors: 30 }));
/// # Ok::<(), Refusal>(())
/// ```
pub fn plan_fewest(sheet: &[u8], disks: &[u8], wanted: &[u8]) -> Result<Planning, Refusal> {
    owned(|buffer| plan_fewest_into(sheet, disks, wanted, buffer))
}

/// Plans with the fewest reads, as [`plan_fewest`] does, into a buffer of [`PLAN_BUFFER`] bytes or more. The bytes after the plan stay.
///
/// # Errors
///
/// In this order: the code sheet's (1 to 6), [`Refusal::NoSuchDisk`], [`Refusal::BadDiskList`], [`Refusal::BadWantedList`],
/// [`Refusal::PlanBufferTooShort`], [`Refusal::TooManySurvivors`].
pub fn plan_fewest_into(sheet: &[u8], disks: &[u8], wanted: &[u8], buffer: &mut [u8]) -> Result<Planned, Refusal> {
    planned(ffi::plan_fewest(sheet, disks, wanted, buffer), sheet, disks, wanted)
}

/// The list of one disk. A disk that a byte can't hold has been refused before it is asked about.
fn as_list(disk: u64) -> [u8; 1] {
    [disk as u8]
}

/// Planning's answer for these lists, by its case.
fn planned(answer: ffi::Planned, sheet: &[u8], disks: &[u8], wanted: &[u8]) -> Result<Planned, Refusal> {
    unless_refused(answer.number, answer.place, ())?;
    if answer.length > 0 {
        return Ok(Planned::Plan { length: answer.length as usize, reads: answer.reads });
    }
    let first = Pattern::of_words(answer.pattern, answer.pattern_high);
    Ok(Planned::NoPlan { patterns: all_patterns(first, answer.patterns, sheet, disks, wanted)? })
}

/// Plans into a buffer of its own, which becomes the plan.
fn owned(plan_into: impl FnOnce(&mut [u8]) -> Result<Planned, Refusal>) -> Result<Planning, Refusal> {
    let mut buffer = vec![0; PLAN_BUFFER];
    Ok(match plan_into(&mut buffer)? {
        Planned::Plan { length, reads } => {
            buffer.truncate(length);
            Planning::Plan { plan: buffer, reads }
        }
        Planned::NoPlan { patterns } => Planning::NoPlan { patterns },
    })
}

/// Rebuilds the wanted symbols of a failed disk by a plan, which is checked on every call. All other bytes stay. What is written does
/// not depend on what the disk's strip held.
///
/// # Errors
///
/// In this order: those of [`check`], [`Refusal::SymbolLength`], [`Refusal::StripeLength`].
pub fn rebuild(sheet: &[u8], disk: u64, plan: &[u8], symbol_length: u64, stripe: &mut [u8]) -> Result<(), Refusal> {
    let verdict = ffi::rebuild(sheet, disk, plan, symbol_length, stripe);
    unless_plan_refused(plan, verdict.number, verdict.place, ())
}

/// Rebuilds the wanted symbols of failed disks by a plan, which is checked on every call. `disks` holds the disks' numbers, rising. All
/// other bytes stay. What is written does not depend on what the disks' strips held.
///
/// # Errors
///
/// In this order: those of [`check_disks`], [`Refusal::SymbolLength`], [`Refusal::StripeLength`].
pub fn rebuild_disks(
    sheet: &[u8],
    disks: &[u8],
    plan: &[u8],
    symbol_length: u64,
    stripe: &mut [u8],
) -> Result<(), Refusal> {
    let verdict = ffi::rebuild_disks(sheet, disks, plan, symbol_length, stripe);
    unless_plan_refused(plan, verdict.number, verdict.place, ())
}

/// The strip of a disk, as a part of the stripe.
///
/// # Errors
///
/// In this order: the code sheet's (1 to 6), [`Refusal::NoSuchDisk`], [`Refusal::SymbolLength`], [`Refusal::StripeLength`].
pub fn strip<'a>(sheet: &[u8], disk: u64, symbol_length: u64, stripe: &'a [u8]) -> Result<&'a [u8], Refusal> {
    let part = ffi::strip(sheet, disk, symbol_length, stripe);
    if part.length == 0 {
        let verdict = ffi::strip_verdict(sheet, disk, symbol_length, stripe);
        unless_refused(verdict.number, verdict.place, ())?;
    }
    Ok(cut(stripe, part))
}

/// One symbol of an array whose disk has failed: one that survives as a part of the stripe, a lost one as a part of the spare strip,
/// which is the failed disk's strip on another disk.
///
/// # Errors
///
/// In this order: the code sheet's (1 to 6), [`Refusal::NoSuchDisk`], [`Refusal::SymbolLength`], [`Refusal::StripeLength`],
/// [`Refusal::SpareStripLength`], [`Refusal::NoSuchSymbol`].
pub fn look_up<'a>(
    sheet: &[u8],
    disk: u64,
    symbol_length: u64,
    stripe: &'a [u8],
    spare: &'a [u8],
    symbol: u64,
) -> Result<&'a [u8], Refusal> {
    let part = ffi::look_up(sheet, disk, symbol_length, stripe, spare, symbol);
    if part.length == 0 {
        let verdict = ffi::look_up_verdict(sheet, disk, symbol_length, stripe, spare, symbol);
        unless_refused(verdict.number, verdict.place, ())?;
    }
    Ok(cut(if part.slice == 1 { spare } else { stripe }, part))
}

/// The part of a slice. The proved library never answers one that runs past the end.
fn cut(slice: &[u8], part: ffi::Part) -> &[u8] {
    let (start, end) = (part.start as usize, part.start.saturating_add(part.length) as usize);
    slice.get(start..end).unwrap_or(&[])
}

fn unless_refused<T>(number: u64, place: u64, answer: T) -> Result<T, Refusal> {
    unless_plan_refused(&[], number, place, answer)
}

/// The answer of a call that took a plan, whose edition says how refusals name a wanted symbol.
fn unless_plan_refused<T>(plan: &[u8], number: u64, place: u64, answer: T) -> Result<T, Refusal> {
    match Refusal::given(number, place, WantedSymbol::naming(plan)) {
        None => Ok(answer),
        Some(refusal) => Err(refusal),
    }
}
