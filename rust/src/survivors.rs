//! Whether what survives can be sound.
use crate::{ffi, sets, unless_refused, Refusal};

/// What [`test_survivors`] answers.
#[derive(Clone, Copy, Debug, PartialEq, Eq)]
pub enum Soundness {
    /// Some valid stripe agrees with the survivors on every byte.
    Sound,
    /// None does.
    Unsound {
        /// The lowest byte column within a symbol for which none does: no valid stripe agrees with the survivors on this byte of each of
        /// them, and for each lower column some does. It is below the symbol length.
        column: u64,
    },
}

/// Tests the survivors before a rebuild: when these disks have failed, is there a valid stripe that agrees with this one on every byte of
/// the other disks? `disks` holds their numbers, rising. What their strips hold doesn't matter. With all disks lost the answer is yes.
///
/// A rebuild believes what it reads, and would spread a damaged byte. The test says that a survivor is damaged, and in which byte of its
/// symbol; it doesn't say which survivor. What no [equation](Equation) shows it can't find: sound isn't the same as right.
///
/// # Errors
///
/// In this order: the code sheet's (1 to 6), [`Refusal::NoSuchDisk`], [`Refusal::BadDiskList`], [`Refusal::SymbolLength`],
/// [`Refusal::StripeLength`].
///
/// ```
/// use navorzim::{encode, test_survivors, Family, Soundness};
///
/// let sheet = Family::RowDiagonal { p: 3 }.sheet()?;
/// let mut stripe = [0; 8 * 2];
/// encode(&sheet, 2, b"register", &mut stripe)?;
///
/// // Disk 0 dies, symbols 0 and 1.
/// stripe[..4].fill(0xff);
/// assert_eq!(test_survivors(&sheet, &[0], 2, &stripe)?, Soundness::Sound);
///
/// // A byte of disk 1 rots: byte 1 of symbol 3.
/// stripe[7] ^= 0x20;
/// assert_eq!(test_survivors(&sheet, &[0], 2, &stripe)?, Soundness::Unsound { column: 1 });
///
/// // With disk 1 lost as well, four symbols are left for four data symbols: any bytes are those of a valid stripe.
/// assert_eq!(test_survivors(&sheet, &[0, 1], 2, &stripe)?, Soundness::Sound);
/// # Ok::<(), navorzim::Refusal>(())
/// ```
pub fn test_survivors(sheet: &[u8], disks: &[u8], symbol_length: u64, stripe: &[u8]) -> Result<Soundness, Refusal> {
    let tested = ffi::test_survivors(sheet, disks, symbol_length, stripe);
    let soundness = match tested.sound {
        1 => Soundness::Sound,
        _ => Soundness::Unsound { column: tested.column },
    };
    unless_refused(tested.number, tested.place, soundness)
}

/// A set of surviving symbols that XOR to zero in every valid stripe: bit s stands for symbol s.
///
/// Their rows of the code sum to zero. A surviving symbol whose row is zero is an equation by itself.
#[derive(Clone, Copy, Debug, PartialEq, Eq, PartialOrd, Ord, Hash)]
pub struct Equation(
    /// The bits, of which those of surviving symbols may be set.
    pub u128,
);

impl Equation {
    /// Whether it has a symbol.
    pub fn has(self, symbol: usize) -> bool {
        sets::has(self.0, symbol)
    }

    /// Its symbols, rising.
    pub fn symbols(self) -> impl Iterator<Item = usize> {
        sets::members(self.0)
    }
}

/// A list of equations among the survivors, when these disks have failed: `disks` holds their numbers, rising. It may be empty.
///
/// They are enough: whatever survives is [sound](test_survivors) exactly if it meets all of them, in every byte column. Which list it is
/// is left open; it is the same whenever the same is asked.
///
/// # Errors
///
/// In this order: the code sheet's (1 to 6), [`Refusal::NoSuchDisk`], [`Refusal::BadDiskList`].
///
/// ```
/// use navorzim::{equations, Family};
///
/// // Two data disks of two rows, row parity P and diagonal parity Q. With disk 0 lost, six symbols are left for four data symbols.
/// let sheet = Family::RowDiagonal { p: 3 }.sheet()?;
/// let found = equations(&sheet, &[0])?;
/// assert_eq!(found.len(), 2);
/// assert!(found.iter().all(|equation| !equation.has(0) && !equation.has(1)));
///
/// // What single parity can spare is lost already.
/// let sheet = Family::SingleParity { data_disks: 3, rows: 2 }.sheet()?;
/// assert_eq!(equations(&sheet, &[2])?, []);
/// # Ok::<(), navorzim::Refusal>(())
/// ```
pub fn equations(sheet: &[u8], disks: &[u8]) -> Result<Vec<Equation>, Refusal> {
    let listed = ffi::equations(sheet, disks);
    unless_refused(listed.number, listed.place, ())?;
    (0..listed.count).map(|index| equation(sheet, disks, index)).collect()
}

/// Number `index` of the list, from 0.
fn equation(sheet: &[u8], disks: &[u8], index: u64) -> Result<Equation, Refusal> {
    let set = ffi::equation(sheet, disks, index);
    unless_refused(set.number, set.place, Equation(sets::of_words(set.low, set.high)))
}
