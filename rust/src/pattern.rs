//! What is gone where no plan can be.
use crate::{encode, ffi, read_code, sets, unless_refused, Refusal};

/// A set of data symbols that shows why there is no plan: bit t stands for data symbol t.
///
/// A pattern's *stripe* is that of the data whose symbols are 01 bytes where their bits are set, and zero elsewhere. It is zero on every
/// surviving disk. So what survives can't tell a stripe from the XOR of it and the pattern's.
///
/// Where no plan can be, planning answers some d of them, at least one. They say all that is gone. Look at one bit of each symbol, the
/// same one in all of them: the survivors leave 2 to the power of d possibilities for these bits of the wanted symbols, and any two of
/// those differ by the XOR of the patterns' stripes for exactly one choice among the d patterns. A wanted symbol that no pattern
/// [shows on](Pattern::shows_on) is known all the same, and has a plan by itself.
///
/// ```
/// use navorzim::{plan_disks, Family, Pattern, Planning};
///
/// // Two data disks of one symbol, d0 and d1, and a parity disk, d0 ^ d1. Both data disks are lost.
/// let sheet = Family::SingleParity { data_disks: 2, rows: 1 }.sheet()?;
/// let Planning::NoPlan { patterns } = plan_disks(&sheet, &[0, 1], &[])? else { panic!("two disks have a plan") };
///
/// // Two symbols are lost, but only one is gone: both could be others, but only together. Who finds one has the other.
/// assert_eq!(patterns, [Pattern(0b11)]);
/// assert_eq!(patterns[0].data_symbols().collect::<Vec<_>>(), [0, 1]);
/// assert_eq!(patterns[0].shows_on(&sheet)?, [0, 1]);
///
/// // The parity disk is lost too: now each of them could be another.
/// let Planning::NoPlan { patterns } = plan_disks(&sheet, &[0, 1, 2], &[])? else { panic!("nothing has a plan") };
/// assert_eq!(patterns.len(), 2);
/// # Ok::<(), navorzim::Refusal>(())
/// ```
#[derive(Clone, Copy, Debug, PartialEq, Eq, PartialOrd, Ord, Hash)]
pub struct Pattern(
    /// The bits, of which those below K may be set.
    pub u128,
);

impl Pattern {
    /// The pattern whose bits are in two words.
    pub(crate) fn of_words(low: u64, high: u64) -> Pattern {
        Pattern(sets::of_words(low, high))
    }

    /// Whether it has a data symbol.
    pub fn has(self, data_symbol: usize) -> bool {
        sets::has(self.0, data_symbol)
    }

    /// Its data symbols, rising.
    pub fn data_symbols(self) -> impl Iterator<Item = usize> {
        sets::members(self.0)
    }

    /// The symbols in which its stripe isn't zero, under a code, rising. They all lie on lost disks, if planning answered it for this
    /// code and these disks. Those of the wanted symbols that are among them can't be told from their XOR with 01 bytes.
    ///
    /// # Errors
    ///
    /// The code sheet's (1 to 6).
    pub fn shows_on(self, sheet: &[u8]) -> Result<Vec<u8>, Refusal> {
        let shape = read_code(sheet)?;
        let data: Vec<u8> = (0..shape.data_symbols).map(|t| self.has(t).into()).collect();
        let mut stripe = vec![0; shape.symbols];
        encode(sheet, 1, &data, &mut stripe)?;
        Ok((0..).zip(stripe).filter(|&(_, byte)| byte != 0).map(|(symbol, _)| symbol).collect())
    }
}

/// One of the patterns that [`plan_disks`](crate::plan_disks) answers for these lists: number `index` of them, from 0. From their number
/// on, and where there is a plan, there is none.
///
/// # Errors
///
/// In this order: the code sheet's (1 to 6), [`Refusal::NoSuchDisk`], [`Refusal::BadDiskList`], [`Refusal::BadWantedList`].
///
/// ```
/// use navorzim::{lost_pattern, Family, Pattern};
/// let sheet = Family::SingleParity { data_disks: 2, rows: 1 }.sheet()?;
/// assert_eq!(lost_pattern(&sheet, &[0, 1], &[], 0)?, Some(Pattern(0b11)));
/// assert_eq!(lost_pattern(&sheet, &[0, 1], &[], 1)?, None);
/// assert_eq!(lost_pattern(&sheet, &[0], &[], 0)?, None);
/// # Ok::<(), navorzim::Refusal>(())
/// ```
pub fn lost_pattern(sheet: &[u8], disks: &[u8], wanted: &[u8], index: u64) -> Result<Option<Pattern>, Refusal> {
    let set = ffi::lost_pattern(sheet, disks, wanted, index);
    let pattern = Pattern::of_words(set.low, set.high);
    unless_refused(set.number, set.place, Some(pattern).filter(|pattern| pattern.0 != 0))
}

/// The patterns of planning's answer for these lists: the first, which the answer has, and so many in all.
pub(crate) fn all_patterns(
    first: Pattern,
    count: u64,
    sheet: &[u8],
    disks: &[u8],
    wanted: &[u8],
) -> Result<Vec<Pattern>, Refusal> {
    let others = (1..count).filter_map(|index| lost_pattern(sheet, disks, wanted, index).transpose());
    std::iter::once(Ok(first)).chain(others).collect()
}
