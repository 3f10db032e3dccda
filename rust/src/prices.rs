//! Plans where what a disk costs to read is counted.
use crate::pattern::{all_patterns, Pattern};
use crate::{ffi, read_code, unless_refused, CodeShape, Refusal, PLAN_BUFFER};

/// The state of a disk: whether it can be read, and what that costs.
#[derive(Clone, Copy, Debug, PartialEq)]
pub enum DiskState {
    /// It can't be read now.
    Away,
    /// It can be read at a price for each symbol.
    Idle {
        /// The price, from 0 to 1,000,000.
        price: f64,
    },
    /// It can be read at a price for each symbol, but is at work for others: what is read of it costs so many times as much.
    Busy {
        /// The price, from 0 to 1,000,000.
        price: f64,
        /// The factor, from 1 to 64.
        factor: f64,
    },
}

/// How the search for a cheaper plan ended.
#[derive(Clone, Copy, Debug, PartialEq, Eq)]
pub enum Search {
    /// No single swap lowers the sum.
    Settled,
    /// It was stopped after 1,024 swaps: one more would lower the sum.
    Stopped,
}

/// What [`plan_priced_into`] answers.
#[derive(Clone, Debug, PartialEq)]
pub enum PricedPlanned {
    /// A plan sheet stands at the front of the buffer.
    Plan {
        /// Its length in bytes.
        length: usize,
        /// How many surviving symbols it reads.
        reads: u64,
        /// What they cost.
        sum: f64,
        /// Whether a swap would still lower the sum.
        search: Search,
    },
    /// There is no plan, as with [`PricedPlanning::NoPlan`]. Nothing was written.
    NoPlan {
        /// What is gone.
        patterns: Vec<Pattern>,
    },
}

/// What [`plan_priced`] answers.
#[derive(Clone, Debug, PartialEq)]
pub enum PricedPlanning {
    /// A plan.
    Plan {
        /// The plan sheet.
        plan: Vec<u8>,
        /// The disks that it is for, rising: those asked about and those away. [`check_disks`](crate::check_disks) and
        /// [`rebuild_disks`](crate::rebuild_disks) take it with this list.
        lost: Vec<u8>,
        /// How many surviving symbols it reads.
        reads: u64,
        /// What they cost.
        sum: f64,
        /// Whether a swap would still lower the sum.
        search: Search,
    },
    /// No plan of any length can bring all wanted symbols back without the disks that are away.
    NoPlan {
        /// What is gone, as with [`Planning::NoPlan`](crate::Planning::NoPlan), with the disks that are away lost too.
        patterns: Vec<Pattern>,
    },
}

/// Plans as [`plan_disks`](crate::plan_disks) does, where disks differ in what they cost to read: `states` has the state of each disk, in
/// their order.
///
/// A disk that is away isn't read. If it isn't asked about, it counts as lost, and nothing of it is wanted: without a list, all symbols of
/// the disks asked about are wanted, and no others. The plan sheet is of edition 3. It lists the lost disks, those that are away among
/// them, and the wanted symbols one by one.
///
/// What a plan costs is the *sum* of the disks' charges. A disk's charge is the number of its symbols that the plan reads times its price,
/// times its factor if it is busy. Charges are added in the order of the disks, from 0. Each operation is rounded once, so that the sum is
/// the same everywhere, to the bit.
///
/// The search begins with the plan that `plan_disks` gives for the same lost disks and wanted symbols. Each wanted symbol is the XOR of a
/// set of survivors. A *swap* XORs one of these sets with one of the [`equations`](crate::equations) for the same lost disks; it is made
/// only where it lowers the sum. The search ends where no single swap does, or after 1,024 of them. So the plan never costs more than the
/// one that it began with. That it is the cheapest of all isn't promised.
///
/// # Errors
///
/// In this order: the code sheet's (1 to 6), [`Refusal::NoSuchDisk`], [`Refusal::BadDiskList`], [`Refusal::BadWantedList`],
/// [`Refusal::BadDiskState`] for the lowest disk, asked about or not, whose state isn't there, whose price isn't from 0 to 1,000,000 or
/// whose factor isn't from 1 to 64. States beyond those of the array's disks are not looked at.
///
/// ```
/// use navorzim::{check_disks, plan_priced, DiskState, Family, PricedPlanning, Refusal, Search};
///
/// // Two data disks of three symbols, row parity P on disk 2 and the second parity Q on disk 3.
/// let sheet = Family::Liberation { w: 3, data_disks: 2 }.sheet()?;
///
/// // Disk 0 is lost. Disk 2 is busy, so that its symbols cost ten times as much as others: it isn't read.
/// let idle = DiskState::Idle { price: 1.0 };
/// let busy = DiskState::Busy { price: 1.0, factor: 10.0 };
/// let states = [idle, idle, busy, idle];
/// let PricedPlanning::Plan { plan, lost, reads, sum, search } = plan_priced(&sheet, &[0], &[], &states)? else {
///     panic!("a Liberation array survives one disk")
/// };
/// assert_eq!((sum, search), (6.0, Search::Settled));
/// assert_eq!((lost, check_disks(&sheet, &[0], &plan)), (vec![0], Ok(reads)));
///
/// // Disk 2 is away: the plan is for disks 0 and 2, and wants the symbols of disk 0 alone.
/// let states = [idle, idle, DiskState::Away, idle];
/// let PricedPlanning::Plan { plan, lost, reads, .. } = plan_priced(&sheet, &[0], &[], &states)? else {
///     panic!("a Liberation array survives two disks")
/// };
/// assert_eq!((&lost[..], check_disks(&sheet, &lost, &plan)), (&[0, 2][..], Ok(reads)));
///
/// // No plan can do without three of the four disks; and each disk has a state.
/// let states = [DiskState::Away, idle, DiskState::Away, DiskState::Away];
/// assert!(matches!(plan_priced(&sheet, &[0], &[], &states), Ok(PricedPlanning::NoPlan { .. })));
/// assert_eq!(plan_priced(&sheet, &[0], &[], &[idle, idle]), Err(Refusal::BadDiskState { disk: 2 }));
/// # Ok::<(), Refusal>(())
/// ```
pub fn plan_priced(sheet: &[u8], disks: &[u8], wanted: &[u8], states: &[DiskState]) -> Result<PricedPlanning, Refusal> {
    let mut buffer = vec![0; PLAN_BUFFER];
    Ok(match plan_priced_into(sheet, disks, wanted, states, &mut buffer)? {
        PricedPlanned::Plan { length, reads, sum, search } => {
            buffer.truncate(length);
            let lost = lost_disks(read_code(sheet)?, disks, states);
            PricedPlanning::Plan { plan: buffer, lost, reads, sum, search }
        }
        PricedPlanned::NoPlan { patterns } => PricedPlanning::NoPlan { patterns },
    })
}

/// Plans as [`plan_priced`] does, into a buffer of [`PLAN_BUFFER`] bytes or more. The bytes after the plan stay.
///
/// # Errors
///
/// In this order: the code sheet's (1 to 6), [`Refusal::NoSuchDisk`], [`Refusal::BadDiskList`], [`Refusal::BadWantedList`],
/// [`Refusal::PlanBufferTooShort`], [`Refusal::BadDiskState`].
pub fn plan_priced_into(
    sheet: &[u8],
    disks: &[u8],
    wanted: &[u8],
    states: &[DiskState],
    buffer: &mut [u8],
) -> Result<PricedPlanned, Refusal> {
    let answer = as_c_has_it(states, |kinds, prices, factors| {
        ffi::plan_priced(sheet, disks, wanted, kinds, prices, factors, buffer)
    });
    unless_refused(answer.number, answer.place, ())?;
    if answer.length > 0 {
        let search = if answer.settled == 1 { Search::Settled } else { Search::Stopped };
        let (length, reads, sum) = (answer.length as usize, answer.reads, answer.sum);
        return Ok(PricedPlanned::Plan { length, reads, sum, search });
    }
    let first = Pattern::of_words(answer.pattern, answer.pattern_high);
    let shape = read_code(sheet)?;
    let (lost, wanted) = (lost_disks(shape, disks, states), wanted_symbols(shape, disks, wanted));
    Ok(PricedPlanned::NoPlan { patterns: all_patterns(first, answer.patterns, sheet, &lost, &wanted)? })
}

/// An array has at most so many disks: states from here on are not looked at.
const MOST_DISKS: usize = 64;

/// Hands states on in three lists with an entry a disk: kinds, prices and factors, 0 where the kind has none.
fn as_c_has_it<T>(states: &[DiskState], call: impl FnOnce(&[u8], &[f64], &[f64]) -> T) -> T {
    let (mut kinds, mut prices, mut factors) = ([0; MOST_DISKS], [0.0; MOST_DISKS], [0.0; MOST_DISKS]);
    let known = states.len().min(MOST_DISKS);
    for (disk, &state) in states[..known].iter().enumerate() {
        (kinds[disk], prices[disk], factors[disk]) = match state {
            DiskState::Away => (0, 0.0, 0.0),
            DiskState::Idle { price } => (1, price, 0.0),
            DiskState::Busy { price, factor } => (2, price, factor),
        };
    }
    call(&kinds[..known], &prices[..known], &factors[..known])
}

/// The disks that a plan is for, rising: those asked about and those away.
fn lost_disks(shape: CodeShape, disks: &[u8], states: &[DiskState]) -> Vec<u8> {
    let is_away = |disk: u8| states.get(usize::from(disk)) == Some(&DiskState::Away);
    (0..shape.disks as u8).filter(|&disk| disks.contains(&disk) || is_away(disk)).collect()
}

/// The wanted symbols one by one: without a list, those of the disks asked about.
fn wanted_symbols(shape: CodeShape, disks: &[u8], wanted: &[u8]) -> Vec<u8> {
    let strip = |&disk: &u8| (usize::from(disk) * shape.rows..).take(shape.rows);
    match wanted {
        [] => disks.iter().flat_map(strip).map(|symbol| symbol as u8).collect(),
        _ => wanted.to_vec(),
    }
}
