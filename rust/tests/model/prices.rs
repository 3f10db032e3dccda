//! Planning at prices once more: a price is judged by its bits, sums are worked out on whole numbers and rounded by hand, a plan's sets are
//! what its steps make of sets, and whether it is settled is found by trying every swap.
use super::{plan_refusal, Asked, Code, No, Plan};
use navorzim::DiskState;

/// Whether this is a price, from 0 to 1,000,000: the bits of floats rise with them from 0 on, and negatives, infinities and what is no
/// number lie above. The negative zero is one too.
fn is_price(x: f64) -> bool {
    x.to_bits() <= 1_000_000f64.to_bits() || x.to_bits() == 1 << 63
}

/// Whether this is a factor, from 1 to 64.
fn is_factor(x: f64) -> bool {
    (1f64.to_bits()..=64f64.to_bits()).contains(&x.to_bits())
}

fn is_state(state: DiskState) -> bool {
    match state {
        DiskState::Away => true,
        DiskState::Idle { price } => is_price(price),
        DiskState::Busy { price, factor } => is_price(price) && is_factor(factor),
    }
}

/// What planning at prices must refuse: what planning for a list of disks does, then 42 at the lowest disk in a bad state or in none.
/// Otherwise the code, the lost disks, and the wanted symbols.
pub fn refusal(
    sheet: &[u8],
    disks: &[u8],
    list: &[u8],
    states: &[DiskState],
    buffer_length: usize,
) -> Result<(Code, Vec<u8>, Vec<usize>), No> {
    let (code, _, wanted) = plan_refusal(sheet, Asked::Disks(disks, list), buffer_length)?;
    if let Some(disk) = (0..code.disks).find(|&disk| !states.get(disk).is_some_and(|&state| is_state(state))) {
        return Err((42, disk as u64));
    }
    let away = (0..code.disks).filter(|&disk| states[disk] == DiskState::Away).map(|disk| disk as u8);
    let mut lost: Vec<u8> = disks.iter().copied().chain(away).collect();
    lost.sort_unstable();
    lost.dedup();
    Ok((code, lost, wanted))
}

/// A float from 0 on as a whole number and the power of two that it is to be multiplied with.
fn exact(x: f64) -> (u128, i32) {
    let (power, fraction) = ((x.to_bits() >> 52 & 0x7ff) as i32, u128::from(x.to_bits() & ((1 << 52) - 1)));
    match power {
        0 => (fraction, -1074),
        _ => (fraction | 1 << 52, power - 1075),
    }
}

/// The float that is nearest to a whole number times a power of two; of two that are equally near, the one whose last bit is 0.
fn rounded(number: u128, power: i32) -> f64 {
    let width = 128 - number.leading_zeros() as i32;
    // So many of the lowest bits are beyond 53, or below the smallest float.
    let beyond = (width - 53).max(-1074 - power);
    let kept = match beyond {
        _ if number == 0 => return 0.0,
        ..=0 => number << -beyond,
        _ => {
            let (kept, left, half) = (number >> beyond, number & ((1 << beyond) - 1), 1 << (beyond - 1));
            kept + u128::from(left > half || left == half && kept & 1 == 1)
        }
    };
    // A carry out of the 53 bits goes into the power, as it must.
    f64::from_bits((((power + beyond + 1074) as u64) << 52) + kept as u64)
}

/// A product of floats from 0 on, rounded once.
pub fn times(x: f64, y: f64) -> f64 {
    let ((a, x_power), (b, y_power)) = (exact(x), exact(y));
    rounded(a * b, x_power + y_power)
}

/// A sum of floats from 0 on, rounded once.
pub fn plus(x: f64, y: f64) -> f64 {
    let ((a, higher), (b, lower)) = (exact(x.max(y)), exact(x.min(y)));
    match higher - lower {
        apart @ 0..=70 => rounded((a << apart) + b, lower),
        // Far below the last bit of the other: all that matters is whether there is anything.
        _ => rounded((a << 2) + u128::from(b > 0), higher - 2),
    }
}

/// What reading costs: of each disk the charge for so many of its symbols.
pub struct Charges {
    height: usize,
    of_disks: Vec<Vec<f64>>,
}

impl Charges {
    pub fn new(code: &Code, states: &[DiskState]) -> Charges {
        let charge = |state: DiskState, reads: usize| match state {
            DiskState::Away => 0.0,
            DiskState::Idle { price } => times(reads as f64, price),
            DiskState::Busy { price, factor } => times(times(reads as f64, price), factor),
        };
        let of_disk = |&state: &DiskState| (0..=code.height).map(|reads| charge(state, reads)).collect();
        Charges { height: code.height, of_disks: states[..code.disks].iter().map(of_disk).collect() }
    }

    /// The charges for the symbols that are read, added disk after disk.
    pub fn sum(&self, read: u128) -> f64 {
        let reads = |disk: usize| (read >> (disk * self.height) & ((1 << self.height) - 1)).count_ones() as usize;
        self.of_disks.iter().enumerate().fold(0.0, |sum, (disk, charges)| plus(sum, charges[reads(disk)]))
    }

    /// Whether one set XORed with one equation, the other sets as they are, makes the sum lower.
    pub fn some_swap_lowers(&self, sets: &[u128], equations: &[u128]) -> bool {
        let cost = self.sum(union(sets));
        (0..sets.len()).any(|target| {
            let others = union(&sets[..target]) | union(&sets[target + 1..]);
            equations.iter().any(|equation| self.sum(others | (sets[target] ^ equation)) < cost)
        })
    }
}

pub fn union(sets: &[u128]) -> u128 {
    sets.iter().fold(0, |union, set| union | set)
}

/// What an accepted plan makes of sets: of each wanted symbol the survivors that it is the XOR of. And the survivors that are read.
pub fn sets_of(code: &Code, lost: &[u8], plan: &Plan) -> (Vec<u128>, u128) {
    let survivors = code.survivors(lost).into_iter().fold(0u128, |set, s| set | 1 << s);
    let mut held: Vec<u128> = (0..code.symbols()).map(|s| survivors & 1 << s).collect();
    let mut read = 0;
    for &[kind, target, source] in &plan.steps {
        let (target, source) = (target as usize, source as usize);
        held[target] = match kind {
            0 => 0,
            1 => held[source],
            _ => held[target] ^ held[source],
        };
        read |= if kind == 0 { 0 } else { survivors & 1 << source };
    }
    (plan.wanted.iter().map(|&s| held[s]).collect(), read)
}
